#!/usr/bin/env bash
# bash tools/reads.sh: bin/tally and bin/census on files that no folder of data can hold: one that comes in pieces, one that never ends, a dangling
# link, one without permission. What must be printed is case P or curve A's census, 16 or 17. Exit 1 where something else is.
set -eu
unset CDPATH
home=$(cd -- "$(dirname -- "$0")/.." && pwd -P)
room=$(mktemp -d)
trap 'rm -rf "$room"' EXIT
right=0 wrong=0 untried=0

held() { # NAME EXPECTED [PROGRAM]
    if [ "$("$home/bin/${3:-tally}" "$room/$1" 2>/dev/null)" = "$2" ]; then
        echo "$1: as it must be"
        right=$((right + 1))
    else
        echo "$1: WRONG"
        wrong=$((wrong + 1))
    fi
}

folder() { # NAME: with case P's curve
    mkdir "$room/$1"
    cp "$home/demo/case-p/curve" "$room/$1/curve"
}

case_p=$(cat "$home/crates/tally/stdout")

folder in-pieces
mkfifo "$room/in-pieces/batch"
(
    for at in 0 17 18 30; do
        next=$(case $at in 0) echo 17 ;; 17) echo 1 ;; 18) echo 12 ;; *) echo 100 ;; esac)
        tail -c +$((at + 1)) "$home/demo/case-p/batch" | head -c "$next"
        sleep 0.3
    done >"$room/in-pieces/batch"
) &
held in-pieces "$case_p"
wait

folder endless
ln -s /dev/zero "$room/endless/batch"
held endless "refused 16 0"

folder dangling
ln -s nowhere "$room/dangling/batch"
held dangling "refused 17 0"

folder no-permission
cp "$home/demo/case-p/batch" "$room/no-permission/batch"
chmod 000 "$room/no-permission/batch"
if [ "$(id -u)" = 0 ]; then
    echo "no-permission: not tried, since root reads every file"
    untried=1
else
    held no-permission "refused 17 0"
fi

mkdir "$room/curve-in-pieces" "$room/endless-curve" "$room/dangling-curve"
mkfifo "$room/curve-in-pieces/curve"
(
    head -c 20 "$home/crates/census/data/curve"
    sleep 0.3
    tail -c +21 "$home/crates/census/data/curve"
) >"$room/curve-in-pieces/curve" &
held curve-in-pieces "$(cat "$home/crates/census/stdout")" census
wait
ln -s /dev/zero "$room/endless-curve/curve"
held endless-curve "refused 16 0" census
ln -s nowhere "$room/dangling-curve/curve"
held dangling-curve "refused 17 0" census
echo "$right as they must be, $wrong wrong, $untried not tried"
[ "$wrong" = 0 ]
