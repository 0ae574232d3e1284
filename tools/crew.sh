#!/usr/bin/env bash
# What a crew meets, tried on bin/tally and bin/census:
#
#     bash tools/crew.sh
#
# on a copy of the scripts in a folder of its own, with the built programs (crates/NAME/out, or the folder in YUBI_BIN_DIR) and, for what no good program
# does, with programs and a prover that only pretend. Nothing is proved here. Exit 1 where something isn't as it must be.
set -eu
unset CDPATH
cd -- "$(dirname -- "$0")/.."
home=$PWD
# Where a built program is.
built_at() {
    if [ -n "${YUBI_BIN_DIR:-}" ]; then echo "$YUBI_BIN_DIR/$1"; else echo "$home/crates/$1/out/$1"; fi
}
for each in tally census; do
    [ -x "$(built_at "$each")" ] || { echo "there is no program $(built_at "$each"): rt run, in crates/$each" >&2; exit 2; }
done
export LC_ALL=C
room=$(mktemp -d)
trap 'chmod -R u+rwX "$room"; rm -rf "$room"' EXIT
chmod 755 "$room"

count=0 wrong=0
status=0

# held WHAT COMMAND..: counts a check, and says so where the command doesn't hold.
held() {
    local what=$1
    shift
    count=$((count + 1))
    if ! "$@"; then
        wrong=$((wrong + 1))
        echo "WRONG: $what: status $status"
        sed 's/^/  out: /' "$room/out"
        sed 's/^/  err: /' "$room/err"
    fi
}

# run COMMAND..: leaves its status, and its two outputs in the files out and err.
run() {
    status=0
    "$@" >"$room/out" 2>"$room/err" </dev/null || status=$?
}

# As somebody who isn't root, and so can be without permission.
plainly=()
[ "$(id -u)" != 0 ] || plainly=(setpriv --reuid=65534 --regid=65534 --clear-groups)

gave() { # STATUS OUT ERR
    [ "$status" = "$1" ] && [ "$(cat "$room/out")" = "$2" ] && [ "$(cat "$room/err")" = "$3" ]
}

says() { # STATUS OUT PATTERN: a pattern of the whole of standard error
    # shellcheck disable=SC2053
    [ "$status" = "$1" ] && [ "$(cat "$room/out")" = "$2" ] && [[ $(cat "$room/err") == $3 ]]
}

# ---- two checkouts: one with the built programs, and one where all but the scripts pretends

# Both have the scripts as they are, but of crates/ one file a crate: bin/ looks at its times alone.
checkout() { # NAME
    mkdir -p "$room/$1/crates/tally/src" "$room/$1/crates/tally/out" "$room/$1/crates/census/out" "$room/$1/crates/other/specs" "$room/$1/target"
    cp -R bin include demo VERSION crates.txt "$room/$1"
    echo >"$room/$1/crates/tally/src/main.rt"
    echo >"$room/$1/crates/other/specs/File.antt"
    touch "$room/$1/crates/tally/out/tally.stamp" "$room/$1/crates/census/out/census.stamp"
    chmod -R a+rX "$room/$1"
}
checkout real
for each in tally census; do cp "$(built_at "$each")" "$room/real/crates/$each/out/"; done
checkout sham
real=$room/real/bin/tally sham=$room/sham/bin/tally

# A program that prints the folder's file `lines`, and does what its file `does` says.
sham_program() {
    cat >"$room/sham/crates/tally/out/tally" <<'SHAM'
#!/bin/sh
[ ! -f lines ] || cat lines
[ ! -f does ] || . ./does
SHAM
    chmod 755 "$room/sham/crates/tally/out/tally"
}
sham_program

# A prover, as it is called in the crate's folder: prints what rt does, leaves a program, a stamp and a mark that it ran, and does before what PROVER says.
mkdir "$room/path" "$room/folder"
cat >"$room/path/rt" <<'SHAM'
#!/bin/sh
[ "$1" != version ] || { echo "a toolchain of no name"; exit 0; }
echo "$* in ${PWD##*/}" >>"$ROOM/asked"
echo "crate a_crate_with_a_name_of_some_length: modules loaded=1 checked=1"
[ -z "${PROVER:-}" ] || eval "$PROVER"
rm -f out/tally
printf '#!/bin/sh\necho made %s\n' "$(wc -l <"$ROOM/asked")" >out/tally
chmod +x out/tally
touch out/tally.stamp
SHAM
# The pretending program is a script, on whatever machine.
printf '#!/bin/sh\necho x86_64\n' >"$room/path/uname"
chmod 755 "$room/path/rt" "$room/path/uname"
export ROOM=$room

asked() { grep -c "" "$room/asked" 2>/dev/null; }
shammed() { run env PATH="$room/path:$PATH" "$@"; }
unproved() { run env PATH="$room/no-prover" "$@"; }
mkdir "$room/no-prover"
for each in awk bash cat env find mkdir readlink rm sed sleep stat stty touch; do
    ln -s "$(command -v "$each")" "$room/no-prover/$each"
done
cp "$room/path/uname" "$room/no-prover"

# ---- what is shown, what is refused, what is neither

case_p=$(cat crates/tally/stdout)
run "$real" "$home/demo/case-p"
held "case P is shown" gave 0 "$case_p" ""
held "byte for byte" cmp -s "$room/out" crates/tally/stdout
run "$room/real/bin/census" "$home/crates/census/data"
held "the census of curve A is shown" gave 0 "$(cat crates/census/stdout)" ""
held "byte for byte" cmp -s "$room/out" crates/census/stdout
run "$real" demo/damaged-list
held "a damaged list is refused with words and advice" gave 1 "refused 11 23" \
    "tally: refused: record 23 of the batch is no divisor of the curve: u doesn't divide f - v²
tally: what to do: scan again; if it stays, the meter isn't on this curve: leave it out and report it"

printf ' two  words \\n %%s\n\ncut' >"$room/folder/lines"
shammed "$sham" "$room/folder"
held "standard output is the program's, byte for byte" cmp -s "$room/out" "$room/folder/lines"
held "and all is well" [ "$status" = 0 ]

# Each number that the programs give, at place 1 and 2, with the table's words. The question goes with three of them.
row() { # NUMBER COLUMN
    awk -F'|' -v n="$1" -v c="$2" '$1 == n { print $c }' include/numbers.txt
}
for number in 1 2 3 4 5 6 7 8 9 10 11 14 18 25; do
    for place in 1 2; do
        echo "refused $number $place" >"$room/folder/lines"
        words=$(row "$number" 5)
        want="tally: refused: ${words/'{place}'/$place}
tally: what to do: $(row "$number" 4)"
        case "$number $place" in '9 1' | '10 1' | '11 1') want+="
tally: is this the list's curve?" ;; esac
        shammed "$sham" "$room/folder"
        held "the words of $number at place $place" gave 1 "refused $number $place" "$want"
        held "which aren't empty" test "${#words}" -gt 5
    done
done
echo "refused 99 0" >"$room/folder/lines"
shammed "$sham" "$room/folder"
held "a number without words" gave 1 "refused 99 0" "tally: refused with 99, for which include/numbers.txt has no words"

# ---- 16 and 17: which file, and why

# A folder with case P's curve and batch; what follows is done in it.
folder() { # NAME COMMAND..
    mkdir "$room/$1"
    cp demo/case-p/curve demo/case-p/batch "$room/$1"
    chmod 755 "$room/$1"
    (cd -- "$room/$1" && shift && "$@")
}
long() { head -c 70000 /dev/zero >"$1"; }
dangling() { rm "$1"; ln -s nowhere "$1"; }
a_folder() { rm "$1"; mkdir "$1"; }
endless() { rm "$1"; ln -s /dev/zero "$1"; }

seventeen="tally: what to do: put the file into the folder, and see that it may be read"
sixteen="tally: what to do: load the right file; a list that is so long, part in two"
for each in curve batch; do
    folder "no-$each" rm "$each"
    run "$real" "$room/no-$each"
    held "no $each" gave 1 "refused 17 0" "tally: refused: $each can't be opened or read: it isn't there
$seventeen"
    folder "dangling-$each" dangling "$each"
    run "$real" "$room/dangling-$each"
    held "$each dangling" gave 1 "refused 17 0" "tally: refused: $each can't be opened or read: it is a link to nowhere, which isn't there
$seventeen"
    folder "folder-$each" a_folder "$each"
    run "$real" "$room/folder-$each"
    held "$each a folder" gave 1 "refused 17 0" "tally: refused: $each can't be opened or read: it is a folder
$seventeen"
    folder "closed-$each" chmod 000 "$each"
    run "${plainly[@]}" "$real" "$room/closed-$each"
    held "$each without permission" gave 1 "refused 17 0" "tally: refused: $each can't be opened or read: there is no permission to read it
$seventeen"
    folder "long-$each" long "$each"
    run "$real" "$room/long-$each"
    held "$each too long" gave 1 "refused 16 0" "tally: refused: $each has over 65,536 bytes: it has 70000
$sixteen"
    folder "endless-$each" endless "$each"
    run "$real" "$room/endless-$each"
    held "$each without an end" gave 1 "refused 16 0" "tally: refused: $each has over 65,536 bytes: it isn't a plain file, and goes on
$sixteen"
done
run "$room/real/bin/census" "$room/no-curve"
held "census: no curve" says 1 "refused 17 0" "census: refused: curve can't be opened or read: it isn't there
census: what to do: *"
run "$room/real/bin/census" demo/street-with-a-repeat
held "census: no training curve" gave 1 "refused 25 0" "census: refused: p is over 13: this is no training curve
census: what to do: take a training curve, with p of 13 or less"

# ---- exit status 2, and which of its reasons

echo shown >"$room/folder/lines"
shammed "$sham"
held "no folder given" says 2 "" "tally: usage: bin/tally DIR, a folder with curve and batch; *"
shammed "$sham" a b
held "two folders given" says 2 "" "tally: usage: *"
shammed "$sham" -x
held "no such option" says 2 "" "tally: no such option: -x *"
shammed "$sham" "$room/nowhere"
held "a folder that isn't there" gave 2 "" "tally: the folder $room/nowhere can't be entered: No such file or directory"
shammed "$sham" "$home/VERSION"
held "a file for a folder" gave 2 "" "tally: the folder $home/VERSION can't be entered: Not a directory"
mkdir "$room/arm"
printf '#!/bin/sh\necho aarch64\n' >"$room/arm/uname"
chmod 755 "$room/arm/uname"
run env PATH="$room/arm:$PATH" "$sham" "$room/folder"
held "another machine" gave 2 "" "tally: the program is for x86-64, and this machine is aarch64"
mkdir "$room/closed"
chmod 000 "$room/closed"
shammed "${plainly[@]}" "$sham" "$room/closed"
held "a folder without permission" gave 2 "" "tally: the folder $room/closed can't be entered: Permission denied"
# shellcheck disable=SC2016
echo 'kill -SEGV $$' >"$room/folder/does"
shammed "$sham" "$room/folder"
held "a program that died" says 2 shown "*tally: the program died, of signal SEGV"
echo 'exit 7' >"$room/folder/does"
shammed "$sham" "$room/folder"
held "a program that failed" gave 2 shown "tally: the program ended with status 7"
rm "$room/folder/lines" "$room/folder/does"
shammed "$sham" "$room/folder"
held "a program that printed nothing" gave 2 "" "tally: the program printed nothing"
if [ -e /dev/full ]; then
    status=0
    "$real" demo/case-p >/dev/full 2>"$room/err" || status=$?
    : >"$room/out"
    held "an output that can't be written" says 2 "" "*tally: standard output can't be written"
fi

# ---- --help, --version, --, links, CDPATH

for each in tally census; do
    run "$room/sham/bin/$each" --help
    held "$each --help" [ "$status" = 0 ]
    held "$each --help says how it is used" grep -q "^usage: bin/$each \[--\] DIR" "$room/out"
    held "$each --help says the exit statuses" grep -q "^Exit status: 0 shown, 1 refused .*2 anything else" "$room/out"
    shammed "$room/sham/bin/$each" --version
    held "$each --version" gave 0 "$each $(cat VERSION)
toolchain a toolchain of no name" ""
    unproved "$room/sham/bin/$each" --version
    held "$each --version without rt" gave 0 "$each $(cat VERSION)
toolchain unknown: rt isn't on the PATH" ""
done
mkdir "$room/odd" "$room/odd/-x" "$room/odd/--help" "$room/odd/a b"
for each in -x --help 'a b'; do
    cp demo/case-p/* "$room/odd/$each/"
    cd -- "$room/odd"
    run "$real" -- "$each"
    cd -- "$home"
    held "-- $each" gave 0 "$case_p" ""
done

ln -s "$real" "$room/odd/link"
ln -s link "$room/odd/tally"
run "$room/odd/tally" demo/case-p
held "by a link to a link" gave 0 "$case_p" ""
run env PATH="$room/odd:$PATH" tally demo/case-p
held "by a link on the PATH" gave 0 "$case_p" ""

# Elsewhere are another curve and another list by the same names, and another bin/common.
mkdir -p "$room/elsewhere/demo" "$room/elsewhere/bin"
cp -R demo/damaged-list "$room/elsewhere/demo/case-p"
echo 'echo wrong' >"$room/elsewhere/bin/common"
for each in demo/case-p demo/./case-p; do
    cd -- "$room/real"
    run env CDPATH="$room/elsewhere" bin/tally "$each"
    cd -- "$home"
    held "CDPATH leads nowhere: $each" gave 0 "$case_p" ""
done
cd -- "$room/elsewhere/demo"
run env CDPATH="$room/real/demo:$room/elsewhere" ../../real/bin/tally case-p
cd -- "$home"
held "CDPATH leads nowhere: case-p" says 1 "refused 11 23" "*"

# ---- the program is built where it isn't, and anew after a change

# built HOW-OFTEN-ASKED LINE PATTERN
built() { says 0 "$2" "$3" && [ "$(asked)" = "$1" ]; }
rm "$room/sham/crates/tally/out/tally"
shammed "$sham" "$room/folder"
held "it is built the first time" built 1 "made 1" "tally: building, this once: * of * crates proved*"
held "by rt run in its folder" [ "$(cat "$room/asked")" = "run in tally" ]
shammed "$sham" "$room/folder"
held "and not the second time" built 1 "made 1" ""
echo >>"$room/sham/crates/tally/src/main.rt"
shammed "$sham" "$room/folder"
held "a source changed" built 2 "made 2" "tally: building anew, since crates/ changed: *"
touch -d 2001-02-03 "$room/old"
cp -p "$room/old" "$room/sham/crates/tally/src/main.rt"
shammed "$sham" "$room/folder"
held "an older source came" built 3 "made 3" "*building anew*"
rm "$room/sham/crates/other/specs/File.antt"
shammed "$sham" "$room/folder"
held "a source went" built 4 "made 4" "*building anew*"
touch "$room/sham/crates.txt"
PROVER='exit 0' shammed "$sham" "$room/folder"
held "rt found nothing new" built 5 "made 4" "*building anew*"
shammed "$sham" "$room/folder"
held "and isn't asked again" built 5 "made 4" ""
echo >"$room/sham/crates/other/stdout"
shammed "$sham" "$room/folder"
held "a file that no proof reads came" built 5 "made 4" ""
touch "$room/sham/crates.txt"
PROVER='sleep 0.1; touch ../../crates.txt' shammed "$sham" "$room/folder"
held "a source changed" built 6 "made 6" "*building anew*"
shammed "$sham" "$room/folder"
held "and again while that was proved" built 7 "made 7" "*building anew*"
rm "$room/sham/crates/tally/out/tally.stamp"
shammed "$sham" "$room/folder"
held "a build that was broken off" built 8 "made 8" "*building, this once*"
touch "$room/sham/crates.txt"
PROVER='echo "rt: FAILED"; exit 1' shammed "$sham" "$room/folder"
held "a change that isn't proved: the old program isn't run" says 2 "" "*tally: the program wasn't built, rt ended with 1; *target/tally.log has what the prover said"
held "and the log has it" grep -q FAILED "$room/sham/target/tally.log"
shammed "$sham" "$room/folder"
held "nor is the failure forgotten" built 10 "made 10" "*building anew*"
rm "$room/sham/crates/tally/out/tally"
PROVER='exit 0' shammed "$sham" "$room/folder"
held "rt leaves no program" says 2 "" "*tally: rt left no program at *"
unproved "$sham" "$room/folder"
held "no program, and no rt" gave 2 "" "tally: the program isn't built, and rt isn't on the PATH to prove and build it"
sham_program
touch "$room/sham/crates/tally/out/tally.stamp" "$room/sham/crates.txt"
unproved "$sham" "$room/folder"
held "a change, and no rt" gave 2 "" "tally: crates/ changed after the program was built, and rt isn't on the PATH to prove and build it"
chmod a-w "$room/sham/target" "$room/sham/target/"*
shammed "${plainly[@]}" "$sham" "$room/folder"
held "a checkout that can't be written" gave 2 "" "tally: crates/ changed after the program was built, and the checkout can't be written: $room/sham/target"
chmod u+w "$room/sham/target" "$room/sham/target/"*

# ---- ended by a signal

# Waits some seconds until a command holds.
soon() {
    local tries=100
    until "$@"; do
        tries=$((tries - 1))
        [ $tries -gt 0 ] || return 1
        sleep 0.05
    done
}
# Whether a process ended, also where nobody has asked for its status yet.
gone() { [[ $(ps -o stat= -p "$1") =~ ^(Z.*)?$ ]]; }

# ended SIGNAL FILE..: starts tally, waits until each file holds a number, sends the signal, and holds tally's end and that of each of these processes.
# (bash says on standard error what it ended.)
ended() {
    local signal=$1 tally each
    shift
    rm -f "$@"
    set -m # what runs behind isn't to ignore INT, nor what was ignored above
    PATH="$room/path:$PATH" env --default-signal=HUP,INT,TERM "$sham" "$room/folder" >"$room/out" 2>"$room/err" </dev/null &
    tally=$!
    set +m
    for each in "$@"; do
        held "${each##*/} was started" soon test -s "$each"
    done
    kill -s "$signal" "$tally"
    soon gone "$tally" || kill -KILL "$tally"
    status=0
    wait "$tally" || status=$?
    held "tally ended by $signal" [ "$status" = $((128 + $(kill -l "$signal"))) ]
    for each in "$@"; do
        held "$signal ended ${each##*/} too" soon gone "$(cat "$each")"
    done
}
# shellcheck disable=SC2016
export PROVER='sleep 1000 & echo $! >$ROOM/pids.worker; echo $$ >$ROOM/pids.prover; wait'
for each in TERM INT HUP; do
    rm -f "$room/sham/crates/tally/out/tally"
    ended "$each" "$room/pids.worker" "$room/pids.prover" 2>/dev/null
done
unset PROVER
sham_program
touch "$room/sham/crates/tally/out/tally.stamp"
# shellcheck disable=SC2016
echo 'echo $$ >"$ROOM/pids.program"; exec sleep 1000' >"$room/folder/does"
for each in TERM INT HUP; do
    ended "$each" "$room/pids.program" 2>/dev/null
done
rm "$room/folder/does"

# ---- the progress line on a terminal

# frames COLUMNS: what is drawn on a terminal of so many columns, a line a drawing.
frames() {
    rm -f "$room/sham/crates/tally/out/tally"
    # shellcheck disable=SC2016
    PROVER='sleep 1' PATH="$room/path:$PATH" COLS=$1 SHAM=$sham FOLDER=$room/folder \
        script -qec 'stty cols "$COLS"; "$SHAM" "$FOLDER"' /dev/null </dev/null | tr '\r' '\n' | sed 's/\x1b\[K//' >"$room/out"
    : >"$room/err"
}
longest() { awk '{ if (length($0) > most) most = length($0) } END { print most }' "$room/out"; }
frames 40
held "the line is cut to 40 columns" [ "$(longest)" = 39 ]
held "and it is the line" grep -q '^tally: building, this once: 1 of ' "$room/out"
frames 200
held "the line is whole in 200 columns" grep -Eq '^tally: building, this once: 1 of [0-9]+ crates proved \(a_crate_with_a_name_of_some_length\), 0:0[0-9]$' "$room/out"
held "and the program's line follows" grep -q '^made' "$room/out"

# ---- the one table of numbers, and the header made from it

run python3 tools/make/number_table.py --check
held "the header, the words and the crates have the table's numbers" [ "$status" = 0 ]

# ---- every script: CDPATH can't lead it elsewhere

while IFS= read -r each; do
    grep -Eq '(^|[[:space:](])cd ' "$each" || continue
    : >"$room/out"
    sed -n '/unset CDPATH/q; /^[^#]*\<cd /p' "$each" >"$room/err"
    held "$each unsets CDPATH before it changes folders" [ ! -s "$room/err" ]
    grep -nE '^[^#]*(^|[[:space:](])cd ["$]' "$each" >"$room/err" || true
    held "$each says cd --" [ ! -s "$room/err" ]
done < <(git ls-files --cached --others --exclude-standard '*.sh' bin .ci/run)

if [ $wrong != 0 ]; then
    echo "crew: $count checks, $wrong WRONG"
    exit 1
fi
echo "crew: $count checks, none wrong"
