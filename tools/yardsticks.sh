#!/usr/bin/env bash
# The proved library beside ordinary and beside fast Rust (bindings/yardsticks, which says what each engine is):
#
#     bash tools/yardsticks.sh [RUNS]        (5 where left out)
#
# builds all into one program, puts random batches and multiples to every engine (exit 1 where two differ), prints the times of the total of
# 4,096 records and of a 256-bit multiple on six curves with the library's ratios to them, and counts the instructions of each, exactly, by
# Debian's qemu-user or by valgrind, whichever is there, and those of the first repeat of 4,096; exit 1 where these are above their limits.
# Under an emulator times say nothing but their ratio.
set -eu
unset CDPATH
cd -- "$(dirname -- "$0")/.."
# shellcheck source=tools/foreign.sh
. tools/foreign.sh
want_rust
library
rust_program yardsticks
program=target/foreign/yardsticks

say "judged: random batches and multiples"
"${emulator[@]}" $program judge 1 2000

[ ${#emulator[@]} = 0 ] || say "emulated: only the ratios of times mean something"
say "times"
"${emulator[@]}" $program times "${1:-5}"

want_counter || exit 0
# counted ENGINE WORK CURVE: the instructions of one round, as two runs differ in one.
counted() {
    local one two
    one=$(executed $program count "$@" 1)
    two=$(executed $program count "$@" 2)
    if [ -z "$one" ] || [ -z "$two" ]; then
        fail "the counter of instructions failed on $*"
    fi
    echo $((two - one))
}

rows=0

# row CURVE WORK ENGINE..: a line for each engine, with the ratio of the first one's count to its own; fails where that is above `most`.
row() {
    local curve=$1 work=$2 engine n first=
    shift 2
    for engine in "$@"; do
        n=$(counted "$engine" "$work" "$curve")
        first=${first:-$n}
        rows=$((rows + 1))
        printf '%-8s %-8s %-9s %12d   ratio %s\n' "$curve" "$work" "$engine" "$n" "$(awk -v f="$first" -v n="$n" 'BEGIN { printf "%.2f", f / n }')"
    done
    [ "$first" -le "${most:-$first}" ] || fail "$work on $curve takes more than $most instructions"
}

say "instructions, by $counter; the ratio is the library's to that engine's"
for curve in 2 3 3-f6 2-61 3-61 3-f6-61; do
    for work in total multiple; do
        row "$curve" "$work" proved formulae plain ordinary
    done
done

# A list of different meters is searched in 3 million instructions, and one that meets in a single chain in 200.
most=3000000 row 2-61 repeat proved plain
most=3000000 row 3-61 repeat proved plain
most=200000000 row 3-61 chain proved plain
say "$rows counts, the searches within their limits"
