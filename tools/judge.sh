#!/usr/bin/env bash
# Differential and hostile tests, outside the gate:
#
#     bash tools/judge.sh [SEED [COUNT]]                  (1 and 250000 where left out)
#     bash tools/judge.sh --sums [SEED [COUNT]]           (the same)
#     bash tools/judge.sh --multiples [SEED [COUNT]]      (1 and 500 where left out)
#     bash tools/judge.sh --censuses [SEED [COUNT]]       (1 and 1 where left out)
#
# builds the proved library and the plain Rust implementation into one program, puts the same calls to both and compares
# every answer, every output byte and the bytes round every output. Prints progress, what was covered, the number of calls
# and the differences. Exit 0 only where there are none. The same seed makes the same calls. With --sums the calls are
# sums and doubles at p = 3, 5, 7, 11 and 13 alone, half of them special to an explicit formula. With --multiples they are
# multiples only, by both multiply calls: by every scalar to 300 of every divisor on small curves, then COUNT by scalars of
# 32 bytes at p = 2147483647. With --censuses they are the steps of whole censuses, from the neutral divisor to the last, of COUNT curves
# of either genus at each of p = 3, 5, 7, 11 and 13.
set -eu
unset CDPATH
cd -- "$(dirname -- "$0")/.."
what=()
count=250000
case "${1:-}" in
    --sums) what=(--sums) && shift ;;
    --multiples) what=(--multiples) && count=500 && shift ;;
    --censuses) what=(--censuses) && count=1 && shift ;;
esac
# shellcheck source=tools/foreign.sh
. tools/foreign.sh
want_rust
library
rust_program judge
say "judging"
"${emulator[@]}" target/foreign/judge "${what[@]}" "${1:-1}" "${2:-$count}"
