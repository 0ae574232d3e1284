#!/usr/bin/env bash
# Counts, over the src/ of every crate, the places that docs/DESIGN-PASS.md speaks of, by point:
#
#     bash tools/check/places.sh [FOLDER]      (a checkout; this one where left out)
set -eu
unset CDPATH
cd -- "${1:-$(dirname -- "$0")/../..}"
count() { printf '%-4s %5d  %s\n' "$1" "$(cat)" "$2"; }
src() { grep -rhE "$1" crates/*/src --include='*.rt' || true; }
lines() { grep -vE '^\s*//' | wc -l; }

src '^\s*pub enum ' | lines | count 1a "enums of the repository's own"
src '^pub const [A-Z_]+: u64 = ([1-9]|1[0-9]|2[0-7]);' | grep -cvE 'MOST|LARGEST|WITNESSED' | count 1b "numbers of refusals as constants"
src 'refusals::[A-Z_]{2,}' | grep -cvE 'MOST|LARGEST|^\s*//' | count 1c "lines of code with such a number"
src '(return|=>) .*Refused\(' | lines | count 1d "lines that hand on a refusal by hand"
src '\?;|\?\)|\?$' | lines | count 1e "lines with ? (for comparison)"
src '^\s*(pub )?(extern "C" )?fn .*_(one|two|three|twice|cubics|free)\(' | lines | count 2a "functions named after a weight, a copy or an engine"
src "^\s*('[a-z_]+: )?(while|loop)\b" | lines | count 3a "while and loop"
src "^\s*('[a-z_]+: )?for " | lines | count 3b "for (for comparison)"
src '\b(derive)\(Clone, Copy\)' | lines | count 4a "derives of Clone and Copy alone"
src '^impl .*(From|TryFrom|Display)' | lines | count 4b "From, TryFrom, Display (for comparison)"
src '^\s*pub fn (flatten|from_raw|to_raw|equal|same_)' | lines | count 4c "conversions and equalities by hand"
for word in Ring Good Sound Shaped InRange Kept Settled Held Holds; do
    src '^\s*(requires|ensures)' | grep -oE "\b$word \(?[a-z]" | wc -l | count 5 "$word in contracts"
done
src '^\s*(requires)' | lines | count 5b "requires"
src '\[[A-Za-z0-9_]+; [A-Za-z0-9_:]+\], [a-z]+: usize' | lines | count 6a "an array with its length beside it, as parameters"
src '\[[^];]+; [^]]+\]' | lines | count 6b "lines with an array"
src 'match (operation|kind|op)\b|fn\(|dyn ' | lines | count 7a "switches on a step, tables of functions"
grep -rhE '^pub \S+ : goal\.' crates/*/proofs --include='*.antt' | wc -l | count 8a "answers to goals"
find crates/*/proofs -name Answers.antt -exec cat {} + | wc -l | count 8b "lines of answers"
find crates/*/proofs -name Invariants.antt | wc -l | count 8c "files of invariants"
find crates/*/proofs -name '*.antt' -exec cat {} + | wc -l | count 8d "lines of proofs"
