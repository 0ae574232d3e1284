#!/usr/bin/env bash
# Speed of the proved library beside plain Rust:
#
#     bash tools/bench.sh [RUNS]        (15 where left out)
#     bash tools/bench.sh --loop        the instructions of a tablet's main loop alone
#
# looks at the library's product of residues, and exits 1 where the compiler didn't make one multiplication of each product of
# words; builds both into one program and prints, for genus 2, genus 3 with f_6 = 0 and genus 3 with another f_6 at p = 2^31 - 1, for the
# first two in records of version 2, and at p = 2^61 - 1, the median time of a batch total of 4,096 records, of a 256-bit multiple, of the search
# for a repeat among 4,096 different meters, of the check of the curve record alone and of one divisor, of a sum, of scans and of the split of a sum
# of as many points as the genus, and the ratio. Then it counts the instructions of each, exactly, by Debian's qemu-user or by valgrind, whichever is
# there, and those of the whole census of a curve of genus 3 at p = 13, by calls. A tablet's main loop is the check of a curve and of a divisor, a sum
# and a scan. Under an emulator times say nothing but their ratio.
set -eu
unset CDPATH
cd -- "$(dirname -- "$0")/.."
# shellcheck source=tools/foreign.sh
. tools/foreign.sh
works=(total multiple repeat check record add scans scan split)
loop=(check record add scan)
if [ "${1:-}" = --loop ]; then works=("${loop[@]}"); fi
want_rust
library

# The high word of a product comes from a number of 128 bits, the low one by a product that wraps, and the compiler is to make one
# multiplication of the two. Then a product of residues has three, one and two for its reduction, or four where the compiler multiplies a
# factor that it uses again by 1/p first; a sum of two products has four. Not folded a product has nine or more. These functions are
# straight and stand by themselves in the library: how many products and sums of two products each has is by its source.
objdump=objdump binutils=binutils
[ ${#emulator[@]} = 0 ] || objdump=x86_64-linux-gnu-objdump binutils=binutils-x86-64-linux-gnu
want $objdump $binutils
say "multiplications in the library's products"
$objdump -d --no-show-raw-insn "$YUBI_LIB_DIR/libtablet.a" | awk '
    function known(name, products, sums) { source[name] = 3 * products + 4 * sums; most[name] = 4 * (products + sums) }
    BEGIN { known("sum_genus2_steps::new_v", 2, 2); known("sum_genus3_open::times", 1, 6); known("sum_genus3::new_v", 1, 4); known("sum_genus3::second", 4, 3) }
    /^[0-9a-f]+ <.*>:$/ {
        name = $2
        gsub(/^<|>:$/, "", name)
        if (name in most) { seen[name] = 1 }
        at = 0
        wide = 0
    }
    /^ *[0-9a-f]+:\t/ {
        at++
        if ($2 ~ /^(mul|imul|mulx)q?$/) { of[name]++ }
        # The modulus is made by six squares in a row: from one to the next is a product whole.
        if (name == "field::Modulus::of" && $2 ~ /^mulq?$/) {
            place[++wide] = at
            if (wide > 2 && ++times[at - place[wide - 2]] > times[step]) { step = at - place[wide - 2] }
        }
    }
    END {
        split("sum_genus2_steps::new_v sum_genus3_open::times sum_genus3::new_v sum_genus3::second", order)
        for (k = 1; k in order; k++) {
            name = order[k]
            if (!(name in seen)) { continue }
            count++
            printf "%-23s %3d, by the source %d, at most %d\n", name, of[name], source[name], most[name]
            if (of[name] > most[name]) { bad = 1 }
        }
        if (step) { printf "a product after a product: %d instructions, at most 10\n", step }
        if (step > 10) { bad = 1 }
        if (!count) { print "none of the functions looked for stands by itself: look again, and name others here"; bad = 1 }
        exit bad
    }' || fail "a product of two words isn't one multiplication"

rust_program bench
bench=target/foreign/bench

if [ "${1:-}" != --loop ]; then
    [ ${#emulator[@]} = 0 ] || say "emulated: only the ratios of times mean something"
    say "times"
    "${emulator[@]}" $bench "${1:-15}"
fi

want_counter || exit 0
say "instructions, by $counter: two runs that differ in one round"
declare -A names=([2]="genus 2" [3]="genus 3, f_6 = 0" [3-f6]="genus 3, f_6 ≠ 0")
names+=([2-v2]="genus 2, version 2" [3-v2]="genus 3, f_6 = 0, version 2")
names+=([2-61]="genus 2, 2^61 - 1" [3-61]="genus 3, f_6 = 0, 2^61 - 1")
names+=([3-13]="genus 3, p = 13")
rows=0

# count CURVE WORK..: a line a work with the instructions of both engines.
count() {
    local curve=$1 work engine one two counts ratio
    shift
    for work in "$@"; do
        counts=()
        for engine in proved plain; do
            one=$(executed $bench count "$engine" "$work" "$curve" 1)
            two=$(executed $bench count "$engine" "$work" "$curve" 2)
            if [ -z "$one" ] || [ -z "$two" ]; then
                fail "the counter of instructions failed on $engine $work $curve"
            fi
            counts+=($((two - one)))
        done
        ratio=$(awk -v proved="${counts[0]}" -v plain="${counts[1]}" 'BEGIN { printf "%.2f", proved / plain }')
        printf '%-27s %-8s  proved %12d   plain %12d   ratio %s\n' "${names[$curve]}" "$work" "${counts[@]}" "$ratio"
        rows=$((rows + 1))
    done
}

for curve in 2 3 3-f6 2-61 3-61; do
    count $curve "${works[@]}"
done
for curve in 2-v2 3-v2; do
    count $curve "${loop[@]}"
done
[ "${1:-}" = --loop ] || count 3-13 census
say "$rows works counted in both engines"
