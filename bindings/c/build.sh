#!/usr/bin/env bash
# The C programs of this folder, each built as C99 and as C++ with every warning an error, and run:
#
#     bash bindings/c/build.sh
#
# example.c must print case P; loop.c, a tablet's loop, must bring the walks of demo/two-poles to their totals, and stop at the meter that comes again;
# promises.c tries what the header promises. Then the header's own warnings and what the library needs are looked at. Exit 1 where one isn't as it must be.
set -eu
unset CDPATH
cd -- "$(dirname -- "$0")/../.."
# shellcheck source=tools/foreign.sh
. tools/foreign.sh
want_c
prefix='' cxx=(c++)
if [ ${#emulator[@]} = 0 ]; then
    want c++ g++
else
    prefix=x86_64-linux-gnu- cxx=(x86_64-linux-gnu-g++ -static)
    want "${cxx[0]}" g++-x86-64-linux-gnu
fi
library

# compile C99 or C++, WORD..: with every warning an error.
compile() {
    local language=("${cc[@]}" -std=c99)
    [ "$1" = C99 ] || language=("${cxx[@]}" -x c++ -std=c++11)
    shift
    "${language[@]}" -Wall -Wextra -Wconversion -pedantic -Werror -O2 -Iinclude "$@"
}

to=target/foreign
mkdir -p $to/walk
count=0

# Holds what a program prints, and its exit status, to what they must be.
prints() { # EXPECTED STATUS COMMAND..
    local expected=$1 wanted=$2 printed status=0
    shift 2
    printed=$("${emulator[@]}" "$@") || status=$?
    [ "$printed" = "$expected" ] || fail "$* printed: $printed"
    [ $status = "$wanted" ] || fail "$* ended with $status"
    count=$((count + 1))
}

# A walk on curve A, y^2 = x^5 + 1 modulo 7, for pole 7: (x, 1); (x, 6) for pole 5; (x, 2), which isn't on the curve; (x + 6, 3); the neutral divisor; and
# (x, 6), which is the first meter with its sign turned. The keys are the threefold; 5 is (x, 1)'s order.
zeros='\0\0\0\0\0\0\0'
point() { # POLE U_0 V_0: a scan of 21 bytes, behind its length
    printf '%b' "\\0\\025\\0\\0\\0\\0$1\\01$zeros\\0$2$zeros\\0$3"
}
{
    point 7 0 1
    point 5 0 6
    point 7 0 2
    point 7 6 3
    printf '\0\5\0\0\0\7\0'
    point 7 0 6
    point 7 6 3
} >$to/walk/scans
advice() { # NUMBER: cause and advice
    awk -F'|' -v n="$1" '$1 == n { print "refused " n ", " $3 "; what to do: " $4 }' include/numbers.txt
}
a_walk="scan 1: meter 1
  key 02 0000000000000000 0000000000000000 0000000000000006 0000000000000000
  order shown
scan 2: $(advice 20)
scan 3: $(advice 11)
scan 4: meter 2
  key 02 0000000000000003 0000000000000002 0000000000000001 0000000000000002
  order $(advice 27)
scan 5: meter 3
  key $(advice 19)
  order $(advice 27)
scan 6: meter 1 again
pole 7
count 3
total 02 0000000000000000 0000000000000006 0000000000000001 0000000000000002"

# The last three lines of a walk along demo/two-poles are the pole's in its file `totals`.
two_poles() { # PROGRAM POLE
    "${emulator[@]}" "$1" demo/two-poles/curve demo/two-poles/scans "$2" 3 >$to/walk/printed || fail "$1: the walk for pole $2 ended with $?"
    [ "$(tail -n 3 $to/walk/printed)" = "$(grep -A2 "^pole $2\$" demo/two-poles/totals)" ] || fail "$1: the total of pole $2 is another one"
    count=$((count + 1))
}

for way in C99 C++; do
    say "the programs as $way"
    for name in example loop promises; do
        compile $way -o $to/$name-$way bindings/c/$name.c -x none "$YUBI_LIB_DIR/libtablet.a"
    done
    prints "$(cat crates/tally/stdout)" 0 $to/example-$way
    prints "$a_walk" 1 $to/loop-$way demo/case-p/curve $to/walk/scans 7 3 5 5
    prints "curve: $(advice 2)" 1 $to/loop-$way demo/case-p/batch $to/walk/scans 7 3
    two_poles $to/loop-$way 40101
    two_poles $to/loop-$way 40102
    "${emulator[@]}" $to/promises-$way || fail "the header promises something that isn't kept"
    count=$((count + 1))
done

say "an answer that isn't looked at"
called() { # WAY CALL: whether it compiles
    echo "#include \"yubisorade.h\"
void f(YubiRunning t, const uint8_t *b);
void f(YubiRunning t, const uint8_t *b) { (void)t; (void)b; $2; }" >$to/called.c
    compile "$1" -c -o $to/called.o $to/called.c 2>/dev/null
}
for way in C99 C++; do
    called $way 'YubiAnswer a = yubi_check_curve(b, 9); (void)a' || fail "an answer that is looked at doesn't compile"
    for call in 'yubi_check_curve(b, 9)' 'yubi_check_divisor(b, 9, b, 9)' 'yubi_check_order(b, 9, b, 9, b, 9, b, 9)' 'yubi_first_repeat(b, 9, b, 9)' \
        'yubi_fresh_total(9)' 'yubi_scan(t, b, 9, b, 9)'; do
        if called $way "$call"; then fail "no warning: $call"; fi
        count=$((count + 1))
    done
done

say "what the library needs and hasn't"
needs=$("${prefix}nm" "$YUBI_LIB_DIR/libtablet.a" | awk '$1 == "U" { used[$2] } NF == 3 { made[$3] } END { for (n in used) if (!(n in made)) print n }' | sort)
[ "$needs" = "memcpy
memset" ] || fail "the library needs: $needs"
if "${prefix}readelf" -SW "$YUBI_LIB_DIR/libtablet.a" | grep -E 'eh_frame|gcc_except_table'; then fail "the library has unwind tables"; fi
count=$((count + 2))
say "$count held: case P, the walks, the header's promises, its warnings, what the library needs"
