#!/usr/bin/env bash
# The library for 64-bit Arm Linux, and its test:
#
#     bash tools/arm.sh
#
# writes target/arm/libtablet.a, for aarch64-linux-gnu, puts all vectors, hostile bytes and case P to it under Debian's qemu-aarch64, and runs each call on
# the smallest stack that the header promises.
#
# The toolchain's own target is x86-64. It lowers the proved code to one module of LLVM and has its clang compile that. Here the module is caught on its
# way there, the lines that say x86-64 or x86-64's way to hand over a struct are changed (tools/arm.awk says which, and why), and the same clang compiles
# it with the same options for Arm. No code is added or taken away. Exit 1 where a line of another kind, or another number of lines, would change; where
# the module caught isn't the one in the x86-64 library; where a test fails. docs/DECISIONS.md has what is believed beyond the x86-64 library.
set -eu
unset CDPATH
cd -- "$(dirname -- "$0")/.."
# shellcheck source=tools/foreign.sh
. tools/foreign.sh
[ -z "${YUBI_LIB_DIR:-}" ] || fail "the Arm library is made from this checkout's own: unset YUBI_LIB_DIR"
want_c
want aarch64-linux-gnu-gcc gcc-aarch64-linux-gnu
want qemu-aarch64 qemu-user
library

triple=aarch64-unknown-linux-gnu
arm=target/arm
[ ${#emulator[@]} = 0 ] || fail "the module is made on x86-64, for which the toolchain builds; this machine is $(uname -m)"
rt=$(command -v rt)
kit=$(cd -- "$(dirname -- "$(readlink -f -- "$rt")")/.." && pwd -P)
clang=$kit/toolchain/bin/clang
mkdir -p "$arm"
rm -f "$arm/libtablet.a"
room=$(mktemp -d)
trap 'rm -rf "$room"' EXIT

# Has rt build the library with a kit that is links to its own, but for rt, which takes the folder that it stands in for its kit, and for clang: that one
# keeps its arguments and the module, then does what it was asked.
catch_module() {
    local links=$room/kit tools=$room/kit/toolchain f
    mkdir -p "$links/bin" "$tools/bin"
    for f in "$kit"/*; do case ${f##*/} in bin | toolchain) ;; *) ln -s "$f" "$links/" ;; esac done
    for f in "$kit/bin"/*; do case ${f##*/} in rt | rtlib.py) cp "$f" "$links/bin/" ;; *) ln -s "$f" "$links/bin/" ;; esac done
    for f in "$kit/toolchain"/*; do [ "${f##*/}" = bin ] || ln -s "$f" "$tools/"; done
    for f in "$kit/toolchain/bin"/*; do [ "${f##*/}" = clang ] || ln -s "$f" "$tools/bin/"; done
    cat >"$tools/bin/clang" <<END
#!/bin/sh
printf '%s\\n' "\$@" >"$PWD/$arm/options"
cp module.bc "$PWD/$arm/module.bc"
exec "$clang" "\$@"
END
    chmod +x "$tools/bin/clang"
    rm -f "$arm/module.bc" "$arm/options"
    PATH=$links/bin:$PATH build_library
}

cp "$YUBI_LIB_DIR/libtablet.a" "$room/before.a"
made "$arm/module.bc" tablet_c catch_module
cmp "$room/before.a" "$YUBI_LIB_DIR/libtablet.a" || fail "the library isn't the same with the module caught"

say "the module, for x86-64 and for Arm"
"$clang" --target=x86_64-unknown-linux-gnu --no-default-config -S -emit-llvm -Xclang -disable-llvm-passes -x ir "$arm/module.bc" -o "$room/x86.ll"

# options TARGET FILE: clang's arguments as they were caught, for this target, file and output; a processor is named for x86-64 alone.
options() {
    local target=$1 file=$2 word last=''
    words=()
    while IFS= read -r word; do
        case $last/$word in
        */--target=*) word=--target=$target ;;
        */--sysroot=*) continue ;;
        */-march=x86-64) [ "$target" = x86_64-unknown-linux-gnu ] || continue ;;
        */module.bc) word=$file ;;
        -o/*) word=${file%.*}.o ;;
        esac
        words+=("$word")
        last=$word
    done <"$arm/options"
}

# The text is the whole module: compiled for x86-64 it makes the library's own object, byte for byte.
options x86_64-unknown-linux-gnu "$room/x86.ll"
"$clang" "${words[@]}"
(cd -- "$room" && "$kit/toolchain/bin/llvm-ar" p before.a) | cmp - "$room/x86.o" || fail "the module caught isn't the one in the x86-64 library"

# How C hands over what the header declares, by the same clang, on both machines.
aarch64-linux-gnu-gcc -E -P -x c include/yubisorade.h >"$room/header"
calls=$(grep -o '\byubi_[a-z_]*(' "$room/header" | tr -d '(' | sort -u)
structs=$(sed -n 's/^} \(Yubi[A-Za-z]*\);$/\1/p' "$room/header")
{
    cat "$room/header"
    for f in $structs; do echo "const unsigned long size_of_$f = sizeof($f);"; done
    echo "void *calls[] = {"
    for f in $calls; do echo "(void *)$f,"; done
    echo "};"
} >"$room/calls.c"
"$clang" --target=x86_64-unknown-linux-gnu --no-default-config -S -emit-llvm -x cpp-output "$room/calls.c" -o "$room/calls.x86"
"$clang" --target=$triple --no-default-config -S -emit-llvm -x cpp-output "$room/calls.c" -o "$room/calls.arm"
awk -v counts="$room/counts" -f tools/arm.awk kind=x86 "$room/calls.x86" kind=arm "$room/calls.arm" kind=module "$room/x86.ll" >"$room/arm.ll"

# Every changed line is one of those counted, and there are as many of each as there must be.
lines=$(wc -l <"$room/x86.ll") changed=$(diff "$room/x86.ll" "$room/arm.ll" | grep -c '^>' || true)
[ "$lines" = "$(wc -l <"$room/arm.ll")" ] || fail "lines were added or taken away"
exports=$(wc -w <<<"$calls") copies=$(grep -c ' byval(' "$room/calls.x86" || true)
cpus=$(grep -c '^attributes .*"target-cpu"' "$room/x86.ll" || true)
printf '%s\n' "layout 1" "triple 1" "cpu $cpus" "result $exports" "copy $copies" "return $exports" | cmp - "$room/counts" ||
    fail "not as many lines of each kind as expected: $(tr '\n' ',' <"$room/counts")"
[ "$changed" = $((2 + cpus + 2 * exports)) ] || fail "$changed lines changed, and only $((2 + cpus + 2 * exports)) were counted"
if grep -nE 'x86|byval|ret ptr| asm |"target-' "$room/arm.ll"; then fail "something of x86-64 is left"; fi
say "$changed of $lines lines changed: $(sed 's/\(.*\) \(.*\)/\2 \1/' "$room/counts" | paste -sd, | sed 's/,/, /g') (a copy's is a result's too)"

# Made beside, and put in its place once all tests have passed.
options $triple "$room/arm.ll"
"$clang" "${words[@]}"
object=$("$kit/toolchain/bin/llvm-ar" t "$room/before.a")
mkdir "$room/arm"
mv "$room/arm.o" "$room/arm/$object"
(cd -- "$room/arm" && "$kit/toolchain/bin/llvm-ar" rcs libtablet.a "$object")
say "compiled by $("$clang" --version | head -n 1) for $triple"

# A large frame is touched step by step, 3,072 bytes each, before anything else: behind a branch the registers of that loop could be in use
# (docs/DECISIONS.md, 46).
probes() {
    awk '
        /^[0-9a-f]+ <.*>:$/ { name = $2; gsub(/^<|>:$/, "", name); left = "" }
        /^ *[0-9a-f]+:\t/ {
            step = $0 ~ /\tsub\tsp, sp, #0x(c00|[0-9a-f]+, lsl #12)$/
            if (step) { any = 1 }
            if (step && left) { print name ": touches its stack behind " left; bad = 1 }
            if ($2 ~ /^(b|br|bl|blr|ret|cbn?z|tbn?z|b\..*)$/) { left = $2 }
        }
        END { exit bad || !any }'
}
if printf '0000 <early>:\n   0:\tcbz\tx0, 40 <early+0x40>\n   4:\tsub\tsp, sp, #0xc00\n' | probes >/dev/null; then
    fail "the check of the stack sees no fault where there is one"
fi
aarch64-linux-gnu-objdump -d --no-show-raw-insn "$room/arm/libtablet.a" >"$room/listing"
probes <"$room/listing" || fail "a function touches its stack behind a branch"

# The tests: on this machine's own processor where that is an Arm, otherwise emulated.
c_program hostile
wanted=$("${emulator[@]}" target/foreign/hostile) || fail "hostile calls failed on x86-64: $wanted"
YUBI_LIB_DIR=$room/arm
cc=(aarch64-linux-gnu-gcc -static) emulator=(qemu-aarch64)
[ "$(uname -m)" != aarch64 ] || emulator=()
for name in vectors hostile example stack; do c_program $name "$arm"; done
vectors_hold "${emulator[@]}" "$arm/vectors"

printed=$("${emulator[@]}" "$arm/hostile") || fail "hostile calls failed on Arm: $printed"
echo "$printed"
[ "$printed" = "$wanted" ] || fail "hostile calls have another digest on x86-64: $wanted"
say "the same digest on x86-64 and Arm"

printed=$("${emulator[@]}" "$arm/example") || fail "case P was refused"
[ "$printed" = "$(cat crates/tally/stdout)" ] || fail "that isn't case P: $printed"
say "case P"

"${emulator[@]}" "$arm/stack" || fail "a call doesn't keep to the stack that the header promises"

needed=$(needs aarch64-linux-gnu-nm "$room/arm/libtablet.a")
[ "$needed" = "memcpy memset" ] || fail "the library needs $needed"
aarch64-linux-gnu-gcc -shared -nostdlib -Wl,-z,text -Wl,--whole-archive "$room/arm/libtablet.a" -Wl,--no-whole-archive -o "$room/libtablet.so" ||
    fail "it doesn't make a shared object without relocations in its code"

mv "$room/arm/libtablet.a" "$arm/libtablet.a"
hostile=$(tail -n 1 <<<"$wanted")
say "$arm/libtablet.a: $changed of $lines lines changed; $held lines of vectors, $hostile as on x86-64, case P, stack: all passed"
