#!/usr/bin/env bash
# The stack that the library's calls want:
#
#     bash tools/stack.sh
#
# looks at the built library for a function that touches its stack step by step behind a branch (docs/DECISIONS.md, 46: there the compiler
# was seen to overwrite a register in use); adds up the frames along every way of calls, which no input can pass; and runs every call on the
# smallest stack that the header promises to be enough (bindings/c/stack.c). Exit 1 where one isn't as it must be.
set -eu
unset CDPATH
cd -- "$(dirname -- "$0")/.."
# shellcheck source=tools/foreign.sh
. tools/foreign.sh
want_c
library
objdump=objdump binutils=binutils
[ ${#emulator[@]} = 0 ] || objdump=x86_64-linux-gnu-objdump binutils=binutils-x86-64-linux-gnu
want $objdump $binutils
mkdir -p target/foreign
listing=target/foreign/listing
$objdump -dr --no-show-raw-insn "$YUBI_LIB_DIR/libtablet.a" >$listing

# Reads a listing: a step of stack is `sub $0xc00,%rsp` and a store there. Prints each function that takes such steps, and exits 1 where one does
# so behind a jump, a call or a return, or where none does: then the step has another length.
probes() {
    awk '
        /^[0-9a-f]+ <.*>:$/ { name = $2; gsub(/^<|>:$/, "", name); left = ""; taken = 0; page = 0 }
        /^ *[0-9a-f]+:\t/ {
            if (page && $2 == "movq" && $3 ~ /^\$0x0,(0x0)?\(%rsp\)$/) {
                if (!taken) { print name ": touches its stack step by step" (left ? " BEHIND " left : ", first of all") }
                if (!taken && left) { bad = 1 }
                taken = any = 1
            }
            page = $2 ~ /^subq?$/ && $3 == "$0xc00,%rsp"
            if (!taken && $2 ~ /^(j|call|ret)/) { left = $2 }
        }
        END { exit bad || !any }'
}

say "stack touched step by step"
# shellcheck disable=SC2016
if printf '0000 <early>:\n   0:\ttest   %%rdi,%%rdi\n   3:\tje     40 <early+0x40>\n   5:\tsub    $0xc00,%%rsp\n   c:\tmovq   $0x0,(%%rsp)\n' | probes >/dev/null; then
    fail "the check sees no fault where there is one"
fi
probes <$listing || fail "a function touches its stack behind a branch"

# room NAME: a number of the header.
room() {
    awk -v name="$1" '$1 == "#define" && $2 == name { print $3 }' include/yubisorade.h
}

# Reads a listing with its relocations: for each export, the most that its frames and those of what it calls add up to, with a return address each. Every
# push and every step of the stack pointer in a function counts, also where a way through it has fewer, and what it touches below that. memcpy and memset
# count as their return address. Exits 1 where an export passes its room, a function calls itself or one that isn't there, or calls by a register; and
# where the header doesn't say the two numbers that come out.
bounds() {
    awk -v most="$(room YUBI_STACK_ROOM)" -v for_repeat="$(room YUBI_REPEAT_STACK_ROOM)" '
        function hex(digits,   i, n) {
            for (i = 1; i <= length(digits); i++) n = 16 * n + index("123456789abcdef", substr(digits, i, 1))
            return n
        }
        # The number of `$0x123,%rsp`.
        function step(operands) { sub(/^\$0x/, "", operands); sub(/,.*/, "", operands); return hex(operands) }
        function wrong(words) { print words; bad = 1 }
        function depth(name,   called, n, k, deepest, d) {
            if (name == "memcpy" || name == "memset") return 0
            if (!(name in frame)) { wrong("no function " name); return 0 }
            if (name in open) { wrong(name " calls itself"); return 0 }
            if (name in whole) return whole[name]
            open[name]
            deepest = below[name]
            n = split(calls[name], called, "\n")
            for (k = 2; k <= n; k++) if ((d = 8 + depth(called[k])) > deepest) deepest = d
            delete open[name]
            return whole[name] = frame[name] + deepest
        }
        /^[0-9a-f]+ <.*>:$/ { name = $2; gsub(/^<|>:$/, "", name); frame[name] += 0; next }
        /^\t\t\t[0-9a-f]+: R_X86_64_PLT32/ {
            target = $3
            sub(/-0x4$/, "", target)
            sub(/^\.text\./, "", target)
            calls[name] = calls[name] "\n" target
        }
        /^ *[0-9a-f]+:\t/ {
            if ($2 ~ /^push/) frame[name] += 8
            # Steps in a loop go down to %r11, and the one that the loop has is among them.
            if ($2 ~ /^subq?$/ && $3 ~ /^\$0x[0-9a-f]+,%rsp$/ && !loops--) frame[name] += step($3)
            if (loops < 0) loops = 0
            if ($2 ~ /^subq?$/ && $3 ~ /^\$0x[0-9a-f]+,%r11$/ && last == "mov %rsp,%r11") { frame[name] += step($3); loops = 1 }
            if (match($0, /-0x[0-9a-f]+\(%rsp\)/) && (d = hex(substr($0, RSTART + 3, RLENGTH - 9))) > below[name]) below[name] = d
            if ($2 ~ /^(and|enter|leave)/ && $3 ~ /%rsp/) wrong(name ": " $2 " " $3)
            if ($2 ~ /^call/ && $3 ~ /^\*/) wrong(name " calls by a register")
            last = $2 " " $3
        }
        END {
            for (name in frame) if (name ~ /^yubi_/) {
                d = 8 + depth(name)
                exports++
                if (d > (name == "yubi_first_repeat" ? for_repeat : most)) wrong(name " may take " d " bytes")
                if (name == "yubi_first_repeat") repeats = d
                else if (d > largest) { largest = d; by = name }
            }
            if (exports != 19) wrong(exports + 0 " exports")
            said = "add up to at most " largest " bytes of stack, in " by ", and in yubi_first_repeat to " repeats
            print "frames " said
            while ((getline line <"include/yubisorade.h") > 0) { sub(/^ \* */, "", line); header = header " " line }
            if (!index(header, said)) wrong("include/yubisorade.h doesn\047t say so")
            exit bad
        }'
}

say "frames along every way of calls"
# shellcheck disable=SC2016
for fault in 'sub    $0x5000,%%rsp\n' 'movq   $0x0,-0x7f000(%%rsp)\n' 'call   5 <f>\n\t\t\t6: R_X86_64_PLT32\tyubi_add-0x4\n' 'call   *%%rax\n'; do
    # shellcheck disable=SC2059
    if { cat $listing; printf "0000 <yubi_add>:\\n   0:\\t$fault"; } | bounds >/dev/null; then fail "the check sees no fault where there is one"; fi
done
bounds <$listing || fail "a call may take more stack than the header promises"

say "every call on the smallest stack that the header promises"
"${cc[@]}" -std=c99 -Wall -Wextra -Wconversion -pedantic -Werror -O2 -Iinclude -o target/foreign/stack bindings/c/stack.c "$YUBI_LIB_DIR/libtablet.a"
"${emulator[@]}" target/foreign/stack
