#!/usr/bin/env bash
# Compiles and runs the lines of C that README.md prints, as they stand there, and holds what they print to README.md's line. They must be at most twelve.
# The library is that of YUBI_LIB_DIR, or the one that tools/library.sh wrote; nothing is proved here: where there is neither, the exit status is 2.
set -eu
unset CDPATH
cd -- "$(dirname -- "$0")/../.."
. tools/foreign.sh
YUBI_LIB_DIR=${YUBI_LIB_DIR:-$PWD/target/staticlib}
if [ ! -f "$YUBI_LIB_DIR/libtablet.a" ]; then
    echo "no libtablet.a: set YUBI_LIB_DIR to its folder, or run bash tools/library.sh" >&2
    exit 2
fi
want_c
mkdir -p target/foreign
awk '/^```/ { inside = $0 == "```c"; next } inside' README.md >target/foreign/readme.c
lines=$(wc -l <target/foreign/readme.c)
if [ "$lines" -lt 5 ] || [ "$lines" -gt 12 ]; then fail "README.md has $lines lines of C, and at most twelve are wanted"; fi
"${cc[@]}" -std=c99 -pedantic -Wall -Wextra -Wconversion -Werror -O2 -Iinclude -o target/foreign/readme target/foreign/readme.c "$YUBI_LIB_DIR/libtablet.a"
printed=$("${emulator[@]}" target/foreign/readme) || fail "the lines of C in README.md end with $? and print \"$printed\""
expected=$(sed -n '/&& \.\/sum$/{n;s/^    //p}' README.md)
if [ "$printed" != "${expected:-nothing}" ]; then fail "README.md says \"$expected\", and its lines of C print \"$printed\""; fi
echo "$lines lines of C in README.md print $printed"
