#!/usr/bin/env bash
# The library that C and Rust link:
#
#     bash tools/library.sh
#
# proves the crate tablet_c and all beneath it and writes target/staticlib/libtablet.a, for x86-64 Linux. Where no source, the toolchain nor the archive
# has changed since it was made, it says so and does nothing.
set -eu
unset CDPATH
cd -- "$(dirname -- "$0")/.."
# shellcheck source=tools/foreign.sh
. tools/foreign.sh
[ -z "${YUBI_LIB_DIR:-}" ] || fail "the library is made from this checkout: unset YUBI_LIB_DIR"
library
say "$YUBI_LIB_DIR/libtablet.a"
