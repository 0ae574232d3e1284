#!/usr/bin/env bash
# The tests of bindings/, outside the gate:
#
#     bash tools/bindings.sh
#
# builds the proved library, puts all vectors and hostile bytes to its calls from C, and runs the tests of the Rust wrappers, of the header's
# declarations, of the plain implementation and of the judge.
set -eu
unset CDPATH
cd -- "$(dirname -- "$0")/.."
# shellcheck source=tools/foreign.sh
. tools/foreign.sh
want_rust
cargo=cargo
# A compiler of Debian's goes with Debian's cargo.
[ "$rust" = rustc ] || cargo=/usr/bin/cargo
want "$cargo" cargo
library

say "from C: all vectors, hostile calls"
c_program vectors
c_program hostile
vectors_hold "${emulator[@]}" target/foreign/vectors
"${emulator[@]}" target/foreign/hostile

arguments=()
if [ ${#emulator[@]} != 0 ]; then
    arguments=(--target x86_64-unknown-linux-gnu)
    export CARGO_TARGET_X86_64_UNKNOWN_LINUX_GNU_LINKER=x86_64-linux-gnu-gcc
    export CARGO_TARGET_X86_64_UNKNOWN_LINUX_GNU_RUNNER=${emulator[0]}
    export RUSTFLAGS="-C target-feature=+crt-static"
fi
export RUSTC=$rust CARGO_TARGET_DIR=$PWD/target/foreign/cargo
say "testing, with $("$cargo" --version)"
log=target/foreign/tests.log
(
    set -o pipefail
    "$cargo" test --release --offline "${arguments[@]}" --manifest-path bindings/Cargo.toml 2>&1 | tee "$log"
)
say "$(awk '/^test result:/ { passed += $4 } END { print passed }' "$log") tests in Rust and $held lines from C passed"
