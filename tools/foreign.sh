# shellcheck shell=bash disable=SC2034,SC2317
# Sourced, at the repository's root, by the scripts that link the static library from other languages: library.sh, judge.sh, bench.sh, yardsticks.sh,
# stack.sh, bindings.sh, release.sh and arm.sh here, and bindings/c/build.sh. It has the library, and compilers that link it. The library is for x86-64: there
# programs run as they are, elsewhere they are built for x86-64 by Debian's cross tools and run by Debian's emulator. (Those scripts use what shellcheck
# sees no use of here.)
unset CDPATH

say() { echo "== $*"; }
fail() { echo "$*" >&2; exit 1; }

# The emulator to run a program with, if any; the compilers, and their flags.
emulator=()
cc=(cc)
rust=rustc
rust_flags=()
if [ "$(uname -m)" != x86_64 ]; then
    emulator=(qemu-x86_64)
    cc=(x86_64-linux-gnu-gcc -static)
    rust_flags=(--target x86_64-unknown-linux-gnu -C linker=x86_64-linux-gnu-gcc -C target-feature=+crt-static)
fi

# install_packages PACKAGE..: Debian's packages, without their lines; waits where another one installs.
install_packages() {
    local log=target/foreign/apt.log
    mkdir -p target/foreign
    say "installing $*"
    { apt-get -qq update && DEBIAN_FRONTEND=noninteractive apt-get -qq -y -o DPkg::Lock::Timeout=600 install "$@"; } >"$log" 2>&1 ||
        { tail -n 20 "$log" >&2; fail "$* weren't installed; $log has what apt-get said"; }
}

# want COMMAND PACKAGE..: installs Debian's packages unless the command is there.
want() {
    local command=$1
    shift
    command -v "$command" >/dev/null && return
    command -v apt-get >/dev/null || fail "$command isn't there, and this isn't Debian: install what has it ($*)"
    [ "$(id -u)" = 0 ] || fail "$command isn't there: as root, apt-get install $*"
    install_packages "$@"
}

want_c() {
    if [ ${#emulator[@]} = 0 ]; then
        want cc gcc libc6-dev
    else
        want x86_64-linux-gnu-gcc gcc-x86-64-linux-gnu
        want qemu-x86_64 qemu-user
    fi
}

# Whether there is a Rust compiler that links programs for x86-64; it is left in `rust`. Debian's may stand behind another one on the PATH.
rust_links() {
    mkdir -p target/foreign
    for rust in rustc /usr/bin/rustc; do
        "$rust" "${rust_flags[@]}" --crate-type bin --crate-name probe --out-dir target/foreign - <<<'fn main() {}' 2>/dev/null && return
    done
    return 1
}

want_rust() {
    want_c
    if [ ${#emulator[@]} = 0 ]; then
        want rustc rustc
    elif ! rust_links; then
        [ "$(id -u)" = 0 ] || fail "no Rust for x86-64: run this once as root, it installs Debian's"
        dpkg --add-architecture amd64
        install_packages rustc libstd-rust-dev:amd64 libc6-dev:amd64
        rust_links || fail "Debian's rustc doesn't link programs for x86-64 here"
    fi
}

# The crates that a crate stands on, itself among them, by crates.txt.
crates_beneath() {
    awk -v name="$1" '
        function take(crate,   uses, n, k) {
            if (!(crate in line) || crate in taken) return
            taken[crate] = 1
            print crate
            n = split(line[crate], uses, " ")
            for (k = 1; k <= n; k++) take(uses[k])
        }
        { sub(/#.*/, "") }
        split($0, part, ":") == 2 { sub(/ .*/, "", part[1]); line[part[1]] = part[2] }
        END { take(name) }' crates.txt
}

# made_of FILE CRATE: a line that is another one where the toolchain, a source of the crate or of one beneath it, or the file itself has changed.
made_of() {
    {
        rt version
        crates_beneath "$2" | sort | while IFS= read -r crate; do
            find "crates/$crate" -type f \( -path '*/src/*' -o -path '*/specs/*' -o -path '*/proofs/*' \) -exec sha256sum {} + | sort -k 2
        done
        sha256sum <"$1"
    } | sha256sum
}

# Reads what rt prints and shows how many crates are proved: on one line that is redrawn, or a line for every tenth where standard error is no terminal.
proving() {
    local all=$1 proved=0 line
    while IFS= read -r line; do
        [[ $line =~ ^'crate '([a-z0-9_]+)': modules '.*$ ]] || continue
        proved=$((proved + 1))
        if [ -t 2 ]; then
            printf '\r\033[K== %d of %d crates proved (%s)' "$proved" "$all" "${BASH_REMATCH[1]}" >&2
        elif [ $((proved % 10)) = 0 ]; then
            printf '== %d of %d crates proved\n' "$proved" "$all" >&2
        fi
    done
    [ ! -t 2 ] || printf '\r\033[K' >&2
}

# made FILE CRATE COMMAND..: has the command, a function that calls rt, prove the crate and write FILE, unless nothing that it is made of has changed
# since it was made here. The prover's lines go to a file.
made() {
    local file=$1 crate=$2 mark=target/foreign/made/${1//\//-} log=target/foreign/rt.log
    shift 2
    if [ -f "$file" ] && [ -f "$mark" ] && [ "$(cat "$mark")" = "$(made_of "$file" "$crate")" ]; then
        say "$file as it was built: its sources haven't changed"
        return
    fi
    say "proving and building $file ($*)"
    mkdir -p "${mark%/*}"
    rm -f "$mark"
    (
        set -o pipefail
        "$@" 2>&1 | tee "$log" | proving "$(crates_beneath "$crate" | wc -l)"
    ) || { tail -n 20 "$log" >&2; fail "$file wasn't built; $log has what the prover said"; }
    made_of "$file" "$crate" >"$mark"
}

# in_crate CRATE WORD..: rt in the crate's folder.
in_crate() {
    local crate=$1
    shift
    (cd -- "crates/$crate" && exec rt "$@")
}

# Proves and builds what C links: `rt lib` of the crate tablet_c makes the archive.
build_library() {
    in_crate tablet_c lib && mkdir -p target/staticlib && cp crates/tablet_c/out/libtablet_c.a target/staticlib/libtablet.a
}

# Has the library proved and built, and leaves its folder in YUBI_LIB_DIR. Where that is set already, the library there is taken as it is.
library() {
    if [ -n "${YUBI_LIB_DIR:-}" ]; then
        say "the library in $YUBI_LIB_DIR"
    else
        command -v rt >/dev/null || fail "this needs Rattle's command rt, or a folder with libtablet.a in YUBI_LIB_DIR"
        made target/staticlib/libtablet.a tablet_c build_library
        YUBI_LIB_DIR=$PWD/target/staticlib
    fi
    [ -f "$YUBI_LIB_DIR/libtablet.a" ] || fail "$YUBI_LIB_DIR has no libtablet.a"
    export YUBI_LIB_DIR
}

# c_program NAME [FOLDER]: builds bindings/c/NAME.c with the library, to FOLDER/NAME, which is target/foreign where left out.
c_program() {
    local name=$1 to=${2:-target/foreign}
    mkdir -p "$to"
    "${cc[@]}" -std=c99 -Wall -Wextra -Wconversion -pedantic -Werror -O2 -Iinclude -o "$to/$name" "bindings/c/$name.c" "$YUBI_LIB_DIR/libtablet.a"
}

# vectors_hold WORD..: holds what bindings/c/vectors.c, run by these words, prints of all vectors and corners to what is expected. How many lines that
# is, is left in `held`.
vectors_hold() {
    local data=crates/test_vectors/data expected=crates/test_vectors/stdout printed=target/foreign/lines
    "$@" "$data"/vectors.? "$data"/corners.? >"$printed" || fail "the vectors ended early"
    cmp "$printed" "$expected" || fail "the vectors have other lines than $expected"
    held=$(wc -l <"$expected")
    say "$held lines of vectors, all as expected"
}

# needs NM LIBRARY: what the library doesn't have itself.
needs() { "$1" -u "$2" | sed -n 's/^ *U //p' | sort -u | paste -sd' '; }

# rust_program NAME: builds bindings/NAME with both engines, by rustc alone, to target/foreign/NAME.
rust_program() {
    local name=$1 to=target/foreign
    local rustc=("$rust" --edition 2021 -O -C codegen-units=1 "${rust_flags[@]}" --out-dir "$to" -L "$to")
    say "building bindings/$name with $("$rust" --version)"
    mkdir -p "$to"
    "${rustc[@]}" --crate-type rlib --crate-name plain bindings/plain/src/lib.rs
    "${rustc[@]}" --crate-type rlib --crate-name yubisorade -L native="$YUBI_LIB_DIR" bindings/rust/src/lib.rs
    "${rustc[@]}" --crate-type bin --crate-name "$name" --cfg 'feature="proved"' \
        --extern plain="$to/libplain.rlib" --extern yubisorade="$to/libyubisorade.rlib" "bindings/$name/src/main.rs"
}

# Whether there is a counter of instructions: its name is left in `counter`, and `executed PROGRAM WORD..` prints what a run executes.
want_counter() {
    if command -v qemu-x86_64 >/dev/null; then
        counter="qemu-x86_64 with bindings/bench/insn.c"
        want cc gcc libc6-dev
        cc -shared -fPIC -O2 -o target/foreign/libinsn.so bindings/bench/insn.c
        executed() { qemu-x86_64 -plugin target/foreign/libinsn.so "$@" 2>&1 | sed -n 's/^insns //p'; }
    elif command -v valgrind >/dev/null; then
        counter=valgrind
        executed() { valgrind --tool=callgrind --callgrind-out-file=/dev/null "$@" 2>&1 | sed -n 's/.*Collected : //p'; }
    else
        say "no instructions counted: neither qemu-x86_64 (package qemu-user) nor valgrind is there"
        return 1
    fi
}
