#!/usr/bin/env bash
# What a firm links and a crew runs, without a prover:
#
#     bash tools/release.sh           for x86-64 Linux: the programs, the library, its header
#     bash tools/release.sh --arm     that, and for 64-bit Arm Linux the library and its header (tools/arm.sh)
#
# makes target/dist/yubisorade-VERSION-TRIPLE and a .tar.gz of it, with files for pkg-config and CMake, an example, checksums, the version and the
# toolchain's own (`rt version`); target/dist/SHA256SUMS has the archives' checksums. The same sources and toolchain make the same bytes. Then it unpacks
# each outside this checkout, with no rt on the PATH, and builds the example by make, by CMake and by hand and runs the programs: exit 1 where one doesn't
# print what it must.
set -eu
unset CDPATH
cd -- "$(dirname -- "$0")/.."
# shellcheck source=tools/foreign.sh
. tools/foreign.sh
case ${1:-} in
'' | --arm) ;;
*) fail "usage: bash tools/release.sh [--arm]" ;;
esac
[ -z "${YUBI_LIB_DIR:-}" ] || fail "a release is made from this checkout's own library: unset YUBI_LIB_DIR"
[ ${#emulator[@]} = 0 ] || fail "a release is made on x86-64, for which the toolchain builds; this machine is $(uname -m)"
want_c
want make make
want cmake cmake
want pkg-config pkg-config
library
for name in tally census; do made crates/$name/out/$name $name in_crate $name run; done
[ "${1:-}" != --arm ] || env -u YUBI_LIB_DIR bash tools/arm.sh

version=$(cat VERSION)
templates=bindings/dist
dist=$PWD/target/dist
room=$(mktemp -d)
trap 'rm -rf "$room"' EXIT
case $room/ in "$PWD"/*) fail "a temporary folder in this checkout: name another in TMPDIR" ;; esac
rm -rf "$dist"

# filled FILE: a template, with the version and the words for this machine in their places.
filled() {
    awk -v version="$version" -v triple="$triple" -v programs="$programs" -v run="$run" -v proved="$proved" '
        { gsub(/@VERSION@/, version); gsub(/@MAJOR@/, version + 0); gsub(/@TRIPLE@/, triple) }
        /^@PROGRAMS@$/ { if (programs) print programs; next }
        /^@RUN@$/ { print run; next }
        /^@PROVED@$/ { print proved; next }
        { print }' "$templates/$1"
}

# laid LIBRARY: the folder for $triple, and its archive.
laid() {
    local to=$dist/yubisorade-$version-$triple
    mkdir -p "$to/include" "$to/lib/pkgconfig" "$to/lib/cmake/yubisorade" "$to/example/case-p"
    cp include/*.h "$to/include/"
    cp "$1" "$to/lib/libtablet.a"
    filled yubisorade.pc.in >"$to/lib/pkgconfig/yubisorade.pc"
    cp $templates/yubisorade-config.cmake "$to/lib/cmake/yubisorade/"
    filled yubisorade-config-version.cmake.in >"$to/lib/cmake/yubisorade/yubisorade-config-version.cmake"
    cp bindings/c/example.c $templates/Makefile $templates/CMakeLists.txt "$to/example/"
    cp demo/case-p/curve demo/case-p/batch "$to/example/case-p/"
    if [ -n "$programs" ]; then
        mkdir "$to/bin"
        cp crates/tally/out/tally crates/census/out/census "$to/bin/"
    fi
    filled README.in >"$to/README"
    cp VERSION "$to/"
    rt version >"$to/TOOLCHAIN"
    (cd -- "$to" && find . -type f | sed 's,^\./,,' | LC_ALL=C sort | xargs sha256sum) >"$room/sums"
    mv "$room/sums" "$to/SHA256SUMS"
    tar -C "$dist" --sort=name --mtime=@0 --owner=0 --group=0 --numeric-owner --mode=u+rwX,go+rX,go-w -cf - "${to##*/}" | gzip -9n >"$to.tar.gz"
    files=$((files + $(find "$to" -type f | wc -l)))
}

# outside COMMAND..: runs it with nothing of this shell but a PATH that has no rt.
outside() {
    local path='' folder
    local -a folders
    IFS=: read -ra folders <<<"$PATH"
    for folder in "${folders[@]}"; do [ -x "$folder/rt" ] || path+=${path:+:}$folder; done
    env -i PATH="$path" HOME="$room" "$@"
}

# prints NAME EXPECTED COMMAND..: runs it and holds what it prints to the text.
prints() {
    local name=$1 expected=$2 printed
    shift 2
    printed=$("$@") || fail "$triple, $name: it failed"
    [ "$printed" = "$expected" ] || fail "$triple, $name printed: $printed"
    say "$triple, $name: prints what it must"
    ways=$((ways + 1))
}

# tried EMULATOR..: the archive for $triple, unpacked elsewhere and linked in three ways by $cc.
tried() {
    local at=$room/$triple here=$room/$triple/yubisorade-$version-$triple case_p static=()
    case_p=$(cat crates/tally/stdout)
    [ ${#cc[@]} = 1 ] || static=(-static)
    mkdir "$at"
    tar -C "$at" -xzf "$dist/yubisorade-$version-$triple.tar.gz"
    (cd -- "$here" && sha256sum --quiet -c SHA256SUMS) || fail "$triple: a checksum is wrong"
    if outside sh -c 'command -v rt' >/dev/null; then fail "rt is on the PATH"; fi

    cp -r "$here/example" "$at/made"
    outside make -s -C "$at/made" PKG_CONFIG_PATH="$here/lib/pkgconfig" CC="${cc[0]}" LDFLAGS="${static[*]}"
    prints "make and pkg-config" "$case_p" outside "$@" "$at/made/example"

    cp -r "$here/example" "$at/configured"
    {
        outside cmake -S "$at/configured" -B "$at/configured/build" -DCMAKE_PREFIX_PATH="$here" -DCMAKE_C_COMPILER="${cc[0]}" \
            -DCMAKE_EXE_LINKER_FLAGS="${static[*]}"
        outside cmake --build "$at/configured/build"
    } >"$room/cmake.log" 2>&1 || { cat "$room/cmake.log" >&2; fail "$triple: CMake failed"; }
    prints CMake "$case_p" outside "$@" "$at/configured/build/example"

    outside "${cc[@]}" "-I$here/include" -o "$at/example" "$here/example/example.c" "$here/lib/libtablet.a"
    prints "by hand" "$case_p" outside "$@" "$at/example"
}

files=0 ways=0
triple=x86_64-linux-gnu
programs="  bin/tally, bin/census        the programs, for glibc 2.34 or newer: each reads its files in the folder that it is called in"
run='
The programs, in a folder with the files curve and batch, or with a file curve:

  cd HERE/example/case-p && HERE/bin/tally     the three lines above
  cd HERE/example/case-p && HERE/bin/census    every valid divisor of the curve, a record a line

What they refuse is one line, refused NUMBER PLACE: the header says what each number means and what to do.
'
proved="Each function of the library and of the programs was proved to meet its contract, to do nothing undefined and to end, before it was compiled."
needed=$(needs nm target/staticlib/libtablet.a)
[ "$needed" = "memcpy memset" ] || fail "the library needs $needed"
laid target/staticlib/libtablet.a
tried

# The programs.
at=$room/$triple/yubisorade-$version-$triple
prints bin/tally "$(cat crates/tally/stdout)" outside env -C "$at/example/case-p" "$at/bin/tally"
cp crates/census/data/curve "$at/example/curve"
prints bin/census "$(cat crates/census/stdout)" outside env -C "$at/example" "$at/bin/census"

if [ "${1:-}" = --arm ]; then
    triple=aarch64-linux-gnu
    programs='' run=''
    proved="Each function of the library was proved to meet its contract, to do nothing undefined and to end. The module that was compiled is that of the
x86-64 library, but for the lines that say how a struct is handed over on Arm; it was tested under an emulator, and is no target of the toolchain's own."
    cc=(aarch64-linux-gnu-gcc -static)
    laid target/arm/libtablet.a
    tried qemu-aarch64
fi
(cd -- "$dist" && sha256sum ./*.tar.gz | sed 's, \./, ,') >"$room/sums"
mv "$room/sums" "$dist/SHA256SUMS"
say "in target/dist: archives $(wc -l <"$dist/SHA256SUMS"), files $files, ways to use them $ways, all of which print what they must"
