#!/usr/bin/env bash
# bash tools/check.sh: what can be looked at without the prover. The pages hold what the tree has, every file that a script makes is what it would make
# again, and the separate implementation holds to document 01. A line for each, exit 1 if any fails. It writes nothing, and takes some five minutes.
set -u
unset CDPATH
cd -- "$(dirname -- "$0")/.." || exit 2
said=$(mktemp) || exit 2
trap 'rm -f "$said"' EXIT
held=0 failed=0

# A check: its name, then its command. What it printed is shown where it fails.
check() {
    local name=$1
    shift
    if "$@" >"$said" 2>&1; then
        held=$((held + 1))
        printf 'held    %s\n' "$name"
    else
        failed=$((failed + 1))
        printf 'FAILED  %s: %s\n' "$name" "$*"
        sed 's/^/        /' "$said"
    fi
}

# All in one function, which is read whole before it runs: an editor may save this file meanwhile.
all() {
    check 'the pages and the tree' python3 tools/check/docs.py
    check 'a lie in a page is seen' python3 tools/check/lies.py
    # Where a library is there: that of YUBI_LIB_DIR, or the one that tools/library.sh wrote.
    if [ -f "${YUBI_LIB_DIR:-target/staticlib}/libtablet.a" ]; then
        check 'the lines of C in README.md' bash tools/check/readme.sh
    else
        printf 'left    the lines of C in README.md: no libtablet.a in %s\n' "${YUBI_LIB_DIR:-target/staticlib}"
    fi
    check 'docs/proofs/BELIEVED.md' python3 tools/check/believed.py --check
    check 'docs/CRATES.md and docs/house.svg' python3 tools/make/house.py --check
    check 'docs/bench.svg' python3 tools/make/plot.py --check
    check 'docs/proofs/CONTRACTS.md' python3 tools/make/contracts.py --check
    check 'docs/proofs/EDITS.md' python3 tools/make/edits.py --check
    check 'docs/proofs/TIMES.md' python3 tools/make/times.py --check
    check 'the numbers in include/, crates/ and bindings/' python3 tools/make/number_table.py --check
    check 'data of test_tables' python3 tools/make/field_vectors.py --check
    check 'data of test_polynomials' python3 tools/make/poly_vectors.py --check
    check 'data of test_tuples' python3 tools/make/tuple_vectors.py --check
    check 'data of test_tally, census and test_census' python3 tools/make/scenarios.py --check
    check 'demo/' python3 tools/make/demo.py --check
    check 'street corners of test_vectors' python3 tools/make/corners.py --check
    check 'data of test_vectors, seed 1' python3 tools/make/vectors.py 1 --check
    check 'the separate implementation' python3 tools/check/selfcheck.py
    printf '%d checks, %d held, %d failed\n' $((held + failed)) "$held" "$failed"
    [ "$failed" -eq 0 ]
}

all; exit
