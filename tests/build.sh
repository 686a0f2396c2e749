#!/usr/bin/env bash
# Proves and builds what programs in C are linked with, or the program that shows a file.
#   tests/build.sh library    target/staticlib/libctxp.a, of crate ctxp_c
#   tests/build.sh txpshow    target/bin/txpshow
set -eu
cd "$(dirname "$0")/.."
mkdir -p target/staticlib target/bin
case "${1:-}" in
library)
    (cd crates/ctxp_c && rt lib)
    cp crates/ctxp_c/out/libctxp_c.a target/staticlib/libctxp.a
    ;;
txpshow)
    (cd crates/txpshow && rt run <../../examples/ezw.txp)
    cp crates/txpshow/out/txpshow target/bin/txpshow
    ;;
*)
    echo "tests/build.sh library|txpshow" >&2
    exit 2
    ;;
esac
