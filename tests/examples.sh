#!/usr/bin/env bash
# Builds the examples in C with the library that tests/linked.sh makes, runs them, and looks in README.md for what they print.
#   tests/examples.sh
# CC names the compiler and RUN what runs an x86-64 program, where the machine is another.
set -eu
cd "$(dirname "$0")/.."
readme="$(< README.md)"
try() { # NAME ARGUMENTS
    name=$1
    shift
    ${CC:-cc} -std=c11 -O2 -Wall -Wextra -pedantic -Iinclude "examples/c/$name.c" target/staticlib/libctxp.a -o "target/$name"
    ${RUN:-} "target/$name" "$@" > "target/$name.out" || { cat "target/$name.out"; echo "examples/c/$name.c ended with a failure"; exit 1; }
    printed="$(sed 's/^/    /' "target/$name.out")"
    [[ "$readme" == *"$printed"* ]] || { cat "target/$name.out"; echo "README.md does not have what examples/c/$name.c prints"; exit 1; }
}
try example
try dial examples/ezw.txp
try picture target/picture.txp
echo "all three print what README.md has"
