#!/usr/bin/env bash
# Builds the static library, sees that it asks nothing of others but memset, links tests/linked.c with it and holds it to the
# second coder's cases.
#   tests/linked.sh [DIR...]  DIR/stdin has the cases and DIR/stdout what is printed for them: by default crates/second
# CC names the compiler, NM what lists an archive's names and RUN what runs an x86-64 program, where the machine is another.
set -euo pipefail
[ $# -gt 0 ] || set -- "$(dirname "$0")/../crates/second"
mapfile -t dirs < <(realpath "$@")
cd "$(dirname "$0")/.."
mkdir -p target
tests/build.sh library > target/staticlib.log 2>&1 || { tail -20 target/staticlib.log; exit 1; }
asked=$(${NM:-nm} -u target/staticlib/libctxp.a | awk '$1 == "U" && $2 != "memset" { print $2 }' | sort -u)
if [ -n "$asked" ]; then
    printf 'the library asks others for %s\n' $asked
    exit 1
fi
${CC:-cc} -std=c11 -O2 -Wall -Wextra -pedantic -Iinclude tests/linked.c target/staticlib/libctxp.a -o target/linked
for dir in "${dirs[@]}"; do
    ${RUN:-} target/linked < "$dir/stdin" > target/linked.out
    diff "$dir/stdout" target/linked.out | head -20
    cmp "$dir/stdout" target/linked.out
done
awk '$2 == "agree" || $3 == "agree" { cases += $2; agree += $4 } END { print "cases " cases " agree " agree ", the others as they must" }' "${dirs[@]/%//stdout}"
