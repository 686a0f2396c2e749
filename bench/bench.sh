#!/bin/sh
# Counts the instructions that encode and decode execute on a whole stream, in plain C, in C written for speed, and in
# the proved library through its C interface; those of encode with a budget of no bits and of one per cent of the stream,
# and of decode where the stream is cut, by the same three, and of the library's default rule beside the midpoint; those of
# the planes and of the change between the two orders of a whole array, in plain C and in the library; those of the figures
# of one plane and of all; those of the transform of samples, forward and back, by the three; those of the dial, turned over
# a whole stream and back, beside decoding it once; then the times of the coders, of the dial's steps and of the transform
# on this machine.
# The streams are of 256 by 256 and of 1,024 by 1,024, the latter with two numbers of levels; the cut ones of 256 by 256.
#   sh bench/bench.sh [REPS]
# Needs gcc and valgrind. On a machine that is not x86-64 it needs gcc, Debian's gcc-x86-64-linux-gnu and qemu-user: the
# instructions are then counted in the emulator (bench/count.c), which has those of the dial's longest step too, and no
# times are taken.
# The counts repeat exactly; the times don't. bench/turns.sh takes the times of the coders in turn in one process, beside C at -O3
# and a coder with lists too, counts mispredicted branches, and holds the library to bars.
set -eu
cd "$(dirname "$0")/.."
tests/build.sh library >&2
room=$(mktemp -d)
trap 'rm -rf "$room"' EXIT
cc=gcc
[ "$(uname -m)" = x86_64 ] || cc='x86_64-linux-gnu-gcc -static'
$cc -std=gnu11 -O2 -ffp-contract=off bench/bench.c bench/nls_summaries.c bench/nls_plain.c bench/nls_fast.c bench/nls_orders.c bench/nls_transform.c bench/nls_txp.c target/staticlib/libctxp.a -o "$room/bench"
if [ "$cc" != gcc ]; then
    gcc -O2 -fPIC -shared bench/count.c -o "$room/count.so"
    named=$(x86_64-linux-gnu-nm "$room/bench" | awk '$3 ~ /^(txp_bench|nls_(plain|fast))_(encode|decode|lower|planes|linear|raster|one|all|forward|back|up|down|transform|restore)$/ { printf ",%s=%s", $3, $1 }')
fi
run() { # ARGUMENTS of the program; what the functions that it ran executed is left in $room/text
    if [ "$cc" = gcc ]; then
        valgrind --quiet --tool=callgrind --callgrind-out-file="$room/out" "$room/bench" "$@"
        callgrind_annotate --inclusive=yes --threshold=100 "$room/out" >"$room/text"
    else
        qemu-x86_64 -plugin "$room/count.so$named" "$room/bench" "$@" 2>"$room/text"
    fi
}
count() { grep -E "[:*]$1( |\$)" "$room/text" | head -1 | sed -e 's/^ *\([0-9,]*\).*/\1/' -e 's/,//g'; }
# CODER CALL; the coder `lower` is the library's default decoding, `txp` decodes by the midpoint, as the codes in C
counted() { case $1 in txp) count "txp_bench_$2" ;; lower) count txp_bench_lower ;; *) count "nls_$1_$2" ;; esac; }
ratio() { echo "$1 $2" | awk '{printf "%.3f", $1 / $2}'; }
most() { sed -n "s/^\([0-9]*\) most txp_bench_$1\$/\1/p" "$room/text" | grep . || echo -; } # CALL: the instructions of its longest, in the emulator
columns() { # UNITS 'A UNIT' CALL CALL: what stands above the rows
    printf '%4s %2s %-6s %-5s %9s %13s %6s %8s %6s %13s %6s %8s %6s\n' side L planes coder "$1" "$3 insns" 'to C' "$2" 'to 256' "$4 insns" 'to C' "$2" 'to 256'
}
# N L PLANES CODER UNITS CALL CALL: a row. For each call its instructions, their ratio to those of plain C, how many they
# are a unit (a coded bit, an entry, a sample), and the ratio of that to the same coder's at 256 by 256.
row() {
    echo "$1 $2 $3 $4 $5 $(counted "$4" "$6") $(counted "$4" "$7")" >>"$room/rows"
    awk '{ kind = $3 $4; x = $6 / $5; y = $7 / $5 }
        $4 == "plain" { cx = $6; cy = $7 }
        $1 == 8 { x8[kind] = x; y8[kind] = y }
        END { printf "%4d %2s %-6s %-5s %9d %13d %6.3f %8.3f %6.3f %13d %6.3f %8.3f %6.3f\n", 2 ^ $1, $2, $3, $4, $5, $6, $6 / cx, x, x / x8[kind], $7, $7 / cy, y, y / y8[kind] }' "$room/rows"
}
streams() { # N L: the rows of such streams
    for planes in 12 20; do
        bits=$(run count "$1" "$2" $planes)
        for coder in plain fast txp; do row "$1" "$2" $planes $coder "$bits" encode decode; done
    done
}
opens() { # N L: the rows of encode with a small budget, in thousandths of the stream
    for planes in 12 20; do
        for part in 0 10; do
            bits=$(run open "$1" "$2" $planes $part)
            for coder in plain fast txp; do
                x=$(counted $coder encode)
                printf '%4d %2s %-6s %-5s %9d %13d %6s\n' $((1 << $1)) "$2" $planes $coder "$bits" "$x" "$(ratio "$x" "$(counted plain encode)")"
            done
        done
    done
}
cuts() { # N L PARTS: the rows of decode of streams, whole (1000) or cut, at parts in thousandths or, with a b, in bits
    for planes in 12 20; do
        for part in $3; do
            bits=$(run cut "$1" "$2" $planes "$part")
            for coder in plain fast txp lower; do
                x=$(counted $coder decode)
                printf '%4d %2s %-6s %-5s %9d %13d %6s\n' $((1 << $1)) "$2" $planes $coder "$bits" "$x" "$(ratio "$x" "$(counted plain decode)")"
            done
        done
    done
}
transforms() { # N L: the rows of the transform of such squares, which is tried on the ends of the range first
    run edges "$1" "$2"
    run transform "$1" "$2"
    for coder in plain fast txp; do row "$1" "$2" - $coder $((1 << 2 * $1)) transform restore; done
}
# N L PLANES BITS KIND CALL CALL: a row of the dial. For the call up and for the one down the instructions, their ratio to
# those of decoding the stream once, how many they are a bit, and those of the longest call where there is one for each bit.
dial() {
    up=- down=-
    [ "$5" = turn ] || up=$(most "$6") down=$(most "$7")
    echo "$1 $2 $3 $4 $5 $(counted txp decode) $(counted txp "$6") $up $(counted txp "$7") $down" | awk '
        { printf "%4d %2s %-6s %-5s %9d %13d %13d %6.3f %8.3f %8s %13d %6.3f %8.3f %8s\n", 2 ^ $1, $2, $3, $5, $4, $6, $7, $7 / $6, $7 / $4, $8, $9, $9 / $6, $9 / $4, $10 }'
}
dials() { # N L: the rows of the dial over whole streams, by a call for each bit and by one for all; 2 and 5 planes: long steps
    for planes in 12 20 2 5; do
        bits=$(run dial "$1" "$2" $planes)
        dial "$1" "$2" $planes "$bits" step forward back
        dial "$1" "$2" $planes "$bits" turn up down
    done
}
columns bits 'a bit' encode decode
streams 8 5
streams 10 7
streams 10 9
printf '%4s %2s %-6s %-5s %9s %13s %6s\n' side L planes coder budget 'encode insns' 'to C'
opens 8 5
opens 10 7
printf '%4s %2s %-6s %-5s %9s %13s %6s\n' side L planes coder 'bits read' 'decode insns' 'to C'
cuts 8 5 '1000 900 500 250 50 300b'
cuts 10 7 1000
for n in 8 10; do
    run planes $n 5 12
    x=$(counted txp planes) y=$(counted plain planes)
    printf 'planes of %d by %d, %d insns, in plain C %d insns, ratio %s\n' $((1 << n)) $((1 << n)) "$x" "$y" "$(ratio "$x" "$y")"
done
columns entries 'an entry' linear raster
for n in 8 10; do
    run order $n
    for coder in plain txp; do row $n - - $coder $((1 << 2 * n)) linear raster; done
done
columns samples 'a sample' forward back
transforms 8 5
transforms 10 6
transforms 10 9
run figures 8 5
x=$(($(counted txp one) / 24)) y=$(counted txp all)
printf 'figures of one plane, on average, %d insns, of all 24 at once %d insns, ratio %s\n' "$x" "$y" "$(ratio "$y" "$x")"
printf '%4s %2s %-6s %-5s %9s %13s %13s %6s %8s %8s %13s %6s %8s %8s\n' side L planes by bits 'decode insns' 'forward insns' ratio 'a bit' longest 'back insns' ratio 'a bit' longest
dials 8 5
[ "$cc" != gcc ] || "$room/bench" time 8 5 "${1:-20}"
