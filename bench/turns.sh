#!/bin/sh
# Times the coders in turn in one process, and counts their instructions and mispredicted branches, all for each coded bit, in
# encode and in decode: plain C, C written for speed, a coder with lists, and the proved library through its C interface, by the
# midpoint, as those in C decode (txp), and by its default rule (lower). The times of the C coders are taken at gcc -O2 and at
# -O3, the counts at -O2. The streams are of 256 by 256, L = 5, and of 1,024 by 1,024, L = 7, of 12 and of 20 planes, whole and
# cut to 5 per cent of their bits. At the end a line for each bar says whether it is met. Answers are checked (bench/turns.c).
#   sh bench/turns.sh [all|times|counts [RUNS [RUNS]]]
# RUNS are the runs of which the least time is taken, at 256 by 256 (60) and at 1,024 by 1,024 (12).
#   LIB='FILES' sh bench/turns.sh ..
# measures another library than the project's, which is not built then: archives or objects that have txp_encode_body,
# txp_decode_body and txp_decode_body_midpoint; their paths are whole, or begin at the project's folder.
# Needs an x86-64 machine, gcc, and valgrind for the counts.
# The counts repeat exactly, the mispredicted branches in callgrind's model of a predictor; the times don't.
set -eu
cd "$(dirname "$0")/.."
what=${1:-all} small=${2:-60} large=${3:-12}
case $what in all | times | counts) ;; *) echo 'usage: sh bench/turns.sh [all|times|counts [RUNS [RUNS]]]' >&2; exit 2 ;; esac
[ "$(uname -m)" = x86_64 ] || { echo 'bench/turns.sh: this machine is not x86-64; bench/bench.sh counts instructions here' >&2; exit 2; }
# What is held, the stream, the coder that the library is held to, and the most that its figure may be times that coder's.
bars='time whole fast 0.8
time whole fast-O3 0.9
insns whole plain 0.9
time cut fast 0.85'
if [ -z "${LIB:-}" ]; then
    tests/build.sh library >&2
    LIB=target/staticlib/libctxp.a
fi
room=$(mktemp -d)
trap 'rm -rf "$room"' EXIT
coders='bench/nls_summaries.c bench/nls_plain.c bench/nls_fast.c bench/nls_list.c'
renamed=''
for name in summaries plain_planes plain_encode plain_decode fast_encode fast_decode list_encode list_decode; do
    renamed="$renamed -Dnls_$name=nls_${name}_o3"
done
# shellcheck disable=SC2086
gcc -std=gnu11 -O3 $renamed -r $coders -o "$room/o3.o"
# shellcheck disable=SC2086
gcc -std=gnu11 -O2 -ffp-contract=off bench/turns.c bench/nls_txp.c $coders "$room/o3.o" $LIB -o "$room/turns"
# Each of the two leaves lines in $room/lines: KIND CODER encode|decode BITS FIGURE, the figure for each bit.
timed() { # N L PLANES BITS RUNS
    "$room/turns" time "$1" "$2" "$3" "$4" "$5" >"$room/text"
    sed 's/^/time /' "$room/text" >"$room/lines"
}
counted() { # N L PLANES BITS
    coded=$(valgrind --quiet --tool=callgrind --branch-sim=yes --callgrind-out-file="$room/out" "$room/turns" count "$1" "$2" "$3" "$4")
    callgrind_annotate --inclusive=yes --threshold=100 --show=Ir,Bcm,Bim "$room/out" >"$room/text"
    awk -v bits="$coded" '
        { gsub(/,/, ""); gsub(/\([ 0-9.]*%\)/, "") }
        match($0, /[:*](nls_(plain|fast|list)|txp_bench)_(encode|decode|lower)( |$)/) {
            split(substr($0, RSTART + 1, RLENGTH - 1), word, /[_ ]/)
            name = word[1] == "txp" ? "txp " word[3] : word[2] " " word[3]
            if (name == "txp lower") name = "lower decode"
            if (seen[name]++) next
            printf "insns %s %d %.6f\n", name, bits, $1 / bits
            printf "missed %s %d %.6f\n", name, bits, ($2 + $3) / bits
        }' "$room/text" >"$room/lines"
}
each() { # timed|counted: all streams; the lines are kept in $room/figures, as KIND N L PLANES whole|cut CODER CALL BITS FIGURE
    for size in "8 5 $small" "10 7 $large"; do
        # shellcheck disable=SC2086
        set -- "$1" $size
        for planes in 12 20; do
            bits=whole
            for stream in whole cut; do
                "$1" "$2" "$3" $planes "$bits" "$4"
                sed "s/ / $2 $3 $planes $stream /" "$room/lines" >>"$room/figures"
                bits=$(awk 'NR == 1 { print int($4 / 20) }' "$room/lines")
            done
        done
    done
}
# KIND DIGITS 'CODERS': the rows of such figures, as a table of markdown
table() {
    awk -v kind="$1" -v digits="$2" -v coders="$3" '
        function commas(x) {
            while (match(x, /[0-9][0-9][0-9][0-9](,|$)/)) x = substr(x, 1, RSTART) "," substr(x, RSTART + 1)
            return x
        }
        $1 == kind {
            row = "| " commas(2 ^ $2) " | " $3 " | " $4 " | " ($5 == "cut" ? "5 per cent" : $5) " | " commas($8) " | "
            if (!(row in seen)) { seen[row]; rows[++count] = row }
            figure[row, $6, $7] = sprintf("%." digits "f", $9)
        }
        END {
            many = split(coders, coder, " ")
            head = "| side | L | planes | stream | bits | call |"
            line = "|---|---|---|---|---|---|"
            for (k = 1; k <= many; k++) { head = head " " coder[k] " |"; line = line "---|" }
            print head "\n" line
            for (r = 1; r <= count; r++)
                for (c = 1; c <= 2; c++) {
                    call = c == 1 ? "encode" : "decode"
                    text = rows[r] call " |"
                    for (k = 1; k <= many; k++) text = text " " figure[rows[r], coder[k], call] " |"
                    print text
                }
            print ""
        }' "$room/figures"
}
# A line for each bar, size and number of planes: met where none of the three ratios is over it
judge() {
    echo 'Bars, as ratios to what a coder in C takes:'
    echo
    echo '| bar | side | planes | txp encode | txp decode | lower decode | at most | |'
    echo '|---|---|---|---|---|---|---|---|'
    echo "$bars" | awk '
        NF == 9 { figure[$1, $2, $4, $5, $6, $7] = $9; next }
        {
            name = ($1 == "time" ? "time" : "instructions") ", " ($2 == "cut" ? "5 per cent" : $2) ", to " $3
            for (n = 8; n <= 10; n += 2)
                for (planes = 12; planes <= 20; planes += 8) {
                    if (!(($1, n, planes, $2, "txp", "encode") in figure)) continue
                    e = figure[$1, n, planes, $2, $3, "encode"]
                    d = figure[$1, n, planes, $2, $3, "decode"]
                    x = figure[$1, n, planes, $2, "txp", "encode"] / e
                    y = figure[$1, n, planes, $2, "txp", "decode"] / d
                    z = figure[$1, n, planes, $2, "lower", "decode"] / d
                    met = x <= $4 && y <= $4 && z <= $4
                    printf "| %s | %s | %d | %.3f | %.3f | %.3f | %s | %s |\n", name, n == 8 ? "256" : "1,024", planes, x, y, z, $4, met ? "met" : "not met"
                }
        }' "$room/figures" -
}
[ "$what" = counts ] || each timed
[ "$what" = times ] || each counted
if [ "$what" != counts ]; then
    echo "Time in ns for each coded bit, the least of $small runs at 256 by 256 and of $large at 1,024 by 1,024; C at -O2, or at -O3 where it is said:"
    echo
    table time 2 'plain plain-O3 fast fast-O3 list list-O3 txp lower'
fi
if [ "$what" != times ]; then
    echo 'Instructions for each coded bit, C at -O2:'
    echo
    table insns 2 'plain fast list txp lower'
    echo 'Mispredicted branches for each coded bit, C at -O2:'
    echo
    table missed 3 'plain fast list txp lower'
fi
judge
