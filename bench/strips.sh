#!/bin/sh
# Times the mesh of whole fields by stages, in one program: reading the text, the ground, the strips of every tile, and the links over borders.
# The fields have two floors for an agent of radius 2 in tiles of 32, 512 and 1024 columns a side, the largest with 2000000 spans; then the
# largest again with areas that change from column to column, so that every strip is one cell; then 4000 floors over each other along one
# border. Prints processor seconds, the least of three runs each, and fails where the strips of the largest field take more than 5 times its
# reading or more than twice as long a span as those of the smaller, where a copy of its mesh with one tile replaced takes 1 ms, or where
# the links over the high border take more than 5 times the reading of its field.     usage: bench/strips.sh
set -eu
cd "$(dirname "$0")/.."
work=$(mktemp -d)
trap 'rm -rf "$work"' EXIT

(cd crates/bench_pipeline && rt run < stdin > "$work/build.log" 2>&1) || { cat "$work/build.log"; exit 1; }
program=$PWD/crates/bench_pipeline/out/bench_pipeline

# flat SIDE AREAS: a field of two floors, of at most 2000000 spans; the areas along x are 1 to AREAS, again and again
flat() {
    printf 'nav 1\nsize %d %d\ntile 32\nagent 10 4 2\nerror 169\nmesh strips\nlimit 64\n' "$1" "$1"
    awk -v side="$1" -v areas="$2" 'BEGIN { n = 0; for (z = 0; z < side; z++) for (x = 0; x < side; x++) { area = 1 + x % areas
        printf "span %d %d 0 %d %d\n", x, z, 10 + (x * 7 + z * 3) % 11 % 3, area; n++
        if (n < 2000000 && side * side - (z * side + x) - 1 < 2000000 - n) { printf "span %d %d 60 %d %d\n", x, z, 64 + (x + z * 5) % 13 % 3, area; n++ } }
        print "end" }'
}

# high: two tiles side by side, with 4000 floors over each other in each column
high() {
    printf 'nav 1\nsize 20 16\ntile 16\nagent 1 0 0\nerror 169\nmesh strips\nlimit 64\n'
    awk 'BEGIN { for (z = 0; z < 16; z++) for (x = 0; x < 20; x++) for (i = 0; i < 4000; i++) printf "span %d %d %d %d 63\n", x, z, 2 * i, 2 * i + 1; print "end" }'
}

# seconds STAGE COPIES TEXT: the least processor time of three runs up to a stage, with so many copies made after it
seconds() {
    { echo "$1"; echo "$2"; cat "$3"; } > "$work/input"
    for _ in 1 2 3; do /usr/bin/time -f '%U %S' -a -o "$work/times" "$program" < "$work/input" > "$work/made"; done
    awk '{ print $1 + $2 }' "$work/times" | sort -n | head -n 1
    rm "$work/times"
}

flat 512 1 > "$work/512"
flat 1024 1 > "$work/1024"
flat 1024 2 > "$work/narrow"
high > "$work/high"
for name in 512 1024 narrow high; do
    read=$(seconds 1 0 "$work/$name")
    ground=$(seconds 2 0 "$work/$name")
    tiles=$(seconds 3 0 "$work/$name")
    mesh=$(seconds 4 0 "$work/$name")
    copies=0
    [ "$name" != 1024 ] || copies=$(seconds 4 2000 "$work/$name")
    echo "$name $read $ground $tiles $mesh $copies $(cat "$work/made")"
done | tee "$work/all" | awk '{ printf "%-6s %s %s %s %s %s %s %s %s: reading %.2f s, ground %.2f s, strips %.2f s (%.1f times the reading), border links %.2f s\n", $1, $7, $8, $9, $10, $11, $12, $13, $14, $2, $3 - $2, $4 - $3, ($4 - $3) / $2, ($5 > $4 ? $5 - $4 : 0) }'
awk '$1 == 512 { small = ($4 - $3) / $7 }
    $1 == 1024 { times = ($4 - $3) / $2; slower = ($4 - $3) / $7 / small; copy = ($6 > $5 ? ($6 - $5) / 2000 : 0) }
    $1 == "high" { border = ($5 - $4) / $2 }
    END { printf "a span takes %.2f times as long in the larger field; a copy with one tile replaced takes %.3f ms\n", slower, copy * 1000
        exit !(times <= 5 && slower <= 2 && copy < 0.001 && border <= 5) }' "$work/all"
