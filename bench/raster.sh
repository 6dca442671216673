#!/bin/sh
# Times `navd raster` on 99200 triangles over fields of 512 by 512 and of 1024 by 1024 columns, reading apart from making spans, beside
# rcRasterizeTriangles of the distribution's librecast-dev on the same triangles. The triangles are made here: a hilly ground of small ones, and boxes
# with walls. Reading is the same text with a word behind its `end`, which is refused once all of it was read; beside the rest, which is making spans
# and their text, stands how long `cat` takes to copy that text. Prints processor seconds, the least of three runs (of five for Recast, whose time
# is that of its call alone).     usage: bench/raster.sh [NAVD]     (default: the program as `rt run` builds it)
set -eu
cd "$(dirname "$0")/.."
work=$(mktemp -d)
trap 'rm -rf "$work"' EXIT

if [ $# -gt 0 ]; then program=$1; else
    (cd crates/navd && rt run < stdin > "$work/build.log" 2>&1) || { cat "$work/build.log"; exit 1; }
    program=$PWD/crates/navd/out/navd
fi

cat > "$work/peer.cpp" <<'CPP'
// Recast's rasterisation of a triangle text, whose coordinates are sixteenths of a cell and height units: so a cell is 16 wide and 1 high.
#include <Recast.h>
#include <ctime>
#include <iostream>
#include <string>
#include <vector>
int main() {
    std::string word;
    int width = 0, depth = 0, height, climb = 0, radius, number;
    std::vector<float> corners;
    std::vector<unsigned char> areas;
    while (std::cin >> word && word != "end")
        if (word == "size") std::cin >> width >> depth;
        else if (word == "agent") std::cin >> height >> climb >> radius;
        else if (word == "mesh") std::cin >> word;
        else if (word == "tri") {
            for (int i = 0; i < 9; i++) std::cin >> number, corners.push_back(number);
            std::cin >> number, areas.push_back(number);
        } else std::cin >> number;
    std::vector<int> places(corners.size() / 3);
    for (size_t i = 0; i < places.size(); i++) places[i] = i;
    double least = 1e9;
    long spans = 0;
    for (int run = 0; run < 5; run++) {
        rcContext context(false);
        float low[3] = {0, 0, 0}, high[3] = {16.0f * width, 8191, 16.0f * depth};
        rcHeightfield* field = rcAllocHeightfield();
        std::clock_t begun = std::clock();
        if (!rcCreateHeightfield(&context, *field, width, depth, low, high, 16, 1)) return 1;
        if (!rcRasterizeTriangles(&context, corners.data(), corners.size() / 3, places.data(), areas.data(), areas.size(), *field, climb)) return 1;
        least = std::min(least, double(std::clock() - begun) / CLOCKS_PER_SEC);
        spans = 0;
        for (int i = 0; i < width * depth; i++)
            for (rcSpan* span = field->spans[i]; span; span = span->next) spans++;
        rcFreeHeightField(field);
    }
    std::cout << least << " " << spans << "\n";
}
CPP
c++ -O2 -march=x86-64-v2 -I/usr/include/recastnavigation -I/usr/include/recast "$work/peer.cpp" -o "$work/peer" -lRecast

# triangles SIDE: a hilly ground of 89888 triangles over the field, and 776 boxes of 12 triangles on it
triangles() {
    printf 'nav 1\nsize %d %d\ntile 48\nagent 10 4 2\nerror 169\nmesh contours\nlimit 64\n' "$1" "$1"
    awk -v side="$1" 'function high(i, k) { return int(200 + 60 * sin(i / 9) + 50 * cos(k / 7) + (i * 7 + k * 5) % 9) }
    function at(i) { return int(i * side * 16 / n) }
    function tri(a, b, c, d, e, f, g, h, i, area) { printf "tri %d %d %d %d %d %d %d %d %d %d\n", a, b, c, d, e, f, g, h, i, area }
    function quad(a, b, c, d, e, f, g, h, i, j, k, l, area) { tri(a, b, c, d, e, f, g, h, i, area); tri(a, b, c, g, h, i, j, k, l, area) }
    BEGIN { n = 212
        for (k = 0; k < n; k++) for (i = 0; i < n; i++)
            quad(at(i), high(i, k), at(k), at(i), high(i, k + 1), at(k + 1), at(i + 1), high(i + 1, k + 1), at(k + 1), at(i + 1), high(i + 1, k), at(k), 63)
        for (b = 0; b < 776; b++) {
            x0 = b * 7919 % (side - 12) * 16 + b % 16; z0 = b * 6101 % (side - 12) * 16 + b * 3 % 16; x1 = x0 + 60 + b % 120; z1 = z0 + 50 + b * 5 % 110
            y0 = 150 + b % 100; y1 = y0 + 20 + b % 60
            quad(x0, y1, z0, x0, y1, z1, x1, y1, z1, x1, y1, z0, 63); quad(x0, y0, z0, x1, y0, z0, x1, y0, z1, x0, y0, z1, 0)
            quad(x0, y0, z0, x0, y0, z1, x0, y1, z1, x0, y1, z0, 0); quad(x1, y0, z0, x1, y1, z0, x1, y1, z1, x1, y0, z1, 0)
            quad(x0, y0, z0, x0, y1, z0, x1, y1, z0, x1, y0, z0, 0); quad(x0, y0, z1, x1, y0, z1, x1, y1, z1, x0, y1, z1, 0) }
        print "end" }'
}

# seconds COMMAND TEXT: the least processor time of three runs
seconds() {
    rm -f "$work/times"
    for _ in 1 2 3; do /usr/bin/time -f '%U %S' -a -o "$work/times" sh -c "$1" < "$2" > "$work/out" || [ "$3" = refused ]; done
    awk 'NF == 2 { print $1 + $2 }' "$work/times" | sort -n | head -n 1
}

for side in 512 1024; do
    triangles "$side" > "$work/text"
    { cat "$work/text"; echo more; } > "$work/more"
    read=$(seconds "$program raster" "$work/more" refused)
    whole=$(seconds "$program raster" "$work/text" done)
    cp "$work/out" "$work/field"
    write=$(seconds "cat > $work/copy" "$work/field" done)
    echo "$side $(grep -c '^tri' "$work/text") $read $whole $write $(grep -c '^span' "$work/field") $("$work/peer" < "$work/text")"
done | tee "$work/all" | awk '{ printf "%d by %d, %d triangles, %d spans (Recast %d): reading %.3f s, copying the output %.3f s, spans and their text %.3f s; Recast %.3f s\n", $1, $1, $2, $6, $8, $3, $5, $4 - $3, $7 }'
