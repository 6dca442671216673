// The peer of bench/lines.c, over Recast, DetourTileCache and Detour: the same pairs asked of findPath with findStraightPath (`quick`), and of a sliced search
// with DT_FINDPATH_ANY_ANGLE and findStraightPath (`whole`).
//
//     lines_peer LEVEL PAIRS UNIT ROUNDS
//
// UNIT is how high a height unit is, in cells. Written are a line for each kind: its name, the least nanoseconds a question of so many rounds, how many have an
// answer, and how many were asked.
#include <cstdio>

#include "counted.h"
#include "peer_level.h"

enum { MOST = 1 << 14 };

struct Pair {
    dtPolyRef from_ref, to_ref;
    float from[3], to[3];
};

static dtPolyRef refs[MOST];
static float corners[3 * MOST];
static float sum = 0;

static bool straight(Level& level, const Pair& pair, int count) {
    int told = 0;
    if (!count || dtStatusFailed(level.query->findStraightPath(pair.from, pair.to, refs, count, corners, nullptr, nullptr, &told, MOST))) return false;
    sum += corners[0];
    return true;
}

__attribute__((noinline)) static size_t ask_paths(Level& level, const std::vector<Pair>& pairs) {
    size_t found = 0;
    for (const Pair& pair : pairs) {
        int count = 0;
        level.query->findPath(pair.from_ref, pair.to_ref, pair.from, pair.to, &level.filter, refs, &count, MOST);
        found += straight(level, pair, count);
    }
    return found;
}

__attribute__((noinline)) static size_t ask_any(Level& level, const std::vector<Pair>& pairs) {
    size_t found = 0;
    for (const Pair& pair : pairs) {
        int count = 0;
        level.query->initSlicedFindPath(pair.from_ref, pair.to_ref, pair.from, pair.to, &level.filter, DT_FINDPATH_ANY_ANGLE);
        level.query->updateSlicedFindPath(1 << 30, nullptr);
        level.query->finalizeSlicedFindPath(refs, &count, MOST);
        found += straight(level, pair, count);
    }
    return found;
}

static void measure(Level& level, const char* kind, const std::vector<Pair>& pairs, size_t (*ask)(Level&, const std::vector<Pair>&), int rounds) {
    double least = 1e9;
    size_t found = 0;
    for (int round = 0; round < rounds; round++) {
        COUNT_FROM_HERE;
        double begun = now();
        found = ask(level, pairs);
        least = std::min(least, now() - begun);
        COUNT_TO_HERE(kind);
    }
    printf("%s %.1f %zu %zu\n", kind, least / pairs.size() * 1e9, found, pairs.size());
}

int main(int count, char** words) {
    must(count == 5, "usage: lines_peer LEVEL PAIRS UNIT ROUNDS");
    const float unit = atof(words[3]);
    const Field field = read_field(words[1]);
    Level level(field, unit);
    std::vector<Pair> pairs;
    std::ifstream in(words[2]);
    const float half[3] = {2, 28 * unit, 2};
    for (float x0, z0, y0, x1, z1, y1; in >> x0 >> z0 >> y0 >> x1 >> z1 >> y1;) {
        Pair pair{};
        const float from[3] = {x0 / 16, y0 * unit, z0 / 16}, to[3] = {x1 / 16, y1 * unit, z1 / 16};
        level.query->findNearestPoly(from, half, &level.filter, &pair.from_ref, pair.from);
        level.query->findNearestPoly(to, half, &level.filter, &pair.to_ref, pair.to);
        if (pair.from_ref && pair.to_ref) pairs.push_back(pair);
    }
    must(!pairs.empty(), "no pairs");
    measure(level, "quick", pairs, ask_paths, atoi(words[4]));
    measure(level, "whole", pairs, ask_any, atoi(words[4]));
    return sum < 0;
}
