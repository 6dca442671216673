// The peer of bench/places.c, over Recast, DetourTileCache and Detour: the tiles of a field text as a game makes them that has obstacles, and the
// same questions asked of findNearestPoly, of moveAlongSurface with getPolyHeight, of findDistanceToWall and of findRandomPoint.
//
//     places_peer LEVEL QUESTIONS UNIT ROUNDS
//
// UNIT is how high a height unit is, in cells, since Detour measures in space. What a line of QUESTIONS says stands in places.c. Written are a line for
// each kind: its name, the least nanoseconds a question of so many rounds, how many have an answer, and how many were asked; and `height` for
// getPolyHeight at what was found.
#include <algorithm>
#include <cstdio>
#include <cstdlib>
#include <fstream>
#include <map>
#include <string>
#include <vector>

#include "counted.h"
#include "peer_level.h"

// What is asked: a box, or a target from a polygon and a point in it; and what is told.
struct Question {
    float at[3], half[3], to[3];
    dtPolyRef ref;
    float on[3];
};
using Questions = std::vector<Question>;

static float sum = 0;

static bool is_nearest(const std::string& kind) { return kind == "floor4" || kind == "floor16" || kind == "any64" || kind == "air4"; }

static float part() {
    static unsigned long long seed = 7;
    seed = seed * 6364136223846793005u + 1442695040888963407u;
    return float(seed >> 40) / 16777216.0f;
}

__attribute__((noinline)) static size_t ask_nearest(Level& level, Questions& asked) {
    size_t found = 0;
    for (Question& q : asked) found += !dtStatusFailed(level.query->findNearestPoly(q.at, q.half, &level.filter, &q.ref, q.on)) && q.ref;
    return found;
}

__attribute__((noinline)) static size_t ask_heights(Level& level, Questions& asked) {
    size_t found = 0;
    float y = 0;
    for (Question& q : asked)
        if (!dtStatusFailed(level.query->getPolyHeight(q.ref, q.on, &y))) found++, sum += y;
    return found;
}

__attribute__((noinline)) static size_t ask_slides(Level& level, Questions& asked) {
    size_t found = 0;
    for (Question& q : asked) {
        dtPolyRef visited[64];
        int count = 0;
        float end[3], y = 0;
        if (dtStatusFailed(level.query->moveAlongSurface(q.ref, q.on, q.to, &level.filter, end, visited, &count, 64)) || !count) continue;
        found += !dtStatusFailed(level.query->getPolyHeight(visited[count - 1], end, &y));
        sum += end[0] + y;
    }
    return found;
}

__attribute__((noinline)) static size_t ask_walls(Level& level, Questions& asked) {
    size_t found = 0;
    for (Question& q : asked) {
        float far = 0, at[3], normal[3];
        found += !dtStatusFailed(level.query->findDistanceToWall(q.ref, q.on, 10, &level.filter, &far, at, normal)) && far < 10;
        sum += far;
    }
    return found;
}

__attribute__((noinline)) static size_t ask_random(Level& level, Questions& asked) {
    size_t found = 0;
    for (Question& q : asked) {
        float at[3];
        dtPolyRef ref = 0;
        found += !dtStatusFailed(level.query->findRandomPoint(&level.filter, part, &ref, at)) && ref;
        sum += at[0] + q.at[0];
    }
    return found;
}

static size_t ask(Level& level, const std::string& kind, Questions& asked) {
    if (kind == "height") return ask_heights(level, asked);
    if (kind == "half" || kind == "step3" || kind == "step10") return ask_slides(level, asked);
    if (kind == "wall10") return ask_walls(level, asked);
    if (kind == "random") return ask_random(level, asked);
    return ask_nearest(level, asked);
}

// Asks all questions of a kind in each of some rounds, and writes its line.
static void measure(Level& level, const std::string& kind, Questions& asked, int rounds) {
    double least = 1e9;
    size_t found = 0;
    for (int round = 0; round < rounds; round++) {
        COUNT_FROM_HERE;
        double begun = now();
        found = ask(level, kind, asked);
        least = std::min(least, now() - begun);
        COUNT_TO_HERE(kind.c_str());
    }
    printf("%s %.1f %zu %zu\n", kind.c_str(), least / asked.size() * 1e9, found, asked.size());
}

int main(int count, char** words) {
    must(count == 5, "usage: places_peer LEVEL QUESTIONS UNIT ROUNDS");
    const float unit = atof(words[3]);
    const Field field = read_field(words[1]);
    Level level(field, unit);
    std::map<std::string, Questions> kinds;
    std::vector<std::string> order;
    Questions places;
    std::ifstream in(words[2]);
    std::string kind;
    float x, z, y, a, b, c;
    while (in >> kind >> x >> z >> y >> a >> b >> c) {
        Question q{{x / 16, y * unit, z / 16}, {4, 28 * unit, 4}, {a / 16, y * unit, b / 16}, 0, {}};
        if (is_nearest(kind)) q.half[0] = q.half[2] = a / 16, q.half[1] = std::max(b, c) * unit;
        else level.query->findNearestPoly(q.at, q.half, &level.filter, &q.ref, q.on);
        if (!is_nearest(kind) && !q.ref) continue;
        if (!kinds.count(kind)) order.push_back(kind);
        kinds[kind].push_back(q);
    }
    for (const std::string& name : order) {
        measure(level, name, kinds[name], atoi(words[4]));
        if (is_nearest(name))
            for (const Question& q : kinds[name])
                if (q.ref) places.push_back(q);
    }
    if (places.size()) measure(level, "height", places, atoi(words[4]));
    return sum < 0;
}
