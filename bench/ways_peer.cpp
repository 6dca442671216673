// The peer of hosts/c/bench_ways.c, over the peer's level: the path lines of an input, asked of Detour.
//
//     ways_peer INPUT
//
// Each line that is written is a measure and its nanoseconds a call, the least processor time of three runs: `find_path` is findPath and
// findStraightPath, `flood` findPolysAroundCircle of 128 cells, `ways_to_one` one of the whole level and the ways of all starts by its parents,
// `follow_8_ahead` a step of half a cell of a dtPathCorridor by isValid, findCorners and movePosition. A height unit is a cell. `polygons_flood` and
// `polygons_to_one` are the polygons of such a search.
#include <DetourPathCorridor.h>

#include <cstdio>

#include "peer_level.h"

enum { MOST_PATHS = 500, MOST_POLYGONS = 1 << 16, MOST_STEPS = 400, CORNERS = 4, AHEAD = 10 };

struct Path {
    dtPolyRef from_ref, to_ref;
    float from[3], to[3];
    std::vector<dtPolyRef> polygons;
};

static std::vector<dtPolyRef> reached(MOST_POLYGONS), parents(MOST_POLYGONS);
static std::vector<float> costs(MOST_POLYGONS), corners(3 * MOST_POLYGONS);

static bool locate(Level& level, const float* at, dtPolyRef& ref, float* on) {
    const float half[3] = {0.01f, float(level.field.climb), 0.01f};
    return !dtStatusFailed(level.query->findNearestPoly(at, half, &level.filter, &ref, on)) && ref;
}

// Whether a path joins its ends; its polygons are kept.
static bool find(Level& level, Path& path) {
    int count = 0;
    const dtStatus status = level.query->findPath(path.from_ref, path.to_ref, path.from, path.to, &level.filter, reached.data(), &count, MOST_POLYGONS);
    path.polygons.assign(reached.begin(), reached.begin() + count);
    return !dtStatusFailed(status) && count > 1 && path.polygons.back() == path.to_ref;
}

static std::vector<Path> read_paths(Level& level, const char* name) {
    std::ifstream in(name);
    std::vector<Path> paths;
    std::string word;
    while (in >> word && word != "script") {}
    float x0, z0, y0, x1, z1, y1;
    while (paths.size() < MOST_PATHS && in >> word) {
        if (word != "path") continue;
        in >> x0 >> z0 >> y0 >> x1 >> z1 >> y1;
        Path path{};
        const float from[3] = {x0 / 16, y0, z0 / 16}, to[3] = {x1 / 16, y1, z1 / 16};
        if (locate(level, from, path.from_ref, path.from) && locate(level, to, path.to_ref, path.to) && find(level, path)) paths.push_back(path);
    }
    return paths;
}

static size_t find_paths(Level& level, std::vector<Path>& paths) {
    for (Path& path : paths) {
        int count = 0;
        must(find(level, path), "findPath");
        level.query->findStraightPath(path.from, path.to, path.polygons.data(), path.polygons.size(), corners.data(), nullptr, nullptr, &count, MOST_POLYGONS);
    }
    return paths.size();
}

static size_t circles(Level& level, const dtPolyRef ref, const float* at, float radius) {
    int count = 0;
    level.query->findPolysAroundCircle(ref, at, radius, &level.filter, reached.data(), parents.data(), costs.data(), &count, MOST_POLYGONS);
    return count;
}

static size_t flood_polygons, all_polygons; // of all circles together; of the one over the whole level

static size_t floods(Level& level, std::vector<Path>& paths) {
    flood_polygons = 0;
    for (const Path& path : paths) {
        const size_t count = circles(level, path.from_ref, path.from, 128);
        must(count > 0, "findPolysAroundCircle");
        flood_polygons += count;
    }
    return paths.size();
}

// The way of each start to one goal, as bench_ways walks them: where each polygon stands in the search is written down by tile and place there, and each way
// is walked by the parents.
static size_t ways_to_one(Level& level, std::vector<Path>& paths) {
    static std::vector<std::vector<unsigned>> place_of;
    static size_t walked;
    const dtNavMesh& mesh = *level.query->getAttachedNavMesh();
    all_polygons = circles(level, paths[0].to_ref, paths[0].to, 1e6f);
    must(all_polygons > 0, "findPolysAroundCircle");
    for (int tile = place_of.size(); tile < mesh.getMaxTiles(); tile++) {
        const dtMeshTile* it = mesh.getTile(tile);
        place_of.emplace_back(it->header ? it->header->polyCount : 0);
    }
    const auto place = [&](dtPolyRef ref) -> unsigned& { return place_of[mesh.decodePolyIdTile(ref)][mesh.decodePolyIdPoly(ref)]; };
    for (size_t i = 0; i < all_polygons; i++) place(reached[i]) = i;
    for (const Path& path : paths)
        for (unsigned at = place(path.from_ref); at; at = place(parents[at])) walked++;
    must(walked > 0, "ways to one goal");
    return 1;
}

static size_t follow(Level& level, std::vector<Path>& paths) {
    size_t steps = 0;
    for (const Path& path : paths) {
        dtPathCorridor corridor;
        corridor.init(MOST_POLYGONS);
        corridor.reset(path.from_ref, path.from);
        corridor.setCorridor(path.to, path.polygons.data(), path.polygons.size());
        for (int n = 0; n < MOST_STEPS; n++, steps++) {
            float found[3 * CORNERS];
            unsigned char flags[CORNERS];
            dtPolyRef refs[CORNERS];
            if (!corridor.isValid(AHEAD, level.query, &level.filter)) break;
            if (!corridor.findCorners(found, flags, refs, CORNERS, level.query, &level.filter)) break;
            const float* at = corridor.getPos();
            const float dx = found[0] - at[0], dz = found[2] - at[2], length = std::sqrt(dx * dx + dz * dz), part = std::min(1.0f, 0.5f / std::max(length, 1e-6f));
            const float next[3] = {at[0] + dx * part, at[1], at[2] + dz * part};
            corridor.movePosition(next, level.query, &level.filter);
        }
    }
    return steps;
}

// The least time a call of three runs.
static void measure(const char* name, Level& level, std::vector<Path>& paths, size_t (*run)(Level&, std::vector<Path>&)) {
    double least = 1e9;
    size_t calls = 0;
    for (int round = 0; round < 3; round++) {
        const double begun = now();
        calls = run(level, paths);
        least = std::min(least, now() - begun);
    }
    if (calls) printf("%s %.1f\n", name, least / calls * 1e9);
}

int main(int count, char** words) {
    must(count == 2, "usage: ways_peer INPUT");
    const Field field = read_field(words[1]);
    Level level(field, 1);
    std::vector<Path> paths = read_paths(level, words[1]);
    size_t polygons = 0;
    for (const Path& path : paths) polygons += path.polygons.size();
    printf("paths %zu of %zu polygons\n", paths.size(), polygons);
    if (paths.empty()) return 1;
    measure("find_path", level, paths, find_paths);
    measure("flood", level, paths, floods);
    measure("ways_to_one", level, paths, ways_to_one);
    printf("polygons_flood %.1f\npolygons_to_one %zu\n", double(flood_polygons) / paths.size(), all_polygons);
    measure("follow_8_ahead", level, paths, follow);
    return 0;
}
