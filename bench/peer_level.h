// The peer's level, over Recast, DetourTileCache and Detour: the tiles of a field text as a game makes them that has obstacles.
#pragma once

#include <DetourCommon.h>
#include <DetourNavMesh.h>
#include <DetourNavMeshBuilder.h>
#include <DetourNavMeshQuery.h>
#include <DetourTileCache.h>
#include <DetourTileCacheBuilder.h>
#include <Recast.h>

#include <algorithm>
#include <cmath>
#include <cstdlib>
#include <cstring>
#include <ctime>
#include <fstream>
#include <iostream>
#include <string>
#include <vector>

inline void must(bool holds, const char* what) {
    if (!holds) std::cerr << "peer: " << what << "\n", exit(1);
}

struct Span {
    int x, z, bottom, top, area;
};
struct Field {
    int width = 0, depth = 0, tile = 0, height = 0, climb = 0, radius = 0, error = 0;
    std::vector<Span> spans;
};

inline Field read_field(const char* path) {
    std::ifstream in(path);
    Field field;
    std::string word;
    int number;
    while (in >> word && word != "end")
        if (word == "size") in >> field.width >> field.depth;
        else if (word == "tile") in >> field.tile;
        else if (word == "agent") in >> field.height >> field.climb >> field.radius;
        else if (word == "error") in >> field.error;
        else if (word == "mesh") in >> word;
        else if (word == "cost") in >> number >> number;
        else if (word == "span") {
            Span s;
            in >> s.x >> s.z >> s.bottom >> s.top >> s.area;
            field.spans.push_back(s);
        } else in >> number;
    must(word == "end", "no field text");
    return field;
}

struct Copier : dtTileCacheCompressor {
    int maxCompressedSize(const int n) override { return n; }
    dtStatus compress(const unsigned char* from, const int n, unsigned char* to, const int, int* size) override {
        memcpy(to, from, n), *size = n;
        return DT_SUCCESS;
    }
    dtStatus decompress(const unsigned char* from, const int n, unsigned char* to, const int most, int* size) override {
        memcpy(to, from, n), *size = n;
        return n <= most ? DT_SUCCESS : DT_FAILURE;
    }
};
struct Flags : dtTileCacheMeshProcess {
    void process(dtNavMeshCreateParams* p, unsigned char*, unsigned short* flags) override { std::fill(flags, flags + p->polyCount, 1); }
};

struct Level {
    const Field& field;
    const float unit;
    rcContext context{false};
    Copier copier;
    Flags flags;
    dtTileCacheAlloc room;
    dtTileCache* cache = dtAllocTileCache();
    dtNavMesh* mesh = dtAllocNavMesh();
    dtNavMeshQuery* query = dtAllocNavMeshQuery();
    dtQueryFilter filter;
    struct Layer {
        unsigned char* data;
        int size;
    };
    std::vector<Layer> layers;
    std::vector<std::vector<Span>> rows;

    Level(const Field& f, float u, int obstacles = 1) : field(f), unit(u), rows(f.depth) {
        for (const Span& s : field.spans) rows[s.z].push_back(s);
        for (int z = 0; z * field.tile < field.depth; z++)
            for (int x = 0; x * field.tile < field.width; x++) cut(x, z);
        dtTileCacheParams c{};
        c.cs = 1, c.ch = unit, c.width = c.height = field.tile;
        c.walkableHeight = field.height * unit, c.walkableRadius = field.radius, c.walkableClimb = field.climb * unit;
        c.maxSimplificationError = std::sqrt(field.error / 100.0f);
        c.maxTiles = std::max<int>(1, layers.size()), c.maxObstacles = obstacles;
        must(!dtStatusFailed(cache->init(&c, &room, &copier, &flags)), "dtTileCache::init");
        dtNavMeshParams n{};
        n.tileWidth = n.tileHeight = field.tile;
        n.maxTiles = c.maxTiles, n.maxPolys = 1 << std::min<int>(22 - dtIlog2(dtNextPow2(n.maxTiles)), 16);
        must(!dtStatusFailed(mesh->init(&n)) && !dtStatusFailed(query->init(mesh, 65535)), "dtNavMesh::init");
        for (Layer& l : layers) {
            dtCompressedTileRef ref = 0;
            must(!dtStatusFailed(cache->addTile(l.data, l.size, DT_COMPRESSEDTILE_FREE_DATA, &ref)), "addTile");
            must(!dtStatusFailed(cache->buildNavMeshTile(ref, mesh)), "buildNavMeshTile");
        }
    }

    // The layers of a tile with a border, as Recast's sample for obstacles makes them. Two filters ask for a gap of more than the height, the field
    // text for one of at least it.
    void cut(int tx, int tz) {
        const int border = field.radius + 3, side = field.tile + 2 * border, left = tx * field.tile - border, low = tz * field.tile - border;
        const float from[3] = {float(left), 0, float(low)}, to[3] = {float(left + side), 8192 * unit, float(low + side)};
        rcHeightfield* high = rcAllocHeightfield();
        rcCompactHeightfield* compact = rcAllocCompactHeightfield();
        rcHeightfieldLayerSet* set = rcAllocHeightfieldLayerSet();
        must(rcCreateHeightfield(&context, *high, side, side, from, to, 1, unit), "rcCreateHeightfield");
        for (int z = std::max(low, 0); z < std::min(low + side, field.depth); z++)
            for (const Span& s : rows[z])
                if (left <= s.x && s.x < left + side) rcAddSpan(&context, *high, s.x - left, z - low, s.bottom, s.top, s.area, field.climb);
        rcFilterLowHangingWalkableObstacles(&context, field.climb, *high);
        rcFilterLedgeSpans(&context, field.height - 1, field.climb, *high);
        rcFilterWalkableLowHeightSpans(&context, field.height - 1, *high);
        must(rcBuildCompactHeightfield(&context, field.height, field.climb, *high, *compact), "rcBuildCompactHeightfield");
        if (field.radius) must(rcErodeWalkableArea(&context, field.radius, *compact), "rcErodeWalkableArea");
        must(rcBuildHeightfieldLayers(&context, *compact, border, field.height, *set), "rcBuildHeightfieldLayers");
        for (int i = 0; i < set->nlayers; i++) {
            const rcHeightfieldLayer& l = set->layers[i];
            dtTileCacheLayerHeader h{};
            h.magic = DT_TILECACHE_MAGIC, h.version = DT_TILECACHE_VERSION, h.tx = tx, h.ty = tz, h.tlayer = i;
            dtVcopy(h.bmin, l.bmin), dtVcopy(h.bmax, l.bmax);
            h.width = l.width, h.height = l.height, h.hmin = l.hmin, h.hmax = l.hmax;
            h.minx = l.minx, h.maxx = l.maxx, h.miny = l.miny, h.maxy = l.maxy;
            Layer made{};
            must(!dtStatusFailed(dtBuildTileCacheLayer(&copier, &h, l.heights, l.areas, l.cons, &made.data, &made.size)), "dtBuildTileCacheLayer");
            layers.push_back(made);
        }
        rcFreeHeightField(high), rcFreeCompactHeightfield(compact), rcFreeHeightfieldLayerSet(set);
    }
};

// Processor time, in seconds.
inline double now() {
    timespec t;
    clock_gettime(CLOCK_PROCESS_CPUTIME_ID, &t);
    return t.tv_sec + t.tv_nsec / 1e9;
}
