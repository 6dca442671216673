/* The polygons of a mesh, for the programs that look from outside whether agents of a crowd stand on it. They have `want`, which ends them where something
 * does not hold. */
#pragma once

#include <stdbool.h>
#include <stddef.h>
#include <stdint.h>

#include "../../include/navd.h"

enum { MOST_TILES = 1024, MOST_FACES = 1024 };

static navd_face faces[MOST_TILES][MOST_FACES];

/* All polygons of what a view sees. */
static void read_faces(navd_view *view) {
    navd_shown shown;
    size_t many;
    want(navd_view_count(view, &shown) == NAVD_OK && shown.tiles <= MOST_TILES, "so many tiles");
    for (uint32_t tile = 0; tile < shown.tiles; tile++)
        want(navd_view_polygons(view, tile, faces[tile], MOST_FACES, &many) == NAVD_OK && many <= MOST_FACES, "so many polygons");
}

/* Whether the polygon of an agent holds its middle. */
static bool is_held(const navd_agent *agent) {
    const navd_face *face = &faces[agent->polygon.tile][agent->polygon.index];
    for (uint32_t i = 0; i < face->corners; i++) {
        navd_corner a = face->corner[i], b = face->corner[(i + 1) % face->corners];
        int64_t ax = 256 * (int64_t)a.x, az = 256 * (int64_t)a.z, bx = 256 * (int64_t)b.x, bz = 256 * (int64_t)b.z;
        if ((bx - ax) * (agent->at.z - az) - (bz - az) * (agent->at.x - ax) < 0) return false;
    }
    return true;
}
