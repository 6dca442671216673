/* A game's loop over navd_world.h: a hall with a wall across it and two doors, of which one shuts and opens and one swings, and a ramp behind. Each frame
 * builds a tile at most, and a way is asked for whenever something new is shown. What it writes is hosts/world/doors.out. */
#include <inttypes.h>
#include <math.h>
#include <stdio.h>
#include <stdlib.h>

#include "navd_world.h"

enum { FRAMES = 40, QUADS = 6 };

/* A floor of 16 m by 12 m, a ramp of 4 m up to 2 m, a floor up there, and a wall across at 12 m in three pieces of 3 m. */
static const float vertices[][3] = {{0, 0, 0}, {0, 0, 12}, {16, 0, 0}, {16, 0, 12}, {20, 2, 0}, {20, 2, 12}, {24, 2, 0}, {24, 2, 12},
                                    {12, 0, 0}, {12, 0, 2}, {12, 3, 0}, {12, 3, 2}, {12, 0, 4}, {12, 0, 8}, {12, 3, 4}, {12, 3, 8},
                                    {12, 0, 10}, {12, 0, 12}, {12, 3, 10}, {12, 3, 12}};
static const uint32_t quads[QUADS] = {0, 2, 4, 8, 12, 16};

static void want(navd_status status, const char *what) {
    if (status == NAVD_OK) return;
    fprintf(stderr, "%s: %s\n", what, navd_status_text(status));
    exit(1);
}

static navd_world *open_hall(void) {
    uint32_t indices[QUADS][6];
    for (size_t i = 0; i < QUADS; i++)
        for (size_t j = 0; j < 6; j++) indices[i][j] = quads[i] + (uint32_t[]){0, 1, 2, 2, 1, 3}[j];
    navd_world_def def = NAVD_WORLD_DEF; /* what is not said here is Recast's usual */
    def.cell_size = 0.25f, def.agent_radius = 0.4f, def.tile_cells = 24;
    navd_triangle_mesh mesh = {sizeof mesh, vertices[0], sizeof vertices / sizeof *vertices, indices[0], 2 * QUADS, NULL};
    navd_world *world;
    navd_problem problem = {.size = sizeof problem};
    want(navd_world_create(&def, &mesh, &world, &problem), problem.text);
    return world;
}

static void tell_way(navd_snapshot *snapshot, navd_route *route) {
    const navd_vec3 from = {2, 0, 3}, to = {22, 2, 9};
    const navd_route_corner *corners;
    navd_status status = navd_snapshot_find_path(snapshot, NULL, &from, &to, route);
    size_t count = navd_route_corners(route, &corners);
    printf("version %" PRIu64 ": %s", navd_snapshot_version(snapshot), status == NAVD_OK ? "a way" : navd_status_text(status));
    for (size_t i = 0; i < count; i++) printf(" (%.2f %.2f %.2f)", corners[i].at.x, corners[i].at.y, corners[i].at.z);
    puts("");
}

int main(void) {
    navd_world *world = open_hall();
    navd_shape near = {.size = sizeof near, .kind = NAVD_BOX, .center = {12, 1.5f, 3}, .half = {0.1f, 1.5f, 1}}, far = near;
    navd_obstacle_id near_door, far_door;
    navd_snapshot *snapshot;
    navd_route *route;
    far.center.z = 9;
    want(navd_world_add(world, &near, 1, &near_door), "the near door, shut");
    want(navd_world_add(world, &far, 2, &far_door), "the far door, shut");
    want(navd_snapshot_create(world, 0, &snapshot), "a snapshot");
    want(navd_route_create(&route), "a route");
    for (int frame = 0; frame < FRAMES; frame++) {
        float yaw = frame < 30 ? 0 : (float)(frame - 29) * 0.15f; /* the near door swings about its hinge */
        near.yaw = yaw, near.center.x = 12 - sinf(yaw), near.center.z = 2 + cosf(yaw);
        if (frame >= 30) want(navd_world_move(world, near_door, &near), "the near door, swinging");
        if (frame == 10 || frame == 20) want(navd_world_set_enabled(world, far_door, frame == 20), "the far door");
        want(navd_world_update(world, 1, NULL), "an update");
        if (navd_snapshot_refresh(snapshot, world) == NAVD_OK || frame == 0) printf("frame %2d, ", frame), tell_way(snapshot, route);
    }
    navd_route_destroy(route);
    navd_snapshot_destroy(snapshot);
    navd_world_destroy(world);
}
