/* Times calls of navd_world.h, beside the calls of navd.h that do the same:
 *
 *     worlds KIND COUNT
 *
 * In a world of 102 by 102 metres, 512 by 512 columns in tiles of 32, with 500 pillars and 24 doors of which one turns in each frame, COUNT times:
 *     path, exact_path    a way between two points and its corners; the calls of navd.h for the same: places of the points, the plan, the height at
 *                         each corner, and points of the corners
 *     update, exact       an update that builds what a door changed; navd_registry_update
 *     refresh, copy       a snapshot takes what is new, in turn with seven others; navd_view_copy out of a view, and the close of what was copied before
 * A line is written: the kind, the nanoseconds a call by the clock, and how many there were. A program that is built with COUNTED collects the
 * instructions of these calls alone, by callgrind with --collect-atstart=no. */
#define _POSIX_C_SOURCE 200809L

#include <inttypes.h>
#include <math.h>
#include <stdbool.h>
#include <stdio.h>
#include <stdlib.h>
#include <string.h>
#include <time.h>

#include "../include/navd_world.h"
#include "../hosts/c/common.h"
#ifdef COUNTED
#include <valgrind/callgrind.h>
#else
#define CALLGRIND_TOGGLE_COLLECT
#endif

enum { PILLARS = 500, DOORS = 24, SNAPSHOTS = 8, ROOM = 4096 };

static const float side = 102.4f;
static uint64_t seed = 7;
static navd_world *world;
static navd_obstacle_id doors[DOORS];
static navd_snapshot *snapshots[SNAPSHOTS];
static double taken, since;

static void want(bool holds, const char *what) {
    if (holds) return;
    fprintf(stderr, "worlds: %s\n", what);
    exit(1);
}

/* What stands between the two is timed. */
static void begin(void) {
    struct timespec now;
    clock_gettime(CLOCK_MONOTONIC, &now);
    since = (double)now.tv_sec * 1e9 + (double)now.tv_nsec;
    CALLGRIND_TOGGLE_COLLECT;
}

static void end(void) {
    struct timespec now;
    CALLGRIND_TOGGLE_COLLECT;
    clock_gettime(CLOCK_MONOTONIC, &now);
    taken += (double)now.tv_sec * 1e9 + (double)now.tv_nsec - since;
}

static float pick(float most) {
    return (float)pick_by(&seed, 1 << 20) / (1 << 20) * most;
}

static navd_shape box(float half_x, float half_z, float yaw) {
    return (navd_shape){.size = sizeof(navd_shape), .kind = NAVD_BOX, .center = {pick(side), 1, pick(side)}, .half = {half_x, 1, half_z}, .yaw = yaw};
}

static void open_world(void) {
    const float corners[4][3] = {{0, 0, 0}, {0, 0, side}, {side, 0, 0}, {side, 0, side}};
    const uint32_t triangles[2][3] = {{0, 1, 2}, {2, 1, 3}};
    navd_triangle_mesh mesh = {sizeof mesh, corners[0], 4, triangles[0], 2, NULL};
    navd_world_def def = NAVD_WORLD_DEF;
    navd_problem problem = {.size = sizeof problem};
    navd_obstacle_id id;
    def.cell_size = 0.2f;
    def.tile_cells = 32;
    want(navd_world_create(&def, &mesh, &world, &problem) == NAVD_OK, problem.text);
    for (int i = 0; i < PILLARS; i++) {
        navd_shape pillar = box(0.3f + pick(0.7f), 0.3f + pick(0.7f), pick(3));
        want(navd_world_add(world, &pillar, 0, &id) == NAVD_OK, "a pillar");
    }
    for (int i = 0; i < DOORS; i++) {
        navd_shape door = box(0.7f, 0.1f, 0);
        want(navd_world_add(world, &door, 0, &doors[i]) == NAVD_OK, "a door");
    }
    want(navd_world_update(world, NAVD_ALL_TILES, NULL) == NAVD_OK, "an update");
    for (int i = 0; i < SNAPSHOTS; i++) want(navd_snapshot_create(world, 0, &snapshots[i]) == NAVD_OK, "a snapshot");
}

/* A door turns to another place. */
static void turn(int frame) {
    navd_shape door = box(0.7f, 0.1f, pick(3));
    want(navd_world_move(world, doors[frame % DOORS], &door) == NAVD_OK, "a door turns");
}

/* A way and its corners by the calls of navd.h. */
static uint32_t find_exactly(navd_view *view, const navd_frame *frame, const navd_vec3 *ends) {
    static navd_link links[ROOM];
    static navd_turn turns[ROOM];
    static navd_frame_place places[ROOM + 2];
    static navd_vec3 points[ROOM + 2];
    static const uint32_t no_costs[1];
    size_t count;
    if (navd_quantize(frame, ends, 2, places, 2, &count) != NAVD_OK) return NAVD_OUT_OF_RANGE;
    navd_plan plan = {.way = {{places[0].x, places[0].z}, (uint32_t)places[0].y + 1, {places[1].x, places[1].z}, (uint32_t)places[1].y + 1},
                      .areas = UINT64_MAX, .most_cost = UINT64_MAX, .most_polygons = SIZE_MAX};
    uint32_t status = navd_view_plan(view, &plan, no_costs, 0, links, ROOM, turns, ROOM);
    if (status != NAVD_OK) return status;
    navd_place at = {plan.first, plan.way.from, plan.way.from_y};
    for (count = 0; count < plan.turns + 2; count++) {
        if (count == plan.turns + 1) at.polygon = plan.last, at.at = plan.end;
        else if (count) at.polygon = links[turns[count - 1].link].to, at.at = turns[count - 1].at;
        status = navd_view_height(view, &at);
        if (status != NAVD_OK && status != NAVD_NO_PLACE) return status;
        places[count] = (navd_frame_place){at.at.x, (int32_t)at.y, at.at.z};
    }
    return navd_dequantize(frame, places, count, points, count, &count);
}

/* Ways that there are, each asked over the thin layer or exactly. */
static void ask(bool exactly, int count) {
    navd_route *route;
    const navd_frame *frame = &navd_world_mesh(world)->frame;
    want(navd_route_create(&route) == NAVD_OK, "a route");
    for (int found = 0; found < count;) {
        navd_vec3 ends[2] = {{pick(side), 0, pick(side)}, {pick(side), 0, pick(side)}};
        if (navd_snapshot_find_path(snapshots[0], NULL, &ends[0], &ends[1], route) != NAVD_OK) continue;
        begin();
        uint32_t status = exactly ? find_exactly(navd_snapshot_view(snapshots[0]), frame, ends)
                                  : navd_snapshot_find_path(snapshots[0], NULL, &ends[0], &ends[1], route);
        end();
        want(status == NAVD_OK, "a way");
        found++;
    }
    navd_route_destroy(route);
}

static void update(bool exactly, int count) {
    navd_updated told;
    for (int i = 0; i < count; i++) {
        turn(i);
        begin();
        uint32_t status = exactly ? navd_registry_update(navd_world_registry(world), UINT32_MAX, &told) : navd_world_update(world, NAVD_ALL_TILES, NULL);
        end();
        want(status == NAVD_OK, "an update");
        for (int j = 0; j < SNAPSHOTS && !exactly; j++) navd_snapshot_refresh(snapshots[j], world);
    }
}

static void refresh(bool exactly, int count) {
    navd_view views[SNAPSHOTS] = {{0}};
    for (int i = 0; i < count; i += SNAPSHOTS) {
        turn(i);
        want(navd_world_update(world, NAVD_ALL_TILES, NULL) == NAVD_OK, "an update");
        if (exactly) want(navd_snapshot_refresh(snapshots[0], world) == NAVD_OK, "something new");
        begin();
        for (int j = 0; j < SNAPSHOTS; j++) {
            uint32_t status = exactly ? navd_view_copy(&views[j], navd_snapshot_view(snapshots[0])) : navd_snapshot_refresh(snapshots[j], world);
            want(status == NAVD_OK, "something new");
        }
        end();
    }
    for (int j = 0; j < SNAPSHOTS; j++) navd_view_close(&views[j]);
}

int main(int argc, char **words) {
    static const struct {
        const char *name;
        void (*time)(bool, int);
        bool is_exact;
    } kinds[] = {{"path", ask, false}, {"exact_path", ask, true}, {"update", update, false}, {"exact", update, true}, {"refresh", refresh, false},
                 {"copy", refresh, true}};
    int count = argc == 3 ? atoi(words[2]) : 0;
    for (size_t i = 0; count > 0 && i < sizeof kinds / sizeof *kinds; i++)
        if (!strcmp(words[1], kinds[i].name)) {
            open_world();
            kinds[i].time(kinds[i].is_exact, count);
            printf("%s %.1f %d\n", words[1], taken / count, count);
            for (int j = 0; j < SNAPSHOTS; j++) navd_snapshot_destroy(snapshots[j]);
            navd_world_destroy(world);
            return 0;
        }
    return 2;
}
