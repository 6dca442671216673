/* Doors that turn, open and shut while four threads ask, over navd_world.h:
 *
 *     turning FRAMES
 *
 * Each frame changes one of 60 doors between 25 rooms and builds up to three tiles; in some frames one memory request of 64 is refused to it. The threads
 * refresh snapshots of their own and ask for ways and rays. Wanted are: ids that are never given twice, rows as they were asked for, versions
 * that never fall, ways that begin and end where they were asked for, and in the end the answers of a world whose doors are put up at once. */
#define _POSIX_C_SOURCE 200809L

#include <math.h>
#include <pthread.h>
#include <stdatomic.h>
#include <stdbool.h>
#include <stdio.h>
#include <stdlib.h>
#include <string.h>

#include "navd_world.h"
#include "../c/common.h"

enum { ROOMS = 5, ROOM = 12, SIDE = ROOMS * ROOM, DOORS = 60, READERS = 4, QUESTIONS = 200, MOST_QUADS = 1 + 4 * ROOMS * (ROOMS - 1) };

/* == Memory: one request of 64 is refused while a thread says so == */

static _Thread_local uint64_t refusing; /* 0, or the state of a generator */

static bool is_refused(void) {
    return refusing && pick_by(&refusing, 64) == 0;
}

#define IS_REFUSED is_refused
#include "../c/heap.h"

/* == Rooms with gaps between them, and doors == */

typedef struct {
    navd_shape shape;
    navd_obstacle_id id;
    uint64_t user;
    bool enabled;
} door;

static float vertices[4 * MOST_QUADS][3];
static uint32_t indices[MOST_QUADS][6];
static size_t quads;
static door doors[DOORS];
static atomic_bool ends;

static void want(bool holds, const char *what) {
    if (holds) return;
    fprintf(stderr, "%s\n", what);
    exit(1);
}

/* A quad from one corner to another, whose other two corners are at the height of the first over the second, or upright. */
static void add_quad(float x0, float z0, float x1, float z1, float height) {
    float at[4][3] = {{x0, 0, z0}, {height ? x1 : x0, 0, z1}, {height ? x0 : x1, height, z0}, {x1, height, z1}};
    for (uint32_t i = 0; i < 6; i++) indices[quads][i] = (uint32_t)(4 * quads) + (uint32_t[]){0, 1, 2, 2, 1, 3}[i];
    for (uint32_t i = 0; i < 12; i++) vertices[4 * quads + i / 3][i % 3] = at[i / 3][i % 3];
    quads++;
}

/* Walls of 3 m between rooms, each with a gap of 2 m in its middle. */
static navd_world *open_rooms(void) {
    const float middle = ROOM / 2.0f;
    quads = 0;
    add_quad(0, 0, SIDE, SIDE, 0);
    for (int i = 1; i < ROOMS; i++)
        for (int j = 0; j < ROOMS; j++) {
            float wall = (float)(i * ROOM), from = (float)(j * ROOM), to = from + ROOM;
            add_quad(wall, from, wall, from + middle - 1, 3);
            add_quad(wall, from + middle + 1, wall, to, 3);
            add_quad(from, wall, from + middle - 1, wall, 3);
            add_quad(from + middle + 1, wall, to, wall, 3);
        }
    navd_world_def def = NAVD_WORLD_DEF;
    navd_triangle_mesh mesh = {sizeof mesh, vertices[0], 4 * quads, indices[0], 2 * quads, NULL};
    navd_world *world = NULL;
    navd_problem problem = {.size = sizeof problem};
    want(navd_world_create(&def, &mesh, &world, &problem) == NAVD_OK, problem.text);
    return world;
}

/* A door of 2 m in a gap, or one that stands in a room, turned. */
static void shape_door(door *it, uint64_t *seed) {
    uint32_t wall = 1 + pick_by(seed, ROOMS - 1), room = pick_by(seed, ROOMS), way = pick_by(seed, 3);
    float along = (float)(wall * ROOM), across = ((float)room + 0.5f) * ROOM;
    it->shape = (navd_shape){.size = sizeof it->shape, .kind = way == 2 ? NAVD_CYLINDER : NAVD_BOX, .half = {0.1f, 1.5f, 1}};
    it->shape.center = way == 0 ? (navd_vec3){along, 1.5f, across} : (navd_vec3){across, 1.5f, along};
    it->shape.yaw = way == 0 ? 0 : 1.5707964f;
    if (pick_by(seed, 2)) it->shape.yaw += (float)pick_by(seed, 1000) * 0.001f, it->shape.center.x += (float)pick_by(seed, 100) * 0.01f;
}

/* Asks for one change of a door, and keeps it where it was taken. */
static void change(navd_world *world, door *it, uint64_t *seed, navd_obstacle_id *last) {
    door wish = *it;
    navd_status status;
    switch (it->id ? pick_by(seed, 8) : 8) {
        case 0: status = navd_world_remove(world, it->id), wish.id = 0; break;
        case 1: status = navd_world_set_user(world, it->id, wish.user = *seed); break;
        case 2: case 3: wish.enabled = !it->enabled, status = navd_world_set_enabled(world, it->id, wish.enabled); break;
        case 8:
            shape_door(&wish, seed);
            wish.enabled = true, status = navd_world_add(world, &wish.shape, wish.user = *seed, &wish.id);
            want(status != NAVD_OK || wish.id == *last + 1, "an id that was given");
            *last += status == NAVD_OK;
            break;
        default: shape_door(&wish, seed), status = navd_world_move(world, it->id, &wish.shape);
    }
    want(status == NAVD_OK || status == NAVD_NO_MEMORY || status == NAVD_HISTORY_FULL, "a change");
    if (status == NAVD_OK) *it = wish;
}

/* What was saved, and the doors of then. */
static struct {
    uint8_t bytes[48 + 88 * DOORS];
    size_t length;
    door doors[DOORS];
} saved;

/* Saves the doors, or brings back those that were saved; whether it did that, which is a version. */
static bool save_or_restore(navd_world *world, uint64_t *seed) {
    size_t length;
    bool saves = pick_by(seed, 2) || !saved.length;
    navd_status status = saves ? navd_world_save(world, saved.bytes, sizeof saved.bytes, &length) : navd_world_restore(world, saved.bytes, saved.length);
    want(status == NAVD_OK || status == NAVD_NO_MEMORY || (!saves && status == NAVD_HISTORY_FULL), "a saving");
    if (status != NAVD_OK) {
        if (saves) saved.length = 0;
        return false;
    }
    if (saves) saved.length = length;
    memcpy(saves ? saved.doors : doors, saves ? doors : saved.doors, sizeof doors);
    return !saves;
}

static void compare_rows(navd_world *world) {
    navd_row rows[DOORS];
    size_t count, mine = 0;
    want(navd_world_obstacles(world, rows, DOORS, &count) == NAVD_OK && count <= DOORS, "the rows");
    for (door *it = doors; it < doors + DOORS; it++) {
        size_t i = 0;
        if (!it->id) continue;
        mine++;
        while (i < count && rows[i].id != it->id) i++;
        want(i < count && rows[i].user == it->user && rows[i].enabled == it->enabled, "a row");
    }
    want(mine == count, "a row too many");
    for (size_t i = 1; i < count; i++) want(rows[i - 1].id < rows[i].id, "the order of rows");
}

/* == Questions == */

static navd_vec3 somewhere(uint64_t *seed) {
    return (navd_vec3){(float)pick_by(seed, 16 * SIDE) / 16, 0, (float)pick_by(seed, 16 * SIDE) / 16};
}

/* Asks for a way, and gives what it costs, or its status below 0. */
static double ask(navd_snapshot *snapshot, navd_route *route, uint64_t *seed) {
    navd_vec3 from = somewhere(seed), to = somewhere(seed);
    navd_hit hit = {.size = sizeof hit};
    const navd_route_corner *corners;
    navd_status status = navd_snapshot_find_path(snapshot, NULL, &from, &to, route), ray = navd_snapshot_raycast(snapshot, &from, &to, &hit);
    want((ray == NAVD_NO_START) == (status == NAVD_NO_START) && (ray == NAVD_OK || ray == NAVD_NO_START), "a ray");
    size_t count = navd_route_corners(route, &corners);
    want(ray != NAVD_OK || hit.hit || status == NAVD_OK, "a free ray and no way");
    if (status != NAVD_OK) {
        want((status == NAVD_NO_START || status == NAVD_NO_GOAL || status == NAVD_NO_PATH) && count == 0, "a way");
        return -(double)status;
    }
    const navd_vec3 *first = &corners[0].at, *last = &corners[count - 1].at;
    want(count >= 2 && navd_route_version(route) == navd_snapshot_version(snapshot), "a route");
    want(fabsf(first->x - from.x) < 0.01f && fabsf(first->z - from.z) < 0.01f, "its beginning");
    want(fabsf(last->x - to.x) < 0.01f && fabsf(last->z - to.z) < 0.01f, "its end");
    for (size_t i = 0; i < count; i++) want(corners[i].at.y == 0, "its heights");
    return navd_route_cost(route);
}

static void *read_on(void *given) {
    navd_world *world = given;
    navd_snapshot *snapshot = NULL;
    navd_route *route = NULL;
    uint64_t seed = (uint64_t)(uintptr_t)&seed;
    want(navd_snapshot_create(world, 0, &snapshot) == NAVD_OK && navd_route_create(&route) == NAVD_OK, "a snapshot");
    uint64_t version = navd_snapshot_version(snapshot);
    while (!atomic_load(&ends)) {
        navd_status status = navd_snapshot_refresh(snapshot, world);
        want(status == NAVD_OK || status == NAVD_SAME, "a refresh");
        want(status == NAVD_SAME ? navd_snapshot_version(snapshot) == version : navd_snapshot_version(snapshot) > version, "a version");
        version = navd_snapshot_version(snapshot);
        for (int i = 0; i < 8; i++) ask(snapshot, route, &seed);
    }
    navd_route_destroy(route);
    navd_snapshot_destroy(snapshot);
    return NULL;
}

/* A world in which the doors stand from the start answers alike. */
static void compare(navd_world *world) {
    navd_world *other = open_rooms();
    navd_snapshot *snapshots[2];
    navd_route *route = NULL;
    uint64_t seeds[2] = {7, 7};
    navd_obstacle_id id;
    navd_progress progress = {.size = sizeof progress, .pending = 1};
    for (door *it = doors; it < doors + DOORS; it++)
        if (it->id && it->enabled) want(navd_world_add(other, &it->shape, 0, &id) == NAVD_OK, "a door again");
    want(navd_world_update(other, NAVD_ALL_TILES, NULL) == NAVD_OK, "an update of all");
    while (progress.pending) want(navd_world_update(world, NAVD_ALL_TILES, &progress) == NAVD_OK, "the last updates");
    want(navd_snapshot_create(world, 0, &snapshots[0]) == NAVD_OK && navd_snapshot_create(other, 0, &snapshots[1]) == NAVD_OK, "snapshots");
    want(navd_route_create(&route) == NAVD_OK, "a route");
    for (int i = 0; i < QUESTIONS; i++) want(ask(snapshots[0], route, &seeds[0]) == ask(snapshots[1], route, &seeds[1]), "an answer of another world");
    navd_world_destroy(other);
    navd_route_destroy(route);
    navd_snapshot_destroy(snapshots[0]);
    navd_snapshot_destroy(snapshots[1]);
}

int main(int argc, char **words) {
    long frames = argc == 2 ? atol(words[1]) : 0, refused = 0;
    uint64_t unseen = 0;
    if (frames <= 0) return 2;
    navd_world *world = open_rooms();
    pthread_t threads[READERS];
    uint64_t seed = 11, version = 0;
    navd_obstacle_id last = 0;
    navd_progress progress = {.size = sizeof progress};
    for (int i = 0; i < READERS; i++) want(!pthread_create(&threads[i], NULL, read_on, world), "a thread");
    for (long i = 0; i < frames; i++) {
        refusing = pick_by(&seed, 4) ? 0 : seed | 1;
        change(world, &doors[pick_by(&seed, DOORS)], &seed, &last);
        if (!pick_by(&seed, 8) && save_or_restore(world, &seed)) progress.version = ++version;
        navd_status status = navd_world_update(world, pick_by(&seed, 4), &progress);
        refusing = 0;
        want(status == NAVD_OK || status == NAVD_NO_MEMORY, "an update");
        refused += status == NAVD_NO_MEMORY;
        /* an update that is refused may have been shown by the registry already, and by the world with the next one */
        unseen += status == NAVD_NO_MEMORY;
        want(progress.version >= version && progress.version <= version + 1 + unseen, "a version that falls");
        if (status == NAVD_OK) unseen = 0;
        version = progress.version;
        if (i % 64 == 0) compare_rows(world);
    }
    atomic_store(&ends, true);
    for (int i = 0; i < READERS; i++) want(!pthread_join(threads[i], NULL), "a thread's end");
    compare_rows(world);
    compare(world);
    navd_world_destroy(world);
    printf("%ld frames, %llu versions, %llu ids, %ld updates refused: rows, versions and ways as they have to be\n", frames, (unsigned long long)version,
           (unsigned long long)last, refused);
    return 0;
}
