/* navd_world.h: levels in a game's own numbers, as an engine uses them, over the calls of navd.h.
 *
 *     navd_world_def def = NAVD_WORLD_DEF;
 *     navd_triangle_mesh mesh = {sizeof mesh, vertices, vertex_count, indices, triangle_count, NULL};
 *     navd_shape door = {.size = sizeof door, .kind = NAVD_BOX, .center = {5, 1, 5}, .half = {0.5f, 1, 0.1f}, .yaw = 0.3f};
 *     navd_problem problem = {.size = sizeof problem};
 *     if (navd_world_create(&def, &mesh, &world, &problem) != NAVD_OK) puts(problem.text);
 *     navd_world_add(world, &door, 0, &id);                             an id that stays
 *     navd_world_update(world, 4, NULL);                                once a frame: builds up to four tiles
 *     navd_snapshot_refresh(snapshot, world);                           in any thread, each with a snapshot of its own
 *     if (navd_snapshot_find_path(snapshot, NULL, &from, &to, route) == NAVD_OK) count = navd_route_corners(route, &corners);
 *
 * It is hosts/world/navd_world.c, in C11: libnavd.a and libnavd.so of a package have it, and over the archive of `rt lib` it is built with the host. No
 * proof reaches it. What it asks the library for is proved.
 *
 * Lengths are the game's, and y is up. Each number that goes in becomes the nearest sixteenth of a cell, along y the nearest height unit, as
 * navd_quantize says; a number that is none, infinite or too far away is NAVD_OUT_OF_RANGE. What comes out is the nearest float, so that the same
 * place goes in again. A floor lies where its triangles do, to a height unit.
 *
 * Structs with a field `size` begin with it: it is the size that the host was compiled with, so that a later library knows what the host says and
 * wants to be told. Where it is too small, or a flag or a number of a kind is unknown here, the call ends with NAVD_BAD_STRUCT.
 *
 * Ends. A call ends with NAVD_OK, or with another status of those at it, and then nothing was done but where that is said. Each call that gives a status
 * may end with NAVD_NO_MEMORY. Memory comes from the functions that navd.h names. No pointer into the host's memory is kept.
 *
 * Threads. A world, a snapshot and a route are each in one call at a time, but navd_snapshot_create and navd_snapshot_refresh may be called of a world at
 * any time and in any thread, also while another call of the world runs: they wait for no build. A world is destroyed after the last of these calls;
 * snapshots of it stay good. */
#ifndef NAVD_WORLD_H
#define NAVD_WORLD_H

#include "navd.h"

#ifdef __cplusplus
extern "C" {
#endif

/* One of the numbers of navd.h, or the next. */
typedef uint32_t navd_status;
#define NAVD_BAD_STRUCT 23u /* the size of a struct is too small, or it says what this library does not know; nothing was done */

/* A status as a sentence, and by its name: "no walk joins the two places", "NAVD_NO_PATH". Never NULL. */
const char *navd_status_text(navd_status status);
const char *navd_status_name(navd_status status);

typedef navd_world_point navd_vec3;

/* == Worlds == */

#define NAVD_BOTH_SIDES 1u   /* a triangle may be walked on whichever side of it is up */
#define NAVD_STRIPS 2u       /* polygons are strips of cells: a mesh that is quickly built and has many polygons */
#define NAVD_NO_CLEARANCE 4u /* agents keep their radius from the ground's edges and walls, and not from obstacles */

typedef struct navd_world_def {
    uint32_t size;
    float cell_size, cell_height;                  /* 1/1024 to 1024 */
    float agent_radius, agent_height, agent_climb; /* counted in cells and height units, up, up and down */
    uint32_t max_slope;                            /* in degrees; 90: nothing is too steep */
    float max_error;                               /* how far an outline may stray from its cells, in cells, 0 to 10 */
    uint32_t tile_cells;                           /* columns along a tile's side, 4 to 128 */
    uint32_t max_obstacles;                        /* how many may be on at once, 1 to 1024 */
    uint32_t flags;
    navd_vec3 min, max;      /* what the world reaches over, with all its triangles; where both are 0 just as far as these */
    const float *area_costs; /* what a length costs on each of the 64 areas, 1/16 to 62.5; NULL: 1 each */
} navd_world_def;
#define NAVD_WORLD_DEF \
    { sizeof(navd_world_def), 0.3f, 0.2f, 0.6f, 2.0f, 0.9f, 45u, 0.7f, 48u, 1024u, 0u, {0, 0, 0}, {0, 0, 0}, NULL }

/* Triangles: x, y and z of each vertex; three vertices of each triangle, whose upper side is up where (b - a) x (c - a) is; and an area for each, 0 to 63,
 * where 0 is not walked on. Without areas (NULL) each has 63. */
typedef struct navd_triangle_mesh {
    uint32_t size;
    const float *vertices;
    size_t vertex_count;
    const uint32_t *indices;
    size_t triangle_count;
    const uint8_t *areas;
} navd_triangle_mesh;

/* Why a world was not made, as a sentence, and which triangle is at fault, if one is. */
typedef struct navd_problem {
    uint32_t size;
    size_t triangle;
    char text[160];
} navd_problem;

typedef struct navd_world navd_world;

/* Makes a world of triangles, without obstacles, all of it built. `problem` may be NULL; it is written where the call fails.
 * NAVD_OK. NAVD_BAD_STRUCT. NAVD_OUT_OF_RANGE: a number of `def`, or the world is wider than 1024 cells or higher than 8190 height units. NAVD_FAULTY:
 * a triangle. NAVD_TOO_MANY_SPANS. */
navd_status navd_world_create(const navd_world_def *def, const navd_triangle_mesh *mesh, navd_world **world, navd_problem *problem);

/* `world` may be NULL. */
void navd_world_destroy(navd_world *world);

/* What the numbers of a world became, in cells and height units: for calls of navd.h beside these. It stays until the world is destroyed. */
const navd_mesh *navd_world_mesh(const navd_world *world);

/* Its registry, for calls of navd.h that have no other name here: so worker threads build tiles, as navd_registry_claim says. A call of it is one of the
 * world. What it publishes is shown by the next update. */
navd_registry *navd_world_registry(navd_world *world);

/* == Obstacles == */

/* From 1, and never given again. It stays with the obstacle, whatever is done to that. */
typedef uint64_t navd_obstacle_id;

#define NAVD_BOX 0u      /* a centre, half the sides, and a yaw in radians, from x to z */
#define NAVD_CYLINDER 1u /* a centre, the radius in half.x, half the height in half.y */
#define NAVD_PRISM 2u    /* x and z of 3 to 6 corners, convex, one way round or the other, and heights */

/* An area of 1 to 63 is given to the columns whose middles the shape holds, and of two shapes the one that was put up last decides. With the area 0 the
 * shape stops agents that would stand in it, in each column of which it covers some part, so that thin doors do not leak; boxes and cylinders are grown
 * by up to two sixteenths of a cell first, so that nothing of them is rounded away. */
typedef struct navd_shape {
    uint32_t size, kind, area;
    navd_vec3 center, half;
    float yaw;
    const float *corners;
    uint32_t corner_count;
    float min_y, max_y;
} navd_shape;

/* Adds an obstacle, which is on, with a number of the host's own. It is seen once it is shown.
 * NAVD_OK. NAVD_BAD_STRUCT. NAVD_OUT_OF_RANGE: a number of the shape, its area, or it is not convex. NAVD_TOO_MANY: as many are on as may be, or there are
 * 65536. NAVD_HISTORY_FULL: the history may not have two entries more, as navd_registry_add says. */
navd_status navd_world_add(navd_world *world, const navd_shape *shape, uint64_t user, navd_obstacle_id *id);

/* Gives an obstacle another shape; what is shown has the old one or the new one, and never none or both.
 * NAVD_OK. NAVD_BAD_STRUCT, NAVD_OUT_OF_RANGE, NAVD_HISTORY_FULL: as above. NAVD_NO_OBSTACLE. */
navd_status navd_world_move(navd_world *world, navd_obstacle_id id, const navd_shape *shape);

/* NAVD_OK. NAVD_SAME: it was so. NAVD_NO_OBSTACLE. NAVD_TOO_MANY. NAVD_HISTORY_FULL. */
navd_status navd_world_set_enabled(navd_world *world, navd_obstacle_id id, int enabled);

/* NAVD_OK. NAVD_NO_OBSTACLE. */
navd_status navd_world_set_user(navd_world *world, navd_obstacle_id id, uint64_t user);

/* NAVD_OK. NAVD_NO_OBSTACLE. NAVD_HISTORY_FULL. */
navd_status navd_world_remove(navd_world *world, navd_obstacle_id id);

/* The obstacles by rising ids, as the library has them (navd.h), as many as there is room for; how many there are is left at `count`.
 * NAVD_OK. */
navd_status navd_world_obstacles(navd_world *world, navd_row *rows, size_t room, size_t *count);

/* Lays what is saved of the obstacles into `bytes`, if there is room for all of it, as navd_registry_save does; how many bytes it has is left at `length`.
 * NAVD_OK. NAVD_NO_ROOM: only `length` was left. */
navd_status navd_world_save(navd_world *world, uint8_t *bytes, size_t room, size_t *length);

/* Puts the obstacles that were saved in the place of all others, as navd_registry_restore does. Their shapes are in the cells and height units of the world
 * that they were saved of: this one is to have the same ones.
 * NAVD_OK. NAVD_NOT_SAVED: no save wrote these bytes. NAVD_FOREIGN: the world has more or fewer cells, in larger or smaller tiles, or another
 * `max_obstacles`. NAVD_TOO_MANY. NAVD_HISTORY_FULL. */
navd_status navd_world_restore(navd_world *world, const uint8_t *bytes, size_t length);

/* What an update did: the tiles that it built, whether something new is shown (1), whether something that was asked for is not shown yet (1), and the
 * version, which never falls. */
typedef struct navd_progress {
    uint32_t size, tiles_built, published, pending;
    uint64_t version;
} navd_progress;

#define NAVD_ALL_TILES 0xffffffffu

/* Once a frame: goes on with what was asked for up to a time, builds at most so many tiles, and shows it once all its tiles are built; what was asked for
 * meanwhile is taken up then. `progress` may be NULL.
 * NAVD_OK. NAVD_BAD_STRUCT. NAVD_NO_MEMORY: some tiles may be built; another update goes on from there. */
navd_status navd_world_update(navd_world *world, uint32_t max_tiles, navd_progress *progress);

/* == Snapshots == */

/* What a world showed when the snapshot was last refreshed; one for each thread that asks. */
typedef struct navd_snapshot navd_snapshot;

/* Of an agent of the world: 0, which is the only one so far.
 * NAVD_OK. NAVD_OUT_OF_RANGE: there is no such agent. */
navd_status navd_snapshot_create(navd_world *world, uint32_t agent, navd_snapshot **snapshot);

/* NAVD_OK. NAVD_SAME: nothing newer is shown. */
navd_status navd_snapshot_refresh(navd_snapshot *snapshot, navd_world *world);

uint64_t navd_snapshot_version(const navd_snapshot *snapshot);

/* Its view, for all questions of navd.h. */
navd_view *navd_snapshot_view(navd_snapshot *snapshot);

/* `snapshot` may be NULL. */
void navd_snapshot_destroy(navd_snapshot *snapshot);

/* What a question goes by. NULL in its place stands for NAVD_FILTER. */
typedef struct navd_filter {
    uint32_t size;
    uint32_t partial;        /* 1: where no way leads to the goal, the way to the nearest place to which one leads */
    uint64_t areas;          /* a polygon of area a is entered where bit a is set */
    const float *area_costs; /* as those of a world, for this question; NULL: those of the world */
    double max_cost;         /* no way is looked at that costs more; 0: no limit */
    size_t max_polygons;     /* nor more polygons than this; 0: no limit */
} navd_filter;
#define NAVD_FILTER \
    { sizeof(navd_filter), 0u, 0xffffffffffffffffu, NULL, 0.0, 0u }

/* The nearest place in space to a point, that is at most `reach` away in the plane and `height` up or down; what of that the agent climbs does not
 * count. Of the filter the areas are read.
 * NAVD_OK. NAVD_NO_PLACE: there is none. NAVD_OUT_OF_RANGE. NAVD_BAD_STRUCT. */
navd_status navd_snapshot_nearest(navd_snapshot *snapshot, const navd_filter *filter, const navd_vec3 *at, float reach, float height, navd_vec3 *place);

/* The height of the floor above or below a point that is nearest to it, left at `y`.
 * NAVD_OK. NAVD_NO_PLACE: there is none. NAVD_OUT_OF_RANGE. */
navd_status navd_snapshot_height(navd_snapshot *snapshot, const navd_vec3 *at, float *y);

/* Where a straight walk from a point toward another one ends: `hit` 1 where that is at a wall, the fraction of the way up to there, the place, and the
 * ends of the wall, which else are the place. */
typedef struct navd_hit {
    uint32_t size, hit;
    float fraction;
    navd_vec3 at, wall_from, wall_to;
} navd_hit;

/* NAVD_OK. NAVD_NO_START: no floor is at `from`, up or down as far as the agent climbs. NAVD_OUT_OF_RANGE. NAVD_BAD_STRUCT. */
navd_status navd_snapshot_raycast(navd_snapshot *snapshot, const navd_vec3 *from, const navd_vec3 *to, navd_hit *hit);

/* == Routes == */

/* A path that was found. One that is used again keeps its memory. */
typedef struct navd_route navd_route;

#define NAVD_ROUTE_START 1u
#define NAVD_ROUTE_END 2u

typedef struct navd_route_corner {
    navd_vec3 at;
    uint32_t flags; /* NAVD_ROUTE_START and NAVD_ROUTE_END, or 0 */
} navd_route_corner;

navd_status navd_route_create(navd_route **route);

/* `route` may be NULL. */
void navd_route_destroy(navd_route *route);

/* A cheapest way between two places, and its corners, from the first to the last. After another end than the first two the route has none.
 * NAVD_OK. NAVD_PARTIAL, where the filter asks for it: the route leads to the nearest place to which a way leads within the filter's limits, and ends
 * there. NAVD_NO_START, NAVD_NO_GOAL: no floor is there, up or down as far as the agent climbs. NAVD_NO_PATH: no way leads there. NAVD_LIMIT: none does
 * within the limits. NAVD_OUT_OF_RANGE. NAVD_BAD_STRUCT. */
navd_status navd_snapshot_find_path(navd_snapshot *snapshot, const navd_filter *filter, const navd_vec3 *from, const navd_vec3 *to, navd_route *route);

/* How many corners there are; their address is left at `corners`, and is good until the route's next search. */
size_t navd_route_corners(const navd_route *route, const navd_route_corner **corners);

/* What the way costs from middle to middle of its polygons, in the game's unit times the costs of their areas: the least that there is. */
double navd_route_cost(const navd_route *route);

/* The version of the snapshot in which it was found. */
uint64_t navd_route_version(const navd_route *route);

#ifdef __cplusplus
}
#endif

#endif
