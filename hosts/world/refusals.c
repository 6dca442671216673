/* What navd_world.h refuses, and what numbers become, tried one by one; then a scene with each memory request refused in turn.
 *
 *     refusals            writes a line, and ends with 1 at the first thing that is not as it has to be */
#include <math.h>
#include <stdbool.h>
#include <stdio.h>
#include <stdlib.h>
#include <string.h>

#include "navd_world.h"

#define WANT(holds) want(holds, #holds, __LINE__)

static void want(bool holds, const char *what, int line) {
    if (holds) return;
    fprintf(stderr, "line %d: %s\n", line, what);
    exit(1);
}

/* == Memory: one request is refused == */

static long requests, refused;

#define IS_REFUSED() (++requests == refused)
#include "../c/heap.h"

/* == A square of 30 m, in cells of half a metre and height units of a quarter == */

static const float vertices[] = {0, 0, 0, 30, 0, 0, 30, 0, 30, 0, 0, 30};
static const uint32_t indices[] = {0, 2, 1, 0, 3, 2};
static const navd_triangle_mesh square = {sizeof square, vertices, 4, indices, 2, NULL};

static navd_world_def coarse(void) {
    navd_world_def def = NAVD_WORLD_DEF;
    def.cell_size = 0.5f;
    def.cell_height = 0.25f;
    return def;
}

/* Whether a world is refused with a status and a sentence that begins so. */
static bool is_refused(navd_world_def def, navd_triangle_mesh mesh, navd_status due, const char *text) {
    navd_world *world = NULL;
    navd_problem problem = {.size = sizeof problem};
    navd_status status = navd_world_create(&def, &mesh, &world, &problem);
    if (status != due || strncmp(problem.text, text, strlen(text))) fprintf(stderr, "%s: %s\n", navd_status_name(status), problem.text);
    return status == due && !world && !strncmp(problem.text, text, strlen(text));
}

static void try_definitions(void) {
    const navd_world_def def = NAVD_WORLD_DEF;
    static const float costs[64] = {1};
#define REFUSED(field, value, status, text)           \
    do {                                              \
        navd_world_def other = def;                   \
        other.field = value;                          \
        WANT(is_refused(other, square, status, text)); \
    } while (0)
    REFUSED(cell_size, 0, NAVD_OUT_OF_RANGE, "cell_size");
    REFUSED(cell_size, NAN, NAVD_OUT_OF_RANGE, "cell_size");
    REFUSED(cell_height, 2000, NAVD_OUT_OF_RANGE, "cell_height");
    REFUSED(agent_radius, -1, NAVD_OUT_OF_RANGE, "agent_radius");
    REFUSED(agent_radius, 4.6f, NAVD_OUT_OF_RANGE, "agent_radius is at most 15 cells");
    REFUSED(agent_height, 0, NAVD_OUT_OF_RANGE, "agent_height");
    REFUSED(agent_height, 51.3f, NAVD_OUT_OF_RANGE, "agent_height is 2 to 256");
    REFUSED(agent_climb, 2, NAVD_OUT_OF_RANGE, "agent_climb");
    REFUSED(max_slope, 91, NAVD_OUT_OF_RANGE, "max_slope");
    REFUSED(max_error, 10.1f, NAVD_OUT_OF_RANGE, "max_error");
    REFUSED(tile_cells, 129, NAVD_OUT_OF_RANGE, "tile_cells is 4 to 128");
    REFUSED(max_obstacles, 0, NAVD_OUT_OF_RANGE, "max_obstacles");
    REFUSED(area_costs, costs, NAVD_OUT_OF_RANGE, "area_costs");
    REFUSED(max.x, 400, NAVD_OUT_OF_RANGE, "the world is");
    REFUSED(flags, 8, NAVD_BAD_STRUCT, "a struct");
    REFUSED(size, sizeof def - 1, NAVD_BAD_STRUCT, "a struct");
}

static void try_meshes(void) {
    const navd_world_def def = NAVD_WORLD_DEF;
    navd_triangle_mesh mesh = square;
    static const uint32_t over[] = {0, 2, 1, 0, 4, 2};
    static const uint8_t areas[] = {63, 64};
    float bad[12];
    memcpy(bad, vertices, sizeof bad);
    bad[11] = INFINITY;
    mesh.indices = over;
    WANT(is_refused(def, mesh, NAVD_FAULTY, "the triangle 1 names a vertex"));
    mesh = square, mesh.vertices = bad;
    WANT(is_refused(def, mesh, NAVD_FAULTY, "the triangle 1 has a number"));
    mesh = square, mesh.areas = areas;
    WANT(is_refused(def, mesh, NAVD_FAULTY, "the triangle 1 has an area"));
    mesh = square, mesh.vertex_count = mesh.triangle_count = 0;
    WANT(is_refused(def, mesh, NAVD_OUT_OF_RANGE, "the world is empty"));
    mesh = square, mesh.size = 8;
    WANT(is_refused(def, mesh, NAVD_BAD_STRUCT, "a struct"));
}

/* A struct of a later library goes as long as it says nothing that is not known here. */
static void try_later_structs(void) {
    struct {
        navd_world_def def;
        uint32_t more[2];
    } later = {NAVD_WORLD_DEF, {0, 0}};
    navd_world *world;
    later.def.size = sizeof later;
    WANT(navd_world_create(&later.def, &square, &world, NULL) == NAVD_OK);
    navd_world_destroy(world);
    later.more[1] = 1;
    WANT(navd_world_create(&later.def, &square, &world, NULL) == NAVD_BAD_STRUCT);
}

static navd_world *made(navd_world_def def) {
    navd_world *world = NULL;
    WANT(navd_world_create(&def, &square, &world, NULL) == NAVD_OK);
    return world;
}

static void try_agents(void) {
    navd_world_def def = NAVD_WORLD_DEF;
    navd_world *world = made(def);
    const navd_mesh *mesh = navd_world_mesh(world);
    WANT(mesh->setting.width == 100 && mesh->setting.depth == 100 && mesh->setting.radius == 2 && mesh->setting.height == 9 && mesh->setting.climb == 4);
    WANT(mesh->slope.rise == 12288 && mesh->slope.run == 131072 && mesh->setting.error == 49);
    navd_world_destroy(world);
    def.cell_size = 0.2f; /* 0.6 by 0.2 is three cells, though these floats are not quite */
    world = made(def);
    WANT(navd_world_mesh(world)->setting.radius == 3);
    navd_world_destroy(world);
}

/* == Obstacles == */

/* The prism that a shape becomes, with its corners and heights. */
static bool is_prism(navd_world *world, navd_shape shape, uint32_t y0, uint32_t y1, const int32_t *corners) {
    navd_row row;
    navd_obstacle_id id;
    size_t count;
    WANT(navd_world_add(world, &shape, 5, &id) == NAVD_OK && navd_world_obstacles(world, &row, 1, &count) == NAVD_OK && count == 1);
    const navd_prism *it = &row.solid.prism;
    bool is_it = row.id == id && row.user == 5 && row.enabled && row.solid.kind == 2 && row.solid.area == shape.area && it->y0 == y0 && it->y1 == y1;
    for (uint32_t i = 0; i < it->corners; i++) is_it &= it->point[i].x == corners[2 * i] && it->point[i].z == corners[2 * i + 1];
    WANT(navd_world_remove(world, id) == NAVD_OK);
    return is_it;
}

static void try_shapes(void) {
    navd_world *world = made(coarse()); /* an agent of 8 units */
    const float clockwise[] = {0, 0, 0, 5, 5, 5, 5, 0};
    navd_shape box = {.size = sizeof box, .kind = NAVD_BOX, .center = {10, 1, 10}, .half = {1, 1, 0.125f}}, round = box, prism = box;
    WANT(is_prism(world, box, 0, 8, (int32_t[]){287, 315, 353, 315, 353, 325, 287, 325}));
    box.yaw = 1.5707964f;
    WANT(is_prism(world, box, 0, 8, (int32_t[]){325, 287, 325, 353, 315, 353, 315, 287}));
    box.area = 5, box.yaw = 0;
    WANT(is_prism(world, box, 1, 9, (int32_t[]){288, 316, 352, 316, 352, 324, 288, 324}));
    prism.kind = NAVD_PRISM, prism.corners = clockwise, prism.corner_count = 4, prism.max_y = 2;
    const int32_t turned[] = {160, 0, 160, 160, 0, 160, 0, 0};
    WANT(is_prism(world, prism, 0, 8, turned));
    prism.min_y = 2.6f, prism.max_y = 3; /* a beam: an agent of 2 m comes into it from 0.75 m on */
    WANT(is_prism(world, prism, 4, 12, turned));
    prism.min_y = -100, prism.max_y = -90;
    WANT(is_prism(world, prism, 8191, 8191, turned));
    navd_obstacle_id id;
    navd_row row;
    size_t count;
    round.kind = NAVD_CYLINDER;
    WANT(navd_world_add(world, &round, 0, &id) == NAVD_OK && navd_world_obstacles(world, &row, 1, &count) == NAVD_OK);
    WANT(row.solid.kind == 3 && row.solid.disc.x == 320 && row.solid.disc.z == 320 && row.solid.disc.r == 33 && row.solid.disc.y1 == 8);
    navd_world_destroy(world);
}

static void try_refused_shapes(void) {
    navd_world *world = made(coarse());
    navd_obstacle_id id = 0;
    const float line[] = {0, 0, 5, 5, 9, 9};
    navd_shape box = {.size = sizeof box, .kind = NAVD_BOX, .center = {10, 1, 10}, .half = {1, 1, 0.125f}}, other;
#define SHAPE_REFUSED(change, status) (other = box, change, WANT(navd_world_add(world, &other, 0, &id) == (status) && id == 0))
    SHAPE_REFUSED(other.yaw = NAN, NAVD_OUT_OF_RANGE);
    SHAPE_REFUSED(other.yaw = 2e6f, NAVD_OUT_OF_RANGE);
    SHAPE_REFUSED(other.half.x = -1, NAVD_OUT_OF_RANGE);
    SHAPE_REFUSED(other.half.y = -1, NAVD_OUT_OF_RANGE);
    SHAPE_REFUSED(other.center.z = INFINITY, NAVD_OUT_OF_RANGE);
    SHAPE_REFUSED(other.area = 64, NAVD_OUT_OF_RANGE);
    SHAPE_REFUSED(other.kind = 3, NAVD_BAD_STRUCT);
    SHAPE_REFUSED(other.size = 60, NAVD_BAD_STRUCT);
    SHAPE_REFUSED((other.kind = NAVD_PRISM, other.corners = line, other.corner_count = 2), NAVD_OUT_OF_RANGE);
    SHAPE_REFUSED((other.kind = NAVD_PRISM, other.corners = line, other.corner_count = 3), NAVD_OUT_OF_RANGE);
    WANT(navd_world_add(world, &box, 0, &id) == NAVD_OK && id == 1 && navd_world_move(world, 2, &box) == NAVD_NO_OBSTACLE);
    WANT(navd_world_set_enabled(world, 1, 2) == NAVD_SAME && navd_world_set_enabled(world, 1, 0) == NAVD_OK);
    WANT(navd_world_set_user(world, 7, 0) == NAVD_NO_OBSTACLE && navd_world_set_user(world, 1, 7) == NAVD_OK);
    WANT(navd_world_remove(world, 1) == NAVD_OK && navd_world_remove(world, 1) == NAVD_NO_OBSTACLE);
    navd_world_destroy(world);
}

/* == Saves == */

static void try_saves(void) {
    navd_world_def fewer = coarse();
    fewer.max_obstacles = 7;
    navd_world *world = made(coarse()), *other = made(fewer);
    const navd_shape box = {.size = sizeof box, .kind = NAVD_BOX, .center = {10, 1, 10}, .half = {1, 1, 0.125f}};
    uint8_t bytes[512], again[512];
    size_t length = 0;
    navd_obstacle_id id;
    navd_snapshot *snapshot = NULL;
    WANT(navd_world_save(world, bytes, 47, &length) == NAVD_NO_ROOM && length == 48);
    WANT(navd_world_add(world, &box, 1, &id) == NAVD_OK && navd_world_add(world, &box, 2, &id) == NAVD_OK);
    WANT(navd_world_set_enabled(world, 1, 0) == NAVD_OK && navd_world_save(world, bytes, sizeof bytes, &length) == NAVD_OK);
    WANT(length == 48 + 2 * 84 + 4 && navd_world_restore(world, bytes, length - 1) == NAVD_NOT_SAVED);
    WANT(navd_world_restore(other, bytes, length) == NAVD_FOREIGN && navd_world_add(other, &box, 0, &id) == NAVD_OK && id == 1);
    WANT(navd_world_update(world, NAVD_ALL_TILES, NULL) == NAVD_OK && navd_snapshot_create(world, 0, &snapshot) == NAVD_OK);
    WANT(navd_world_remove(world, 2) == NAVD_OK && navd_world_restore(world, bytes, length) == NAVD_OK);
    WANT(navd_snapshot_version(snapshot) == 1 && navd_snapshot_refresh(snapshot, world) == NAVD_OK && navd_snapshot_version(snapshot) == 2);
    WANT(navd_snapshot_refresh(snapshot, world) == NAVD_SAME && navd_world_set_enabled(world, 1, 0) == NAVD_SAME);
    WANT(navd_world_save(world, again, sizeof again, &length) == NAVD_OK && again[32] == 2);
    again[32] = bytes[32];
    WANT(!memcmp(bytes, again, length) && navd_world_add(world, &box, 3, &id) == NAVD_OK && id == 3);
    navd_snapshot_destroy(snapshot);
    navd_world_destroy(other);
    navd_world_destroy(world);
}

/* == Questions == */

static void try_questions(void) {
    navd_world *world = made(coarse());
    navd_snapshot *snapshot = NULL;
    navd_route *route = NULL;
    navd_vec3 from = {2, 0, 2}, to = {20, 0, 25}, off = {-5, 0, 3}, low = {5, -3, 5}, place;
    navd_filter filter = NAVD_FILTER;
    const navd_route_corner *corners;
    float y;
    WANT(navd_snapshot_create(world, 1, &snapshot) == NAVD_OUT_OF_RANGE && navd_snapshot_create(world, 0, &snapshot) == NAVD_OK);
    WANT(navd_route_create(&route) == NAVD_OK && navd_snapshot_refresh(snapshot, world) == NAVD_SAME);
    WANT(navd_snapshot_find_path(snapshot, NULL, &from, &to, route) == NAVD_OK && navd_route_corners(route, &corners) == 2);
    WANT(corners[0].flags == NAVD_ROUTE_START && corners[1].flags == NAVD_ROUTE_END);
    WANT(corners[1].at.x == 20 && corners[1].at.y == 0 && corners[1].at.z == 25);
    WANT(navd_snapshot_find_path(snapshot, NULL, &off, &to, route) == NAVD_NO_START && navd_route_corners(route, &corners) == 0);
    WANT(navd_snapshot_find_path(snapshot, NULL, &from, &low, route) == NAVD_NO_GOAL);
    off.x = NAN;
    WANT(navd_snapshot_find_path(snapshot, NULL, &from, &off, route) == NAVD_OUT_OF_RANGE);
    off.x = -5, filter.max_cost = -1;
    WANT(navd_snapshot_find_path(snapshot, &filter, &from, &to, route) == NAVD_OUT_OF_RANGE);
    filter.max_cost = 0, filter.partial = 2;
    WANT(navd_snapshot_find_path(snapshot, &filter, &from, &to, route) == NAVD_BAD_STRUCT);
    filter.partial = 1;
    WANT(navd_snapshot_find_path(snapshot, &filter, &from, &off, route) == NAVD_PARTIAL && navd_route_corners(route, &corners) == 2);
    WANT(corners[1].at.x > 0 && navd_snapshot_nearest(snapshot, NULL, &off, 4, 1, &place) == NAVD_NO_PLACE);
    WANT(navd_snapshot_nearest(snapshot, NULL, &off, 9, 1, &place) == NAVD_OK);
    WANT(place.x >= 0 && place.x < 2 && place.y == 0 && place.z == 3 && navd_snapshot_nearest(snapshot, NULL, &low, 1, 4, &place) == NAVD_OK);
    WANT(navd_snapshot_height(snapshot, &to, &y) == NAVD_OK && y == 0 && navd_snapshot_height(snapshot, &off, &y) == NAVD_NO_PLACE);
    navd_hit hit = {.size = sizeof hit};
    WANT(navd_snapshot_raycast(snapshot, &from, &to, &hit) == NAVD_OK && !hit.hit && hit.fraction == 1 && hit.at.x == 20);
    WANT(navd_snapshot_raycast(snapshot, &from, &off, &hit) == NAVD_OK && hit.hit && hit.fraction > 0 && hit.fraction < 1 && hit.at.x < 2);
    navd_world_destroy(world); /* the snapshot stays good */
    WANT(navd_snapshot_find_path(snapshot, NULL, &from, &to, route) == NAVD_OK);
    navd_route_destroy(route);
    navd_snapshot_destroy(snapshot);
}

/* A door put up, shown and walked round; the first status that is not what it has to be. */
static navd_status play(void) {
    navd_world_def def = coarse();
    navd_world *world = NULL;
    navd_snapshot *snapshot = NULL;
    navd_route *route = NULL;
    navd_obstacle_id id;
    const navd_vec3 from = {2, 0, 2}, to = {20, 0, 25};
    const navd_shape box = {.size = sizeof box, .kind = NAVD_BOX, .center = {10, 1, 12}, .half = {3, 1, 1}, .yaw = 1};
    navd_problem problem = {.size = sizeof problem};
    uint8_t bytes[136];
    size_t length;
    navd_status status = navd_world_create(&def, &square, &world, &problem);
    if (status == NAVD_OK) status = navd_world_add(world, &box, 0, &id);
    if (status == NAVD_OK) status = navd_world_save(world, bytes, sizeof bytes, &length);
    if (status == NAVD_OK) status = navd_world_restore(world, bytes, length);
    if (status == NAVD_OK) status = navd_world_update(world, NAVD_ALL_TILES, NULL);
    if (status == NAVD_OK) status = navd_snapshot_create(world, 0, &snapshot);
    if (status == NAVD_OK) status = navd_route_create(&route);
    if (status == NAVD_OK) status = navd_snapshot_find_path(snapshot, NULL, &from, &to, route);
    navd_route_destroy(route);
    navd_snapshot_destroy(snapshot);
    navd_world_destroy(world);
    return status;
}

int main(void) {
    try_definitions();
    try_meshes();
    try_later_structs();
    try_agents();
    try_shapes();
    try_refused_shapes();
    try_saves();
    try_questions();
    requests = 0;
    WANT(play() == NAVD_OK);
    long all = requests;
    for (refused = 1; refused <= all; refused++) {
        requests = 0;
        navd_status status = play();
        WANT(status == NAVD_NO_MEMORY || status == NAVD_OK);
    }
    printf("all refused as it has to be, and each of %ld memory requests\n", all);
    return 0;
}
