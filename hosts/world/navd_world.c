/* The calls of include/navd_world.h, over those of include/navd.h. The libraries of a package have them; over the archive that `rt lib` leaves:
 *
 *     cc -std=c11 -Iinclude host.c hosts/world/navd_world.c hosts/c/heap.c libnav_ffi.a -pthread
 *
 * Numbers turn into sixteenths of a cell by the library's own law. What is worked out here besides are the agent's numbers, the slope, the corners of
 * turned boxes and the heights of obstacles: by sums, products and quotients of doubles, which are alike on every machine. */
#include <pthread.h>
#include <stdatomic.h>
#include <stdbool.h>
#include <stdio.h>
#include <string.h>

#include "navd_world.h"

enum { AREAS = 64, SIXTEENTHS = 16, HEIGHT_PARTS = 256, MOST_HEIGHT = 8191, NO_FLOOR = 65535 };

/* == Memory, from the functions that the host gives == */

typedef struct {
    bool ok;
    void *block;
} navd_tried;

navd_tried rattle_alloc(size_t size, size_t align);
void rattle_dealloc(void *block);

static void *take(size_t count, size_t each) {
    if (count > PTRDIFF_MAX / each) return NULL;
    navd_tried tried = rattle_alloc(count * each + 1, _Alignof(max_align_t));
    return tried.ok ? memset(tried.block, 0, count * each + 1) : NULL;
}

static void give_back(void *block) {
    if (block) rattle_dealloc(block);
}

/* == Structs with a size == */

/* Reads as much of a struct as the host knows over its defaults; what the host knows more has to be 0. */
static navd_status read_struct(void *known, size_t whole, size_t least, const void *given) {
    uint32_t size;
    memcpy(&size, given, sizeof size);
    if (size < least) return NAVD_BAD_STRUCT;
    for (size_t i = whole; i < size; i++)
        if (((const unsigned char *)given)[i]) return NAVD_BAD_STRUCT;
    memcpy(known, given, size < whole ? size : whole);
    return NAVD_OK;
}

/* Whether a struct that is to be told is long enough. */
static bool has_size(const void *told, size_t least) {
    uint32_t size;
    memcpy(&size, told, sizeof size);
    return size >= least;
}

/* Tells as much of a struct as the host knows, and leaves its size. */
static void write_struct(void *told, const void *known, size_t whole) {
    uint32_t size;
    memcpy(&size, told, sizeof size);
    memcpy((char *)told + sizeof size, (const char *)known + sizeof size, (size < whole ? size : whole) - sizeof size);
}

/* The sizes of the first version: they stay as they are when structs grow. */
enum { DEF_SIZE = 80, MESH_SIZE = 48, PROBLEM_SIZE = 176, SHAPE_SIZE = 64, PROGRESS_SIZE = 24, FILTER_SIZE = 40, HIT_SIZE = 48 };

_Static_assert(sizeof(navd_world_def) == DEF_SIZE && sizeof(navd_triangle_mesh) == MESH_SIZE && sizeof(navd_problem) == PROBLEM_SIZE, "sizes");
_Static_assert(sizeof(navd_shape) == SHAPE_SIZE && sizeof(navd_progress) == PROGRESS_SIZE, "sizes");
_Static_assert(sizeof(navd_filter) == FILTER_SIZE && sizeof(navd_hit) == HIT_SIZE, "sizes");

/* == Numbers == */

static bool is_within(double number, double least, double most) {
    return least <= number && number <= most;
}

/* The nearest whole number; of one below 2^52. */
static int64_t nearest(double number) {
    return (int64_t)(number < 0 ? number - 0.5 : number + 0.5);
}

static int64_t quotient_down(int64_t number, int64_t by) {
    return number / by - (number % by < 0);
}

/* How many steps a length has, to the nearest of so many parts of one: 0.6 by steps of 0.2 are three, and no part more. */
static int64_t steps(double length, double step, int64_t parts, bool up) {
    return quotient_down(nearest(length / step * (double)parts) + (up ? parts - 1 : 0), parts);
}

/* The sine and the cosine of an angle up to a million, to ten digits. */
static void sine_and_cosine(double angle, double *sine, double *cosine) {
    int64_t quarters = nearest(angle / 1.57079632679489661923);
    double a = angle - (double)quarters * 1.57079632673412561417 - (double)quarters * 6.07710050650619224932e-11, b = a * a;
    double s = a * (1 - b / 6 * (1 - b / 20 * (1 - b / 42 * (1 - b / 72 * (1 - b / 110)))));
    double c = 1 - b / 2 * (1 - b / 12 * (1 - b / 30 * (1 - b / 56 * (1 - b / 90 * (1 - b / 132)))));
    *sine = quarters & 1 ? c : s;
    *cosine = quarters & 1 ? s : c;
    if (quarters & 2) *sine = -*sine;
    if ((quarters + 1) & 2) *cosine = -*cosine;
}

/* A slope in height units over sixteenths of a cell, as finely as they go. */
static navd_slope slope_of(const navd_world_def *def) {
    navd_slope slope = {0, 0, (def->flags & NAVD_BOTH_SIDES) != 0};
    if (def->max_slope == 90) return slope;
    double sine, cosine;
    sine_and_cosine(def->max_slope * 0.017453292519943295, &sine, &cosine);
    double steep = sine / cosine * def->cell_size / (SIXTEENTHS * (double)def->cell_height);
    if (steep * 131072 <= 16384) {
        slope.run = 131072;
        slope.rise = (uint32_t)nearest(steep * 131072);
    } else {
        slope.rise = 16384;
        slope.run = (uint32_t)nearest(16384 / steep);
    }
    if (slope.run == 0) slope.run = 1; /* as steep as the numbers go, and not everything */
    return slope;
}

/* Costs of areas in sixteenths; false where one is out of its limits. */
static bool read_costs(uint32_t *costs, const float *given) {
    for (size_t i = 0; i < AREAS; i++) {
        if (!is_within(given[i], 1.0 / 16, 62.5)) return false;
        costs[i] = (uint32_t)nearest(given[i] * 16.0);
    }
    return true;
}

/* == Making a world == */

/* What a world is made with, its agent's height in units, and its costs of areas; 0 of them where each area costs 1. */
typedef struct {
    navd_mesh mesh;
    int64_t agent_height;
    uint32_t costs[AREAS];
    size_t costs_count;
} scales;

enum { MOST_LEFT = 16 };

/* A world is in one call at a time. Meanwhile snapshots of other threads copy what it shows: the lock is on that. */
struct navd_world {
    navd_registry registry;
    scales scales;
    pthread_mutex_t lock;
    navd_view shown;
    atomic_uint_fast64_t version; /* of what is shown */
    size_t left_count;
    navd_view left[MOST_LEFT]; /* what snapshots showed before they were refreshed */
};

/* The numbers of a definition as a mesh's, but for its field; what is wrong with them, or NULL. A floor is a unit thick and lies on its triangles, so that
 * a gap as high as the agent is a unit lower for the library. */
static const char *read_agent(const navd_world_def *def, scales *scales) {
    navd_setting *set = &scales->mesh.setting;
    if (!is_within(def->cell_size, 1.0 / 1024, 1024)) return "cell_size is 1/1024 to 1024";
    if (!is_within(def->cell_height, 1.0 / 1024, 1024)) return "cell_height is 1/1024 to 1024";
    if (!is_within(def->agent_radius, 0, 1e6) || !is_within(def->agent_height, 0, 1e6) || !is_within(def->agent_climb, 0, 1e6))
        return "agent_radius, agent_height and agent_climb are no lengths";
    int64_t radius = steps(def->agent_radius, def->cell_size, SIXTEENTHS, true), height = steps(def->agent_height, def->cell_height, HEIGHT_PARTS, true);
    int64_t climb = steps(def->agent_climb, def->cell_height, HEIGHT_PARTS, false);
    if (radius > 15) return "agent_radius is at most 15 cells";
    if (height < 2 || height > 256) return "agent_height is 2 to 256 height units";
    if (climb >= height - 1) return "agent_climb is less than agent_height by more than a height unit";
    scales->agent_height = height;
    set->radius = (uint32_t)radius;
    set->height = (uint32_t)height - 1;
    set->climb = (uint32_t)climb;
    return NULL;
}

static const char *read_setting(const navd_world_def *def, scales *scales) {
    const char *wrong = read_agent(def, scales);
    navd_setting *set = &scales->mesh.setting;
    if (wrong) return wrong;
    if (def->max_slope > 90) return "max_slope is 0 to 90 degrees";
    if (!is_within(def->max_error, 0, 10)) return "max_error is 0 to 10 cells";
    if (def->tile_cells < 4 || def->tile_cells > 128) return "tile_cells is 4 to 128";
    if (def->max_obstacles < 1 || def->max_obstacles > 1024) return "max_obstacles is 1 to 1024";
    set->tile = def->tile_cells;
    set->limit = def->max_obstacles;
    set->error = (uint32_t)nearest(100 * (double)def->max_error * def->max_error);
    set->contours = !(def->flags & NAVD_STRIPS);
    set->clear = !(def->flags & NAVD_NO_CLEARANCE);
    if (set->clear && set->tile < 2 * set->radius) return "tile_cells is at least twice agent_radius, counted in cells";
    scales->mesh.slope = slope_of(def);
    scales->costs_count = def->area_costs ? AREAS : 0;
    if (def->area_costs && !read_costs(scales->costs, def->area_costs)) return "area_costs are 1/16 to 62.5";
    return NULL;
}

/* What the vertices reach over; numbers that are none or infinite are left out. */
static void measure(const navd_triangle_mesh *given, float *low, float *high) {
    for (int i = 0; i < 3; i++) low[i] = 3.5e37f, high[i] = -3.5e37f;
    for (size_t i = 0; i < 3 * given->vertex_count; i++) {
        float number = given->vertices[i];
        if (!(number - number == 0)) continue;
        if (number < low[i % 3]) low[i % 3] = number;
        if (number > high[i % 3]) high[i % 3] = number;
    }
}

static navd_status find_frame(const navd_world_def *def, const navd_triangle_mesh *given, navd_mesh *mesh) {
    float low[3] = {def->min.x, def->min.y, def->min.z}, high[3] = {def->max.x, def->max.y, def->max.z};
    static const float zero[3];
    if (!memcmp(low, zero, sizeof low) && !memcmp(high, zero, sizeof high)) measure(given, low, high);
    navd_frame sizes = {def->cell_size, def->cell_height, 0, 0, 0};
    navd_vec3 from = {low[0], low[1], low[2]}, to = {high[0], high[1], high[2]};
    navd_framed_field field = {0};
    navd_status status = navd_frame_of(&sizes, &from, &to, &field);
    mesh->frame = field.frame;
    mesh->setting.width = field.width;
    mesh->setting.depth = field.depth;
    return status;
}

/* Opens the level of the mesh in a registry. */
static navd_status open_level(navd_world *world, const navd_triangle_mesh *given, navd_mesh_fault *fault) {
    static const float no_vertex[1];
    static const uint32_t no_corner[1];
    static const uint8_t no_area[1];
    navd_level level = {0};
    size_t vertices = given->vertex_count, count = given->triangle_count;
    navd_status status = navd_open_mesh(&level, &world->scales.mesh, vertices ? given->vertices : no_vertex, 3 * vertices,
                                        count ? given->indices : no_corner, 3 * count, count && given->areas ? given->areas : no_area,
                                        given->areas ? count : 0, fault);
    if (status == NAVD_OK) status = navd_registry_begin(&world->registry, &level);
    navd_close(&level);
    return status;
}

/* Makes a world of a definition that was read; what is wrong is told. */
static navd_status make(navd_world *world, const navd_world_def *def, const navd_triangle_mesh *given, navd_problem *told) {
    static const char *const kinds[] = {"fails", "names a vertex that is not there", "has a number that is none, or infinite", "lies outside the world",
                                        "has an area above 63"};
    navd_mesh_fault fault;
    const char *wrong = read_setting(def, &world->scales);
    navd_status status = NAVD_OUT_OF_RANGE;
    if (!wrong && (status = find_frame(def, given, &world->scales.mesh)) != NAVD_OK)
        wrong = "the world is empty, wider than 1024 cells, higher than 8190 height units, or too far from 0";
    if (!wrong && (status = open_level(world, given, &fault)) == NAVD_FAULTY) {
        told->triangle = fault.place;
        snprintf(told->text, sizeof told->text, "the triangle %zu %s", fault.place, kinds[fault.kind < 5 ? fault.kind : 0]);
    } else if (status != NAVD_OK) {
        snprintf(told->text, sizeof told->text, "%s", wrong ? wrong : navd_status_text(status));
    }
    return status;
}

/* Shows what the registry shows, and lets go of what was shown before, and of what snapshots have left. */
static navd_status show(navd_world *world) {
    navd_view fresh = {0}, before[1 + MOST_LEFT];
    uint64_t version;
    navd_status status = navd_registry_look(&fresh, &world->registry, &version);
    if (status != NAVD_OK) return status;
    pthread_mutex_lock(&world->lock);
    size_t count = 1 + world->left_count;
    before[0] = world->shown;
    memcpy(before + 1, world->left, world->left_count * sizeof *before);
    world->shown = fresh;
    world->left_count = 0;
    atomic_store(&world->version, version);
    pthread_mutex_unlock(&world->lock);
    for (size_t i = 0; i < count; i++) navd_view_close(&before[i]);
    return NAVD_OK;
}

navd_status navd_world_create(const navd_world_def *def, const navd_triangle_mesh *mesh, navd_world **world, navd_problem *problem) {
    navd_world_def asked = NAVD_WORLD_DEF;
    navd_triangle_mesh given = {.size = sizeof given};
    navd_problem told = {.size = sizeof told};
    if (problem && !has_size(problem, PROBLEM_SIZE)) return NAVD_BAD_STRUCT;
    navd_world *made = take(1, sizeof *made);
    if (!made) return NAVD_NO_MEMORY;
    pthread_mutex_init(&made->lock, NULL); /* of this kind Linux refuses none */
    atomic_init(&made->version, 0);
    navd_status status = read_struct(&asked, sizeof asked, DEF_SIZE, def);
    if (status == NAVD_OK) status = read_struct(&given, sizeof given, MESH_SIZE, mesh);
    if (status == NAVD_OK && asked.flags > 7) status = NAVD_BAD_STRUCT;
    if (status == NAVD_OK) status = make(made, &asked, &given, &told);
    if (status == NAVD_OK) status = show(made);
    if (status == NAVD_OK) {
        *world = made;
        return NAVD_OK;
    }
    navd_world_destroy(made);
    if (!told.text[0]) snprintf(told.text, sizeof told.text, "%s", navd_status_text(status));
    if (problem) write_struct(problem, &told, sizeof told);
    return status;
}

void navd_world_destroy(navd_world *world) {
    if (!world) return;
    navd_registry_close(&world->registry);
    navd_view_close(&world->shown);
    for (size_t i = 0; i < world->left_count; i++) navd_view_close(&world->left[i]);
    pthread_mutex_destroy(&world->lock);
    give_back(world);
}

const navd_mesh *navd_world_mesh(const navd_world *world) {
    return &world->scales.mesh;
}

navd_registry *navd_world_registry(navd_world *world) {
    return &world->registry;
}

/* == Obstacles == */

/* The floors that a shape reaches: what stops agents those from which an agent would come into it, and an area those inside. A floor is told as one unit
 * above its triangles. */
static bool read_heights(const scales *scales, double low, double high, bool stops, uint32_t *y0, uint32_t *y1) {
    double unit = scales->mesh.frame.cell_height;
    if (!is_within(low / unit, -8388607, high / unit) || !is_within(high / unit, low / unit, 8388607)) return false;
    int64_t from = steps(low, unit, HEIGHT_PARTS, false) - scales->mesh.frame.y + 1, to = steps(high, unit, HEIGHT_PARTS, true) - scales->mesh.frame.y + 1;
    if (stops && to > from) to--;
    if (stops) from -= scales->agent_height - 1;
    bool is_outside = to < 0 || from > MOST_HEIGHT;
    *y0 = (uint32_t)(is_outside ? MOST_HEIGHT : from < 0 ? 0 : from);
    *y1 = (uint32_t)(is_outside || to > MOST_HEIGHT ? MOST_HEIGHT : to);
    return true;
}

/* The corners of a turned box. What stops agents is grown by a sixteenth of a cell, so that its corners, which are rounded, lie around the box. */
static bool read_box(const scales *scales, const navd_shape *shape, navd_vec3 *corners) {
    double grown = shape->area ? 0 : scales->mesh.frame.cell_size / 16.0, sine, cosine;
    double along = shape->half.x + grown, across = shape->half.z + grown;
    if (!is_within(shape->yaw, -1e6, 1e6) || !is_within(along, 0, 1e9) || !is_within(across, 0, 1e9)) return false;
    sine_and_cosine(shape->yaw, &sine, &cosine);
    for (int i = 0; i < 4; i++) {
        double x = i == 0 || i == 3 ? -along : along, z = i < 2 ? -across : across;
        corners[i] = (navd_vec3){(float)(shape->center.x + x * cosine - z * sine), 0, (float)(shape->center.z + x * sine + z * cosine)};
    }
    return true;
}

/* Points of the plane in sixteenths. */
static navd_status read_points(const scales *scales, const navd_vec3 *given, size_t count, navd_point *points) {
    navd_frame_place places[6];
    size_t turned;
    navd_status status = navd_quantize(&scales->mesh.frame, given, count, places, 6, &turned);
    for (size_t i = 0; status == NAVD_OK && i < count; i++) points[i] = (navd_point){places[i].x, places[i].z};
    return status;
}

/* The base of a box or a prism, counterclockwise. */
static navd_status read_base(const scales *scales, const navd_shape *shape, navd_prism *prism) {
    navd_vec3 corners[6];
    uint32_t count = prism->corners = shape->kind == NAVD_BOX ? 4 : shape->corner_count;
    if (count < 3 || count > 6 || (shape->kind == NAVD_BOX && !read_box(scales, shape, corners))) return NAVD_OUT_OF_RANGE;
    for (uint32_t i = 0; shape->kind == NAVD_PRISM && i < count; i++) corners[i] = (navd_vec3){shape->corners[2 * i], 0, shape->corners[2 * i + 1]};
    navd_status status = read_points(scales, corners, count, prism->point);
    if (status != NAVD_OK) return status;
    int64_t twice = 0;
    navd_point *at = prism->point;
    for (uint32_t i = 0, j = count - 1; i < count; j = i++) twice += (int64_t)at[j].x * at[i].z - (int64_t)at[i].x * at[j].z;
    for (uint32_t i = 0, j = count - 1; twice < 0 && i < j; i++, j--) {
        navd_point other = at[i];
        at[i] = at[j];
        at[j] = other;
    }
    return NAVD_OK;
}

/* A disc. That of what stops agents reaches round the cylinder, from a centre that is rounded. */
static navd_status read_disc(const scales *scales, const navd_shape *shape, navd_disc *disc) {
    double radius = shape->half.x / (double)scales->mesh.frame.cell_size * SIXTEENTHS;
    navd_vec3 center = {shape->center.x, 0, shape->center.z};
    navd_point at = {0, 0};
    if (!is_within(radius, 0, 16384)) return NAVD_OUT_OF_RANGE;
    navd_status status = read_points(scales, &center, 1, &at);
    disc->x = at.x, disc->z = at.z;
    disc->r = (uint32_t)nearest(shape->area ? radius : radius + 1.25);
    if (disc->r == 0) disc->r = 1;
    return status;
}

static navd_status read_shape(const scales *scales, const navd_shape *given, navd_solid *solid) {
    navd_shape shape = {.size = sizeof shape};
    navd_status status = read_struct(&shape, sizeof shape, SHAPE_SIZE, given);
    if (status != NAVD_OK) return status;
    if (shape.kind > NAVD_PRISM) return NAVD_BAD_STRUCT;
    uint32_t y0, y1;
    double low = shape.min_y, high = shape.max_y;
    if (shape.kind != NAVD_PRISM) low = (double)shape.center.y - shape.half.y, high = (double)shape.center.y + shape.half.y;
    if (!read_heights(scales, low, high, shape.area == 0, &y0, &y1)) return NAVD_OUT_OF_RANGE;
    memset(solid, 0, sizeof *solid);
    solid->kind = shape.kind == NAVD_CYLINDER ? 3 : 2;
    solid->area = shape.area;
    solid->disc.y0 = solid->prism.y0 = y0;
    solid->disc.y1 = solid->prism.y1 = y1;
    return shape.kind == NAVD_CYLINDER ? read_disc(scales, &shape, &solid->disc) : read_base(scales, &shape, &solid->prism);
}

navd_status navd_world_add(navd_world *world, const navd_shape *shape, uint64_t user, navd_obstacle_id *id) {
    navd_solid solid;
    navd_status status = read_shape(&world->scales, shape, &solid);
    return status == NAVD_OK ? navd_registry_add(&world->registry, &solid, user, id) : status;
}

navd_status navd_world_move(navd_world *world, navd_obstacle_id id, const navd_shape *shape) {
    navd_solid solid;
    navd_status status = read_shape(&world->scales, shape, &solid);
    return status == NAVD_OK ? navd_registry_move(&world->registry, id, &solid) : status;
}

navd_status navd_world_set_enabled(navd_world *world, navd_obstacle_id id, int enabled) {
    return navd_registry_enable(&world->registry, id, enabled != 0);
}

navd_status navd_world_set_user(navd_world *world, navd_obstacle_id id, uint64_t user) {
    return navd_registry_mark(&world->registry, id, user);
}

navd_status navd_world_remove(navd_world *world, navd_obstacle_id id) {
    return navd_registry_remove(&world->registry, id);
}

navd_status navd_world_obstacles(navd_world *world, navd_row *rows, size_t room, size_t *count) {
    return navd_registry_rows(&world->registry, rows, room, count);
}

navd_status navd_world_save(navd_world *world, uint8_t *bytes, size_t room, size_t *length) {
    return navd_registry_save(&world->registry, bytes, room, length);
}

/* The version is another one then, which is shown; where memory for that is refused, the next update does it. */
navd_status navd_world_restore(navd_world *world, const uint8_t *bytes, size_t length) {
    navd_status status = navd_registry_restore(&world->registry, bytes, length);
    if (status == NAVD_OK) (void)show(world);
    return status;
}

/* What is published is shown here, and where memory for that is refused by the next update. */
navd_status navd_world_update(navd_world *world, uint32_t max_tiles, navd_progress *progress) {
    navd_updated done;
    if (progress && !has_size(progress, PROGRESS_SIZE)) return NAVD_BAD_STRUCT;
    navd_status status = navd_registry_update(&world->registry, max_tiles, &done);
    if (status != NAVD_OK) return status;
    bool is_new = done.version != atomic_load(&world->version);
    if (is_new && (status = show(world)) != NAVD_OK) return status;
    navd_progress told = {sizeof told, done.built, is_new, done.pending, done.version};
    if (progress) write_struct(progress, &told, sizeof told);
    return NAVD_OK;
}

/* == Snapshots == */

struct navd_snapshot {
    navd_view view;
    uint64_t version;
    scales scales;
};

navd_status navd_snapshot_create(navd_world *world, uint32_t agent, navd_snapshot **snapshot) {
    if (agent != 0) return NAVD_OUT_OF_RANGE;
    navd_snapshot *made = take(1, sizeof *made);
    if (!made) return NAVD_NO_MEMORY;
    made->scales = world->scales;
    pthread_mutex_lock(&world->lock);
    navd_status status = navd_view_copy(&made->view, &world->shown);
    made->version = atomic_load(&world->version);
    pthread_mutex_unlock(&world->lock);
    if (status != NAVD_OK)
        give_back(made);
    else
        *snapshot = made;
    return status;
}

/* What it showed may be the last share of a mesh: that goes with the world's next update, so that no reader waits for it. */
navd_status navd_snapshot_refresh(navd_snapshot *snapshot, navd_world *world) {
    if (atomic_load(&world->version) == snapshot->version) return NAVD_SAME;
    navd_view fresh = {0}, before = {0};
    pthread_mutex_lock(&world->lock);
    navd_status status = navd_view_copy(&fresh, &world->shown);
    if (status == NAVD_OK) {
        *(world->left_count < MOST_LEFT ? &world->left[world->left_count++] : &before) = snapshot->view;
        snapshot->view = fresh;
        snapshot->version = atomic_load(&world->version);
    }
    pthread_mutex_unlock(&world->lock);
    navd_view_close(&before);
    return status;
}

uint64_t navd_snapshot_version(const navd_snapshot *snapshot) {
    return snapshot->version;
}

navd_view *navd_snapshot_view(navd_snapshot *snapshot) {
    return &snapshot->view;
}

void navd_snapshot_destroy(navd_snapshot *snapshot) {
    if (!snapshot) return;
    navd_view_close(&snapshot->view);
    give_back(snapshot);
}

/* == Questions == */

/* A filter as the library is asked with it. */
typedef struct {
    navd_plan plan;
    const uint32_t *costs;
    size_t costs_count;
    uint32_t own[AREAS];
} question;

static double cost_parts(size_t costs_count) {
    return costs_count ? 16.0 * SIXTEENTHS : SIXTEENTHS;
}

/* The nearest whole number that is no more than the most. */
static uint32_t at_most(double number, uint32_t most) {
    return number >= most ? most : (uint32_t)nearest(number);
}

/* How much a height unit counts in the plane, in sixteenths of a cell. */
static uint32_t weight_of(const scales *scales, uint32_t most) {
    return at_most(SIXTEENTHS * (double)scales->mesh.frame.cell_height / scales->mesh.frame.cell_size, most);
}

static navd_status read_filter(const navd_snapshot *snapshot, const navd_filter *given, question *asked) {
    const scales *scales = &snapshot->scales;
    navd_filter filter = NAVD_FILTER;
    if (given && read_struct(&filter, sizeof filter, FILTER_SIZE, given) != NAVD_OK) return NAVD_BAD_STRUCT;
    if (filter.partial > 1) return NAVD_BAD_STRUCT;
    asked->plan = (navd_plan){0};
    asked->costs = filter.area_costs ? asked->own : scales->costs;
    asked->costs_count = filter.area_costs ? AREAS : scales->costs_count;
    if (filter.area_costs && !read_costs(asked->own, filter.area_costs)) return NAVD_OUT_OF_RANGE;
    double most = filter.max_cost / scales->mesh.frame.cell_size * cost_parts(asked->costs_count);
    if (!is_within(most, 0, 9e15)) return NAVD_OUT_OF_RANGE;
    asked->plan.areas = filter.areas;
    asked->plan.most_cost = most == 0 ? UINT64_MAX : (uint64_t)most;
    asked->plan.most_polygons = filter.max_polygons ? filter.max_polygons : SIZE_MAX;
    asked->plan.partial = filter.partial;
    asked->plan.rise = weight_of(scales, 1024);
    return NAVD_OK;
}

/* The floor on which a point stands, one unit above its triangles. Where it is below the world's corner that is the lowest one, as far as an agent climbs
 * or in a search for what is near, and else none. */
static uint32_t floor_at(const scales *scales, int32_t y, bool is_near) {
    int64_t floor = (int64_t)y + 1;
    if (floor > NO_FLOOR || (floor < -(int64_t)scales->mesh.setting.climb && !is_near)) return NO_FLOOR;
    return floor < 0 ? 0 : (uint32_t)floor;
}

static navd_status read_way(const scales *scales, const navd_vec3 *from, const navd_vec3 *to, bool is_near, navd_way *way) {
    navd_vec3 given[2] = {*from, *to};
    navd_frame_place places[2];
    size_t turned;
    navd_status status = navd_quantize(&scales->mesh.frame, given, 2, places, 2, &turned);
    if (status != NAVD_OK) return status;
    way->from = (navd_point){places[0].x, places[0].z}, way->from_y = floor_at(scales, places[0].y, false);
    way->to = (navd_point){places[1].x, places[1].z}, way->to_y = floor_at(scales, places[1].y, is_near);
    return NAVD_OK;
}

/* A floor's place, where its triangles are. */
static navd_frame_place place_of(navd_point at, uint32_t floor) {
    return (navd_frame_place){at.x, (int32_t)floor - 1, at.z};
}

static navd_status nearest_place(navd_snapshot *snapshot, const navd_near *near, navd_vec3 *told) {
    navd_place place;
    size_t turned;
    navd_status status = navd_view_nearest(&snapshot->view, near, &place);
    if (status != NAVD_OK) return status;
    navd_frame_place found = place_of(place.at, place.y);
    return navd_dequantize(&snapshot->scales.mesh.frame, &found, 1, told, 1, &turned);
}

static navd_status read_near(const scales *scales, const navd_vec3 *at, float reach, float height, navd_near *near) {
    navd_way way;
    navd_status status = read_way(scales, at, at, true, &way);
    if (status != NAVD_OK) return status;
    if (!(reach >= 0) || !(height >= 0)) return NAVD_OUT_OF_RANGE;
    near->at = way.to;
    near->y = way.to_y;
    near->reach = at_most((double)reach / scales->mesh.frame.cell_size * SIXTEENTHS, 262143);
    near->up = near->down = at_most((double)height / scales->mesh.frame.cell_height, 16383);
    near->weight = weight_of(scales, 65535);
    return NAVD_OK;
}

navd_status navd_snapshot_nearest(navd_snapshot *snapshot, const navd_filter *filter, const navd_vec3 *at, float reach, float height, navd_vec3 *place) {
    question asked;
    navd_near near;
    navd_status status = read_filter(snapshot, filter, &asked);
    if (status == NAVD_OK) status = read_near(&snapshot->scales, at, reach, height, &near);
    if (status != NAVD_OK) return status;
    near.areas = asked.plan.areas;
    return nearest_place(snapshot, &near, place);
}

navd_status navd_snapshot_height(navd_snapshot *snapshot, const navd_vec3 *at, float *y) {
    navd_near near;
    navd_vec3 place;
    navd_status status = read_near(&snapshot->scales, at, 0, 1e9f, &near);
    near.areas = UINT64_MAX;
    if (status == NAVD_OK) status = nearest_place(snapshot, &near, &place);
    if (status == NAVD_OK) *y = place.y;
    return status;
}

/* Where a ray ends, in the game's numbers; its height is that of the nearest place in the plane. */
static navd_status tell_hit(navd_snapshot *snapshot, const navd_way *way, const navd_ray *ray, navd_hit *told) {
    double part = told->hit ? (double)ray->num / (double)ray->den : 1, x = way->to.x - (double)way->from.x, z = way->to.z - (double)way->from.z;
    navd_point end = {(int32_t)nearest(way->from.x + x * part), (int32_t)nearest(way->from.z + z * part)};
    navd_near near = {.areas = UINT64_MAX, .at = end, .y = way->from_y, .reach = 2 * SIXTEENTHS, .up = 16383, .down = 16383};
    navd_place place = {.y = way->from_y};
    navd_status status = navd_view_nearest(&snapshot->view, &near, &place);
    if (status != NAVD_OK && status != NAVD_NO_PLACE) return status;
    navd_frame_place places[3] = {place_of(end, place.y), place_of(told->hit ? ray->a : end, place.y), place_of(told->hit ? ray->b : end, place.y)};
    navd_vec3 points[3];
    size_t turned;
    status = navd_dequantize(&snapshot->scales.mesh.frame, places, 3, points, 3, &turned);
    told->fraction = (float)part;
    told->at = points[0], told->wall_from = points[1], told->wall_to = points[2];
    return status;
}

navd_status navd_snapshot_raycast(navd_snapshot *snapshot, const navd_vec3 *from, const navd_vec3 *to, navd_hit *hit) {
    navd_hit told = {.size = sizeof told};
    navd_way way;
    navd_ray ray;
    if (!has_size(hit, HIT_SIZE)) return NAVD_BAD_STRUCT;
    navd_status status = read_way(&snapshot->scales, from, to, false, &way);
    if (status != NAVD_OK) return status;
    status = navd_view_cast_ray(&snapshot->view, &way, &ray);
    told.hit = status == NAVD_WALL;
    if (status == NAVD_OK || status == NAVD_WALL) status = tell_hit(snapshot, &way, &ray, &told);
    if (status == NAVD_OK) write_struct(hit, &told, sizeof told);
    return status;
}

/* == Routes == */

enum { FIRST_ROOM = 64 };

/* What a search writes, and its corners: as many as its turns and two more at most; in the library's numbers, in the game's, and with flags. */
struct navd_route {
    size_t room, count;
    navd_link *links;
    navd_turn *turns;
    navd_frame_place *places;
    navd_vec3 *points;
    navd_route_corner *corners;
    double cost;
    uint64_t version;
};

navd_status navd_route_create(navd_route **route) {
    navd_route *made = take(1, sizeof *made);
    if (!made) return NAVD_NO_MEMORY;
    *route = made;
    return NAVD_OK;
}

static void let_go(navd_route *route) {
    give_back(route->links);
    give_back(route->turns);
    give_back(route->places);
    give_back(route->points);
    give_back(route->corners);
    *route = (navd_route){0};
}

void navd_route_destroy(navd_route *route) {
    if (!route) return;
    let_go(route);
    give_back(route);
}

static navd_status make_room(navd_route *route, size_t wanted) {
    if (wanted <= route->room) return NAVD_OK;
    let_go(route);
    route->links = take(wanted, sizeof *route->links);
    route->turns = take(wanted, sizeof *route->turns);
    route->places = take(wanted + 2, sizeof *route->places);
    route->points = take(wanted + 2, sizeof *route->points);
    route->corners = take(wanted + 2, sizeof *route->corners);
    if (!route->links || !route->turns || !route->places || !route->points || !route->corners) return NAVD_NO_MEMORY;
    route->room = wanted;
    return NAVD_OK;
}

/* Searches, once more with more room where the answer wants it. */
static navd_status search(navd_snapshot *snapshot, navd_route *route, question *asked) {
    navd_plan *plan = &asked->plan;
    navd_status status = make_room(route, FIRST_ROOM);
    while (status == NAVD_OK) {
        status = navd_view_plan(&snapshot->view, plan, asked->costs, asked->costs_count, route->links, route->room, route->turns, route->room);
        size_t wanted = plan->links > plan->turns ? plan->links : plan->turns;
        if ((status != NAVD_OK && status != NAVD_PARTIAL) || wanted <= route->room) return status;
        status = make_room(route, wanted + wanted / 2);
    }
    return status;
}

/* A corner of a way in a polygon, on the floor there; `y` is the height of the one before. */
static navd_status find_corner(navd_snapshot *snapshot, navd_polygon polygon, navd_point at, uint32_t *y, navd_frame_place *corner) {
    navd_place place = {polygon, at, *y};
    navd_status status = navd_view_height(&snapshot->view, &place);
    if (status != NAVD_OK && status != NAVD_NO_PLACE) return status;
    if (status == NAVD_OK) *y = place.y;
    *corner = place_of(at, *y);
    return NAVD_OK;
}

static bool is_same_place(const navd_frame_place *a, const navd_frame_place *b) {
    return a->x == b->x && a->y == b->y && a->z == b->z;
}

/* The corners of a way; how many there are is left at `count`. Where it turns at one point round several edges that is one corner. */
static navd_status find_corners(navd_snapshot *snapshot, navd_route *route, const navd_plan *plan, size_t *count) {
    uint32_t y = plan->way.from_y;
    navd_frame_place *places = route->places;
    navd_status status = find_corner(snapshot, plan->first, plan->way.from, &y, places);
    *count = 1;
    for (size_t i = 0; status == NAVD_OK && i < plan->turns; i++) {
        const navd_turn *turn = &route->turns[i];
        status = find_corner(snapshot, route->links[turn->link].to, turn->at, &y, &places[*count]);
        *count += !is_same_place(&places[*count], &places[*count - 1]);
    }
    if (status == NAVD_OK) status = find_corner(snapshot, plan->last, plan->end, &y, &places[(*count)++]);
    return status;
}

static navd_status lay_corners(navd_snapshot *snapshot, navd_route *route, const navd_plan *plan) {
    size_t count, turned;
    navd_status status = find_corners(snapshot, route, plan, &count);
    if (status == NAVD_OK) status = navd_dequantize(&snapshot->scales.mesh.frame, route->places, count, route->points, count, &turned);
    if (status != NAVD_OK) return status;
    for (size_t i = 0; i < count; i++) route->corners[i] = (navd_route_corner){route->points[i], 0};
    route->corners[0].flags = NAVD_ROUTE_START;
    route->corners[count - 1].flags = NAVD_ROUTE_END;
    route->count = count;
    return NAVD_OK;
}

navd_status navd_snapshot_find_path(navd_snapshot *snapshot, const navd_filter *filter, const navd_vec3 *from, const navd_vec3 *to, navd_route *route) {
    question asked;
    navd_status status = read_filter(snapshot, filter, &asked);
    route->count = 0;
    if (status == NAVD_OK) status = read_way(&snapshot->scales, from, to, asked.plan.partial, &asked.plan.way);
    if (status != NAVD_OK) return status;
    navd_status found = search(snapshot, route, &asked);
    if (found != NAVD_OK && found != NAVD_PARTIAL) return found;
    status = lay_corners(snapshot, route, &asked.plan);
    if (status != NAVD_OK) return status;
    route->cost = (double)asked.plan.cost / cost_parts(asked.costs_count) * snapshot->scales.mesh.frame.cell_size;
    route->version = snapshot->version;
    return found;
}

size_t navd_route_corners(const navd_route *route, const navd_route_corner **corners) {
    *corners = route->corners;
    return route->count;
}

double navd_route_cost(const navd_route *route) {
    return route->cost;
}

uint64_t navd_route_version(const navd_route *route) {
    return route->version;
}

/* == Statuses == */

static const char *const statuses[][2] = {
    {"NAVD_OK", "all was done"}, {"NAVD_NO_MEMORY", "memory was refused"}, {"NAVD_EMPTY", "the handle holds nothing"},
    {"NAVD_FAULTY", "what the level is made of has a fault"}, {"NAVD_OUT_OF_RANGE", "a number is out of its limits"},
    {"NAVD_TOO_MANY", "as many obstacles are there as may be"}, {"NAVD_DEAD", "no obstacle with this number is alive"},
    {"NAVD_HISTORY_FULL", "the history is full"}, {"NAVD_NOT_YET", "something is not built or shown yet"},
    {"NAVD_SAME", "it was so before"}, {"NAVD_NO_START", "no floor is where the way begins"}, {"NAVD_NO_GOAL", "no floor is where the way ends"},
    {"NAVD_NO_PATH", "no walk joins the two places"}, {"NAVD_WALL", "the ray ends at an edge"},
    {"NAVD_NO_ROOM", "there is too little room for what is told"}, {"NAVD_STALE", "the build is wanted no more"},
    {"NAVD_FOREIGN", "it is of another level"}, {"NAVD_BUSY", "the handle holds something"},
    {"NAVD_TOO_MANY_SPANS", "the triangles give more than 2000000 spans"}, {"NAVD_PARTIAL", "the way leads to the nearest place that is reached"},
    {"NAVD_LIMIT", "no walk joins the two places within the limits"}, {"NAVD_CUT", "the path leads on in part"},
    {"NAVD_NO_PLACE", "no place is in reach"}, {"NAVD_BAD_STRUCT", "a struct is too short, or says what this library does not know"},
    {"NAVD_NO_OBSTACLE", "no obstacle has this id"}, {"NAVD_NOT_SAVED", "no save wrote these bytes"},
};

const char *navd_status_text(navd_status status) {
    return status < sizeof statuses / sizeof *statuses ? statuses[status][1] : "a status that is not known here";
}

const char *navd_status_name(navd_status status) {
    return status < sizeof statuses / sizeof *statuses ? statuses[status][0] : "NAVD_?";
}
