/* Times questions about ways, as a host in C:
 *
 *     bench_ways INPUT
 *
 * INPUT is a field text and a script, of which the path lines alone are read. Each measure is a line: its name and a number, by processor time the least of
 * three runs, in nanoseconds a call but where it says otherwise. bench/ways.sh compares them. */
#define _POSIX_C_SOURCE 200809L

#include <inttypes.h>
#include <stdio.h>
#include <stdlib.h>
#include <string.h>

#include "../../include/navd.h"
#include "common.h"

enum { MOST_PAIRS = 4096, MOST_PATHS = 500, MOST_APART = 100, MOST_ROOM = 1 << 20, STRIDE = 8, MOST_STEPS = 400 };

/* A question that a path answers, and that path. */
typedef struct {
    navd_way way;
    navd_path path;
    navd_link *links;
    navd_turn *turns;
} route;

static navd_level level;
static navd_view view;
static navd_shown shown;
static route paths[MOST_PATHS];
static size_t paths_count, apart_count, all_links;
static size_t flood_polygons, all_polygons; /* of all floods together; of the flood back over the whole level */
static navd_way apart[MOST_APART]; /* no walk joins them */
static navd_link links[MOST_ROOM];
static navd_turn turns[MOST_ROOM];
static navd_reached reached[MOST_ROOM];
static uint32_t tens[64];
static const uint32_t no_costs[1];

static void want(int holds, const char *what) {
    if (holds) return;
    fprintf(stderr, "bench_ways: %s\n", what);
    exit(1);
}

/* A measure: how many calls are made by one run of a function, the least time of three. */
static void measure(const char *name, size_t (*run)(void)) {
    double least = 0;
    size_t calls = 0;
    for (int i = 0; i < 3; i++) {
        double start = seconds();
        calls = run();
        double took = seconds() - start;
        if (i == 0 || took < least) least = took;
    }
    if (calls) printf("%s %.1f\n", name, least / (double)calls * 1e9);
}

static navd_plan asked(const navd_way *way) {
    return (navd_plan){.way = *way, .areas = UINT64_MAX, .most_cost = UINT64_MAX, .most_polygons = SIZE_MAX};
}

static uint32_t plan(navd_plan *it, const uint32_t *costs, size_t count) {
    return navd_view_plan(&view, it, costs, count, links, MOST_ROOM, turns, MOST_ROOM);
}

/* == The measures == */

static size_t find_paths(void) {
    navd_path path;
    for (size_t i = 0; i < paths_count; i++) want(!navd_view_find_path(&view, &paths[i].way, links, MOST_ROOM, turns, MOST_ROOM, &path), "a path");
    return paths_count;
}

static size_t plans(void) {
    for (size_t i = 0; i < paths_count; i++) {
        navd_plan it = asked(&paths[i].way);
        want(plan(&it, no_costs, 0) == NAVD_OK && it.cost == paths[i].path.cost, "a plan");
    }
    return paths_count;
}

static size_t plans_apart(void) {
    for (size_t i = 0; i < apart_count; i++) {
        navd_plan it = asked(&apart[i]);
        want(plan(&it, no_costs, 0) == NAVD_NO_PATH, "a plan of no path");
    }
    return apart_count;
}

static size_t partial_plans(void) {
    for (size_t i = 0; i < apart_count; i++) {
        navd_plan it = asked(&apart[i]);
        it.partial = 1, it.rise = 2;
        want(plan(&it, no_costs, 0) == NAVD_PARTIAL, "a plan to the nearest place");
    }
    return apart_count;
}

static size_t floods(void) {
    flood_polygons = 0;
    for (size_t i = 0; i < paths_count; i++) {
        navd_flood it = {.at = paths[i].way.from, .y = paths[i].way.from_y, .areas = UINT64_MAX, .most_cost = 128 * 16};
        want(!navd_view_flood(&view, &it, no_costs, 0, reached, MOST_ROOM), "a flood");
        flood_polygons += it.polygons;
    }
    return paths_count;
}

/* The way of each start to one goal, by one flood back: where each polygon stands in it is written down, and each way is walked. One call for all. The peer
 * does the same over the polygons and parents of its search. */
static size_t ways_to_one(void) {
    static uint32_t *place_of[1 << 16];
    static size_t walked;
    navd_flood it = {.at = paths[0].way.to, .y = paths[0].way.to_y, .back = 1, .areas = UINT64_MAX, .most_cost = UINT64_MAX};
    want(!navd_view_flood(&view, &it, no_costs, 0, reached, MOST_ROOM) && it.polygons <= MOST_ROOM, "a flood back");
    for (uint32_t tile = 0; tile < shown.tiles && !place_of[tile]; tile++) {
        navd_face face;
        size_t count;
        want(!navd_view_polygons(&view, tile, &face, 0, &count), "polygons");
        want((place_of[tile] = calloc(count + 1, sizeof(uint32_t))) != NULL, "memory");
    }
    all_polygons = it.polygons;
    for (size_t i = 0; i < it.polygons; i++) place_of[reached[i].polygon.tile][reached[i].polygon.index] = (uint32_t)i;
    for (size_t i = 0; i < paths_count; i++)
        for (size_t at = place_of[paths[i].path.first.tile][paths[i].path.first.index]; at; at = reached[at].via) walked++;
    want(walked > 0, "ways to one goal");
    return 1;
}

static void check(const route *path) {
    navd_kept it = {.way = path->way, .first = path->path.first, .areas = UINT64_MAX};
    want(!navd_view_check_path(&view, &it, no_costs, 0, path->links, path->path.links, turns, MOST_ROOM), "a check");
}

/* A path is checked again and again: what it leads through is in the processor's caches. */
static size_t checks(void) {
    for (size_t i = 0; i < paths_count; i++)
        for (int round = 0; round < 20; round++) check(&paths[i]);
    return 20 * all_links;
}

/* One path after the other: little of it is. */
static size_t checks_in_turn(void) {
    for (int round = 0; round < 20; round++)
        for (size_t i = 0; i < paths_count; i++) check(&paths[i]);
    return 20 * all_links;
}

static size_t follow(uint32_t ahead) {
    size_t steps = 0;
    for (size_t i = 0; i < paths_count; i++) {
        const route *it = &paths[i];
        navd_follower f = {.first = it->path.first, .from = it->way.from, .goal = it->way.to, .ahead = ahead};
        for (int n = 0; n < MOST_STEPS && (f.at.x != f.goal.x || f.at.z != f.goal.z); n++, steps++) {
            f.far += STRIDE;
            want(!navd_view_follow_path(&view, &f, it->links, it->path.links, it->turns, it->path.turns), "a step");
        }
    }
    return steps;
}

static size_t follow_8(void) {
    return follow(8);
}

static size_t follow_all(void) {
    return follow(UINT32_MAX);
}

static size_t changes(void) {
    static uint32_t tiles[1 << 16];
    size_t count;
    for (int i = 0; i < 10000; i++) want(!navd_changed_tiles(&level, 0, tiles, 1 << 16, &count) && count > 0, "the tiles that changed");
    return 10000;
}

/* How many polygons the search for a way closes: the fewest that it may look at and still find it. */
static size_t closed(const navd_way *way, const uint32_t *costs, size_t count) {
    size_t low = 0, high = 1;
    for (;; low = high, high *= 2) {
        navd_plan it = asked(way);
        it.most_polygons = high;
        if (plan(&it, costs, count) == NAVD_OK) break;
    }
    while (high - low > 1) {
        navd_plan it = asked(way);
        it.most_polygons = low + (high - low) / 2;
        if (plan(&it, costs, count) == NAVD_OK) high = it.most_polygons; else low = it.most_polygons;
    }
    return high;
}

static void count_closed(void) {
    size_t plain = 0, dear = 0, count = paths_count < 50 ? paths_count : 50;
    for (size_t i = 0; i < count; i++) {
        plain += closed(&paths[i].way, no_costs, 0);
        dear += closed(&paths[i].way, tens, 64);
    }
    if (count) printf("closed %.1f polygons\nclosed_at_ten_times %.1f polygons\n", (double)plain / (double)count, (double)dear / (double)count);
}

/* == The level == */

static void read_pairs(const char *text) {
    for (const char *line = strstr(text, "\nscript "); line && (line = strstr(line, "\npath ")); line++) {
        route it = {0};
        navd_way *way = &it.way;
        if (sscanf(line, "\npath %" SCNd32 " %" SCNd32 " %" SCNu32 " %" SCNd32 " %" SCNd32 " %" SCNu32, &way->from.x, &way->from.z, &way->from_y, &way->to.x,
                   &way->to.z, &way->to_y) != 6) continue;
        uint32_t status = navd_view_find_path(&view, way, links, MOST_ROOM, turns, MOST_ROOM, &it.path);
        if (status == NAVD_NO_PATH && apart_count < MOST_APART) apart[apart_count++] = *way;
        if (status != NAVD_OK || !it.path.links || paths_count == MOST_PATHS) continue;
        it.links = malloc(it.path.links * sizeof *links);
        it.turns = malloc((it.path.turns + 1) * sizeof *turns);
        want(it.links && it.turns && it.path.links <= MOST_ROOM, "memory");
        memcpy(it.links, links, it.path.links * sizeof *links);
        memcpy(it.turns, turns, it.path.turns * sizeof *turns);
        all_links += it.path.links;
        paths[paths_count++] = it;
    }
}

static char *text_of(const char *name, size_t *length) {
    FILE *file = fopen(name, "rb");
    want(file && !fseek(file, 0, SEEK_END), "the input");
    *length = (size_t)ftell(file);
    char *text = malloc(*length + 1);
    rewind(file);
    want(text && fread(text, 1, *length, file) == *length, "the input");
    text[*length] = 0;
    fclose(file);
    return text;
}

int main(int argc, char **words) {
    want(argc == 2, "usage: bench_ways INPUT");
    size_t length;
    char *text = text_of(words[1], &length);
    navd_fault fault;
    uint32_t number, width, depth;
    want(!navd_open(&level, (const uint8_t *)text, length, &fault) && !navd_look(&view, &level, &number) && !navd_view_count(&view, &shown), "an open");
    for (int i = 0; i < 64; i++) tens[i] = 10;
    read_pairs(text);
    printf("paths %zu of %zu links, %zu pairs apart\n", paths_count, all_links, apart_count);
    measure("find_path", find_paths);
    measure("plan", plans);
    count_closed();
    measure("no_path", plans_apart);
    measure("partial", partial_plans);
    measure("flood", floods);
    if (paths_count) measure("ways_to_one", ways_to_one);
    if (paths_count) printf("polygons_flood %.1f\npolygons_to_one %zu\n", (double)flood_polygons / (double)paths_count, all_polygons);
    measure("check_a_link", checks);
    measure("check_in_turn", checks_in_turn);
    measure("follow_8_ahead", follow_8);
    measure("follow_all_ahead", follow_all);
    want(sscanf(strstr(text, "\nsize "), "\nsize %" SCNu32 " %" SCNu32, &width, &depth) == 2, "a size");
    navd_block door = {width / 2, width / 2 + 1, 0, 8191, depth / 2, depth / 2 + 3};
    want(!navd_add_block(&level, &door, 0, &number) && !navd_settle(&level, &number), "a door");
    measure("changed_tiles", changes);
    return 0;
}
