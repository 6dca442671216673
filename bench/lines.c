/* Times shortest lines over the library, beside bench/lines_peer.cpp:
 *
 *     lines LEVEL make COUNT                    writes COUNT pairs of points that a path joins, 8 cells apart or more
 *     lines LEVEL ask PAIRS UNIT ROUNDS         asks for the lines between them
 *
 * A line of PAIRS is x and z in sixteenths and y, twice. Asking writes a line for each kind, `quick` and `whole`: its name, the least nanoseconds a question
 * of so many rounds, how many have an answer, and how many were asked; and how far the lines are above the whole search's in all, in millionths. UNIT is
 * not read. */
#define _POSIX_C_SOURCE 200809L


#define PROGRAM "lines"
#include "opened.h"
#include "../hosts/c/common.h"
#include "counted.h"

enum { QUICK, WHOLE, KINDS, ROOM = 1 << 16 };

static const char *const kinds[KINDS] = {"quick", "whole"};

static navd_view view;
static navd_link links[ROOM];
static navd_turn turns[ROOM];
static navd_way *ways;
static size_t way_count;
static uint64_t uppers[KINDS];

/* A random floor's middle. */
static bool find_floor(uint64_t *seed, navd_point *at, uint32_t *y) {
    navd_floor floors[64];
    size_t count;
    uint32_t x = pick_by(seed, width), z = pick_by(seed, depth);
    want(navd_view_floors(&view, x, z, floors, 64, &count) == NAVD_OK && count <= 64, "floors");
    if (!count) return false;
    *at = (navd_point){16 * (int32_t)x + 8, 16 * (int32_t)z + 8};
    *y = floors[pick_by(seed, (uint32_t)count)].y;
    return true;
}

static void make(long count) {
    uint64_t seed = 7;
    for (long made = 0, tries = 0; made < count && tries < 1000 * count; tries++) {
        navd_way way;
        navd_path path;
        if (!find_floor(&seed, &way.from, &way.from_y) || !find_floor(&seed, &way.to, &way.to_y)) continue;
        int64_t across = way.to.x - way.from.x, along = way.to.z - way.from.z;
        if (across * across + along * along < 128 * 128) continue;
        if (navd_view_find_path(&view, &way, links, ROOM, turns, ROOM, &path) != NAVD_OK) continue;
        printf("%d %d %u %d %d %u\n", way.from.x, way.from.z, way.from_y, way.to.x, way.to.z, way.to_y);
        made++;
    }
}

__attribute__((noinline)) static size_t ask_lines(int kind) {
    size_t found = 0;
    uppers[kind] = 0;
    for (size_t i = 0; i < way_count; i++) {
        navd_line line = {.way = ways[i], .most = 1000000, .quick = kind == QUICK};
        uint32_t status = navd_view_shortest(&view, &line, links, ROOM, turns, ROOM);
        found += status == NAVD_OK || status == NAVD_ABOUT;
        uppers[kind] += line.upper;
    }
    return found;
}

static void ask(const char *path, int rounds) {
    FILE *file = fopen(path, "r");
    navd_way way;
    want(file != NULL, "no pairs");
    while (fscanf(file, "%" SCNd32 " %" SCNd32 " %" SCNu32 " %" SCNd32 " %" SCNd32 " %" SCNu32, &way.from.x, &way.from.z, &way.from_y, &way.to.x, &way.to.z,
                  &way.to_y) == 6) {
        want((ways = realloc(ways, (way_count + 1) * sizeof *ways)) != NULL, "no memory");
        ways[way_count++] = way;
    }
    fclose(file);
    want(way_count > 0, "no pairs");
    for (int kind = 0; kind < KINDS; kind++) {
        double least = 1e9;
        size_t found = 0;
        for (int round = 0; round < rounds; round++) {
            COUNT_FROM_HERE;
            double begun = seconds();
            found = ask_lines(kind);
            double took = seconds() - begun;
            COUNT_TO_HERE(kinds[kind]);
            if (took < least) least = took;
        }
        printf("%s %.1f %zu %zu\n", kinds[kind], least / (double)way_count * 1e9, found, way_count);
    }
    fprintf(stderr, "lines: quick ones are %.0f millionths longer in all\n", ((double)uppers[QUICK] / (double)uppers[WHOLE] - 1) * 1e6);
}

int main(int count, char **words) {
    bool is_ask = count == 6 && !strcmp(words[2], "ask"), is_make = count == 4 && !strcmp(words[2], "make");
    want(is_ask || is_make, "usage: lines LEVEL make COUNT | ask PAIRS UNIT ROUNDS");
    uint32_t published;
    open_level(words[1]);
    want(navd_look(&view, &level, &published) == NAVD_OK, "no view");
    if (is_make) make(atol(words[3]));
    if (is_ask) ask(words[3], atoi(words[5]));
    navd_view_close(&view);
    navd_close(&level);
    return 0;
}
