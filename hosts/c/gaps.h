/* A level with a wall and two gaps in it, and doors across them, for the programs that keep doors by ids. */
#ifndef NAVD_GAPS_H
#define NAVD_GAPS_H

#include <stdbool.h>
#include <stdint.h>
#include <stdio.h>
#include <stdlib.h>
#include <string.h>

#include "../../include/navd.h"

enum { SIDE = 64, LIMIT = 8, FLOOR = 10 };

static inline void want(bool holds, const char *what) {
    if (holds) return;
    fprintf(stderr, "not so: %s\n", what);
    exit(1);
}

/* A wall along z at the columns 30 to 33, but for two gaps of six columns, at 8 and at 48. */
static inline navd_level open_level(void) {
    static char text[SIDE * SIDE * 32];
    size_t length = (size_t)sprintf(text, "nav 1\nsize %d %d\ntile 16\nagent 10 4 1\nerror 49\nmesh contours\nlimit %d\n", SIDE, SIDE, LIMIT);
    for (int z = 0; z < SIDE; z++)
        for (int x = 0; x < SIDE; x++) {
            bool is_wall = x >= 30 && x <= 33 && !(z >= 8 && z < 14) && !(z >= 48 && z < 54);
            length += (size_t)sprintf(text + length, is_wall ? "span %d %d 0 100 0\n" : "span %d %d 0 10 63\n", x, z);
        }
    length += (size_t)sprintf(text + length, "end\n");
    navd_level level = {0};
    navd_fault fault;
    want(navd_open(&level, (const uint8_t *)text, length, &fault) == NAVD_OK, "the level is opened");
    return level;
}

/* A door across the gap at z, as a solid of any kind. */
static inline navd_solid door_at(uint32_t kind, uint32_t z) {
    navd_solid door;
    memset(&door, 0xff, sizeof door); /* what it is not is not read */
    door.kind = kind;
    door.area = 0;
    if (kind == 0) door.block = (navd_block){28, 35, 0, 100, z - 2, z + 7};
    if (kind == 1) door.cylinder = (navd_cylinder){64, 2 * z + 6, 6, 0, 100};
    if (kind == 2)
        door.prism = (navd_prism){4,
                                  {{28 * 16, (int32_t)(z - 2) * 16}, {36 * 16, (int32_t)(z - 2) * 16}, {36 * 16, (int32_t)(z + 8) * 16},
                                   {28 * 16, (int32_t)(z + 8) * 16}, {0, 0}, {0, 0}},
                                  0, 100};
    if (kind == 3) door.disc = (navd_disc){32 * 16, (int32_t)(z + 3) * 16, 7 * 16, 0, 100};
    return door;
}

/* Whether a way leads through the wall in what a view shows. */
static inline bool is_open_in(navd_view *view) {
    navd_way way = {{16 * 10, 16 * 32}, FLOOR, {16 * 54, 16 * 32}, FLOOR};
    navd_link links[1];
    navd_turn turns[1];
    navd_path path;
    uint32_t status = navd_view_find_path(view, &way, links, 1, turns, 1, &path);
    want(status == NAVD_OK || status == NAVD_NO_PATH, "a way or none");
    return status == NAVD_OK;
}

#endif
