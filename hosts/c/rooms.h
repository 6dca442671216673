/* A level of 256 rooms with gaps between them, for the programs that have walkers or a crowd among doors. */
#ifndef NAVD_ROOMS_H
#define NAVD_ROOMS_H

#include <stdbool.h>
#include <stddef.h>
#include <stdint.h>
#include <stdio.h>
#include <stdlib.h>

#include "../../include/navd.h"
#include "common.h"

enum { ROOMS = 16, PITCH = 16, SIDE = ROOMS * PITCH, TILE = 32, TILES = SIDE / TILE * (SIDE / TILE), FLOOR = 10 };

/* Whether a column is wall: two columns between rooms, but for a gap of four in the middle of each wall, and the rim. */
static inline bool is_wall(int x, int z) {
    int in_x = x % PITCH, in_z = z % PITCH;
    bool is_rim = x < 2 || z < 2 || x >= SIDE - 1 || z >= SIDE - 1;
    return is_rim || (in_x < 2 && (in_z < 7 || in_z > 10)) || (in_z < 2 && (in_x < 7 || in_x > 10));
}

/* The field text, for as many doors at most, or NULL where there is no memory. */
static inline char *rooms_text(int doors, size_t *count) {
    char *text = malloc(SIDE * SIDE * 32);
    if (!text) return NULL;
    size_t length = (size_t)sprintf(text, "nav 1\nsize %d %d\ntile %d\nagent 10 4 1\nerror 49\nmesh contours\nlimit %d\n", SIDE, SIDE, TILE, doors);
    for (int z = 0; z < SIDE; z++)
        for (int x = 0; x < SIDE; x++)
            length += (size_t)sprintf(text + length, is_wall(x, z) ? "span %d %d 0 100 0\n" : "span %d %d 0 10 63\n", x, z);
    *count = length + (size_t)sprintf(text + length, "end\n");
    return text;
}

/* A gap that is drawn. */
static inline navd_block drawn_gap(uint64_t *seed) {
    uint32_t wall = (1 + pick_by(seed, ROOMS - 1)) * PITCH, gap = pick_by(seed, ROOMS) * PITCH + 7;
    if (pick_by(seed, 2)) return (navd_block){wall, wall + 1, 0, 100, gap, gap + 3};
    return (navd_block){gap, gap + 3, 0, 100, wall, wall + 1};
}

#endif
