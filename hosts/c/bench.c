/* Times calls of the library, as a host in C:
 *
 *     bench TEXT WAY COUNT
 *
 * In the level of a field text, COUNT times: 4 the path from one end to the other, 6 the floors of a random column, 7 an aim, 8 the floors of an
 * empty handle, which is the frame of a call alone, 9 the tiles that a door's coming changed. All but the last are the ways of the program
 * bench_hops, which makes the same calls inside. The nanoseconds a call are written, by processor time. */
#define _POSIX_C_SOURCE 200809L

#include <inttypes.h>
#include <stdio.h>
#include <stdlib.h>
#include <string.h>

#include "../../include/navd.h"
#include "common.h"

static uint64_t seed = 7;

static uint32_t pick(uint32_t below) {
    return pick_by(&seed, below);
}

int main(int argc, char **words) {
    static char text[1 << 24];
    FILE *file = argc == 4 ? fopen(words[1], "rb") : NULL;
    if (!file) return 2;
    size_t length = fread(text, 1, sizeof text - 1, file);
    fclose(file);
    navd_level level = {0}, empty = {0};
    navd_fault fault;
    uint32_t width = 0, depth = 0, told;
    char *line = strstr(text, "\nsize ");
    if (!line || sscanf(line, "\nsize %" SCNu32 " %" SCNu32, &width, &depth) != 2) return 2;
    if (navd_open(&level, (const uint8_t *)text, length, &fault) != NAVD_OK) return 1;
    int way = atoi(words[2]);
    long count = atol(words[3]);
    navd_way ends = {{24, 24}, 10, {(int32_t)(16 * width) - 24, (int32_t)(16 * depth) - 24}, 10};
    static navd_link links[65536];
    static navd_turn turns[65536];
    navd_path path = {0};
    navd_floor floors[64];
    static uint32_t tiles[65536];
    size_t found = 0, all = 0;
    navd_block door = {width / 2, width / 2 + 1, 0, 100, depth / 2, depth / 2 + 3};
    if (way == 9 && (navd_add_block(&level, &door, 0, &told) || navd_settle(&level, &told))) return 1;
    double start = seconds();
    for (long i = 0; i < count; i++) switch (way) {
        case 4: navd_find_path(&level, &ends, links, 65536, turns, 65536, &path); all += path.links; break;
        case 6: navd_floors(&level, pick(16 * width) / 16, pick(16 * depth) / 16, floors, 64, &found); all += found; break;
        case 7: navd_aim(&level, &told); all += told; break;
        case 9: navd_changed_tiles(&level, 0, tiles, 65536, &found); all += found; break;
        default: navd_floors(&empty, 0, 0, floors, 64, &found);
        }
    printf("%.1f ns a call, %zu in all\n", (seconds() - start) / (double)(count ? count : 1) * 1e9, all);
    navd_close(&level);
    return 0;
}
