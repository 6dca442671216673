/* Moves 24 doors of a level for a long time, and compares its questions and its memory at the end with those at the beginning:
 *
 *     soak LEVEL PUBLISHES
 *
 * LEVEL is a field text. Each publish shuts or opens one door, a block of 4 by 4 columns, and after each 16 a path is asked for. Begun again where the
 * history has 100000 entries, as a host does. At the beginning, after 1000 publishes, and at the end all doors are open, and the same 100 paths are
 * asked for: the least processor time of nine rounds. A line each: `path`, microseconds a question at the beginning and at the end, and their ratio;
 * `memory`, the heap in use there and there, in bytes, and the ratio; `found`, how many of the 100 questions have a path there and there. */
#define _POSIX_C_SOURCE 200809L

#include <malloc.h>

#define PROGRAM "soak"
#include "opened.h"
#include "../hosts/c/common.h"

enum { DOORS = 24, PATHS = 100, ROUNDS = 9, MOST_LINKS = 65536, MOST_ENTRIES = 100000 };

static navd_block doors[DOORS];
static uint32_t numbers[DOORS]; /* of the obstacle that shuts a door; 0 for an open one */
static uint32_t entries;
static navd_way ways[PATHS];

static uint32_t pick(uint32_t below) {
    static uint64_t seed = 7;
    return pick_by(&seed, below);
}

static void settle(void) {
    uint32_t published;
    want(navd_settle(&level, &published) == NAVD_OK, "a settle that fails");
}

/* Begins the history again: the number of an obstacle is then its place in the list of those that are there. */
static void renew(void) {
    uint32_t old[DOORS];
    size_t count;
    want(navd_renew(&level, old, DOORS, &count) == NAVD_OK, "a history that does not begin again");
    for (size_t i = 0; i < count; i++)
        for (int door = 0; door < DOORS; door++) if (numbers[door] == old[i]) {
            numbers[door] = (uint32_t)i + 1;
            break;
        }
    entries = (uint32_t)count;
}

/* Shuts a door that is open, or opens one that is shut, and shows it. */
static void turn(int door) {
    uint32_t entry, *number = &numbers[door];
    if (*number) {
        want(navd_remove(&level, *number, &entry) == NAVD_OK, "a door that does not open");
        *number = 0;
    } else {
        want(navd_add_block(&level, &doors[door], 0, number) == NAVD_OK, "a door that does not shut");
    }
    settle();
    if (++entries >= MOST_ENTRIES) renew();
}

static uint32_t find(const navd_way *way) {
    static navd_link links[MOST_LINKS];
    static navd_turn turns[MOST_LINKS];
    navd_path path;
    return navd_find_path(&level, way, links, MOST_LINKS, turns, MOST_LINKS, &path);
}

typedef struct {
    double path, memory;
    int found;
} reading;

/* With all doors open: the least time of the questions, and the heap. */
static reading read_level(void) {
    for (int door = 0; door < DOORS; door++) if (numbers[door]) turn(door);
    reading told = {.path = 1e9};
    for (int round = 0; round < ROUNDS; round++) {
        told.found = 0;
        double begun = seconds();
        for (int i = 0; i < PATHS; i++) told.found += find(&ways[i]) == NAVD_OK;
        double took = (seconds() - begun) / PATHS * 1e6;
        if (took < told.path) told.path = took;
    }
    struct mallinfo2 heap = mallinfo2();
    told.memory = (double)heap.uordblks + (double)heap.hblkhd;
    return told;
}

/* A point over a random floor. */
static void random_end(navd_point *at, uint32_t *y) {
    navd_floor floors[64];
    size_t count = 0;
    while (!count) {
        uint32_t x = pick(width), z = pick(depth);
        want(navd_floors(&level, x, z, floors, 64, &count) == NAVD_OK, "no floors");
        *at = (navd_point){(int32_t)(16 * x + 8), (int32_t)(16 * z + 8)};
    }
    *y = floors[pick((uint32_t)(count < 64 ? count : 64))].y;
}

int main(int argc, char **words) {
    want(argc == 3, "usage: soak LEVEL PUBLISHES");
    open_level(words[1]);
    long publishes = atol(words[2]);
    for (int door = 0; door < DOORS; door++) {
        uint32_t x = pick(width - 4), z = pick(depth - 4);
        doors[door] = (navd_block){x, x + 3, 0, 8191, z, z + 3};
    }
    for (int i = 0; i < PATHS; i++) {
        random_end(&ways[i].from, &ways[i].from_y);
        random_end(&ways[i].to, &ways[i].to_y);
    }
    reading first = {0};
    for (long i = 0; i < 1000 + publishes; i++) {
        if (i == 1000) first = read_level();
        turn((int)pick(DOORS));
        if (i % 16 == 0) find(&ways[pick(PATHS)]);
    }
    reading last = read_level();
    printf("path %.2f %.2f %.3f\n", first.path, last.path, last.path / first.path);
    printf("memory %.0f %.0f %.3f\n", first.memory, last.memory, last.memory / first.memory);
    printf("found %d %d\n", first.found, last.found);
    want(first.found == last.found, "other paths at the end");
    navd_close(&level);
    return 0;
}
