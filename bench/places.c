/* Times questions about places over the library, beside bench/places_peer.cpp:
 *
 *     places LEVEL make COUNT                         writes COUNT questions of each kind
 *     places LEVEL ask QUESTIONS UNIT ROUNDS          answers them
 *
 * A line of QUESTIONS is a kind, x and z in sixteenths, y, and three numbers. For the nearest place they are how far it may be in the plane, down and up:
 * `floor4` and `floor16` on a floor, with a reach of 4 and of 16 cells, `air4` 10 to 60 height units above one, and `any64` anywhere, with a reach of
 * 64 cells and of all heights. For a slide, from the place nearest to a point on a floor, they are x and z of its target, `half` a cell away, `step3`
 * and `step10` 3 and 10 cells, and 0; for the nearest wall within 10 cells, `wall10`, and for a random place, `random`, they are 0.
 * UNIT is how high a height unit is, in cells. Asking writes a line for each kind: its name, the least nanoseconds a question of so many rounds, how
 * many have an answer, and how many were asked; and `height` for the heights at the places that were found. Slides tell the height where they end. */
#define _POSIX_C_SOURCE 200809L

#include <math.h>

#define PROGRAM "places"
#include "opened.h"
#include "../hosts/c/common.h"
#include "counted.h"

enum { FLOOR4, FLOOR16, ANY64, AIR4, HALF, STEP3, STEP10, WALL10, RANDOM, HEIGHT, KINDS };

static const char *const kinds[KINDS] = {"floor4", "floor16", "any64", "air4", "half", "step3", "step10", "wall10", "random", "height"};

typedef struct {
    int32_t x, z;
    uint32_t y;
} spot;

/* A question: what is looked for, or a place with a target, or a number to draw by; and the place that is told. */
typedef struct {
    navd_near near;
    navd_place from, told;
    navd_point to;
    uint64_t draw;
} question;

static navd_view view;
static spot *floors;
static size_t floor_count;

static uint64_t random_number(void) {
    static uint64_t seed = 7;
    return seed = seed * 6364136223846793005u + 1442695040888963407u;
}

static uint32_t pick(uint32_t below) {
    return (uint32_t)((random_number() >> 33) % below);
}

/* == Questions are made == */

/* All floors that the level tells. */
static void find_floors(void) {
    navd_floor told[64];
    size_t room = 0, count;
    for (uint32_t z = 0; z < depth; z++) for (uint32_t x = 0; x < width; x++) {
        want(navd_view_floors(&view, x, z, told, 64, &count) == NAVD_OK && count <= 64, "floors");
        if (floor_count + count > room) want((floors = realloc(floors, (room = 2 * room + 64) * sizeof *floors)) != NULL, "no memory");
        for (size_t i = 0; i < count; i++) floors[floor_count++] = (spot){(int32_t)x, (int32_t)z, told[i].y};
    }
    want(floor_count > 0, "a level without floors");
}

/* A point over a random cell. */
static spot random_spot(void) {
    spot at = floors[pick((uint32_t)floor_count)];
    return (spot){16 * at.x + (int32_t)pick(17), 16 * at.z + (int32_t)pick(17), at.y};
}

static void make_near(int kind, uint32_t low, uint32_t high) {
    static const unsigned reach[] = {64, 256, 1024, 64}, down[] = {28, 28, 8191, 64}, up[] = {28, 28, 8191, 28};
    spot at = random_spot();
    if (kind == ANY64) at = (spot){(int32_t)pick(16 * width), (int32_t)pick(16 * depth), low + pick(high - low + 1)};
    if (kind == AIR4) at.y += 10 + pick(51);
    printf("%s %d %d %u %u %u %u\n", kinds[kind], (int)at.x, (int)at.z, (unsigned)at.y, reach[kind], down[kind], up[kind]);
}

/* A target in a random direction, up to so many sixteenths away. */
static void make_step(int kind) {
    static const double most[] = {[HALF] = 8, [STEP3] = 48, [STEP10] = 160};
    double turn = pick(65536) * 6.283185307179586 / 65536, far = most[kind] * (1 + pick(1000)) / 1000;
    spot at = random_spot();
    printf("%s %d %d %u %d %d 0\n", kinds[kind], (int)at.x, (int)at.z, (unsigned)at.y, (int)(at.x + lround(far * cos(turn))),
           (int)(at.z + lround(far * sin(turn))));
}

static void make(long count) {
    uint32_t low = UINT32_MAX, high = 0;
    for (size_t i = 0; i < floor_count; i++) {
        if (floors[i].y < low) low = floors[i].y;
        if (floors[i].y > high) high = floors[i].y;
    }
    for (int kind = 0; kind < HEIGHT; kind++) for (long i = 0; i < count; i++) {
        if (kind <= AIR4) make_near(kind, low, high);
        else if (kind <= STEP10) make_step(kind);
        else {
            spot at = random_spot();
            printf("%s %d %d %u 0 0 0\n", kinds[kind], (int)at.x, (int)at.z, (unsigned)at.y);
        }
    }
}

/* == Questions are asked: each function tells how many have an answer == */

__attribute__((noinline)) static size_t ask_nearest(question *asked, size_t count) {
    size_t found = 0;
    for (size_t i = 0; i < count; i++) found += navd_view_nearest(&view, &asked[i].near, &asked[i].told) == NAVD_OK;
    return found;
}

__attribute__((noinline)) static size_t ask_heights(question *asked, size_t count) {
    size_t found = 0;
    for (size_t i = 0; i < count; i++) found += navd_view_height(&view, &asked[i].from) == NAVD_OK;
    return found;
}

__attribute__((noinline)) static size_t ask_slides(question *asked, size_t count) {
    size_t found = 0;
    for (size_t i = 0; i < count; i++) found += navd_view_slide(&view, &asked[i].from, &asked[i].to, UINT64_MAX, &asked[i].told) == NAVD_OK;
    return found;
}

__attribute__((noinline)) static size_t ask_walls(question *asked, size_t count) {
    size_t found = 0;
    navd_wall wall;
    for (size_t i = 0; i < count; i++) {
        navd_around around = {.from = asked[i].from, .reach = 160, .areas = UINT64_MAX};
        found += navd_view_nearest_wall(&view, &around, &wall) == NAVD_OK;
    }
    return found;
}

__attribute__((noinline)) static size_t ask_random(question *asked, size_t count) {
    size_t found = 0;
    for (size_t i = 0; i < count; i++) found += navd_view_random_place(&view, UINT64_MAX, asked[i].draw, &asked[i].told) == NAVD_OK;
    return found;
}

static size_t (*const ask_kind[KINDS])(question *, size_t) = {[FLOOR4] = ask_nearest, [FLOOR16] = ask_nearest, [ANY64] = ask_nearest, [AIR4] = ask_nearest,
    [HALF] = ask_slides, [STEP3] = ask_slides, [STEP10] = ask_slides, [WALL10] = ask_walls, [RANDOM] = ask_random, [HEIGHT] = ask_heights};

/* Questions of a kind. */
typedef struct {
    question *list;
    size_t count, room;
} questions;

static questions asked[KINDS];

static question *another(int kind) {
    questions *own = &asked[kind];
    if (own->count == own->room) want((own->list = realloc(own->list, (own->room = 2 * own->room + 64) * sizeof *own->list)) != NULL, "no memory");
    return &own->list[own->count++];
}

/* Reads questions. Those that begin in a place are asked where there is one. */
static void read_questions(const char *path, uint32_t weight) {
    FILE *file = fopen(path, "r");
    want(file != NULL, "no questions");
    char name[16];
    spot at;
    int32_t n[3];
    while (fscanf(file, "%15s %" SCNd32 " %" SCNd32 " %" SCNu32 " %" SCNd32 " %" SCNd32 " %" SCNd32, name, &at.x, &at.z, &at.y, &n[0], &n[1], &n[2]) == 7) {
        int kind = 0;
        while (kind < HEIGHT && strcmp(name, kinds[kind])) kind++;
        want(kind < HEIGHT, "a kind of questions that is unknown");
        navd_near near = {UINT64_MAX, {at.x, at.z}, at.y, 64, 28, 28, weight};
        navd_place from = {.y = 0};
        if (kind <= AIR4) near.reach = (uint32_t)n[0], near.down = (uint32_t)n[1], near.up = (uint32_t)n[2];
        else if (navd_view_nearest(&view, &near, &from) != NAVD_OK) continue;
        *another(kind) = (question){.near = near, .from = from, .told = {.y = UINT32_MAX}, .to = {n[0], n[1]}, .draw = random_number()};
    }
    fclose(file);
}

static void ask(const char *path, double unit, int rounds) {
    read_questions(path, (uint32_t)(16 * unit + 0.5));
    for (int kind = 0; kind < KINDS; kind++) if (asked[kind].count) {
        double least = 1e9;
        size_t found = 0;
        for (int round = 0; round < rounds; round++) {
            COUNT_FROM_HERE;
            double begun = seconds();
            found = ask_kind[kind](asked[kind].list, asked[kind].count);
            double took = seconds() - begun;
            COUNT_TO_HERE(kinds[kind]);
            if (took < least) least = took;
        }
        printf("%s %.1f %zu %zu\n", kinds[kind], least / (double)asked[kind].count * 1e9, found, asked[kind].count);
        if (kind <= AIR4) for (size_t i = 0; i < asked[kind].count; i++) {
            const question *own = &asked[kind].list[i];
            if (own->told.y <= 8191) *another(HEIGHT) = (question){.from = own->told};
        }
    }
}

int main(int argc, char **words) {
    const char *usage = "usage: places LEVEL make COUNT | ask QUESTIONS UNIT ROUNDS";
    bool is_ask = argc == 6 && !strcmp(words[2], "ask"), is_make = argc == 4 && !strcmp(words[2], "make");
    want(is_ask || is_make, usage);
    uint32_t published;
    open_level(words[1]);
    want(navd_look(&view, &level, &published) == NAVD_OK, "no view");
    if (is_make) find_floors(), make(atol(words[3]));
    if (is_ask) ask(words[3], atof(words[4]), atoi(words[5]));
    navd_view_close(&view);
    navd_close(&level);
    return 0;
}
