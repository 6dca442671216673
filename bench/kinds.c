/* Times kinds of agents beside levels of one kind, and doors that turn beside blocks, over the library:
 *
 *     kinds LEVEL open COUNT       opens COUNT kinds over the spans of a level at once: the agent of its text, and others whose radius is greater
 *     kinds LEVEL alone COUNT      opens them one by one, each over the spans, in a handle of its own
 *     kinds LEVEL texts COUNT      opens as many levels from the text, with these radii
 *     kinds LEVEL make COUNT       writes COUNT places of doors
 *     kinds LEVEL block PLACES     puts a door up at each place in turn as a block, while the one of 24 places before goes, and settles the level
 *     kinds LEVEL prism PLACES     the same with turned prisms
 *
 * LEVEL is a field text. A line of PLACES is a point in sixteenths, x and z, in the middle of a floor's column, that floor, and an angle in thousandths of a
 * radian. A door is six cells long and one wide. A line is written: what was timed, and the nanoseconds of processor time of all the openings, or of a
 * settle with its two requests. bench/kinds_peer.cpp does the same with doors. */
#define _POSIX_C_SOURCE 200809L

#include <math.h>

#define PROGRAM "kinds"
#include "opened.h"
#include "../hosts/c/common.h"
#include "counted.h"

enum { MOST = 16, DOORS = 24, MOST_SPANS = 2000000 };

static char *text;
static size_t length;
static navd_kind agents[MOST];
static navd_span *spans;
static size_t span_count;
static double begun;

static void begin(void) {
    begun = seconds();
    COUNT_FROM_HERE;
}

static void end(const char *what, size_t parts) {
    COUNT_TO_HERE(what);
    printf("%s %.0f %zu\n", what, (seconds() - begun) * 1e9 / (double)parts, parts);
}

static navd_ground read_ground(void) {
    navd_ground ground = {number_of(text, "\nsize ", 0), number_of(text, "\nsize ", 1), number_of(text, "\nerror ", 0), strstr(text, "\nmesh contours") != NULL,
                          number_of(text, "\nlimit ", 0)};
    for (uint32_t i = 0; i < MOST; i++)
        agents[i] = (navd_kind){number_of(text, "\nagent ", 0), number_of(text, "\nagent ", 1), (number_of(text, "\nagent ", 2) + i) % MOST, 0,
                                number_of(text, "\ntile ", 0)};
    spans = malloc(MOST_SPANS * sizeof *spans);
    want(spans != NULL, "no memory");
    for (char *line = strstr(text, "\nspan "); line && span_count < MOST_SPANS; line = strncmp(line, "\nspan ", 6) ? NULL : line) {
        navd_span *it = &spans[span_count++];
        uint32_t *numbers[] = {&it->x, &it->z, &it->bottom, &it->top, &it->area};
        line += 6;
        for (int i = 0; i < 5; i++) *numbers[i] = (uint32_t)strtoul(line, &line, 10);
    }
    return ground;
}

/* So many kinds, in so many handles. */
static void open_kinds(const char *what, size_t count, size_t handles) {
    navd_ground ground = read_ground();
    navd_kinds kinds[MOST] = {{0}};
    static const uint32_t no_costs[1];
    begin();
    for (size_t i = 0; i < handles; i++)
        want(navd_kinds_open(&kinds[i], &ground, &agents[i], count / handles, no_costs, 0, spans, span_count) == NAVD_OK, "kinds cannot be opened");
    end(what, 1);
    for (size_t i = 0; i < handles; i++) navd_kinds_close(&kinds[i]);
}

/* As many levels from the text. */
static void open_texts(const char *what, size_t count) {
    navd_level levels[MOST] = {{0}};
    char *texts[MOST], *agent = strstr(text, "\nagent "), *after;
    want(agent && (after = strchr(agent + 1, '\n')), "no agent");
    for (uint32_t i = 0; i < count; i++) {
        texts[i] = malloc(length + 64);
        want(texts[i] != NULL, "no memory");
        sprintf(texts[i], "%.*s\nagent %" PRIu32 " %" PRIu32 " %" PRIu32 "%s", (int)(agent - text), text, number_of(text, "\nagent ", 0),
                number_of(text, "\nagent ", 1), (number_of(text, "\nagent ", 2) + i) % MOST, after);
    }
    begin();
    for (size_t i = 0; i < count; i++) {
        navd_fault fault;
        want(navd_open(&levels[i], (const uint8_t *)texts[i], strlen(texts[i]), &fault) == NAVD_OK, "no level");
    }
    end(what, 1);
    for (size_t i = 0; i < count; i++) navd_close(&levels[i]), free(texts[i]);
}

/* Places on random floors. */
static void make(size_t count) {
    uint64_t seed = 7;
    while (count > 0) {
        navd_floor floors[64];
        size_t there;
        uint32_t x = pick_by(&seed, width), z = pick_by(&seed, depth);
        want(navd_floors(&level, x, z, floors, 64, &there) == NAVD_OK && there <= 64, "floors");
        if (!there) continue;
        printf("%" PRIu32 " %" PRIu32 " %" PRIu32 " %" PRIu32 "\n", 16 * x + 8, 16 * z + 8, floors[pick_by(&seed, (uint32_t)there)].y, pick_by(&seed, 6283));
        count--;
    }
}

typedef struct {
    navd_block block;
    navd_prism prism;
} door;

/* A door whose sides are moved out by a sixteenth where it is turned, so that all of it is in the prism that the rounded corners make. */
static door door_at(const uint32_t *place, uint32_t height) {
    uint32_t x = place[0] / 16, z = place[1] / 16, low = place[2] < 2 ? 0 : place[2] - 2;
    door it = {.block = {x < 3 ? 0 : x - 3, x + 2, low, place[2] + height, z, z}, .prism = {4, {{0}}, low, place[2] + height}};
    double cosine = cos(place[3] / 1000.0), sine = sin(place[3] / 1000.0);
    for (int i = 0; i < 4; i++) {
        double u = i == 0 || i == 3 ? -49 : 49, v = i < 2 ? -9 : 9;
        it.prism.point[i] = (navd_point){(int32_t)lround(place[0] + u * cosine - v * sine), (int32_t)lround(place[1] + u * sine + v * cosine)};
    }
    return it;
}

/* Each door is put up, and the one so many before it goes. */
static void settle(const char *what, const char *path, bool is_block) {
    uint32_t height = number_of(text, "\nagent ", 0), place[4], published, *numbers;
    size_t count = 0, room = 1 << 16;
    door *doors = malloc(room * sizeof *doors);
    FILE *places = fopen(path, "r");
    want(doors && places && (numbers = calloc(room, sizeof *numbers)), "no places");
    while (count < room && fscanf(places, "%" SCNu32 " %" SCNu32 " %" SCNu32 " %" SCNu32, &place[0], &place[1], &place[2], &place[3]) == 4)
        doors[count++] = door_at(place, height);
    begin();
    for (size_t i = 0; i < count; i++) {
        uint32_t status = is_block ? navd_add_block(&level, &doors[i].block, 0, &numbers[i]) : navd_add_prism(&level, &doors[i].prism, 0, &numbers[i]);
        want(status == NAVD_OK, "a door");
        if (i >= DOORS) want(navd_remove(&level, numbers[i - DOORS], &published) == NAVD_OK, "a door goes");
        want(navd_settle(&level, &published) == NAVD_OK, "a settle");
    }
    end(what, count);
    fclose(places);
}

int main(int count, char **words) {
    want(count == 4, "usage: kinds LEVEL open COUNT | alone COUNT | texts COUNT | make COUNT | block PLACES | prism PLACES");
    const char *what = words[2];
    size_t number = strtoul(words[3], NULL, 10);
    text = text_of(words[1], &length);
    if (!strcmp(what, "open")) open_kinds(what, number, 1);
    else if (!strcmp(what, "alone")) open_kinds(what, number, number);
    else if (!strcmp(what, "texts")) open_texts(what, number);
    else {
        open_level(words[1]);
        if (!strcmp(what, "make")) make(number);
        else settle(what, words[3], !strcmp(what, "block"));
        navd_close(&level);
    }
    return 0;
}
