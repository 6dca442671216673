/* Plays an input of navd over the library, as a host in C: a field text and a script, from standard input to standard output.
 *
 *     play < input            plays the script, and writes what `navd play` writes
 *     play N < input          the same with the Nth allocation refused; where that ends a call, the call is made once more. How many
 *                             allocations were asked for goes to standard error
 *
 * A worker of the script is a job's handle here, whose tile is built as it is claimed. */
#include <inttypes.h>
#include <stdbool.h>
#include <stdio.h>
#include <stdlib.h>
#include <string.h>

#include "../../include/navd.h"

/* == The allocator that the library asks for == */

static long allocations, refused_one;

static bool is_refused(void) {
    return ++allocations == refused_one;
}

#define IS_REFUSED is_refused
#include "heap.h"

/* == The level, and room for answers that grows as they ask for it == */

static navd_level level;
static uint32_t published, entries;
static navd_floor *floors;
static navd_link *links;
static navd_turn *turns;
static size_t floors_room, links_room, turns_room;

static void *resized(void *room, size_t count, size_t each) {
    void *more = realloc(room, (count ? count : 1) * each);
    if (!more) {
        fputs("no memory\n", stderr);
        exit(6);
    }
    return more;
}

/* A call that wanted memory is made once more: nothing is lost by its refusal. */
#define AGAIN(call) ((status = (call)) == NAVD_NO_MEMORY ? (status = (call)) : status)

static void ask_floors(uint32_t x, uint32_t z) {
    uint32_t status;
    size_t count = 0;
    while (AGAIN(navd_floors(&level, x, z, floors, floors_room, &count)) == NAVD_OK && count > floors_room) {
        floors = resized(floors, count, sizeof *floors);
        floors_room = count;
    }
    printf("floors %" PRIu32 " %zu", published, count);
    for (size_t i = 0; i < count; i++) printf(" %" PRIu32 " %" PRIu32, floors[i].y, floors[i].area);
    putchar('\n');
}

static bool is_refusal(uint32_t status) {
    const char *word = status == NAVD_NO_START ? "nostart" : status == NAVD_NO_GOAL ? "nogoal" : status == NAVD_NO_PATH ? "nopath" : NULL;
    if (word) printf("%s %" PRIu32 "\n", word, published);
    return word != NULL;
}

static void find_path(const navd_way *way) {
    uint32_t status;
    navd_path path;
    while (AGAIN(navd_find_path(&level, way, links, links_room, turns, turns_room, &path)) == NAVD_OK
           && (path.links > links_room || path.turns > turns_room)) {
        links = resized(links, path.links, sizeof *links);
        turns = resized(turns, path.turns, sizeof *turns);
        links_room = path.links;
        turns_room = path.turns;
    }
    if (is_refusal(status)) return;
    printf("path %" PRIu32 " %" PRIu64 " %" PRIu32 " %" PRIu32 " %zu %zu\n", published, path.cost, path.first.tile, path.first.index, path.links,
           path.turns);
    for (size_t i = 0; i < path.links; i++)
        printf("link %" PRIu32 " %" PRIu32 " %" PRId32 " %" PRId32 " %" PRId32 " %" PRId32 "\n", links[i].to.tile, links[i].to.index, links[i].left.x,
               links[i].left.z, links[i].right.x, links[i].right.z);
    for (size_t i = 0; i < path.turns; i++)
        printf("turn %" PRId32 " %" PRId32 " %c %" PRIu32 "\n", turns[i].at.x, turns[i].at.z, turns[i].side ? 'R' : 'L', turns[i].link);
}

static void cast_ray(const navd_way *way) {
    uint32_t status;
    navd_ray ray;
    AGAIN(navd_cast_ray(&level, way, &ray));
    if (is_refusal(status)) return;
    if (status == NAVD_OK)
        printf("reached %" PRIu32 " %" PRIu32 " %" PRIu32 "\n", published, ray.last.tile, ray.last.index);
    else
        printf("wall %" PRIu32 " %" PRId32 " %" PRId32 " %" PRId32 " %" PRId32 " %" PRId64 " %" PRId64 "\n", published, ray.a.x, ray.a.z, ray.b.x,
               ray.b.z, ray.num, ray.den);
}

/* == Script lines == */

static void tell_entry(uint32_t status, uint32_t entry, const char *done, uint32_t number, uint32_t limit) {
    if (entry) entries = entry;
    if (status == NAVD_OK) printf("entry %" PRIu32 " %s\n", entry, done);
    if (status == NAVD_TOO_MANY) printf("entry %" PRIu32 " full %" PRIu32 "\n", entry, limit);
    if (status == NAVD_DEAD) printf("entry %" PRIu32 " dead %" PRIu32 "\n", entry, number);
    if (status == NAVD_HISTORY_FULL) printf("history full %" PRIu32 "\n", entries);
}

/* What a lane's add lines added, in order: obstacles by their numbers, or 0. */
static struct {
    uint32_t *added, adds;
} lanes[16], *lane = lanes;

static uint32_t limit;

static bool add(const char *line, uint32_t area) {
    navd_block block;
    navd_cylinder round;
    uint32_t entry, status;
    if (sscanf(line, "block %u %u %u %u %u %u", &block.x0, &block.x1, &block.y0, &block.y1, &block.z0, &block.z1) == 6)
        status = navd_add_block(&level, &block, area, &entry);
    else if (sscanf(line, "cylinder %u %u %u %u %u", &round.cx, &round.cz, &round.r, &round.y0, &round.y1) == 5)
        status = navd_add_cylinder(&level, &round, area, &entry);
    else
        return false;
    lane->added = resized(lane->added, lane->adds + 1, sizeof *lane->added);
    lane->added[lane->adds++] = status == NAVD_OK ? entry : 0;
    tell_entry(status, entry, "added", 0, limit);
    return true;
}

static void take_away(uint32_t number) {
    uint32_t entry;
    uint32_t status = navd_remove(&level, number, &entry);
    tell_entry(status, entry, "removed", number, 0);
}

/* What a settle does, tile by tile: also where a settle was cut short. */
static uint32_t step_on(uint32_t *number) {
    uint32_t status, tile;
    navd_aim(&level, number);
    while (AGAIN(navd_step(&level, &tile)) == NAVD_OK) {}
    return AGAIN(navd_publish(&level, number));
}

/* == Workers, and walks over jumps == */

static struct {
    navd_job job;
    bool holds;
    uint32_t tile;
} workers[8];

static void let_go(uint32_t w) {
    navd_job_close(&workers[w].job);
    workers[w].holds = false;
}

static void claim(uint32_t w) {
    uint32_t status;
    if (workers[w].holds) {
        printf("busy %" PRIu32 "\n", w);
    } else if (AGAIN(navd_claim(&level, &workers[w].job, &workers[w].tile)) == NAVD_OK) {
        workers[w].holds = true;
        AGAIN(navd_build(&workers[w].job));
        printf("claim %" PRIu32 " tile %" PRIu32 "\n", w, workers[w].tile);
    } else {
        printf("claim %" PRIu32 " none\n", w);
    }
}

static void hand_in(uint32_t w, bool is_back) {
    if (!workers[w].holds) {
        printf("idle %" PRIu32 "\n", w);
        return;
    }
    workers[w].holds = false;
    if (is_back) {
        navd_put_back(&level, &workers[w].job);
        printf("back %" PRIu32 " tile %" PRIu32 "\n", w, workers[w].tile);
    } else {
        const char *word = navd_submit(&level, &workers[w].job) == NAVD_OK ? "taken" : "stale";
        printf("submit %" PRIu32 " %s %" PRIu32 "\n", w, word, workers[w].tile);
    }
}

static navd_jump jumps[256];
static size_t jump_count;
static navd_step_taken *steps;
static size_t steps_room;

static void find_hop(const navd_way *way) {
    uint32_t status;
    navd_hop hop = {0};
    hop.way = *way;
    while (AGAIN(navd_find_hop(&level, &hop, jumps, jump_count, steps, steps_room, turns, turns_room)) == NAVD_OK
           && (hop.steps > steps_room || hop.turns > turns_room)) {
        steps = resized(steps, hop.steps, sizeof *steps);
        turns = resized(turns, hop.turns, sizeof *turns);
        steps_room = hop.steps;
        turns_room = hop.turns;
    }
    if (is_refusal(status)) return;
    printf("hop %" PRIu32 " %" PRIu64 " %" PRIu32 " %" PRIu32 " %zu %zu\n", published, hop.cost, hop.first.tile, hop.first.index, hop.steps, hop.turns);
    for (size_t i = 0; i < hop.steps; i++) {
        navd_link *link = &steps[i].link;
        if (steps[i].kind)
            printf("jump %" PRIu32 " %" PRIu32 " %" PRIu32 "\n", steps[i].jump, link->to.tile, link->to.index);
        else
            printf("link %" PRIu32 " %" PRIu32 " %" PRId32 " %" PRId32 " %" PRId32 " %" PRId32 "\n", link->to.tile, link->to.index, link->left.x,
                   link->left.z, link->right.x, link->right.z);
    }
    for (size_t i = 0; i < hop.turns; i++)
        printf("turn %" PRId32 " %" PRId32 " %c %" PRIu32 "\n", turns[i].at.x, turns[i].at.z, turns[i].side ? 'R' : 'L', turns[i].link);
}

static void build(const char *word) {
    uint32_t status, number = 0;
    if (!strcmp(word, "aim")) {
        AGAIN(navd_aim(&level, &number));
        printf("aim %" PRIu32 "\n", number);
    } else if (!strcmp(word, "settle")) {
        if (navd_settle(&level, &number) == NAVD_NO_MEMORY) step_on(&number);
        published = number;
        for (uint32_t w = 0; w < 8; w++) let_go(w);
        printf("settled %" PRIu32 "\n", number);
    } else {
        AGAIN(navd_publish(&level, &number));
        if (status != NAVD_NOT_YET) published = number;
        printf("%s %" PRIu32 "\n", status == NAVD_OK ? "published" : status == NAVD_SAME ? "same" : "notyet", number);
    }
}

/* Plays one line, if it is one of those that are played here. */
static bool play(const char *line) {
    uint32_t n, x, z;
    int at = 0;
    navd_way way = {{0, 0}, 0, {0, 0}, 0};
    navd_jump jump;
    if (sscanf(line, "add area %u %n", &n, &at) == 1 && at) return add(line + at, n);
    if (!strncmp(line, "add ", 4)) return add(line + 4, 0);
    if (sscanf(line, "remove %u", &n) == 1)
        take_away(n);
    else if (sscanf(line, "drop %u", &n) == 1)
        take_away(n && n <= lane->adds ? lane->added[n - 1] : 0);
    else if (sscanf(line, "lane %u", &n) == 1)
        lane = &lanes[n % 16];
    else if (!strcmp(line, "aim") || !strcmp(line, "settle") || !strcmp(line, "publish"))
        build(line);
    else if (sscanf(line, "floor %u %u", &x, &z) == 2)
        ask_floors(x, z);
    else if (sscanf(line, "path %d %d %u %d %d %u", &way.from.x, &way.from.z, &way.from_y, &way.to.x, &way.to.z, &way.to_y) == 6)
        find_path(&way);
    else if (sscanf(line, "ray %d %d %u %d %d", &way.from.x, &way.from.z, &way.from_y, &way.to.x, &way.to.z) == 5)
        cast_ray(&way);
    else if (sscanf(line, "claim %u", &n) == 1)
        claim(n % 8);
    else if (sscanf(line, "back %u", &n) == 1)
        hand_in(n % 8, true);
    else if (sscanf(line, "submit %u", &n) == 1)
        hand_in(n % 8, false);
    else if (sscanf(line, "jump %d %d %u %d %d %u %u", &jump.from.x, &jump.from.z, &jump.from_y, &jump.to.x, &jump.to.z, &jump.to_y, &jump.cost) == 7)
        jumps[jump_count++ % 256] = jump;
    else if (sscanf(line, "hop %d %d %u %d %d %u", &way.from.x, &way.from.z, &way.from_y, &way.to.x, &way.to.z, &way.to_y) == 6)
        find_hop(&way);
    else
        return false;
    return true;
}

static char *read_all(size_t *length) {
    size_t room = 1 << 16, got;
    char *bytes = resized(NULL, room, 1);
    for (*length = 0; (got = fread(bytes + *length, 1, room - *length - 1, stdin)) > 0;) {
        *length += got;
        if (*length + 1 == room) bytes = resized(bytes, room *= 2, 1);
    }
    bytes[*length] = '\0';
    return bytes;
}

int main(int argc, char **words) {
    size_t length;
    char *text = read_all(&length);
    navd_fault fault;
    uint32_t status;
    refused_one = argc > 1 ? atol(words[1]) : 0;
    floors = resized(NULL, 0, sizeof *floors);
    links = resized(NULL, 0, sizeof *links);
    turns = resized(NULL, 0, sizeof *turns);
    steps = resized(NULL, 0, sizeof *steps);
    if (AGAIN(navd_open(&level, (const uint8_t *)text, length, &fault)) != NAVD_OK) {
        if (status == NAVD_FAULTY) printf("fault %" PRIu32 " %" PRIu32 "\n", fault.line, fault.kind);
        free(text);
        return 1;
    }
    char *line = strstr(text, "\nlimit ");
    if (line) limit = (uint32_t)strtoul(line + 7, NULL, 10);
    line = strstr(text, "\nscript ");
    for (line = line ? strchr(line + 1, '\n') : NULL; line && line[1]; ) {
        char *end = strchr(++line, '\n');
        if (!end) break;
        *end = '\0';
        if (!play(line)) fprintf(stderr, "not played: %s\n", line);
        line = end;
    }
    printf("done %" PRIu32 " %" PRIu32 "\n", published, entries);
    for (uint32_t w = 0; w < 8; w++) let_go(w);
    navd_close(&level);
    if (refused_one) fprintf(stderr, "%ld\n", allocations);
    free(floors);
    free(links);
    free(turns);
    free(steps);
    for (size_t i = 0; i < 16; i++) free(lanes[i].added);
    free(text);
    return 0;
}
