/* A server of walkers among doors that open and close, as a host in C:
 *
 *     doors PUBLISHES
 *
 * 500 walkers go through 256 rooms, each to one goal after another. Between the rooms are gaps, of which 60 have doors; one of these opens or
 * closes before each of PUBLISHES publishes, and behind each the walkers take 16 steps. This is done twice, from the same seed. First each walker
 * keeps its path: a publish tells the tiles that may differ, those whose way leads through one of them have it checked, and where it is cut it is
 * mended, or looked for anew. Then all ask for a new path after each publish. Written are the processor times of what a publish costs the walkers in
 * each, without the settle, and of all their steps, how many goals were reached, and how many places were off the mesh on which their walker was. It
 * ends with 1 where there is such a place, or where the publishes cost the first more than LIMIT of what they cost the second. */
#define _POSIX_C_SOURCE 200809L

#include <inttypes.h>
#include <stdbool.h>
#include <stdio.h>
#include <stdlib.h>
#include <string.h>

#include "../../include/navd.h"
#include "common.h"
#include "rooms.h"

enum { WALKERS = 500, DOORS = 60, STEPS = 16, SPEED = 12, MOST_LINKS = 1024 };
static const double LIMIT = 0.25;

/* Where a walker is, and the links and turns of its way; it has none where it waits for a door. */
typedef struct {
    navd_follower is;
    bool waits;
    size_t links_count, turns_count;
    navd_link links[MOST_LINKS];
    navd_turn turns[MOST_LINKS];
} walker;

typedef struct {
    navd_block gap;
    uint32_t number; /* of the obstacle that closes it, or 0 */
} door;

typedef struct {
    double after_publishes, steps; /* in seconds */
    long reached, off, checks, cuts, mended, plans, lost;
} outcome;

static const uint32_t no_costs[1];
static uint64_t seed;
static navd_level level;
static navd_view view;
static walker walkers[WALKERS];
static door doors[DOORS];

static uint32_t pick(uint32_t below) {
    return pick_by(&seed, below);
}

static void want(bool holds, const char *what) {
    if (holds) return;
    fprintf(stderr, "%s\n", what);
    exit(1);
}

static void open_rooms(void) {
    size_t length;
    char *text = rooms_text(DOORS, &length);
    navd_fault fault;
    want(text && navd_open(&level, (const uint8_t *)text, length, &fault) == NAVD_OK, "an open");
    free(text);
}

/* Doors at gaps that differ, all open. */
static void hang_doors(void) {
    for (uint32_t i = 0; i < DOORS; i++) {
        doors[i].number = 0;
        doors[i].gap = drawn_gap(&seed);
        for (uint32_t j = 0; j < i; j++)
            if (!memcmp(&doors[i].gap, &doors[j].gap, sizeof(navd_block))) { i--; break; }
    }
}

/* A point of a room, three columns or more from its walls. */
static navd_point somewhere(void) {
    uint32_t x = pick(ROOMS) * PITCH + 5, z = pick(ROOMS) * PITCH + 5;
    return (navd_point){(int32_t)(16 * x + pick(16 * 7)), (int32_t)(16 * z + pick(16 * 7))};
}

static navd_way rest_of(const walker *w) {
    return (navd_way){w->is.at, w->is.y, w->is.goal, FLOOR};
}

/* A way from where the walker is begins in a polygon, with links and turns that were laid into its arrays. */
static void set_out(walker *w, navd_polygon first, size_t links, size_t turns) {
    want(links <= MOST_LINKS && turns <= MOST_LINKS, "the room of a way");
    w->is = (navd_follower){.first = first, .from = w->is.at, .goal = w->is.goal, .ahead = 8, .polygon = first, .at = w->is.at, .y = w->is.y};
    w->links_count = links;
    w->turns_count = turns;
    w->waits = false;
}

static void plan(walker *w, outcome *told) {
    navd_plan it = {.way = rest_of(w), .areas = UINT64_MAX, .most_cost = UINT64_MAX, .most_polygons = SIZE_MAX};
    uint32_t status = navd_view_plan(&view, &it, no_costs, 0, w->links, MOST_LINKS, w->turns, MOST_LINKS);
    want(status == NAVD_OK || status == NAVD_NO_START || status == NAVD_NO_GOAL || status == NAVD_NO_PATH, "a plan");
    told->plans++;
    w->waits = status != NAVD_OK;
    if (!w->waits) set_out(w, it.first, it.links, it.turns);
}

/* Mends a way that is cut: it comes back to what is left of it. */
static bool mend(walker *w, navd_polygon first, outcome *told) {
    navd_repair it = {.way = rest_of(w), .first = first, .join = 1, .count = w->links_count, .keep = SIZE_MAX, .most_polygons = 256,
                      .areas = UINT64_MAX};
    if (navd_view_repair_path(&view, &it, no_costs, 0, w->links, MOST_LINKS, w->turns, MOST_LINKS) != NAVD_OK) return false;
    told->mended++;
    set_out(w, it.first, it.links, it.turns);
    return true;
}

/* Takes a way over into what is shown now: the links that are left of it, from where the walker is. */
static void check(walker *w, outcome *told) {
    w->links_count -= w->is.link;
    memmove(w->links, w->links + w->is.link, w->links_count * sizeof *w->links);
    navd_kept it = {.way = rest_of(w), .first = w->is.polygon, .areas = UINT64_MAX};
    uint32_t status = navd_view_check_path(&view, &it, no_costs, 0, w->links, w->links_count, w->turns, MOST_LINKS);
    want(status == NAVD_OK || status == NAVD_CUT || status == NAVD_NO_START, "a check");
    told->checks++;
    if (status == NAVD_OK) { set_out(w, it.first, it.links, it.turns); return; }
    told->cuts++;
    if (status == NAVD_NO_START || !mend(w, it.first, told)) plan(w, told);
}

/* Whether the way that is left leads through one of the tiles that may differ. */
static bool meets(const walker *w, const bool *is_changed) {
    if (is_changed[w->is.polygon.tile]) return true;
    for (size_t i = w->is.link; i < w->links_count; i++)
        if (is_changed[w->links[i].to.tile]) return true;
    return false;
}

/* What a publish means to the walkers, who were shown the length `then`. */
static void after_publish(bool keeps, uint32_t then, outcome *told) {
    uint32_t tiles[TILES], published;
    bool is_changed[TILES] = {false};
    size_t count;
    want(navd_look(&view, &level, &published) == NAVD_OK, "a look");
    want(navd_changed_tiles(&level, then, tiles, TILES, &count) == NAVD_OK && count <= TILES, "the tiles that changed");
    for (size_t i = 0; i < count; i++) is_changed[tiles[i]] = true;
    for (walker *w = walkers; w < walkers + WALKERS; w++)
        if (w->waits || !keeps) plan(w, told);
        else if (meets(w, is_changed)) check(w, told);
}

static void step(walker *w, outcome *told) {
    if (w->waits) return;
    w->is.far += SPEED;
    uint32_t status = navd_view_follow_path(&view, &w->is, w->links, w->links_count, w->turns, w->turns_count);
    if (status != NAVD_OK) told->lost++, plan(w, told);
    if (w->is.at.x != w->is.goal.x || w->is.at.z != w->is.goal.z) return;
    told->reached++;
    w->is.goal = somewhere();
    plan(w, told);
}

static long off_mesh(void) {
    long off = 0;
    for (walker *w = walkers; w < walkers + WALKERS; w++) {
        navd_place place = {.polygon = w->is.polygon, .at = w->is.at};
        off += !w->waits && navd_view_height(&view, &place) != NAVD_OK;
    }
    return off;
}

static void turn_door(door *d) {
    uint32_t entry, published;
    if (d->number)
        want(navd_remove(&level, d->number, &entry) == NAVD_OK, "a door that opens");
    else
        want(navd_add_block(&level, &d->gap, 0, &entry) == NAVD_OK, "a door that closes");
    d->number = d->number ? 0 : entry;
    want(navd_settle(&level, &published) == NAVD_OK, "a settle");
}

static outcome run(bool keeps, long publishes) {
    outcome told = {0};
    uint32_t then;
    seed = 5;
    open_rooms();
    hang_doors();
    want(navd_look(&view, &level, &then) == NAVD_OK, "a look");
    for (walker *w = walkers; w < walkers + WALKERS; w++) {
        w->is = (navd_follower){.at = somewhere(), .y = FLOOR, .goal = somewhere()};
        plan(w, &told);
    }
    for (long i = 0; i < publishes; i++) {
        uint32_t chosen = (uint32_t)(i * 7 % DOORS);
        turn_door(&doors[(chosen + (uint32_t)(i / DOORS)) % DOORS]);
        double start = seconds();
        after_publish(keeps, then++, &told);
        told.after_publishes += seconds() - start;
        for (int j = 0; j < STEPS; j++) {
            start = seconds();
            for (walker *w = walkers; w < walkers + WALKERS; w++) step(w, &told);
            told.steps += seconds() - start;
            told.off += off_mesh();
        }
    }
    navd_view_close(&view);
    navd_close(&level);
    return told;
}

static void tell(const char *name, const outcome *it) {
    printf("%s: %.3f s after the publishes, %.3f s of steps and new goals; %ld goals reached, %ld plans, %ld checks, %ld of these cut, %ld mended; "
           "%ld places off the mesh, %ld followers lost\n", name, it->after_publishes, it->steps, it->reached, it->plans, it->checks, it->cuts, it->mended,
           it->off, it->lost);
}

int main(int argc, char **words) {
    long publishes = argc == 2 ? atol(words[1]) : 0;
    if (publishes <= 0) return 2;
    outcome kept = run(true, publishes), again = run(false, publishes);
    tell("paths kept", &kept);
    tell("paths asked for again", &again);
    printf("ratio after the publishes %.3f (limit %.2f)\n", kept.after_publishes / again.after_publishes, LIMIT);
    return kept.off || again.off || kept.lost || again.lost || kept.after_publishes > LIMIT * again.after_publishes;
}
