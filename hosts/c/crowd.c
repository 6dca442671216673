/* A crowd among doors that open and close, while four threads ask, as a host in C:
 *
 *     crowd TICKS [FIELD]
 *
 * 500 agents go to one goal after another on the level of a field text, or else in 256 rooms; 60 doors stand in gaps between these, or anywhere on the
 * level, and one of them opens or closes before every tenth of TICKS steps. Each agent keeps its path: where that leads on no more, a way is looked
 * for anew. One on which a door shuts is stranded; it is entered again at the nearest place, as soon as it overlaps nobody there. Meanwhile four threads ask
 * views of their own for ways.
 *
 * After each step all is looked at from outside: whether two agents that did not overlap do then or did on the way, how far each went, and whether the
 * polygon that each is in holds it in the mesh that was shown. What the host did goes into a log: which door was turned, what each agent wished, who was
 * entered again. After each 200 steps these are played again on a second level, by one thread and from the log alone, and all agents have to be the same,
 * byte by byte, after each step. Ends with 1 at the first breach; how far it is is written to standard error after each 10000 steps. */
#define _POSIX_C_SOURCE 200809L

#include <inttypes.h>
#include <math.h>
#include <pthread.h>
#include <stdatomic.h>
#include <stdbool.h>
#include <stdio.h>
#include <stdlib.h>
#include <string.h>

#include "../../include/navd.h"
#include "common.h"
#include "rooms.h"
#include "text.h"

enum { AGENTS = 500, DOORS = 60, ASKING = 4, PERIOD = 10, LOGGED = 200, MOST_LINKS = 1024 };
enum { RADIUS = 320, SPEED = 192 }; /* in 1/256 of a cell; the speed is that of a step */

typedef struct {
    navd_place goal;
    navd_link links[MOST_LINKS];
    size_t count, link;
    navd_point turn;
    uint32_t rests; /* for so many steps it looks for no way */
} walker;

/* What the host did before a step: the door that it turned, from 1, or 0; which agents it entered again, and what each wished; and what came of it. */
typedef struct {
    uint32_t door;
    bool is_entered[AGENTS];
    navd_agent given[AGENTS], after[AGENTS];
} logged;

typedef struct {
    navd_block block;
    uint32_t number;
} door;

static navd_level level, second;
static navd_view view, second_view;
static pthread_mutex_t lock = PTHREAD_MUTEX_INITIALIZER;
static atomic_bool done;
static atomic_long answers;
static uint64_t seed = 11;
static uint32_t height;
static door doors[DOORS], second_doors[DOORS];
static walker walkers[AGENTS];
static navd_agent agents[AGENTS], again[AGENTS];
static bool is_entered[AGENTS];
static logged *records;
static const navd_crowd rules = {3072, 20, 8};
static struct {
    long reached, plans, none, stranded, entered, slim, waits, steps, publishes;
} told;

static uint32_t pick(uint32_t below) {
    return pick_by(&seed, below);
}

static void want(bool holds, const char *what) {
    if (holds) return;
    fprintf(stderr, "%s\n", what);
    exit(1);
}

#include "faces.h"

static bool draw(navd_view *of, uint64_t *by, navd_place *place) {
    *by = *by * 6364136223846793005u + 1442695040888963407u;
    return navd_view_random_place(of, UINT64_MAX, *by, place) == NAVD_OK;
}

/* ---- threads that ask */

static void *ask_on(void *number) {
    uint64_t own = (uint64_t)(uintptr_t)number + 31;
    navd_view asked = {0};
    uint32_t shows;
    static _Thread_local navd_link links[MOST_LINKS];
    static _Thread_local navd_place corners[MOST_LINKS];
    while (!done) {
        pthread_mutex_lock(&lock);
        want(navd_look(&asked, &level, &shows) == NAVD_OK, "a look of a thread");
        pthread_mutex_unlock(&lock);
        for (int i = 0; i < 8; i++) {
            navd_place_way way = {.areas = UINT64_MAX, .most_cost = UINT64_MAX, .most_polygons = SIZE_MAX};
            if (!draw(&asked, &own, &way.from) || !draw(&asked, &own, &way.to)) continue;
            uint32_t status = navd_view_find_way(&asked, &way, NULL, 0, links, MOST_LINKS, corners, MOST_LINKS);
            want(status == NAVD_OK || status == NAVD_NO_PATH, "a way of a thread");
            atomic_fetch_add(&answers, 1);
        }
        struct timespec rest = {0, 2000000};
        nanosleep(&rest, NULL);
    }
    pthread_mutex_lock(&lock);
    navd_view_close(&asked);
    pthread_mutex_unlock(&lock);
    return NULL;
}

/* ---- doors */

static void turn(navd_level *of, door *it) {
    uint32_t entry, published;
    if (it->number) want(navd_remove(of, it->number, &entry) == NAVD_OK, "a door that opens");
    else want(navd_add_block(of, &it->block, 0, &entry) == NAVD_OK, "a door that closes");
    it->number = it->number ? 0 : entry;
    want(navd_settle(of, &published) == NAVD_OK, "a settle");
}

/* Anywhere on the level: five columns by two. */
static void hang_anywhere(uint32_t width, uint32_t depth) {
    for (door *it = doors; it < doors + DOORS;) {
        navd_place place;
        if (!draw(&view, &seed, &place)) continue;
        uint32_t x = (uint32_t)place.at.x / 16, z = (uint32_t)place.at.z / 16, across = pick(2) ? 4 : 1, along = across == 4 ? 1 : 4;
        uint32_t low = place.y > 2 ? place.y - 2 : 0;
        if (x + across >= width || z + along >= depth) continue;
        (it++)->block = (navd_block){x, x + across, low, place.y + height, z, z + along};
    }
}

/* In gaps that differ. */
static void hang_in_gaps(void) {
    for (uint32_t i = 0; i < DOORS; i++) {
        doors[i].block = drawn_gap(&seed);
        for (uint32_t j = 0; j < i; j++)
            if (!memcmp(&doors[i].block, &doors[j].block, sizeof(navd_block))) { i--; break; }
    }
}

/* ---- what is held */

static bool has_floors(const navd_agent *agent) {
    const navd_face *face = &faces[agent->polygon.tile][agent->polygon.index];
    return agent->low == face->low && agent->high == face->high;
}

static bool are_storeys_apart(const navd_agent *a, const navd_agent *b) {
    return a->high + height <= b->low || b->high + height <= a->low;
}

static int64_t square(int64_t x, int64_t z) {
    return x * x + z * z;
}

static bool do_overlap(const navd_agent *a, const navd_agent *b) {
    int64_t radii = (int64_t)a->radius + b->radius;
    return !are_storeys_apart(a, b) && square(b->at.x - a->at.x, b->at.z - a->at.z) < radii * radii;
}

/* Whether two come nearer than both radii on their way. The square of their distance is least at -b / v of it, and there c - b * b / v more. */
static bool do_meet(const navd_agent *a, const navd_agent *a_after, const navd_agent *b, const navd_agent *b_after) {
    int64_t radii = (int64_t)a->radius + b->radius, x = b->at.x - a->at.x, z = b->at.z - a->at.z;
    int64_t vx = b_after->at.x - a_after->at.x - x, vz = b_after->at.z - a_after->at.z - z;
    int64_t c = square(x, z) - radii * radii, dot = x * vx + z * vz, v = square(vx, vz);
    if (dot >= 0) return c < 0;
    return -dot >= v ? c + 2 * dot + v < 0 : dot * dot > c * v;
}

static int by_x(const void *one, const void *other) {
    const navd_agent *a = *(const navd_agent *const *)one, *b = *(const navd_agent *const *)other;
    return a->at.x < b->at.x ? -1 : a->at.x > b->at.x;
}

/* A step from `was` to `agents`, of which none was placed anew where no door was turned. */
static void look_at_step(const navd_agent *was, bool is_turned) {
    const navd_agent *sorted[AGENTS];
    for (size_t i = 0; i < AGENTS; i++) {
        const navd_agent *a = &agents[i];
        sorted[i] = a;
        want(square(a->at.x - was[i].at.x, a->at.z - was[i].at.z) <= (int64_t)a->speed * a->speed, "an agent that is too fast");
        want(a->stranded || (has_floors(a) && is_held(a)), "an agent off the mesh");
        want(is_turned || was[i].stranded == a->stranded, "an agent stranded by nothing");
    }
    qsort(sorted, AGENTS, sizeof *sorted, by_x);
    for (size_t i = 0; i < AGENTS; i++)
        for (size_t j = i + 1; j < AGENTS && sorted[j]->at.x - sorted[i]->at.x < 2 * (RADIUS + SPEED); j++) {
            const navd_agent *a = sorted[i], *b = sorted[j], *a_was = was + (a - agents), *b_was = was + (b - agents);
            if (do_overlap(a_was, b_was) || (is_turned && are_storeys_apart(a_was, b_was))) continue;
            want(!do_overlap(a, b), "two agents that overlap");
            want(are_storeys_apart(a, b) || are_storeys_apart(a_was, b_was) || !do_meet(a_was, a, b_was, b), "two agents that met");
        }
}

/* After their sizes changed. */
static void look_at_sizes(const navd_agent *was) {
    for (size_t i = 0; i < AGENTS; i++) {
        told.slim += agents[i].radius < agents[i].full;
        for (size_t j = 0; j < i; j++)
            want(do_overlap(&was[i], &was[j]) || !do_overlap(&agents[i], &agents[j]), "two agents of which one grew");
    }
}

/* ---- agents */

static void plan(walker *w, const navd_agent *a) {
    static navd_place corners[MOST_LINKS];
    navd_near_way way = {.from = {UINT64_MAX, {(a->at.x + 8) >> 4, (a->at.z + 8) >> 4}, a->low, 64, 64, 64 + a->high - a->low, 0},
                         .to = {UINT64_MAX, w->goal.at, w->goal.y, 64, 64, 64, 0}, .areas = UINT64_MAX, .most_cost = UINT64_MAX, .most_polygons = SIZE_MAX};
    uint32_t status = navd_view_find_way_near(&view, &way, NULL, 0, w->links, MOST_LINKS, corners, MOST_LINKS);
    told.plans++;
    w->count = w->link = 0;
    if (status != NAVD_OK || way.found.links > MOST_LINKS || way.found.corners > MOST_LINKS) {
        want(status == NAVD_OK || status == NAVD_NO_PATH || status == NAVD_NO_GOAL || status == NAVD_NO_START, "a plan");
        told.none++;
        w->rests = 20 + pick(20);
        while (!draw(&view, &seed, &w->goal)) continue;
        return;
    }
    w->count = way.found.links;
    w->turn = w->goal.at;
    for (size_t i = way.found.corners - 1; i > 0; i--)
        if (corners[i].at.x != way.from.at.x || corners[i].at.z != way.from.at.z) w->turn = corners[i].at;
}

static void head_for(navd_agent *a, navd_point to) {
    int64_t x = 16 * (int64_t)to.x - a->at.x, z = 16 * (int64_t)to.z - a->at.z, far = (int64_t)ceil(sqrt((double)square(x, z)));
    if (far > a->speed) x = x * a->speed / far, z = z * a->speed / far;
    a->wish = (navd_fine){(int32_t)x, (int32_t)z};
    a->left = (uint64_t)far;
}

static void lead(walker *w, navd_agent *a) {
    a->wish = (navd_fine){0, 0};
    a->idle = a->stranded || w->rests > 0;
    if (a->stranded) return;
    if (w->rests) { w->rests--; return; }
    if (square(16 * (int64_t)w->goal.at.x - a->at.x, 16 * (int64_t)w->goal.at.z - a->at.z) <= (int64_t)a->speed * a->speed) {
        told.reached++;
        while (!draw(&view, &seed, &w->goal)) continue;
        plan(w, a);
    }
    uint32_t status = navd_view_lead(&view, a, &w->goal.at, w->links, w->count, &w->link);
    want(status == NAVD_OK || status == NAVD_CUT, "a lead");
    if (status == NAVD_OK) return;
    plan(w, a);
    if (w->rests || navd_view_lead(&view, a, &w->goal.at, w->links, w->count, &w->link) == NAVD_OK) return;
    head_for(a, w->turn);
}

/* The agents without one. */
static size_t others_of(size_t i, navd_agent *others) {
    memcpy(others, agents, i * sizeof *others);
    memcpy(others + i, agents + i + 1, (AGENTS - 1 - i) * sizeof *others);
    return AGENTS - 1;
}

static bool enter(navd_agent *a, navd_place place, const navd_agent *others, size_t count) {
    navd_agent at = *a;
    at.at = (navd_fine){16 * place.at.x, 16 * place.at.z};
    if (navd_view_crowd_enter(&view, others, count, &at, place.y) != NAVD_OK) return false;
    *a = at;
    return true;
}

static void enter_all(void) {
    for (size_t i = 0; i < AGENTS;) {
        navd_agent a = {.areas = UINT64_MAX, .radius = RADIUS, .full = RADIUS, .speed = SPEED};
        navd_place place;
        if (!draw(&view, &seed, &place) || !enter(&a, place, agents, i)) continue;
        agents[i] = a;
        while (!draw(&view, &seed, &walkers[i].goal)) continue;
        plan(&walkers[i], &agents[i]);
        i++;
    }
}

/* Enters a stranded agent at a place near it, where there is room; it asks around, one step a place. */
static void enter_again(size_t i) {
    static navd_agent others[AGENTS];
    navd_agent *a = &agents[i];
    navd_place place;
    int32_t x = (a->at.x >> 4) + (int32_t)pick(193) - 96, z = (a->at.z >> 4) + (int32_t)pick(193) - 96;
    navd_near near = {UINT64_MAX, {x > 0 ? x : 0, z > 0 ? z : 0}, a->low, 256, 64, 64 + a->high - a->low, 0};
    told.stranded++;
    if (navd_view_nearest(&view, &near, &place) != NAVD_OK || !enter(a, place, others, others_of(i, others))) return;
    told.entered++;
    is_entered[i] = true;
    walkers[i].count = walkers[i].link = 0;
}

/* ---- steps */

static void tick(long number, logged *record) {
    navd_agent was[AGENTS];
    uint32_t published;
    record->door = number % PERIOD ? 0 : 1 + pick(DOORS);
    if (record->door) {
        pthread_mutex_lock(&lock);
        turn(&level, &doors[record->door - 1]);
        want(navd_look(&view, &level, &published) == NAVD_OK, "a look");
        pthread_mutex_unlock(&lock);
        told.publishes++;
        read_faces(&view);
    }
    for (size_t i = 0; i < AGENTS; i++) lead(&walkers[i], &agents[i]);
    memcpy(record->given, agents, sizeof agents);
    memcpy(record->is_entered, is_entered, sizeof is_entered);
    memset(is_entered, 0, sizeof is_entered);
    memcpy(was, agents, sizeof was);
    want(navd_view_crowd_step(&view, &rules, agents, AGENTS) == NAVD_OK, "a step");
    look_at_step(was, record->door != 0);
    memcpy(was, agents, sizeof was);
    want(navd_view_crowd_slim(&view, &rules, agents, AGENTS) == NAVD_OK, "sizes");
    look_at_sizes(was);
    memcpy(record->after, agents, sizeof agents);
    for (size_t i = 0; i < AGENTS; i++) {
        told.waits += agents[i].waited > 20;
        if (agents[i].stranded) enter_again(i);
    }
    told.steps++;
}

/* The agents of the second level go on from where they were; of the log they have what a host writes. */
static void play_again(int count) {
    uint32_t published;
    for (const logged *record = records; record < records + count; record++) {
        if (record->door) turn(&second, &second_doors[record->door - 1]);
        want(navd_look(&second_view, &second, &published) == NAVD_OK, "a look again");
        for (size_t i = 0; i < AGENTS; i++) {
            const navd_agent *given = &record->given[i];
            if (record->is_entered[i]) again[i] = *given;
            again[i].wish = given->wish, again[i].left = given->left, again[i].idle = given->idle;
        }
        want(navd_view_crowd_step(&second_view, &rules, again, AGENTS) == NAVD_OK, "a step again");
        want(navd_view_crowd_slim(&second_view, &rules, again, AGENTS) == NAVD_OK, "sizes again");
        want(!memcmp(again, record->after, sizeof again), "a step that is another when it is played again");
    }
}

static void open_both(const char *path) {
    size_t length;
    uint32_t width, depth, published;
    navd_fault fault;
    char *text = path ? read_text(path, &length) : rooms_text(DOORS, &length);
    want(text && sscanf(strstr(text, "\nsize "), "\nsize %" SCNu32 " %" SCNu32, &width, &depth) == 2, "no size");
    want(sscanf(strstr(text, "\nagent "), "\nagent %" SCNu32, &height) == 1, "no agent");
    want(navd_open(&level, (const uint8_t *)text, length, &fault) == NAVD_OK, "an open");
    want(navd_open(&second, (const uint8_t *)text, length, &fault) == NAVD_OK, "an open");
    free(text);
    want(navd_look(&view, &level, &published) == NAVD_OK, "a look");
    if (path) hang_anywhere(width, depth);
    else
        hang_in_gaps();
    memcpy(second_doors, doors, sizeof doors);
}

int main(int count, char **words) {
    long ticks = count == 2 || count == 3 ? atol(words[1]) : 0;
    if (ticks <= 0) return 2;
    open_both(count == 3 ? words[2] : NULL);
    records = malloc(LOGGED * sizeof *records);
    want(records != NULL, "memory");
    read_faces(&view);
    enter_all();
    memcpy(again, agents, sizeof agents);
    pthread_t threads[ASKING];
    for (size_t i = 0; i < ASKING; i++) want(!pthread_create(&threads[i], NULL, ask_on, (void *)(uintptr_t)i), "a thread");
    for (long number = 0; number < ticks;) {
        int logged_now = 0;
        while (logged_now < LOGGED && number < ticks) tick(number++, &records[logged_now++]);
        play_again(logged_now);
        if (number % 10000 == 0) fprintf(stderr, "%ld steps\n", number);
    }
    done = true;
    for (size_t i = 0; i < ASKING; i++) want(!pthread_join(threads[i], NULL), "a thread's end");
    printf("%ld steps of %d agents, %ld publishes of %d doors, %ld answers of %d threads: nobody overlapped, left the mesh or was too fast, and each step was "
           "the same again; %ld goals reached, %ld plans, %ld of these without a way; of all moves %.4f slim, %.4f waiting, %.4f stranded, %ld entered again\n",
           told.steps, AGENTS, told.publishes, DOORS, (long)answers, ASKING, told.reached, told.plans, told.none,
           (double)told.slim / AGENTS / (double)told.steps, (double)told.waits / AGENTS / (double)told.steps,
           (double)told.stranded / AGENTS / (double)told.steps, told.entered);
    free(records);
    navd_view_close(&view);
    navd_view_close(&second_view);
    navd_close(&level);
    navd_close(&second);
    return 0;
}
