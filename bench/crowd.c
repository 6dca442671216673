/* A scene of bench/crowd_scenes.py over the library: each agent plans one way, and then in each step asks where it leads, until it has arrived and is taken
 * out, for at most SECONDS of 20 steps.
 *
 *     crowd FIELD AGENTS SECONDS [LOG]
 *
 * Written is a line of numbers, as crowd.h has them. An agent is off the mesh where its polygon does not hold its middle, or it is stranded. LOG gets a line
 * a step: for each agent its middle in 1/256 of a cell, or `-`. */
#define PROGRAM "crowd"
#define _POSIX_C_SOURCE 200809L
#include "crowd.h"
#include "opened.h"
#include "../hosts/c/faces.h"

enum { MOST_LINKS = 1024, FLOOR = 10 };

typedef struct {
    int agent; /* its place in the scene */
    navd_point goal, turn;
    navd_link links[MOST_LINKS];
    size_t count, link;
} walker;

static navd_view view;
static scene it;
static outcome told;
static walker walkers[MOST_AGENTS];
static navd_agent agents[MOST_AGENTS];
static int count;

static navd_point sixteenths(spot at) {
    return (navd_point){(int32_t)lround(at.x * 16), (int32_t)lround(at.z * 16)};
}

static spot cells(navd_fine at) {
    return (spot){at.x / 256.0, at.z / 256.0};
}

/* A way anew, between the places nearest to the agent and to its goal. */
static void plan(walker *w, const navd_agent *agent) {
    static navd_place corners[MOST_LINKS];
    navd_point at = {(agent->at.x + 8) >> 4, (agent->at.z + 8) >> 4};
    navd_near_way way = {.from = {UINT64_MAX, at, FLOOR, 64, 20, 20, 0}, .to = {UINT64_MAX, w->goal, FLOOR, 64, 20, 20, 0}, .areas = UINT64_MAX,
                         .most_cost = UINT64_MAX, .most_polygons = SIZE_MAX};
    want(navd_view_find_way_near(&view, &way, NULL, 0, w->links, MOST_LINKS, corners, MOST_LINKS) == NAVD_OK, "a way");
    want(way.found.links <= MOST_LINKS && way.found.corners <= MOST_LINKS, "room for a way");
    w->count = way.found.links, w->link = 0;
    w->turn = w->goal;
    for (size_t i = way.found.corners - 1; i > 0; i--)
        if (corners[i].at.x != way.from.at.x || corners[i].at.z != way.from.at.z) w->turn = corners[i].at;
}

/* Straight toward a point, as far as the speed lets. */
static void head_for(navd_agent *agent, navd_point to) {
    double x = 16.0 * to.x - agent->at.x, z = 16.0 * to.z - agent->at.z, far = sqrt(x * x + z * z), part = far > agent->speed ? agent->speed / far : 1;
    agent->wish = (navd_fine){(int32_t)(x * part), (int32_t)(z * part)};
    agent->left = (uint64_t)far;
}

static void lead(walker *w, navd_agent *agent) {
    uint32_t status = navd_view_lead(&view, agent, &w->goal, w->links, w->count, &w->link);
    if (status == NAVD_OK) return;
    want(status == NAVD_CUT, "a lead");
    plan(w, agent);
    if (navd_view_lead(&view, agent, &w->goal, w->links, w->count, &w->link) != NAVD_OK) head_for(agent, w->turn);
}

static void enter(void) {
    for (int i = 0; i < it.count; i++) {
        navd_agent agent = {.at = {(int32_t)lround(it.start[i].x * 256), (int32_t)lround(it.start[i].z * 256)}, .areas = UINT64_MAX,
                            .radius = (uint32_t)(256 * RADIUS), .full = (uint32_t)(256 * RADIUS), .speed = (uint32_t)(256 * SPEED / STEPS_A_SECOND)};
        want(navd_view_crowd_enter(&view, agents, (size_t)count, &agent, FLOOR) == NAVD_OK, "an agent");
        walkers[count].agent = i, walkers[count].goal = sixteenths(it.goal[i]);
        agents[count++] = agent;
        plan(&walkers[count - 1], &agent);
    }
}

static void write_step(FILE *log) {
    static const navd_agent *of[MOST_AGENTS];
    memset(of, 0, sizeof of);
    for (int i = 0; i < count; i++) of[walkers[i].agent] = &agents[i];
    for (int i = 0; i < it.count; i++)
        if (of[i]) fprintf(log, "%d,%d ", of[i]->at.x, of[i]->at.z);
        else fprintf(log, "- ");
    fprintf(log, "\n");
}

/* Takes those out that have arrived. */
static void leave(double time) {
    int left = 0;
    for (int i = 0; i < count; i++) {
        if (has_arrived(&it, walkers[i].agent, cells(agents[i].at))) { told.arrived++, told.last = time; continue; }
        if (left < i) agents[left] = agents[i], walkers[left] = walkers[i];
        left++;
    }
    count = left;
}

static void step(double time) {
    static spot before[MOST_AGENTS], after[MOST_AGENTS];
    static int there[MOST_AGENTS];
    const navd_crowd rules = {3072, STEPS_A_SECOND, 8};
    for (int i = 0; i < count; i++) before[i] = cells(agents[i].at), there[i] = walkers[i].agent;
    COUNT_ON;
    for (int i = 0; i < count; i++) lead(&walkers[i], &agents[i]);
    uint32_t status = navd_view_crowd_step(&view, &rules, agents, (size_t)count);
#ifdef SLIM
    navd_view_crowd_slim(&view, &rules, agents, (size_t)count);
#endif
    COUNT_OFF;
    want(status == NAVD_OK, "a step");
    for (int i = 0; i < count; i++) after[i] = cells(agents[i].at), told.off += agents[i].stranded || !is_held(&agents[i]);
    add_step(&told, &it, there, count, before, after, time);
}

int main(int words_count, char **words) {
    want(words_count == 4 || words_count == 5, "usage: crowd FIELD AGENTS SECONDS [LOG]");
    FILE *log = words_count == 5 ? fopen(words[4], "w") : NULL;
    read_scene(words[2], &it);
    open_level(words[1]);
    uint32_t shows;
    want(navd_look(&view, &level, &shows) == NAVD_OK, "a look");
    read_faces(&view);
    enter();
    for (int k = 1; k <= atoi(words[3]) * STEPS_A_SECOND && count; k++) {
        if (log) write_step(log);
        step((double)k / STEPS_A_SECOND);
        leave((double)k / STEPS_A_SECOND);
    }
    COUNT_TOLD("steps");
    tell(&told, &it);
    navd_view_close(&view);
    navd_close(&level);
    return 0;
}
