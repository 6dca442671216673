/* Random calls of the library, valid ones and others, as a host in C:
 *
 *     calls TEXT CALLS SEED
 *
 * Two levels of one field text are held. The first gets CALLS random calls: numbers out of their limits, too little room, calls of an empty
 * handle, requests, builds, jobs and questions, also of a view with costs of its own. A third level has another limit, so that jobs of the first are
 * not its own. The second gets the requests alone that made entries, and is settled at the end. Each call has to
 * end with a status that the header allows there, and the two levels must agree at the end on their counts, floors and paths. */
#define _POSIX_C_SOURCE 200809L

#include <inttypes.h>
#include <stdbool.h>
#include <stdio.h>
#include <stdlib.h>
#include <string.h>

#include "../../include/navd.h"
#include "common.h"

static uint64_t seed;

static uint32_t pick(uint32_t below) {
    return pick_by(&seed, below);
}

/* A number up to `most`, and now and then one above it. */
static uint32_t number(uint32_t most) {
    uint32_t kind = pick(40);
    return kind == 0 ? most + 1 + pick(9) : kind == 1 ? UINT32_MAX - pick(3) : pick(most + 1);
}

static int32_t coordinate(void) {
    uint32_t kind = pick(40);
    return kind == 0 ? INT32_MIN + (int32_t)pick(3) : kind == 1 ? 65536 + (int32_t)pick(3) : (int32_t)pick(260) - 20;
}

static uint32_t height(void) {
    return pick(4) ? 10 : number(8191);
}

static bool is_one_of(uint32_t status, const char *name, const uint32_t *allowed, size_t count) {
    for (size_t i = 0; i < count; i++)
        if (allowed[i] == status) return true;
    fprintf(stderr, "%s ended with %" PRIu32 "\n", name, status);
    exit(1);
}

#define ENDS(status, name, ...) \
    is_one_of(status, name, (const uint32_t[]){__VA_ARGS__}, sizeof((const uint32_t[]){__VA_ARGS__}) / sizeof(uint32_t))

static navd_level first, second, third, empty;
static navd_view view, copy, empty_view;
static navd_job jobs[3];
static bool holds[3], is_built[3];
static uint32_t entries, made_by[NAVD_OVERLAPS + 1];
static uint32_t alive[1024], alive_count;

static bool is_block(const navd_block *b) {
    return b->x0 <= b->x1 && b->x1 <= 1023 && b->y0 <= b->y1 && b->y1 <= 8191 && b->z0 <= b->z1 && b->z1 <= 1023;
}

static bool is_cylinder(const navd_cylinder *c) {
    return c->cx <= 2048 && c->cz <= 2048 && c->r <= 1023 && c->y0 <= c->y1 && c->y1 <= 8191;
}

static bool is_near(navd_point p) {
    return -16384 <= p.x && p.x <= 81920 && -16384 <= p.z && p.z <= 81920;
}

static int64_t turn_at(navd_point a, navd_point b, navd_point c) {
    return ((int64_t)b.x - a.x) * ((int64_t)c.z - a.z) - ((int64_t)b.z - a.z) * ((int64_t)c.x - a.x);
}

static bool is_prism(const navd_prism *p) {
    if (p->corners < 3 || p->corners > 6 || p->y0 > p->y1 || p->y1 > 8191) return false;
    for (uint32_t i = 0; i < p->corners; i++)
        if (!is_near(p->point[i])) return false;
    for (uint32_t i = 0; i < p->corners; i++)
        for (uint32_t next = (i + 1) % p->corners, j = 0; j < p->corners; j++)
            if (j != i && j != next && turn_at(p->point[i], p->point[next], p->point[j]) <= 0) return false;
    return true;
}

static bool is_disc(const navd_disc *d) {
    return is_near((navd_point){d->x, d->z}) && 1 <= d->r && d->r <= 16384 && d->y0 <= d->y1 && d->y1 <= 8191;
}

/* A base of corners around a place, of which one is elsewhere now and then. */
static navd_prism prism(void) {
    static const navd_point around[6] = {{4, 0}, {2, 3}, {-2, 3}, {-4, 0}, {-2, -3}, {2, -3}};
    navd_prism it = {pick(20) ? 3 + pick(4) : number(6), {{0, 0}}, pick(9) ? 0 : number(99), number(8191)};
    int32_t x = (int32_t)pick(200), z = (int32_t)pick(200), wide = 1 + (int32_t)pick(6), deep = 1 + (int32_t)pick(6);
    for (int i = 0; i < 6; i++) it.point[i] = (navd_point){x + wide * around[i].x, z + deep * around[i].z};
    if (!pick(8)) it.point[pick(6)] = (navd_point){coordinate(), coordinate()};
    return it;
}

static bool is_way(const navd_way *w) {
    return -65536 <= w->from.x && w->from.x <= 65536 && -65536 <= w->from.z && w->from.z <= 65536
        && -65536 <= w->to.x && w->to.x <= 65536 && -65536 <= w->to.z && w->to.z <= 65536;
}

/* A request of the first level, and of the second where it made an entry: both must end alike. */
#define REQUEST(name, in_limits, call_first, call_second) \
    do { \
        uint32_t entry = 99, other = 99, status = call_first; \
        if (in_limits) ENDS(status, name, NAVD_OK, NAVD_TOO_MANY, NAVD_DEAD); else ENDS(status, name, NAVD_OUT_OF_RANGE); \
        made_by[status]++; \
        if (status == NAVD_OUT_OF_RANGE ? entry != 0 : entry != ++entries) ENDS(entry, "the entry of a request", entries); \
        if (entry) ENDS(call_second, "the second level", status); \
        if (kind < 4 && status == NAVD_OK) alive[alive_count++] = entry; \
    } while (0)

static void request(void) {
    uint32_t x = number(12), z = number(12), area = pick(4) ? 0 : number(63);
    navd_block block = {x, x + pick(4) - (pick(30) == 0), 0, number(100), z, z + pick(4)};
    navd_cylinder round = {number(24), number(24), number(3), 0, number(8191)};
    uint32_t place = alive_count ? pick(alive_count) : 0;
    uint32_t gone = alive_count && pick(4) ? alive[place] : number(entries + 2);
    navd_prism base = prism();
    navd_disc disc = {coordinate(), coordinate(), pick(30) ? 1 + pick(40) : number(16384), 0, number(8191)};
    uint32_t kind = pick(alive_count ? 8 : 4);
    switch (kind) {
    case 0:
        REQUEST("navd_add_block", is_block(&block) && area <= 63, navd_add_block(&first, &block, area, &entry),
                navd_add_block(&second, &block, area, &other));
        break;
    case 1:
        REQUEST("navd_add_cylinder", is_cylinder(&round) && area <= 63, navd_add_cylinder(&first, &round, area, &entry),
                navd_add_cylinder(&second, &round, area, &other));
        break;
    case 2:
        REQUEST("navd_add_prism", is_prism(&base) && area <= 63, navd_add_prism(&first, &base, area, &entry),
                navd_add_prism(&second, &base, area, &other));
        break;
    case 3:
        REQUEST("navd_add_disc", is_disc(&disc) && area <= 63, navd_add_disc(&first, &disc, area, &entry),
                navd_add_disc(&second, &disc, area, &other));
        break;
    default:
        REQUEST("navd_remove", true, navd_remove(&first, gone, &entry), navd_remove(&second, gone, &other));
    }
    for (uint32_t i = 0; kind > 3 && i < alive_count; i++)
        if (alive[i] == gone) alive[i] = alive[--alive_count];
}

static void build(void) {
    uint32_t told = 0;
    switch (pick(7)) {
    case 0: ENDS(navd_aim(&first, &told), "navd_aim", NAVD_OK); break;
    case 1: ENDS(navd_publish(&first, &told), "navd_publish", NAVD_OK, NAVD_SAME, NAVD_NOT_YET); break;
    case 2: ENDS(navd_settle(&first, &told), "navd_settle", NAVD_OK); break;
    case 3: ENDS(navd_prepare(&first), "navd_prepare", NAVD_OK); break;
    default: ENDS(navd_step(&first, &told), "navd_step", NAVD_OK, NAVD_SAME);
    }
}

/* A job is claimed, built, handed in, put back or let go, also where that cannot be. */
static void job(void) {
    uint32_t place = pick(3), tile = 0, status;
    navd_job *it = &jobs[place];
    switch (pick(8)) {
    case 0: case 1:
        status = navd_claim(&first, it, &tile);
        if (holds[place]) ENDS(status, "navd_claim into a full handle", NAVD_BUSY); else ENDS(status, "navd_claim", NAVD_OK, NAVD_SAME);
        if (status == NAVD_OK) holds[place] = true, is_built[place] = false;
        break;
    case 2: case 3:
        status = navd_build(it);
        if (holds[place]) ENDS(status, "navd_build", is_built[place] ? NAVD_SAME : NAVD_OK); else ENDS(status, "navd_build of nothing", NAVD_EMPTY);
        is_built[place] = holds[place];
        break;
    case 4: case 5:
        status = navd_submit(&third, it);
        if (holds[place]) ENDS(status, "navd_submit to another level", NAVD_FOREIGN); else ENDS(status, "navd_submit of nothing", NAVD_EMPTY);
        made_by[status]++;
        status = navd_submit(&first, it);
        if (!holds[place]) ENDS(status, "navd_submit of nothing", NAVD_EMPTY);
        else if (is_built[place]) ENDS(status, "navd_submit", NAVD_OK, NAVD_STALE);
        else ENDS(status, "navd_submit of what is not built", NAVD_NOT_YET);
        if (is_built[place]) holds[place] = is_built[place] = false;
        break;
    case 6:
        status = navd_put_back(&third, it);
        if (holds[place]) ENDS(status, "navd_put_back to another level", NAVD_FOREIGN); else ENDS(status, "navd_put_back of nothing", NAVD_EMPTY);
        status = navd_put_back(&first, it);
        if (holds[place]) ENDS(status, "navd_put_back", NAVD_OK); else ENDS(status, "navd_put_back of nothing", NAVD_EMPTY);
        holds[place] = is_built[place] = false;
        break;
    default:
        status = navd_put_back_all(&first);
        ENDS(status, "navd_put_back_all", NAVD_OK);
        if (pick(2)) navd_job_close(it), holds[place] = is_built[place] = false;
    }
    made_by[status]++;
}

/* What is to be drawn, with too little room now and then: as much of it as there is room for is what there is with enough. */
static void look(void) {
    static navd_face faces[4096], few_faces[8];
    static navd_link links[16384], few_links[8];
    static navd_obstacle obstacles[1024], few_obstacles[8];
    static uint32_t changed[65536], few_changed[8];
    navd_counts counts;
    size_t all = 0, count = 0, room = pick(8);
    ENDS(navd_count(&first, &counts), "navd_count", NAVD_OK);
    uint32_t tile = number(counts.tiles - 1);
    uint32_t allowed = tile < counts.tiles ? NAVD_OK : NAVD_OUT_OF_RANGE;
    memset(few_faces, 7, sizeof few_faces);
    memset(few_links, 7, sizeof few_links);
    ENDS(navd_polygons(&first, tile, faces, 4096, &all), "navd_polygons", allowed);
    ENDS(navd_polygons(&first, tile, few_faces, room, &count), "navd_polygons", allowed);
    size_t laid = count < room ? count : room;
    if (all != count || memcmp(faces, few_faces, laid * sizeof *faces)) ENDS(1, "the polygons of a small room", 0);
    for (size_t i = 0; i < all; i++)
        if (faces[i].corners < 3 || faces[i].corners > 6 || faces[i].low > faces[i].high || !faces[i].area) ENDS(1, "a polygon", 0);
    for (int over = 0; over < 2; over++) {
        uint32_t (*call)(navd_level *, uint32_t, navd_link *, size_t, size_t *) = over ? navd_border_links : navd_inner_links;
        size_t most = 0;
        count = 0;
        ENDS(call(&first, tile, links, 16384, &most), "links of a tile", allowed);
        ENDS(call(&first, tile, few_links, room, &count), "links of a tile", allowed);
        laid = count < room ? count : room;
        if (most != count || memcmp(links, few_links, laid * sizeof *links)) ENDS(1, "the links of a small room", 0);
        for (size_t i = 0; i < most; i++)
            if (links[i].from.tile != tile || links[i].from.index >= all || (links[i].to.tile == tile) == over) ENDS(1, "a link", 0);
    }
    ENDS(navd_obstacles(&first, obstacles, 1024, &all), "navd_obstacles", NAVD_OK);
    ENDS(navd_obstacles(&first, few_obstacles, room, &count), "navd_obstacles", NAVD_OK);
    laid = count < room ? count : room;
    if (all != alive_count || count != all || memcmp(obstacles, few_obstacles, laid * sizeof *obstacles)) ENDS(1, "the obstacles of a small room", 0);
    uint32_t since = number(counts.published);
    allowed = since <= counts.published ? NAVD_OK : NAVD_OUT_OF_RANGE;
    all = count = 0;
    ENDS(navd_changed_tiles(&first, since, changed, 65536, &all), "navd_changed_tiles", allowed);
    ENDS(navd_changed_tiles(&first, since, few_changed, room, &count), "navd_changed_tiles", allowed);
    laid = count < room ? count : room;
    if (all != count || all > counts.tiles || memcmp(changed, few_changed, laid * sizeof *changed)) ENDS(1, "the tiles of a small room", 0);
    for (size_t i = 0; i < all; i++)
        if (changed[i] >= counts.tiles || (i && changed[i] <= changed[i - 1])) ENDS(1, "a tile that changed", 0);
    if (since == counts.published && all) ENDS(1, "a tile that changed since now", 0);
}

/* A view, which has costs of its own now and then. */
static void of_view(void) {
    uint32_t costs[64], shows = 0, status;
    size_t count = pick(6) ? 64 : pick(64);
    navd_shown shown;
    navd_way way = {{coordinate(), coordinate()}, height(), {coordinate(), coordinate()}, height()};
    navd_walker walker = {0};
    navd_link links[2];
    bool are_costs = count == 64;
    for (size_t i = 0; i < 64; i++) {
        costs[i] = pick(600) ? 1 + pick(1000) : pick(2) ? 0 : 1001;
        are_costs &= i >= count || (costs[i] && costs[i] <= 1000);
    }
    ENDS(navd_look(&view, &first, &shows), "navd_look", NAVD_OK);
    status = navd_view_set_costs(&view, costs, count);
    ENDS(status, "navd_view_set_costs", are_costs ? NAVD_OK : NAVD_OUT_OF_RANGE);
    made_by[status]++;
    ENDS(navd_view_count(&view, &shown), "navd_view_count", NAVD_OK);
    if (shown.published != shows) ENDS(shown.published, "the length of a view", shows);
    status = navd_view_send(&view, &way, links, pick(3), &walker);
    if (is_way(&way)) ENDS(status, "navd_view_send", NAVD_OK, NAVD_NO_START, NAVD_NO_GOAL, NAVD_NO_PATH);
    else ENDS(status, "navd_view_send", NAVD_OUT_OF_RANGE);
    for (int i = 0; i < 3 && status == NAVD_OK; i++) {
        status = navd_view_march(&view, &walker, number(64), links, pick(3));
        ENDS(status, "navd_view_march", NAVD_OK, NAVD_NO_PATH);
    }
    ENDS(navd_view_copy(&copy, &view), "navd_view_copy", NAVD_OK);
    ENDS(navd_view_count(&copy, &shown), "navd_view_count", NAVD_OK);
    if (shown.published != shows) ENDS(shown.published, "the length of a copy", shows);
    if (!pick(8)) navd_view_close(&view);
    if (!pick(8)) navd_view_close(&copy);
}

/* The way that was told last, in what may be another mesh by now. */
static struct {
    navd_link links[4096];
    navd_way way;
    navd_polygon first;
    size_t count;
} last_way;

/* Whether the way that was told last still leads on, and that it is mended. */
static void of_kept(uint64_t areas, const uint32_t *costs, size_t count, bool are_costs) {
    static navd_link links[4096], mended[4096];
    const navd_link *kept = last_way.links;
    size_t kept_count = last_way.count, room = pick(8);
    navd_turn turns[8];
    navd_kept asked = {.way = last_way.way, .first = last_way.first, .areas = areas};
    memcpy(links, kept, kept_count * sizeof *links);
    uint32_t status = navd_view_check_path(&view, &asked, costs, count, links, kept_count, turns, room), checked = status;
    if (are_costs) ENDS(status, "navd_view_check_path", NAVD_OK, NAVD_CUT, NAVD_NO_START); else ENDS(status, "navd_view_check_path", NAVD_OUT_OF_RANGE);
    made_by[status]++;
    bool leads = status == NAVD_OK || status == NAVD_CUT;
    size_t on = leads ? asked.links : 0;
    if (on > kept_count || (status == NAVD_OK && on != kept_count)) ENDS(1, "the links of a kept path", 0);
    for (size_t i = 0; i < kept_count; i++)
        if (memcmp(&links[i].left, &kept[i].left, 2 * sizeof(navd_point))) ENDS(1, "a portal of a kept path", 0);
    if (memcmp(links + on, kept + on, (kept_count - on) * sizeof *links)) ENDS(1, "the links behind those that lead on", 0);

    navd_repair repair = {.way = last_way.way, .first = last_way.first, .join = pick(40) ? pick(2) : pick(UINT32_MAX), .count = kept_count,
                          .keep = pick(3) ? SIZE_MAX : pick(20), .most_polygons = pick(3) ? SIZE_MAX : pick(30), .areas = areas};
    size_t links_room = pick(3) ? 4096 : kept_count + pick(4);
    if (!pick(20)) links_room = pick(4);
    bool is_asked = are_costs && repair.join < 2 && kept_count <= links_room;
    memcpy(mended, kept, kept_count * sizeof *mended);
    status = navd_view_repair_path(&view, &repair, costs, count, mended, links_room, turns, room);
    if (!is_asked) ENDS(status, "navd_view_repair_path", NAVD_OUT_OF_RANGE);
    else if (checked == NAVD_NO_START) ENDS(status, "navd_view_repair_path of none", NAVD_NO_START);
    else ENDS(status, "navd_view_repair_path", NAVD_OK, NAVD_NO_ROOM, NAVD_LIMIT, NAVD_NO_GOAL, NAVD_NO_PATH);
    made_by[status]++;
    if (status == NAVD_OK ? repair.links > links_room || repair.turns > room || repair.kept + repair.bridge > repair.links || repair.kept > on
                          : memcmp(mended, kept, kept_count * sizeof *mended) != 0) ENDS(1, "the links of a mended path", 0);
    for (size_t i = 0; status == NAVD_OK && i < repair.kept; i++)
        if (memcmp(&mended[i], &links[i], sizeof *mended)) ENDS(1, "the first links of a mended path", 0);
    if (status == NAVD_NO_ROOM && repair.links <= links_room && repair.turns <= room) ENDS(1, "the room of a mended path", 0);
}

/* Ways and floods through a filter. */
static void of_ways(void) {
    uint32_t costs[64], shows, status;
    size_t count = pick(2) ? 0 : pick(6) ? 64 : pick(64), room = pick(8);
    bool are_costs = count == 0 || count == 64;
    for (size_t i = 0; i < 64; i++) {
        costs[i] = pick(600) ? 1 + pick(1000) : pick(2) ? 0 : 1001;
        are_costs &= i >= count || (costs[i] && costs[i] <= 1000);
    }
    uint64_t areas = pick(3) ? UINT64_MAX : ~(UINT64_C(1) << pick(64));
    navd_way way = {{coordinate(), coordinate()}, height(), {coordinate(), coordinate()}, height()};
    navd_turn turns[8];
    navd_reached reached[8];
    memset(reached, 7, sizeof reached);
    ENDS(navd_look(&view, &first, &shows), "navd_look", NAVD_OK);
    of_kept(areas, costs, count, are_costs);
    navd_plan plan = {.way = way, .areas = areas, .most_cost = pick(3) ? UINT64_MAX : pick(3000), .most_polygons = pick(3) ? SIZE_MAX : pick(30),
                      .partial = pick(40) ? pick(2) : pick(UINT32_MAX), .rise = pick(20) ? pick(1025) : pick(UINT32_MAX)};
    bool is_partial = plan.partial == 1 && plan.rise <= 1024 && way.to_y <= 65535;
    status = navd_view_plan(&view, &plan, costs, count, last_way.links, 4096, turns, room);
    if (!is_way(&way) || !are_costs || (plan.partial && !is_partial)) ENDS(status, "navd_view_plan", NAVD_OUT_OF_RANGE);
    else if (is_partial) ENDS(status, "navd_view_plan", NAVD_OK, NAVD_PARTIAL, NAVD_NO_START);
    else ENDS(status, "navd_view_plan", NAVD_OK, NAVD_LIMIT, NAVD_NO_START, NAVD_NO_GOAL, NAVD_NO_PATH);
    made_by[status]++;
    if (status == NAVD_OK || status == NAVD_PARTIAL) {
        last_way.count = plan.links, last_way.first = plan.first, last_way.way = way;
        last_way.way.to = plan.end;
        if (status == NAVD_PARTIAL) last_way.way.to_y = plan.end_y;
        else if (memcmp(&plan.end, &way.to, sizeof plan.end)) ENDS(1, "the end of a way", 0);
        if (plan.links > 4096) ENDS(1, "the links of a way", 0);
        navd_polygon last = plan.links ? last_way.links[plan.links - 1].to : plan.first;
        if (memcmp(&last, &plan.last, sizeof last)) ENDS(1, "the last polygon of a way", 0);
        navd_place end = {.polygon = plan.last, .at = plan.end};
        if (status == NAVD_PARTIAL) ENDS(navd_view_height(&view, &end), "the end of a way to the nearest place", NAVD_OK);
    }
    navd_flood flood = {.at = way.from, .y = way.from_y, .back = pick(40) ? pick(2) : pick(UINT32_MAX), .areas = areas, .most_cost = pick(5000)};
    bool is_asked = is_way(&(navd_way){way.from, 0, way.from, 0}) && are_costs && flood.back < 2;
    status = navd_view_flood(&view, &flood, costs, count, reached, room);
    if (is_asked) ENDS(status, "navd_view_flood", NAVD_OK, NAVD_NO_START); else ENDS(status, "navd_view_flood", NAVD_OUT_OF_RANGE);
    made_by[status]++;
    for (size_t i = 1; status == NAVD_OK && i < room && i < flood.polygons; i++)
        if (reached[i].via >= i || reached[i].cost < reached[i - 1].cost || reached[i].cost > flood.most_cost) ENDS(1, "a polygon of a flood", 0);
    for (size_t i = status == NAVD_OK && flood.polygons < room ? flood.polygons : room; i < 8; i++)
        if (status == NAVD_OK && reached[i].via != SIZE_MAX / 255 * 7) ENDS(1, "the room behind a flood", 0);
}

/* The nearest of some goals, and a walker on the way that was told last, in what may be another mesh by now. */
static void of_goals(void) {
    static navd_link links[4096];
    static navd_turn turns[64];
    static navd_plan plan;
    static navd_way way;
    uint32_t shows, status;
    navd_goal goals[4];
    navd_link laid[8];
    size_t count = pick(5), room = pick(8);
    bool are_asked = true;
    for (size_t i = 0; i < count; i++) {
        goals[i] = (navd_goal){{coordinate(), coordinate()}, height()};
        are_asked &= is_way(&(navd_way){goals[i].at, 0, goals[i].at, 0});
    }
    ENDS(navd_look(&view, &first, &shows), "navd_look", NAVD_OK);
    navd_nearest nearest = {.at = {coordinate(), coordinate()}, .y = height(), .areas = pick(3) ? UINT64_MAX : ~(UINT64_C(1) << pick(64)),
                            .most_cost = pick(3) ? UINT64_MAX : pick(3000), .which = SIZE_MAX};
    are_asked &= is_way(&(navd_way){nearest.at, 0, nearest.at, 0});
    status = navd_view_nearest_goal(&view, &nearest, &shows, 0, goals, count, laid, room);
    if (are_asked) ENDS(status, "navd_view_nearest_goal", NAVD_OK, NAVD_LIMIT, NAVD_NO_START, NAVD_NO_GOAL, NAVD_NO_PATH);
    else ENDS(status, "navd_view_nearest_goal", NAVD_OUT_OF_RANGE);
    made_by[status]++;
    if (status == NAVD_OK && (nearest.which >= count || nearest.cost > nearest.most_cost)) ENDS(1, "the nearest goal", 0);
    if (status == NAVD_LIMIT && nearest.seen <= nearest.most_cost) ENDS(1, "what was seen of goals", 0);
    navd_follower follower = {.first = plan.first, .from = way.from, .goal = way.to, .far = pick(4) ? pick(2000) : UINT32_MAX - pick(3),
                              .ahead = pick(3) ? pick(20) : UINT32_MAX, .link = pick(9) ? 0 : pick((uint32_t)plan.links + 2)};
    navd_follower told = follower;
    status = navd_view_follow_path(&view, &told, links, plan.links, turns, plan.turns);
    if (follower.link <= plan.links) ENDS(status, "navd_view_follow_path", NAVD_OK, NAVD_CUT, NAVD_NO_START);
    else ENDS(status, "navd_view_follow_path", NAVD_OUT_OF_RANGE);
    made_by[status]++;
    if (told.link < follower.link || told.link > (status == NAVD_OUT_OF_RANGE ? follower.link : plan.links)) ENDS(1, "the links behind a walker", 0);
    if (told.far != follower.far || memcmp(&told.goal, &follower.goal, sizeof told.goal)) ENDS(1, "what a walker's host wrote", 0);
    way = (navd_way){{coordinate(), coordinate()}, height(), {coordinate(), coordinate()}, height()};
    plan = (navd_plan){.way = way, .areas = UINT64_MAX, .most_cost = UINT64_MAX, .most_polygons = SIZE_MAX};
    status = navd_view_plan(&view, &plan, &shows, 0, links, 4096, turns, 64);
    if (status != NAVD_OK || plan.links > 4096 || plan.turns > 64) plan = (navd_plan){.way = way}, way = (navd_way){{0, 0}, 0, {0, 0}, 0};
}

/* What is looked for, and whether it is within its limits. */
static navd_near anywhere(uint64_t areas) {
    return (navd_near){areas, {coordinate(), coordinate()}, height(), pick(3) ? pick(200) : number(262143), number(16383), number(16383), number(65535)};
}

static bool has_coordinates(navd_point p) {
    return is_way(&(navd_way){p, 0, p, 0});
}

static bool is_looked_for(const navd_near *near) {
    return has_coordinates(near->at) && near->reach < 262144 && near->down < 16384 && near->up < 16384 && near->weight < 65536;
}

/* The nearest place, the height at a point of a polygon, whether a place is one of what may be another mesh by now, and a random place. */
static void of_places(void) {
    static navd_place kept;
    uint64_t areas = pick(3) ? UINT64_MAX : ~(UINT64_C(1) << pick(64));
    navd_near near = anywhere(areas);
    bool is_asked = is_looked_for(&near);
    uint32_t shows, status;
    ENDS(navd_look(&view, &first, &shows), "navd_look", NAVD_OK);
    status = navd_view_is_place(&view, &kept);
    ENDS(status, "navd_view_is_place", NAVD_OK, NAVD_NO_PLACE);
    made_by[status]++;
    navd_place place = {.y = 8192}, floor;
    status = navd_view_nearest(&view, &near, &place);
    if (is_asked) ENDS(status, "navd_view_nearest", NAVD_OK, NAVD_NO_PLACE); else ENDS(status, "navd_view_nearest", NAVD_OUT_OF_RANGE);
    made_by[status]++;
    if (status == NAVD_OK) {
        int64_t x = (int64_t)place.at.x - near.at.x, z = (int64_t)place.at.z - near.at.z, reach = near.reach, y = place.y;
        if (x * x + z * z > reach * reach || y + near.down < near.y || y > (int64_t)near.y + near.up) ENDS(1, "a place in reach", 0);
        ENDS(navd_view_is_place(&view, &place), "the nearest place", NAVD_OK);
        floor = kept = place;
        ENDS(navd_view_height(&view, &floor), "the height of the nearest place", NAVD_OK);
        if (floor.y < place.y) ENDS(floor.y, "the highest floor", place.y);
    } else if (place.y != 8192) ENDS(place.y, "a place that is not told", 8192);
    floor = (navd_place){{0, pick(9)}, {coordinate(), coordinate()}, 8192};
    status = navd_view_height(&view, &floor);
    if (is_way(&(navd_way){floor.at, 0, floor.at, 0})) ENDS(status, "navd_view_height", NAVD_OK, NAVD_NO_PLACE);
    else ENDS(status, "navd_view_height", NAVD_OUT_OF_RANGE);
    made_by[status]++;
    if ((status == NAVD_OK) != (floor.y != 8192)) ENDS(floor.y, "a height", 8192);
    ENDS(navd_view_is_place(&view, &floor), "the place of a height", status);
    place = (navd_place){.y = 8192};
    status = navd_view_random_place(&view, areas, pick(9) ? (uint64_t)pick(UINT32_MAX) << 32 | pick(UINT32_MAX) : UINT64_MAX, &place);
    ENDS(status, "navd_view_random_place", NAVD_OK, NAVD_CUT, NAVD_NO_PLACE);
    made_by[status]++;
    if (status == NAVD_OK) ENDS(navd_view_is_place(&view, &place), "the place that is drawn", NAVD_OK);
    else if (place.y != 8192) ENDS(place.y, "a place that is not drawn", 8192);
    ENDS(navd_view_random_place(&view, 0, 0, &place), "navd_view_random_place of no area", NAVD_NO_PLACE);
}

static int64_t squared(navd_point a, navd_point b) {
    int64_t x = (int64_t)b.x - a.x, z = (int64_t)b.z - a.z;
    return x * x + z * z;
}

/* A number near another, round the end of its width too. */
static int32_t near_to(int32_t number) { return (int32_t)((uint32_t)number + (uint32_t)pick(60) - 30u); }

/* A straight walk and a slide from a place, which is one of the mesh or not. */
static void of_moves(const navd_place *from, bool is_place) {
    navd_point to = pick(3) ? (navd_point){near_to(from->at.x), near_to(from->at.z)}
                            : (navd_point){coordinate(), coordinate()};
    navd_ray ray = {.num = 7};
    navd_place end = {.y = 8192};
    bool is_asked = has_coordinates(from->at) && has_coordinates(to);
    uint32_t status = navd_view_cast_ray_from(&view, from, &to, &ray);
    if (!is_asked) ENDS(status, "navd_view_cast_ray_from", NAVD_OUT_OF_RANGE);
    else if (is_place) ENDS(status, "navd_view_cast_ray_from", NAVD_OK, NAVD_WALL);
    else ENDS(status, "navd_view_cast_ray_from no place", NAVD_NO_START);
    made_by[status]++;
    if (status == NAVD_WALL && (ray.den <= 0 || ray.num < 0 || ray.num >= ray.den)) ENDS(1, "the part of a straight walk", 0);
    if (status != NAVD_WALL && ray.num != 7) ENDS(1, "a wall that is not told", 0);
    bool is_reached = status == NAVD_OK;
    uint64_t areas = pick(2) ? UINT64_MAX : ~(UINT64_C(1) << pick(64));
    status = navd_view_slide(&view, from, &to, areas, &end);
    if (!is_asked) ENDS(status, "navd_view_slide", NAVD_OUT_OF_RANGE);
    else ENDS(status, "navd_view_slide", is_place ? NAVD_OK : NAVD_NO_START);
    made_by[status]++;
    if ((status == NAVD_OK) != (end.y != 8192)) ENDS(end.y, "the end of a slide", 8192);
    if (status != NAVD_OK) return;
    ENDS(navd_view_is_place(&view, &end), "the end of a slide", NAVD_OK);
    if (squared(end.at, to) > squared(from->at, to) || squared(end.at, from->at) > squared(from->at, to)) ENDS(1, "how far a slide leads", 0);
    if (is_reached && areas == UINT64_MAX && squared(end.at, to)) ENDS(1, "a slide that nothing stops", 0);
}

/* The walls around a place, which is one of the mesh or not. */
static void of_walls(const navd_place *from, bool is_place) {
    navd_around around = {.from = *from, .areas = pick(2) ? UINT64_MAX : ~(UINT64_C(1) << pick(64)), .reach = pick(9) ? pick(120) : number(262143)};
    navd_wall wall = {.edge = 7}, walls[4];
    size_t count = 9, room = pick(5);
    bool is_asked = has_coordinates(from->at) && around.reach < 262144;
    uint32_t nearest = navd_view_nearest_wall(&view, &around, &wall);
    uint32_t status = navd_view_walls(&view, &around, walls, room, &count);
    if (!is_asked) ENDS(nearest, "navd_view_nearest_wall", NAVD_OUT_OF_RANGE), ENDS(status, "navd_view_walls", NAVD_OUT_OF_RANGE);
    else if (!is_place) ENDS(nearest, "navd_view_nearest_wall", NAVD_NO_START), ENDS(status, "navd_view_walls", NAVD_NO_START);
    else ENDS(nearest, "navd_view_nearest_wall", NAVD_OK, NAVD_NO_PLACE), ENDS(status, "navd_view_walls", NAVD_OK);
    made_by[nearest]++, made_by[status]++;
    if ((nearest == NAVD_OK) != (wall.edge != 7)) ENDS(wall.edge, "a wall that is told", 7);
    if (status != NAVD_OK && count != 9) ENDS(1, "how many walls there are", 0);
    if (nearest == NAVD_OK && (!count || wall.num > around.reach * (uint64_t)around.reach * wall.den)) ENDS(1, "a wall within the reach", 0);
}

/* A line between two places, with its numbers: it measures what the path's does, where both lead over the same links. */
static void of_lines(void) {
    static navd_link links[4096], others[4096];
    static navd_turn turns[4096], other_turns[4096];
    navd_way way = {.from = {coordinate(), coordinate()}, .from_y = number(8191), .to = {coordinate(), coordinate()}, .to_y = number(8191)};
    navd_line line = {.way = way, .most = pick(2) ? 1000000 : pick(100), .quick = pick(2), .links = 5000};
    navd_path path = {.links = 6000};
    size_t room = pick(2) ? 4096 : pick(8);
    uint32_t status = navd_view_shortest(&view, &line, links, 4096, turns, room);
    uint32_t found = navd_view_find_path(&view, &way, others, 4096, other_turns, 4096, &path);
    made_by[status]++;
    if (status == NAVD_ABOUT) ENDS(found, "a path where a line was found", NAVD_OK);
    else ENDS(status, "navd_view_shortest", found);
    if ((found == NAVD_OK) != (line.links != 5000)) ENDS(1, "the links of a line", 0);
    if (found != NAVD_OK) return;
    if (line.upper < line.lower || line.links > 4096 || line.turns > 2 * line.links) ENDS(1, "a line that was found", 0);
    bool is_close = line.upper - line.lower <= (line.lower / 16384 > 256 ? line.lower / 16384 : 256);
    if (is_close != (status == NAVD_OK)) ENDS(1, "whether a line is the shortest", 0);
    if (memcmp(&line.first, &path.first, sizeof path.first)) ENDS(1, "where a line begins", 0);
    if (line.links && memcmp(&links[line.links - 1].to, &line.last, sizeof line.last)) ENDS(1, "where a line ends", 0);
}

/* The square of how far two agents are from each other. */
static int64_t apart(const navd_agent *a, const navd_agent *b) {
    int64_t x = (int64_t)b->at.x - a->at.x, z = (int64_t)b->at.z - a->at.z;
    return x * x + z * z;
}

static navd_agent some_agent(void) {
    navd_agent agent = {.at = {(int32_t)pick(1000) * 4, (int32_t)pick(1000) * 4}, .areas = pick(4) ? UINT64_MAX : ~(UINT64_C(1) << pick(64))};
    agent.full = pick(40) ? 1 + pick(300) : 8190 + pick(4);
    agent.radius = pick(40) ? 1 + pick(agent.full) : pick(2) ? 0 : agent.full + 1;
    agent.speed = pick(40) ? pick(300) : 8190 + pick(4);
    return agent;
}

static bool is_agent(const navd_agent *agent) {
    return agent->radius >= 1 && agent->radius <= agent->full && agent->full <= 8191 && agent->speed <= 8191;
}

/* Whether a step left agents as it has to: none goes farther than its speed or is stranded, and of those that did not overlap on one floor none do then. */
static void after_crowd(const navd_agent *was, const navd_agent *agents, size_t count) {
    for (size_t i = 0; i < count; i++) {
        if (agents[i].stranded) ENDS(1, "an agent that is stranded", 0);
        if (apart(&was[i], &agents[i]) > (int64_t)agents[i].speed * agents[i].speed) ENDS(1, "how far an agent goes", 0);
        for (size_t j = 0; j < i; j++) {
            int64_t had = (int64_t)was[i].radius + was[j].radius, radii = (int64_t)agents[i].radius + agents[j].radius;
            if (agents[i].low == agents[j].low && was[i].low == was[j].low && apart(&was[i], &was[j]) >= had * had
                && apart(&agents[i], &agents[j]) < radii * radii) ENDS(1, "two agents that overlap", 0);
        }
    }
}

/* Some steps by wishes, with sizes anew behind each: what the host wrote stays, and who waited long is slim. */
static void of_steered(navd_agent *agents, size_t count, const navd_crowd *rules, bool are_rules) {
    navd_agent was[6];
    uint32_t ends = are_rules ? NAVD_OK : NAVD_OUT_OF_RANGE;
    for (uint32_t step = 0; step < 6; step++) {
        for (size_t i = 0; i < count; i++) {
            agents[i].wish = (navd_fine){(int32_t)pick(401) - 200, (int32_t)pick(401) - 200};
            agents[i].left = pick(5) ? pick(5000) : UINT64_MAX;
            agents[i].idle = !pick(4);
            if (!pick(4)) agents[i].waited = pick(4) ? pick(100) : UINT32_MAX;
        }
        memcpy(was, agents, sizeof was);
        ENDS(navd_view_crowd_step(&view, rules, agents, count), "navd_view_crowd_step", ends);
        after_crowd(was, agents, count);
        for (size_t i = 0; i < count; i++)
            if (memcmp(&was[i].wish, &agents[i].wish, sizeof(navd_fine)) || was[i].left != agents[i].left || was[i].idle != agents[i].idle
                || was[i].radius != agents[i].radius) ENDS(1, "what a host wrote", 0);
        memcpy(was, agents, sizeof was);
        ENDS(navd_view_crowd_slim(&view, rules, agents, count), "navd_view_crowd_slim", ends);
        after_crowd(was, agents, count);
        for (size_t i = 0; i < count && are_rules; i++) {
            uint32_t slim = agents[i].full / 4 ? agents[i].full / 4 : 1, most = slim < was[i].radius ? slim : was[i].radius;
            bool waits = agents[i].waited >= 3 * rules->hz, grows = !agents[i].waited && agents[i].radius == agents[i].full;
            if (waits ? agents[i].radius != most : agents[i].radius != was[i].radius && !grows) ENDS(1, "the size of an agent", 0);
        }
    }
}

/* A crowd that is entered agent by agent and makes some steps: none goes farther than its speed, none is stranded, and those that do not overlap do not
 * after a step. One whose numbers are out of their limits is refused. */
static void of_crowds(void) {
    navd_agent agents[6], was[6];
    navd_fine moves[18];
    uint32_t order[6];
    size_t first_move[7], count = pick(7), entered = 0;
    navd_crowd rules = {.sight = pick(30) ? 3072 : 16383 + pick(3), .hz = pick(30) ? 20 : pick(2) * 1001, .rounds = pick(30) ? 1 + pick(64) : pick(2) * 65};
    bool are_rules = rules.sight <= 16384 && rules.hz >= 1 && rules.hz <= 1000 && rules.rounds >= 1 && rules.rounds <= 64;
    for (size_t i = 0; i < count; i++) {
        navd_agent agent = some_agent();
        uint32_t status = navd_view_crowd_enter(&view, agents, entered, &agent, height());
        if (is_agent(&agent)) ENDS(status, "navd_view_crowd_enter", NAVD_OK, NAVD_OVERLAPS, NAVD_NO_START);
        else ENDS(status, "navd_view_crowd_enter", NAVD_OUT_OF_RANGE);
        made_by[status]++;
        if (status == NAVD_OK) agents[entered++] = agent;
    }
    for (uint32_t step = 0; step < 4; step++) {
        for (size_t i = 0; i < 18; i++) moves[i] = (navd_fine){(int32_t)pick(401) - 200, (int32_t)pick(401) - 200};
        for (size_t i = 0; i < entered; i++) order[i] = (uint32_t)((i + step) % entered);
        for (size_t i = 0; i <= entered; i++) first_move[i] = 3 * i;
        memcpy(was, agents, sizeof was);
        size_t lists = pick(30) ? entered + 1 : entered;
        uint32_t status = navd_view_crowd_grant(&view, &rules, agents, entered, order, entered, first_move, lists, moves, 3 * entered);
        ENDS(status, "navd_view_crowd_grant", are_rules && lists == entered + 1 ? NAVD_OK : NAVD_OUT_OF_RANGE);
        made_by[status]++;
        after_crowd(was, agents, entered);
    }
    of_steered(agents, entered, &rules, are_rules);
}

/* Where a path leads an agent from its begin, over its links, and where it leads one that is elsewhere. */
static void of_leads(void) {
    static navd_link links[4096];
    static navd_turn turns[4096];
    navd_way way = {.from = {coordinate(), coordinate()}, .from_y = 10, .to = {coordinate(), coordinate()}, .to_y = 10};
    navd_path path;
    if (navd_view_find_path(&view, &way, links, 4096, turns, 4096, &path) != NAVD_OK || path.links > 4096) return;
    navd_agent agent = some_agent();
    agent.polygon = path.first;
    agent.at = (navd_fine){16 * way.from.x, 16 * way.from.z};
    size_t link = pick(9) ? 0 : pick(2) ? path.links : path.links + 1, was = link;
    uint32_t status = navd_view_lead(&view, &agent, &way.to, links, path.links, &link);
    if (!is_agent(&agent) || was > path.links) ENDS(status, "navd_view_lead", NAVD_OUT_OF_RANGE);
    else ENDS(status, "navd_view_lead", NAVD_OK, was && path.links > 16 ? NAVD_CUT : NAVD_OK);
    made_by[status]++;
    if (link != (status == NAVD_OK ? 0 : was)) ENDS(1, "how many links are behind an agent", 0);
    if (status != NAVD_OK) return;
    int64_t x = agent.wish.x, z = agent.wish.z, speed = agent.speed;
    if (x * x + z * z > speed * speed) ENDS(1, "a wish", 0);
    if (!path.links && (agent.left == 0) != (way.from.x == way.to.x && way.from.z == way.to.z)) ENDS(1, "how far a goal is", 0);
    agent.polygon = (navd_polygon){UINT32_MAX, 0};
    ENDS(navd_view_lead(&view, &agent, &way.to, links, path.links, &link), "navd_view_lead elsewhere", NAVD_CUT);
}

/* Ways between places of what may be another mesh by now, and between those nearest to two points. */
static void of_place_ways(void) {
    static navd_place from, to;
    static navd_link links[4096], others[4096];
    static navd_place corners[4096], other_corners[4096];
    uint64_t areas = pick(3) ? UINT64_MAX : ~(UINT64_C(1) << pick(64)), most_cost = pick(3) ? UINT64_MAX : pick(3000);
    size_t most_polygons = pick(3) ? SIZE_MAX : pick(30), room = pick(2) ? 4096 : pick(8), count = pick(3) ? 0 : pick(40) ? 64 : pick(70);
    uint32_t costs[70], shows, status;
    for (size_t i = 0; i < count; i++) costs[i] = 1 + pick(1000);
    ENDS(navd_look(&view, &first, &shows), "navd_look", NAVD_OK);
    bool is_from = navd_view_is_place(&view, &from) == NAVD_OK, is_to = navd_view_is_place(&view, &to) == NAVD_OK;
    navd_place_way way = {.from = from, .to = to, .areas = areas, .most_cost = most_cost, .most_polygons = most_polygons, .found = {.links = 5000}};
    memset(corners, 7, sizeof corners);
    status = navd_view_find_way(&view, &way, costs, count, links, 4096, corners, room);
    if (!has_coordinates(from.at) || !has_coordinates(to.at) || (count && count != 64)) ENDS(status, "navd_view_find_way", NAVD_OUT_OF_RANGE);
    else if (is_from && is_to) ENDS(status, "navd_view_find_way", NAVD_OK, NAVD_LIMIT, NAVD_NO_PATH);
    else ENDS(status, "navd_view_find_way", is_from ? NAVD_NO_GOAL : NAVD_NO_START);
    made_by[status]++;
    if ((status == NAVD_OK) != (way.found.links != 5000)) ENDS(1, "the links of a way between places", 0);
    if (status == NAVD_OK) {
        size_t last = way.found.corners - 1;
        if (way.found.links > 4096 || last - 1 > 4094) ENDS(1, "the links and corners of a way between places", 0);
        if (room && memcmp(corners, &from, sizeof from)) ENDS(1, "the first corner", 0);
        if (last < room && memcmp(&corners[last], &to, sizeof to)) ENDS(1, "the last corner", 0);
        for (size_t i = 0; i <= last && i < room; i++) ENDS(navd_view_is_place(&view, &corners[i]), "a corner", NAVD_OK);
        for (size_t i = last < room ? last + 1 : room; i < 4096; i++)
            if (corners[i].y != UINT32_MAX / 255 * 7) ENDS(1, "the room behind corners", 0);
    }
    navd_near_way near = {.from = anywhere(areas), .to = anywhere(areas), .areas = areas, .most_cost = most_cost, .most_polygons = most_polygons};
    bool is_asked = is_looked_for(&near.from) && is_looked_for(&near.to) && (!count || count == 64);
    status = navd_view_find_way_near(&view, &near, costs, count, others, 4096, other_corners, 4096);
    made_by[status]++;
    if (!is_asked) {
        ENDS(status, "navd_view_find_way_near", NAVD_OUT_OF_RANGE);
    } else if (navd_view_nearest(&view, &near.from, &way.from) != NAVD_OK) {
        ENDS(status, "navd_view_find_way_near from nowhere", NAVD_NO_START);
    } else if (navd_view_nearest(&view, &near.to, &way.to) != NAVD_OK) {
        ENDS(status, "navd_view_find_way_near to nowhere", NAVD_NO_GOAL);
    } else {
        ENDS(navd_view_find_way(&view, &way, costs, count, links, 4096, corners, 4096), "the way between the nearest places", status);
        if (status == NAVD_OK && memcmp(&way.found.cost, &near.found.cost, sizeof near.found.cost)) ENDS(1, "what the way costs", 0);
        if (status == NAVD_OK && memcmp(corners, other_corners, near.found.corners * sizeof *corners)) ENDS(1, "its corners", 0);
    }
    of_lines();
    of_crowds();
    of_leads();
    of_moves(&from, is_from);
    of_walls(&from, is_from);
    navd_place drawn;
    if (navd_view_random_place(&view, areas, (uint64_t)pick(UINT32_MAX) << 32, &drawn) == NAVD_OK) *(pick(2) ? &from : &to) = drawn;
    if (!pick(30)) from.at = (navd_point){coordinate(), coordinate()};
}

/* Now and then both histories begin again. */
static void renew(void) {
    uint32_t numbers[1024], others[1024], told;
    size_t count = 0, other = 0, room = pick(3) ? 1024 : pick(4);
    uint32_t status = navd_renew(&first, numbers, room, &count);
    made_by[status]++;
    ENDS(status, "navd_renew", NAVD_OK, NAVD_NOT_YET, NAVD_NO_ROOM);
    if (status == NAVD_NO_ROOM && (count != alive_count || count <= room)) ENDS(status, "the count of a renewal", NAVD_OK);
    if (status != NAVD_OK) return;
    /* what jobs were claimed is claimed no more, and they may still be handed in */
    ENDS(navd_settle(&second, &told), "the second level", NAVD_OK);
    ENDS(navd_renew(&second, others, 1024, &other), "the second level", NAVD_OK);
    if (count != alive_count || count != other || memcmp(numbers, others, count * sizeof *numbers)) ENDS(status, "the numbers of a renewal", NAVD_EMPTY);
    for (uint32_t i = 0; i < count; i++) alive[i] = i + 1;
    entries = (uint32_t)count;
}

static void question(void) {
    navd_floor floors[2];
    navd_link links[3];
    navd_turn turns[2];
    navd_path path;
    navd_ray ray;
    size_t count = 0;
    navd_way way = {{coordinate(), coordinate()}, height(), {coordinate(), coordinate()}, height()};
    uint32_t status;
    navd_walker walker = {{0, 0}, way.from, way.from_y, way.to, way.to_y, 0, 0};
    navd_jump some[300];
    navd_step_taken steps[3];
    navd_hop hop = {0};
    bool are_jumps = true;
    hop.way = way;
    switch (pick(6)) {
    case 3:
        count = pick(4) ? pick(4) : pick(300);
        are_jumps = count <= 256;
        for (size_t i = 0; i < count; i++) {
            some[i] = (navd_jump){{(int32_t)pick(200), (int32_t)pick(200)}, 10, {(int32_t)pick(200), (int32_t)pick(200)}, 10, pick(500)};
            if (!pick(400)) some[i].to.z = 65537, are_jumps = false;
        }
        status = navd_find_hop(&first, &hop, some, count, steps, pick(4), turns, pick(3));
        if (is_way(&way) && are_jumps) ENDS(status, "navd_find_hop", NAVD_OK, NAVD_NO_START, NAVD_NO_GOAL, NAVD_NO_PATH);
        else ENDS(status, "navd_find_hop", NAVD_OUT_OF_RANGE);
        made_by[status]++;
        break;
    case 4:
        status = navd_send(&first, &way, links, pick(4), &walker);
        if (is_way(&way)) ENDS(status, "navd_send", NAVD_OK, NAVD_NO_START, NAVD_NO_GOAL, NAVD_NO_PATH);
        else ENDS(status, "navd_send", NAVD_OUT_OF_RANGE);
        made_by[status]++;
        break;
    case 5:
        status = navd_march(&first, &walker, number(200), links, pick(4));
        if (is_way(&way)) ENDS(status, "navd_march", NAVD_OK, NAVD_NO_START, NAVD_NO_GOAL, NAVD_NO_PATH);
        else ENDS(status, "navd_march", NAVD_OUT_OF_RANGE);
        made_by[status]++;
        break;
    case 0: ENDS(navd_floors(&first, number(14), number(14), floors, pick(3), &count), "navd_floors", NAVD_OK); break;
    case 1:
        status = navd_find_path(&first, &way, links, pick(4), turns, pick(3), &path);
        if (is_way(&way)) ENDS(status, "navd_find_path", NAVD_OK, NAVD_NO_START, NAVD_NO_GOAL, NAVD_NO_PATH);
        else ENDS(status, "navd_find_path", NAVD_OUT_OF_RANGE);
        made_by[status]++;
        break;
    default:
        status = navd_cast_ray(&first, &way, &ray);
        if (is_way(&way)) ENDS(status, "navd_cast_ray", NAVD_OK, NAVD_WALL, NAVD_NO_START);
        else ENDS(status, "navd_cast_ray", NAVD_OUT_OF_RANGE);
        made_by[status]++;
    }
}

static void of_empty(void) {
    navd_block block = {1, 2, 0, 9, 1, 2};
    navd_way way = {{1, 1}, 0, {2, 2}, 0};
    navd_floor floors[1];
    navd_link links[1];
    navd_turn turns[1];
    navd_path path;
    navd_ray ray;
    navd_counts counts;
    uint32_t told = 7;
    size_t count = 7;
    navd_close(&empty);
    ENDS(navd_add_block(&empty, &block, 0, &told), "an empty handle", NAVD_EMPTY);
    ENDS(navd_remove(&empty, 1, &told), "an empty handle", NAVD_EMPTY);
    ENDS(navd_aim(&empty, &told), "an empty handle", NAVD_EMPTY);
    ENDS(navd_step(&empty, &told), "an empty handle", NAVD_EMPTY);
    ENDS(navd_prepare(&empty), "an empty handle", NAVD_EMPTY);
    ENDS(navd_publish(&empty, &told), "an empty handle", NAVD_EMPTY);
    ENDS(navd_settle(&empty, &told), "an empty handle", NAVD_EMPTY);
    ENDS(navd_floors(&empty, 1, 1, floors, 1, &count), "an empty handle", NAVD_EMPTY);
    ENDS(navd_find_path(&empty, &way, links, 1, turns, 1, &path), "an empty handle", NAVD_EMPTY);
    ENDS(navd_cast_ray(&empty, &way, &ray), "an empty handle", NAVD_EMPTY);
    ENDS(navd_count(&empty, &counts), "an empty handle", NAVD_EMPTY);
    ENDS(navd_renew(&empty, &told, 1, &count), "an empty handle", NAVD_EMPTY);
    navd_face face;
    navd_obstacle obstacle;
    navd_shown shown;
    navd_job nothing = {0};
    navd_walker walker = {{0, 0}, {1, 1}, 0, {2, 2}, 0, 0, 0};
    navd_hop hop = {0};
    navd_jump jump = {{1, 1}, 0, {2, 2}, 0, 1};
    navd_step_taken steps[1];
    uint32_t costs[64];
    for (size_t i = 0; i < 64; i++) costs[i] = 1;
    told = 7;
    ENDS(navd_polygons(&empty, 0, &face, 1, &count), "an empty handle", NAVD_EMPTY);
    ENDS(navd_inner_links(&empty, 0, links, 1, &count), "an empty handle", NAVD_EMPTY);
    ENDS(navd_border_links(&empty, 0, links, 1, &count), "an empty handle", NAVD_EMPTY);
    ENDS(navd_obstacles(&empty, &obstacle, 1, &count), "an empty handle", NAVD_EMPTY);
    ENDS(navd_changed_tiles(&empty, 0, &told, 1, &count), "an empty handle", NAVD_EMPTY);
    ENDS(navd_send(&empty, &way, links, 1, &walker), "an empty handle", NAVD_EMPTY);
    ENDS(navd_march(&empty, &walker, 5, links, 1), "an empty handle", NAVD_EMPTY);
    ENDS(navd_find_hop(&empty, &hop, &jump, 1, steps, 1, turns, 1), "an empty handle", NAVD_EMPTY);
    ENDS(navd_claim(&empty, &nothing, &told), "an empty handle", NAVD_EMPTY);
    ENDS(navd_build(&nothing), "an empty handle", NAVD_EMPTY);
    ENDS(navd_submit(&first, &nothing), "an empty handle", NAVD_EMPTY);
    ENDS(navd_put_back(&first, &nothing), "an empty handle", NAVD_EMPTY);
    ENDS(navd_put_back_all(&empty), "an empty handle", NAVD_EMPTY);
    navd_job_close(&nothing);
    ENDS(navd_look(&empty_view, &empty, &told), "an empty handle", NAVD_EMPTY);
    ENDS(navd_view_copy(&copy, &empty_view), "an empty handle", NAVD_EMPTY);
    ENDS(navd_view_count(&empty_view, &shown), "an empty handle", NAVD_EMPTY);
    ENDS(navd_view_set_costs(&empty_view, costs, 64), "an empty handle", NAVD_EMPTY);
    ENDS(navd_view_polygons(&empty_view, 0, &face, 1, &count), "an empty handle", NAVD_EMPTY);
    ENDS(navd_view_inner_links(&empty_view, 0, links, 1, &count), "an empty handle", NAVD_EMPTY);
    ENDS(navd_view_border_links(&empty_view, 0, links, 1, &count), "an empty handle", NAVD_EMPTY);
    ENDS(navd_view_find_hop(&empty_view, &hop, &jump, 1, steps, 1, turns, 1), "an empty handle", NAVD_EMPTY);
    ENDS(navd_view_send(&empty_view, &way, links, 1, &walker), "an empty handle", NAVD_EMPTY);
    ENDS(navd_view_march(&empty_view, &walker, 5, links, 1), "an empty handle", NAVD_EMPTY);
    navd_plan plan = {.way = way};
    navd_kept kept = {.way = way};
    navd_repair repair = {.way = way};
    navd_flood flood = {.at = {1, 1}};
    navd_reached reached[1];
    ENDS(navd_view_plan(&empty_view, &plan, costs, 64, links, 1, turns, 1), "an empty handle", NAVD_EMPTY);
    ENDS(navd_view_check_path(&empty_view, &kept, costs, 64, links, 1, turns, 1), "an empty handle", NAVD_EMPTY);
    ENDS(navd_view_repair_path(&empty_view, &repair, costs, 64, links, 1, turns, 1), "an empty handle", NAVD_EMPTY);
    ENDS(navd_view_flood(&empty_view, &flood, costs, 0, reached, 1), "an empty handle", NAVD_EMPTY);
    navd_nearest nearest = {.at = {1, 1}};
    navd_goal goal = {.at = {1, 1}};
    navd_follower follower = {.at = {1, 1}};
    ENDS(navd_view_nearest_goal(&empty_view, &nearest, costs, 0, &goal, 1, links, 1), "an empty handle", NAVD_EMPTY);
    ENDS(navd_view_follow_path(&empty_view, &follower, links, 0, turns, 0), "an empty handle", NAVD_EMPTY);
    navd_near near = {.at = {1, 1}};
    navd_place on_mesh = {.at = {1, 1}};
    ENDS(navd_view_nearest(&empty_view, &near, &on_mesh), "an empty handle", NAVD_EMPTY);
    ENDS(navd_view_height(&empty_view, &on_mesh), "an empty handle", NAVD_EMPTY);
    ENDS(navd_view_is_place(&empty_view, &on_mesh), "an empty handle", NAVD_EMPTY);
    ENDS(navd_view_random_place(&empty_view, UINT64_MAX, 0, &on_mesh), "an empty handle", NAVD_EMPTY);
    navd_place_way between = {.from = on_mesh, .to = on_mesh};
    navd_near_way near_way = {.from = near, .to = near};
    navd_place end = {.y = 7};
    navd_point aim = {2, 2};
    navd_ray cast;
    ENDS(navd_view_find_way(&empty_view, &between, costs, 0, links, 1, &end, 1), "an empty handle", NAVD_EMPTY);
    ENDS(navd_view_find_way_near(&empty_view, &near_way, costs, 64, links, 1, &end, 1), "an empty handle", NAVD_EMPTY);
    ENDS(navd_view_cast_ray_from(&empty_view, &on_mesh, &aim, &cast), "an empty handle", NAVD_EMPTY);
    ENDS(navd_view_slide(&empty_view, &on_mesh, &aim, UINT64_MAX, &end), "an empty handle", NAVD_EMPTY);
    if (end.y != 7) ENDS(end.y, "a place of an empty handle", 7);
    if (navd_version() != NAVD_VERSION) ENDS(1, "the version", 0);
    if (told != 7 || count != 7) ENDS(told, "what an empty handle told", 7);
}

/* The two levels show the same. */
static void agree(void) {
    uint32_t one, other;
    navd_counts a, b;
    navd_link no_links[1];
    navd_turn no_turns[1];
    ENDS(navd_settle(&first, &one), "the last settle", NAVD_OK);
    ENDS(navd_settle(&second, &other), "the last settle", NAVD_OK);
    ENDS(navd_count(&first, &a), "navd_count", NAVD_OK);
    ENDS(navd_count(&second, &b), "navd_count", NAVD_OK);
    if (one != other || one != entries || memcmp(&a, &b, sizeof a)) ENDS(other, "the counts of the two levels", one + 1);
    for (uint32_t x = 0; x < 40; x++)
        for (uint32_t z = 0; z < 40; z++) {
            navd_floor f[8] = {{0, 0}}, g[8] = {{0, 0}};
            size_t m = 0, n = 0;
            navd_way way = {{8, 8}, 10, {(int32_t)x * 16 + 8, (int32_t)z * 16 + 8}, 10};
            navd_path p = {0}, q = {0};
            ENDS(navd_floors(&first, x, z, f, 8, &m), "navd_floors", NAVD_OK);
            ENDS(navd_floors(&second, x, z, g, 8, &n), "navd_floors", NAVD_OK);
            ENDS(navd_find_path(&first, &way, no_links, 0, no_turns, 0, &p), "the two levels' paths",
                 navd_find_path(&second, &way, no_links, 0, no_turns, 0, &q));
            if (m != n || memcmp(f, g, sizeof f) || p.cost != q.cost) ENDS(x, "the floors or paths of the two levels", x + 1);
        }
}

int main(int argc, char **words) {
    static char text[1 << 20];
    FILE *file = argc == 4 ? fopen(words[1], "rb") : NULL;
    if (!file) return 2;
    size_t length = fread(text, 1, sizeof text, file);
    fclose(file);
    navd_fault fault;
    seed = strtoull(words[3], NULL, 10);
    for (size_t cut = 0; cut < 40; cut++) {
        ENDS(navd_open(&empty, (const uint8_t *)text, cut, &fault), "navd_open of a part", NAVD_FAULTY);
        ENDS(navd_open_triangles(&empty, (const uint8_t *)text, cut, &fault), "navd_open_triangles of a part", NAVD_FAULTY);
    }
    ENDS(navd_open_triangles(&empty, (const uint8_t *)text, length, &fault), "navd_open_triangles of spans", NAVD_FAULTY);
    char *limit = strstr(text, "\nlimit ");
    if (!limit) return 2;
    limit[7] ^= 1;
    ENDS(navd_open(&third, (const uint8_t *)text, length, &fault), "navd_open", NAVD_OK);
    limit[7] ^= 1;
    ENDS(navd_open(&first, (const uint8_t *)text, length, &fault), "navd_open", NAVD_OK);
    ENDS(navd_open(&first, (const uint8_t *)text, length, &fault), "navd_open once more", NAVD_OK);
    ENDS(navd_open(&second, (const uint8_t *)text, length, &fault), "navd_open", NAVD_OK);
    for (long calls = atol(words[2]); calls > 0; calls--) switch (pick(12)) {
        case 0: of_empty(); break;
        case 1: case 2: case 3: case 4: request(); break;
        case 5: case 6: pick(5) ? build() : renew(); break;
        case 7: case 8: job(); break;
        case 9: pick(4) ? look() : of_view(); break;
        case 10: pick(2) ? of_ways() : pick(3) ? of_place_ways() : pick(2) ? of_places() : of_goals(); break;
        default: question();
        }
    agree();
    printf("%" PRIu32 " entries alike; ended so often with each status:", entries);
    for (size_t i = 0; i <= NAVD_NO_PLACE; i++) printf(" %" PRIu32, made_by[i]);
    putchar('\n');
    for (size_t i = 0; i < 3; i++) navd_job_close(&jobs[i]);
    navd_view_close(&view);
    navd_view_close(&copy);
    navd_close(&first);
    navd_close(&second);
    navd_close(&second);
    navd_close(&third);
    return 0;
}
