/* Two kinds of agents over one ground, as a host in C that has guards and carts:
 *
 *     kinds FRAMES
 *
 * First small grounds are opened, of which another program told the polygons and ways. Then a guard keeps one cell from walls, a cart three, on tiles of
 * its own, over a ground with a narrow gap and a wide one: doors are added and removed, and each kind has the ways that its width leaves; what is refused
 * changes nothing, and a publish is seen by both kinds or by none. Then the ground comes in two blocks, and one of them goes and comes again. Last, for FRAMES frames, doors come and go at random; they are settled, or built by
 * jobs, and then the mesh of each kind is that of a level opened for it alone with the same requests: its counts, and the ways through the wall. It ends
 * with 1 where something is not. */
#define _POSIX_C_SOURCE 200809L

#include "common.h"
#include "gaps.h"

enum { GUARD, CART, KINDS, DOORS = 4, COLUMNS = SIDE * SIDE };

static const navd_ground ground = {SIDE, SIDE, 49, 1, LIMIT};
static const navd_kind agents[KINDS] = {{10, 4, 1, 0, 16}, {10, 4, 3, 0, 32}};
static navd_span spans[COLUMNS];
static uint64_t seed = 1;
static const uint32_t no_cost;

/* A wall along z at the columns 30 to 33, but for gaps at 8 and at 48: of six columns, and of twelve. */
static void lay_spans(void) {
    for (uint32_t z = 0; z < SIDE; z++)
        for (uint32_t x = 0; x < SIDE; x++) {
            bool is_wall = x >= 30 && x <= 33 && !(z >= 8 && z < 14) && !(z >= 48 && z < 60);
            spans[z * SIDE + x] = is_wall ? (navd_span){x, z, 0, 100, 0} : (navd_span){x, z, 0, 10, 63};
        }
}

static uint32_t open_by(navd_kinds *kinds, const navd_kind *kind, size_t count, size_t columns) {
    return navd_kinds_open(kinds, &ground, kind, count, &no_cost, 0, spans, columns);
}

/* Doors across the narrow gap (even places) and the wide one. */
static navd_block door(uint32_t place) {
    uint32_t z = place % 2 ? 48 : 8;
    return (navd_block){28 + place, 29 + place, 0, 100, z - 2, z + 13};
}

/* Whether a way leads through the wall for a kind. */
static bool is_open_for(navd_kinds *kinds, uint32_t kind, uint32_t *published) {
    static navd_view views[KINDS];
    want(navd_kinds_look(&views[kind], kinds, kind, published) == NAVD_OK, "a look");
    return is_open_in(&views[kind]);
}

/* The level of a kind alone, from a field text. */
static navd_level level_of(uint32_t kind) {
    static char text[COLUMNS * 32];
    size_t length = (size_t)sprintf(text, "nav 1\nsize %d %d\ntile %u\nagent 10 4 %u\nerror 49\nmesh contours\nlimit %d\n", SIDE, SIDE, agents[kind].tile,
                                    agents[kind].radius, LIMIT);
    for (int at = 0; at < COLUMNS; at++)
        length += (size_t)sprintf(text + length, "span %u %u %u %u %u\n", spans[at].x, spans[at].z, spans[at].bottom, spans[at].top, spans[at].area);
    length += (size_t)sprintf(text + length, "end\n");
    navd_level level = {0};
    navd_fault fault;
    want(navd_open(&level, (const uint8_t *)text, length, &fault) == NAVD_OK, "a level of its own");
    return level;
}

/* A flat ground at the height 10, and a roof from 18 to 20 over a row, if there is one. */
static void open_flat(navd_kinds *kinds, uint32_t width, uint32_t roof, const navd_kind *kind) {
    navd_span flat[16 * 8 + 16];
    navd_ground small = {width, 8, 0, 0, LIMIT};
    size_t count = 0;
    for (uint32_t z = 0; z < 8; z++)
        for (uint32_t x = 0; x < width; x++) {
            flat[count++] = (navd_span){x, z, 0, 10, 63};
            if (z == roof) flat[count++] = (navd_span){x, z, 18, 20, 0};
        }
    want(navd_kinds_open(kinds, &small, kind, KINDS, &no_cost, 0, flat, count) == NAVD_OK, "a flat ground");
}

/* What a path of a kind costs, or 1000 and more: its status. */
static uint64_t cost_of(navd_kinds *kinds, uint32_t kind, navd_point from, navd_point to) {
    navd_view view = {0};
    navd_path path = {0};
    navd_link link;
    navd_turn turn;
    uint32_t published;
    want(navd_kinds_look(&view, kinds, kind, &published) == NAVD_OK, "a look");
    uint32_t status = navd_view_find_path(&view, &(navd_way){from, 10, to, 10}, &link, 1, &turn, 1, &path);
    navd_view_close(&view);
    return status == NAVD_OK ? path.cost : 1000 + status;
}

static uint32_t polygons_of(navd_kinds *kinds, uint32_t kind) {
    navd_counts counts;
    want(navd_kinds_count(kinds, kind, &counts) == NAVD_OK, "counts");
    return counts.polygons;
}

static void play_rows(navd_kinds *kinds) {
    navd_kind by_radius[KINDS] = {{10, 4, 0, 0, 8}, {10, 4, 1, 0, 8}}, by_height[KINDS] = {{10, 4, 0, 0, 8}, {6, 4, 0, 0, 8}};
    navd_kind clear[KINDS] = {{10, 4, 0, 0, 8}, {10, 4, 2, 1, 8}};
    uint32_t number, kind, tile;
    open_flat(kinds, 8, 8, by_radius);
    want(polygons_of(kinds, 0) == 6 && polygons_of(kinds, 1) == 4, "by their radius");
    want(cost_of(kinds, 0, (navd_point){24, 24}, (navd_point){72, 24}) == 0, "a way in one polygon");
    want(cost_of(kinds, 1, (navd_point){24, 24}, (navd_point){72, 24}) == 1000 + NAVD_NO_START, "too near to the edge");
    want(navd_kinds_add_block(kinds, &(navd_block){3, 3, 0, 100, 1, 5}, 0, &number) == NAVD_OK && navd_kinds_settle(kinds, &number) == NAVD_OK, "a block");
    want(polygons_of(kinds, 0) == 11 && polygons_of(kinds, 1) == 8, "round a block");
    want(cost_of(kinds, 0, (navd_point){40, 40}, (navd_point){88, 40}) == 161, "a way round it");
    want(cost_of(kinds, 1, (navd_point){40, 40}, (navd_point){88, 40}) == 1000 + NAVD_NO_PATH, "none for the wider kind");

    open_flat(kinds, 8, 3, by_height);
    want(cost_of(kinds, 0, (navd_point){40, 24}, (navd_point){40, 104}) == 1000 + NAVD_NO_PATH, "a roof that is too low");
    want(cost_of(kinds, 1, (navd_point){40, 24}, (navd_point){40, 104}) == 80, "and not for the lower kind");

    for (uint32_t column = 5; column < 7; column++) {
        open_flat(kinds, 16, 8, clear);
        want(navd_kinds_add_block(kinds, &(navd_block){column, column, 0, 100, 3, 3}, 0, &number) == NAVD_OK, "a block near a border of tiles");
        want(navd_kinds_aim(kinds, &number) == NAVD_OK && navd_kinds_step(kinds, &kind, &tile) == NAVD_OK && kind == 0 && tile == 0, "the first tile");
        want(navd_kinds_publish(kinds, &kind, &tile) == NAVD_NOT_YET && kind == 1 && tile == 0, "the other kind waits");
        want(navd_kinds_step(kinds, &kind, &tile) == NAVD_OK && kind == 1 && tile == 0, "its first tile");
        if (column == 6) want(navd_kinds_step(kinds, &kind, &tile) == NAVD_OK && kind == 1 && tile == 1, "and the one beside, from which it keeps clear");
        want(navd_kinds_step(kinds, &kind, &tile) == NAVD_SAME && navd_kinds_publish(kinds, &kind, &number) == NAVD_OK && number == 1, "all is built");
    }
    navd_kinds_close(kinds);
}

static void refuse(navd_kinds *kinds) {
    navd_kind bad = agents[CART], many[17];
    navd_span kept = spans[5];
    navd_view view = {0};
    navd_counts counts;
    uint32_t number = 77, kind = 77;
    for (int i = 0; i < 17; i++) many[i] = agents[GUARD];
    want(navd_kinds_settle(kinds, &number) == NAVD_EMPTY && navd_kinds_look(&view, kinds, 0, &number) == NAVD_EMPTY && number == 77, "nothing is held");
    want(navd_kinds_step(kinds, &kind, &number) == NAVD_EMPTY && kind == 77 && number == 77, "nothing is built");
    want(open_by(kinds, agents, 0, COLUMNS) == NAVD_OUT_OF_RANGE && open_by(kinds, many, 17, COLUMNS) == NAVD_OUT_OF_RANGE, "no kind, and too many");
    bad.climb = bad.height;
    want(open_by(kinds, &bad, 1, COLUMNS) == NAVD_OUT_OF_RANGE, "a kind that climbs as high as it stands");
    bad = (navd_kind){10, 4, 5, 1, 8};
    want(open_by(kinds, &bad, 1, COLUMNS) == NAVD_OUT_OF_RANGE, "tiles too small for a clear radius");
    want(navd_kinds_open(kinds, &ground, agents, KINDS, &number, 1, spans, COLUMNS) == NAVD_OUT_OF_RANGE, "one cost");
    spans[5] = spans[6];
    want(open_by(kinds, agents, KINDS, COLUMNS) == NAVD_OUT_OF_RANGE, "a span twice");
    spans[5] = (navd_span){SIDE, 0, 0, 10, 63};
    want(open_by(kinds, agents, KINDS, 6) == NAVD_OUT_OF_RANGE, "a span beside the ground");
    spans[5] = kept;
    want(open_by(kinds, many, 16, 0) == NAVD_OK && navd_kinds_count(kinds, 15, &counts) == NAVD_OK && counts.polygons == 0, "sixteen kinds over nothing");
    want(navd_kinds_count(kinds, 16, &counts) == NAVD_OUT_OF_RANGE && navd_kinds_look(&view, kinds, 16, &number) == NAVD_OUT_OF_RANGE, "no such kind");
    navd_kinds_close(kinds);
    navd_view_close(&view);
}

static void play(navd_kinds *kinds) {
    navd_block near = door(0), bad = door(0);
    uint32_t entry = 77, entries[LIMIT + 1], number, kind = 77, tile;
    navd_counts counts;
    want(open_by(kinds, agents, KINDS, COLUMNS) == NAVD_OK, "two kinds");
    want(is_open_for(kinds, GUARD, &number) && is_open_for(kinds, CART, &number) && number == 0, "both pass");
    bad.y1 = 8192;
    want(navd_kinds_add_block(kinds, &bad, 0, &entry) == NAVD_OUT_OF_RANGE && entry == 0, "a number out of range");
    for (int i = 0; i < LIMIT; i++) want(navd_kinds_add_block(kinds, &near, 0, &entries[i]) == NAVD_OK && entries[i] == (uint32_t)i + 1, "one entry of both");
    want(navd_kinds_add_block(kinds, &near, 0, &entry) == NAVD_TOO_MANY && entry == LIMIT + 1, "too many");
    want(navd_kinds_remove(kinds, 99, &entry) == NAVD_DEAD && entry == LIMIT + 2, "there is none");
    for (int i = 1; i < LIMIT; i++) want(navd_kinds_remove(kinds, entries[i], &entry) == NAVD_OK, "all but one go");
    want(navd_kinds_publish(kinds, &kind, &number) == NAVD_SAME && number == 0, "nothing is aimed at");
    want(navd_kinds_aim(kinds, &number) == NAVD_OK && number == entry, "an aim");
    want(navd_kinds_publish(kinds, &kind, &tile) == NAVD_NOT_YET && kind == GUARD && tile == 1, "the first tile of the guard");
    uint32_t before = GUARD;
    while (navd_kinds_step(kinds, &kind, &tile) == NAVD_OK) {
        want(kind >= before && is_open_for(kinds, GUARD, &number) && number == 0, "kind by kind, and nothing is seen");
        before = kind;
    }
    want(before == CART && navd_kinds_publish(kinds, &kind, &number) == NAVD_OK && number == entry, "all is published");
    want(is_open_for(kinds, GUARD, &number) && number == entry && is_open_for(kinds, CART, &number) && number == entry, "the wide gap is open for both");
    navd_prism part = {4, {{28 * 16, 47 * 16}, {36 * 16, 47 * 16}, {36 * 16, 61 * 16}, {28 * 16, 61 * 16}, {0, 0}, {0, 0}}, 0, 100};
    navd_disc round = {32 * 16, 59 * 16, 16, 0, 100};
    navd_cylinder drum = {64, 98, 1, 0, 100};
    want(navd_kinds_add_prism(kinds, &part, 0, &entry) == NAVD_OK && navd_kinds_settle(kinds, &number) == NAVD_OK && number == entry, "a cart in the gap");
    want(!is_open_for(kinds, CART, &number) && !is_open_for(kinds, GUARD, &number), "both stop");
    want(navd_kinds_renew(kinds, entries, 1, &(size_t){0}) == NAVD_NO_ROOM && navd_kinds_put_back_all(kinds) == NAVD_OK, "two numbers");
    size_t many = 0;
    want(navd_kinds_renew(kinds, entries, LIMIT, &many) == NAVD_OK && many == 2 && entries[0] == 1 && entries[1] == entry, "the history begins again");
    want(navd_kinds_remove(kinds, 1, &entry) == NAVD_OK && entry == 3 && navd_kinds_settle(kinds, &number) == NAVD_OK, "the near door goes");
    want(is_open_for(kinds, GUARD, &number) && !is_open_for(kinds, CART, &number), "the narrow gap is too narrow for a cart");
    want(navd_kinds_add_disc(kinds, &round, 0, &entry) == NAVD_OK && navd_kinds_add_cylinder(kinds, &drum, 5, &entry) == NAVD_OK, "a disc and an area");
    want(navd_kinds_renew(kinds, entries, LIMIT, &many) == NAVD_NOT_YET && navd_kinds_settle(kinds, &number) == NAVD_OK, "not all is shown");
    want(navd_kinds_count(kinds, CART, &counts) == NAVD_OK && counts.history == counts.published && counts.tiles == 4, "the counts of a kind");
    navd_kinds_close(kinds);
}

/* Claims, builds and hands in all that is awaited, and publishes it; some jobs are put back, and one that is of another kind is refused. */
static uint32_t build_by_jobs(navd_kinds *kinds) {
    navd_job job = {0};
    uint32_t number, kind = 0, tile, before = 0;
    want(navd_kinds_aim(kinds, &number) == NAVD_OK && navd_kinds_submit(kinds, 0, &job) == NAVD_EMPTY, "an aim");
    while (navd_kinds_claim(kinds, &job, &kind, &tile) == NAVD_OK) {
        want(kind >= before && kind < KINDS, "kind by kind");
        want(navd_kinds_claim(kinds, &job, &kind, &tile) == NAVD_BUSY && navd_kinds_submit(kinds, kind, &job) == NAVD_NOT_YET, "it is not built");
        want(navd_kinds_submit(kinds, KINDS, &job) == NAVD_OUT_OF_RANGE && navd_kinds_put_back(kinds, 1 - kind, &job) == NAVD_FOREIGN, "another kind");
        if (!pick_by(&seed, 3)) {
            want(navd_kinds_put_back(kinds, kind, &job) == NAVD_OK && navd_kinds_put_back(kinds, kind, &job) == NAVD_EMPTY, "it is put back");
            continue;
        }
        want(navd_build(&job) == NAVD_OK && navd_kinds_submit(kinds, 1 - kind, &job) == NAVD_FOREIGN, "it is built");
        want(navd_kinds_submit(kinds, kind, &job) == NAVD_OK, "it is handed in");
        before = kind;
    }
    want(navd_kinds_publish(kinds, &kind, &number) != NAVD_NOT_YET, "all is published");
    navd_job_close(&job);
    return number;
}

static void compare(navd_kinds *kinds, navd_level *levels) {
    for (uint32_t kind = 0; kind < KINDS; kind++) {
        navd_counts told, due;
        navd_view alone = {0};
        uint32_t shown, published;
        want(navd_kinds_count(kinds, kind, &told) == NAVD_OK && navd_count(&levels[kind], &due) == NAVD_OK, "counts");
        want(!memcmp(&told, &due, sizeof told), "a kind is its level alone");
        want(navd_look(&alone, &levels[kind], &published) == NAVD_OK, "a look");
        want(is_open_for(kinds, kind, &shown) == is_open_in(&alone) && shown == published, "and has its ways");
        navd_view_close(&alone);
    }
}

/* The columns x0 to x1 come with their spans, or go. */
static uint32_t load(navd_kinds *kinds, uint32_t x0, uint32_t x1, bool comes) {
    static navd_span some[COLUMNS];
    size_t count = 0;
    for (int at = 0; comes && at < COLUMNS; at++)
        if (spans[at].x >= x0 && spans[at].x <= x1) some[count++] = spans[at];
    return navd_kinds_change_ground(kinds, &(navd_columns){x0, x1, 0, SIDE - 1}, some, count);
}

static void refuse_changes(navd_kinds *kinds) {
    navd_span pair[2] = {spans[1], spans[0]}, high = {0, 0, 0, 8192, 63};
    navd_columns beside = {0, SIDE, 0, 0}, back = {1, 0, 0, 0}, column = {0, 0, 0, 0}, two = {0, 1, 0, 0};
    want(navd_kinds_change_ground(kinds, &beside, pair, 0) == NAVD_OUT_OF_RANGE, "columns beside the ground");
    want(navd_kinds_change_ground(kinds, &back, pair, 0) == NAVD_OUT_OF_RANGE, "a rectangle that runs backwards");
    want(navd_kinds_change_ground(kinds, &column, pair, 1) == NAVD_OUT_OF_RANGE, "a span beside the rectangle");
    want(navd_kinds_change_ground(kinds, &two, pair, 2) == NAVD_OUT_OF_RANGE, "spans out of order");
    want(navd_kinds_change_ground(kinds, &column, &high, 1) == NAVD_OUT_OF_RANGE, "a span that is too high");
}

/* The ground streams: it comes in two blocks, one goes and comes again. Once all is there, each kind is its level alone; what is refused changes nothing. */
static void play_changes(navd_kinds *kinds) {
    navd_level levels[KINDS] = {level_of(GUARD), level_of(CART)};
    navd_block block = door(0);
    uint32_t number, entry, other;
    want(load(kinds, 0, 31, true) == NAVD_EMPTY && open_by(kinds, agents, KINDS, 0) == NAVD_OK && polygons_of(kinds, GUARD) == 0, "nothing is loaded");
    want(load(kinds, 0, 31, true) == NAVD_OK && polygons_of(kinds, GUARD) > 0 && !is_open_for(kinds, GUARD, &number), "one half");
    want(load(kinds, 32, SIDE - 1, true) == NAVD_OK && is_open_for(kinds, GUARD, &number), "and the other");
    compare(kinds, levels);
    refuse_changes(kinds);
    want(navd_kinds_add_block(kinds, &block, 0, &entry) == NAVD_OK && navd_kinds_aim(kinds, &number) == NAVD_OK, "a door");
    want(load(kinds, 0, 31, false) == NAVD_NOT_YET && navd_kinds_settle(kinds, &number) == NAVD_OK && number == entry, "it is not published");
    for (uint32_t kind = 0; kind < KINDS; kind++)
        want(navd_add_block(&levels[kind], &block, 0, &other) == NAVD_OK && navd_settle(&levels[kind], &other) == NAVD_OK && other == number, "and in levels");
    compare(kinds, levels);
    want(load(kinds, 32, SIDE - 1, false) == NAVD_OK && !is_open_for(kinds, CART, &number) && number == entry, "a half goes");
    want(load(kinds, 32, SIDE - 1, true) == NAVD_OK && is_open_for(kinds, CART, &number), "and comes");
    compare(kinds, levels);
    for (uint32_t kind = 0; kind < KINDS; kind++) navd_close(&levels[kind]);
    navd_kinds_close(kinds);
}

static void play_frames(navd_kinds *kinds, uint32_t frames) {
    navd_level levels[KINDS] = {level_of(GUARD), level_of(CART)};
    uint32_t doors[DOORS] = {0}, entry, other, number, builds = 0;
    want(open_by(kinds, agents, KINDS, COLUMNS) == NAVD_OK, "two kinds");
    for (uint32_t frame = 0; frame < frames; frame++) {
        uint32_t place = pick_by(&seed, DOORS);
        navd_block block = door(place);
        uint32_t status = doors[place] ? navd_kinds_remove(kinds, doors[place], &entry) : navd_kinds_add_block(kinds, &block, 0, &entry);
        for (uint32_t kind = 0; kind < KINDS; kind++) {
            uint32_t due = doors[place] ? navd_remove(&levels[kind], doors[place], &other) : navd_add_block(&levels[kind], &block, 0, &other);
            want(due == status && other == entry && status == NAVD_OK, "one answer");
        }
        doors[place] = doors[place] ? 0 : entry;
        if (pick_by(&seed, 4)) continue;
        if (pick_by(&seed, 2)) {
            want(navd_kinds_settle(kinds, &number) == NAVD_OK, "kinds are settled");
        } else {
            number = build_by_jobs(kinds);
        }
        want(number == entry, "all of it");
        for (uint32_t kind = 0; kind < KINDS; kind++) want(navd_settle(&levels[kind], &other) == NAVD_OK && other == number, "and levels");
        compare(kinds, levels);
        builds++;
    }
    for (uint32_t kind = 0; kind < KINDS; kind++) navd_close(&levels[kind]);
    printf("two kinds, %u frames: %u times as two levels alone\n", frames, builds);
}

int main(int argc, char **argv) {
    navd_kinds kinds = {0};
    lay_spans();
    play_rows(&kinds);
    refuse(&kinds);
    play(&kinds);
    play_changes(&kinds);
    play_frames(&kinds, argc > 1 ? (uint32_t)strtoul(argv[1], NULL, 10) : 200);
    navd_kinds_close(&kinds);
    return 0;
}
