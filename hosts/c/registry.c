/* Doors that move, as a host in C that keeps them by ids:
 *
 *     registry FRAMES
 *
 * First a level in which an agent has to pass one of two doors: they are added, moved, switched off and on and removed, each change is seen once it is
 * published and not before, and each call ends with the status of what is against it. The same with tiles that are claimed and handed in, and with a view
 * that is copied. Next a door is moved more often than a history has entries.
 * Then, for FRAMES frames, doors are added, moved, switched, marked and removed at random, with jobs and updates of few tiles between, and all of them are
 * saved and restored; beside the registry stands a table of what each door is, and after each frame the rows, the version, and, once nothing is pending,
 * the ways through the doors have to be as the table says. It ends with 1 where something is not. */
#define _POSIX_C_SOURCE 200809L

#include <inttypes.h>

#include "common.h"
#include "gaps.h"

enum { KEPT = 64, ALL = 0x7fffffff, JOBS = 3 };

static uint64_t seed = 1;
static navd_registry registry;
static navd_view view;

static uint32_t pick(uint32_t below) {
    return pick_by(&seed, below);
}

static navd_updated update(uint32_t most) {
    navd_updated told;
    want(navd_registry_update(&registry, most, &told) == NAVD_OK, "an update");
    return told;
}

/* Whether a way leads through the wall in what is shown, and the version. */
static bool is_open(uint64_t *version) {
    want(navd_registry_look(&view, &registry, version) == NAVD_OK, "a look");
    return is_open_in(&view);
}

/* What is saved, of no more rows than are kept: 48 bytes, 84 for each row, 4 for each that is on. */
enum { HEAD = 48, ROW = 84, ON = 4, LAST = 24, ROWS = 40, SAVED = HEAD + KEPT * (ROW + ON) };

static size_t save(uint8_t *bytes) {
    size_t length = 0;
    want(navd_registry_save(&registry, bytes, SAVED, &length) == NAVD_OK && length <= SAVED, "it is saved");
    return length;
}

/* Whether two savings are of the same obstacles: all but the last id and the version is the same. */
static bool are_alike(const uint8_t *one, const uint8_t *other, size_t length) {
    return !memcmp(one, other, LAST) && !memcmp(one + ROWS, other + ROWS, length - ROWS);
}

/* A registry with LIMIT rows that are on, and one that is off, is saved and restored; what else is tried is refused, and changes nothing. */
static void play_saves(navd_level *none) {
    static uint8_t bytes[SAVED], again[SAVED + 1], bad[SAVED];
    navd_registry other = {0};
    uint64_t id, version;
    size_t length = 77, size = HEAD + (LIMIT + 1) * ROW + LIMIT * ON;
    want(navd_registry_begin(&other, none) == NAVD_EMPTY && navd_registry_save(&other, bytes, SAVED, &length) == NAVD_EMPTY, "nothing is saved");
    want(length == 77 && navd_registry_restore(&other, bytes, 0) == NAVD_EMPTY, "nothing is restored");
    memset(again, 7, sizeof again);
    want(navd_registry_save(&registry, again, size - 1, &length) == NAVD_NO_ROOM && length == size && again[0] == 7, "a byte too little");
    want(navd_registry_save(&registry, again, 0, &length) == NAVD_NO_ROOM && length == size, "no room");
    want(navd_registry_save(&registry, again, SAVED, &length) == NAVD_OK && length == size && again[size] == 7, "no byte more");
    want(save(bytes) == size && !memcmp(bytes, again, size), "the same twice");

    navd_updated told = update(ALL);
    version = told.version;
    want(navd_registry_remove(&registry, 4) == NAVD_OK && navd_registry_enable(&registry, 3, 1) == NAVD_OK, "changes after it");
    want(navd_registry_restore(&registry, bytes, size) == NAVD_OK, "it is restored");
    want(save(again) == size && are_alike(bytes, again, size), "as it was");
    told = update(ALL);
    want(told.version == version + 1 + told.published, "a version more");
    want(navd_registry_enable(&registry, 3, 1) == NAVD_TOO_MANY && navd_registry_remove(&registry, 4) == NAVD_OK, "the rows that were");
    want(navd_registry_add(&registry, &(navd_solid){.kind = 1}, 0, &id) == NAVD_OK && id == LIMIT + 3, "no id comes again");
    want(navd_registry_remove(&registry, id) == NAVD_OK && save(again) == size - ROW - ON, "one less");

    for (size_t cut = 0; cut < size; cut++) want(navd_registry_restore(&registry, bytes, cut) == NAVD_NOT_SAVED, "bytes that end too soon");
    for (size_t at = 0; at < HEAD; at++) {
        if (at >= LAST && at < ROWS) continue; /* other ids and versions are as good */
        memcpy(bad, bytes, size);
        bad[at] ^= 0x80;
        uint32_t due = at < 8 || at >= ROWS ? NAVD_NOT_SAVED : NAVD_FOREIGN;
        want(navd_registry_restore(&registry, bad, size) == due, "bytes of another kind, or field");
    }
    memcpy(bad, bytes, size);
    memset(bad + 32, 0xff, 8);
    want(navd_registry_restore(&registry, bad, size) == NAVD_TOO_MANY, "all versions were shown");
    memcpy(bad, bytes, size);
    memcpy(bad + size - 4, bad + size - 8, 4);
    want(navd_registry_restore(&registry, bad, size) == NAVD_NOT_SAVED, "one row is on twice");
    want(save(bad) == size - ROW - ON && !memcmp(again, bad, size - ROW - ON), "nothing has changed");
}

static void play(void) {
    navd_level level = {0};
    uint64_t id = 77, version = 77;
    navd_updated told;
    navd_row rows[KEPT];
    size_t count = 77;
    navd_solid near = door_at(0, 8), far = door_at(2, 48), bad = door_at(0, 8);
    bad.block.y1 = 8192;

    want(navd_registry_begin(&registry, &level) == NAVD_EMPTY, "no registry of nothing");
    want(navd_registry_add(&registry, &bad, 1, &id) == NAVD_OUT_OF_RANGE && id == 77, "a number out of range before all others");
    want(navd_registry_add(&registry, &near, 1, &id) == NAVD_EMPTY && id == 77, "nothing is added to nothing");
    want(navd_registry_update(&registry, 1, &told) == NAVD_EMPTY, "nothing is updated");
    level = open_level();
    uint32_t entry;
    want(navd_add_block(&level, &near.block, 0, &entry) == NAVD_OK && navd_registry_begin(&registry, &level) == NAVD_BUSY, "a level with obstacles");
    want(navd_remove(&level, entry, &entry) == NAVD_OK && navd_registry_begin(&registry, &level) == NAVD_OK, "a level without them");
    want(navd_registry_begin(&registry, &level) == NAVD_EMPTY, "the level went over");
    want(is_open(&version) && version == 0, "the first version");

    want(navd_registry_add(&registry, &near, 11, &id) == NAVD_OK && id == 1, "the first id");
    want(navd_registry_add(&registry, &far, 12, &id) == NAVD_OK && id == 2, "the second id");
    want(is_open(&version) && version == 0, "nothing is seen before it is published");
    told = update(1);
    want(told.built == 1 && !told.published && told.pending && told.version == 0, "one tile of some");
    for (int i = 0; told.pending; i++) {
        told = update(1);
        want(i < 64, "updates come to an end");
    }
    want(told.published && told.version == 1 && !is_open(&version) && version == 1, "both doors stop");
    told = update(ALL);
    want(!told.built && !told.published && !told.pending && told.version == 1, "nothing to do");

    want(navd_registry_enable(&registry, 2, 0) == NAVD_OK && navd_registry_enable(&registry, 2, 0) == NAVD_SAME, "off, and off already");
    want(navd_registry_mark(&registry, 2, 120) == NAVD_OK && navd_registry_mark(&registry, 3, 0) == NAVD_NO_OBSTACLE, "marks");
    told = update(ALL);
    want(told.published && told.version == 2 && is_open(&version) && version == 2, "the far door is open");
    want(navd_registry_rows(&registry, rows, KEPT, &count) == NAVD_OK && count == 2, "two rows");
    want(rows[0].id == 1 && rows[0].user == 11 && rows[0].enabled == 1 && rows[0].solid.kind == 0, "the first row");
    want(rows[1].id == 2 && rows[1].user == 120 && rows[1].enabled == 0 && rows[1].solid.kind == 2, "the second row");
    want(!memcmp(&rows[0].solid.block, &near.block, sizeof near.block) && rows[0].solid.prism.corners == 0 && rows[0].solid.disc.r == 0, "the block");
    want(!memcmp(&rows[1].solid.prism, &far.prism, sizeof far.prism) && rows[1].solid.block.x1 == 0, "the prism");
    count = 77;
    want(navd_registry_rows(&registry, rows, 0, &count) == NAVD_OK && count == 2, "rows without room");

    want(navd_registry_move(&registry, 1, &far) == NAVD_OK && navd_registry_move(&registry, 9, &far) == NAVD_NO_OBSTACLE, "a move");
    want(navd_registry_move(&registry, 1, &bad) == NAVD_OUT_OF_RANGE, "a move out of range");
    told = update(ALL);
    want(told.published && told.version == 3 && is_open(&version), "the near door went to the far gap");
    far = door_at(3, 8);
    want(navd_registry_move(&registry, 2, &far) == NAVD_OK && navd_registry_enable(&registry, 2, 1) == NAVD_OK, "moved while it was off, and on");
    told = update(ALL);
    want(told.published && told.version == 4 && !is_open(&version), "both gaps are shut");
    want(navd_registry_remove(&registry, 1) == NAVD_OK && navd_registry_remove(&registry, 1) == NAVD_NO_OBSTACLE, "it is gone");
    for (int i = 0; i < LIMIT - 1; i++) want(navd_registry_add(&registry, &near, 0, &id) == NAVD_OK && id == (uint64_t)(3 + i), "an id is given once");
    want(navd_registry_add(&registry, &near, 0, &id) == NAVD_TOO_MANY && id == 2 + LIMIT - 1, "as many as may be on");
    want(navd_registry_enable(&registry, 3, 0) == NAVD_OK && navd_registry_add(&registry, &near, 0, &id) == NAVD_OK, "one is off, and another one on");
    want(navd_registry_enable(&registry, 3, 1) == NAVD_TOO_MANY, "it is not switched on beside the others");
    play_saves(&level);
    navd_registry_close(&registry);
    navd_registry_close(&registry);
    want(navd_registry_mark(&registry, 2, 0) == NAVD_EMPTY && navd_registry_rows(&registry, rows, KEPT, &count) == NAVD_EMPTY, "it is closed");
    want(navd_registry_look(&view, &registry, &version) == NAVD_EMPTY, "there is nothing to look at");
    navd_view_close(&view);
    navd_close(&level);
}

/* Tiles that are claimed: none before an update aims, and what is handed in is shown by the next one. */
static void play_jobs(void) {
    navd_level level = open_level(), other = open_level();
    navd_registry another = {0};
    navd_job job = {0}, late = {0};
    navd_view copy = {0};
    navd_solid near = door_at(0, 8), far = door_at(1, 48);
    uint64_t id, version = 0;
    uint32_t tile = 77, again;
    want(navd_registry_claim(&registry, &job, &tile) == NAVD_EMPTY && tile == 77, "a claim of nothing");
    want(navd_registry_submit(&registry, &job) == NAVD_EMPTY && navd_registry_put_back(&registry, &job) == NAVD_EMPTY, "nothing goes into nothing");
    want(navd_registry_put_back_all(&registry) == NAVD_EMPTY, "no claims of nothing");
    want(navd_registry_begin(&registry, &level) == NAVD_OK && navd_registry_begin(&another, &other) == NAVD_OK, "two registries");
    want(navd_registry_submit(&registry, &job) == NAVD_EMPTY && navd_registry_put_back(&registry, &job) == NAVD_EMPTY, "no job");
    want(navd_registry_add(&registry, &near, 1, &id) == NAVD_OK && navd_registry_add(&registry, &far, 2, &id) == NAVD_OK, "two doors");
    want(navd_registry_claim(&registry, &job, &tile) == NAVD_SAME && tile == 77, "nothing is aimed at yet");
    navd_updated told = update(0);
    want(!told.built && !told.published && told.pending, "an update of no tile aims");
    want(navd_registry_claim(&registry, &job, &tile) == NAVD_OK && tile != 77, "a claim");
    want(navd_registry_claim(&registry, &job, &again) == NAVD_BUSY, "a handle that holds a job");
    want(navd_registry_submit(&registry, &job) == NAVD_NOT_YET, "a job that is not built");
    want(navd_registry_put_back(&registry, &job) == NAVD_OK && navd_registry_put_back(&registry, &job) == NAVD_EMPTY, "it is put back");
    want(navd_registry_claim(&registry, &late, &again) == NAVD_OK && again == tile, "the same tile is given again");
    want(navd_build(&late) == NAVD_OK && navd_registry_submit(&another, &late) == NAVD_STALE, "where the ground is the same it is wanted or not");
    told = update(ALL);
    want(told.built && !told.published && told.pending && told.version == 0, "a tile that is claimed is passed by");
    want(navd_registry_put_back_all(&registry) == NAVD_OK && navd_registry_claim(&registry, &late, &again) == NAVD_OK && again == tile, "claims end");
    want(navd_build(&late) == NAVD_OK && navd_registry_submit(&registry, &late) == NAVD_OK, "it is handed in");
    told = update(0);
    want(!told.built && told.published && !told.pending && told.version == 1, "and shown by the next update");
    want(!is_open(&version) && version == 1, "both doors stop");

    want(navd_registry_remove(&registry, 2) == NAVD_OK, "one goes");
    told = update(0);
    want(!told.published && told.pending && navd_registry_claim(&registry, &job, &tile) == NAVD_OK && navd_build(&job) == NAVD_OK, "a tile of it");
    want(navd_registry_put_back_all(&registry) == NAVD_OK && update(ALL).published, "built by another one");
    want(navd_registry_submit(&registry, &job) == NAVD_STALE && navd_build(&job) == NAVD_EMPTY, "it is wanted no more");
    want(navd_view_copy(&copy, &view) == NAVD_OK && !is_open_in(&copy), "a copy of what was shown before");
    want(is_open(&version) && version == 2 && !is_open_in(&copy), "the copy stays");
    want(navd_view_copy(&copy, &view) == NAVD_OK && is_open_in(&copy), "it is brought up to the view");
    navd_view_close(&view);
    want(navd_view_copy(&copy, &view) == NAVD_EMPTY && is_open_in(&copy), "no copy of nothing");
    navd_view_close(&copy);

    navd_level third = {0};
    navd_fault fault;
    static const char small[] = "nav 1\nsize 16 16\ntile 16\nagent 10 4 1\nerror 49\nmesh contours\nlimit 8\nspan 0 0 0 10 63\nend\n";
    want(navd_open(&third, (const uint8_t *)small, sizeof small - 1, &fault) == NAVD_OK, "a level of one tile");
    want(navd_registry_add(&registry, &far, 2, &id) == NAVD_OK && !update(0).published, "a door again");
    want(navd_registry_claim(&registry, &job, &tile) == NAVD_OK, "a claim of a tile of it");
    want(navd_submit(&third, &job) == NAVD_FOREIGN && navd_put_back(&third, &job) == NAVD_FOREIGN, "another ground");
    navd_registry_close(&another);
    want(navd_registry_begin(&another, &third) == NAVD_OK && navd_registry_submit(&another, &job) == NAVD_FOREIGN, "and in a registry");
    want(navd_registry_put_back(&another, &job) == NAVD_FOREIGN && navd_build(&job) == NAVD_OK, "the job stays");
    navd_registry_close(&registry);
    navd_job_close(&job);
    navd_registry_close(&another);
}

/* More entries than a history may have: it begins again by itself, and ids, rows, versions and ways go on. */
static void play_long(void) {
    enum { MOVES = 70000, ROUNDS = 4 };
    navd_level level = open_level();
    navd_solid near = door_at(0, 8), far = door_at(2, 48), aside = door_at(3, 32);
    uint64_t id, version;
    navd_row rows[KEPT];
    size_t count;
    want(navd_registry_begin(&registry, &level) == NAVD_OK, "a registry");
    want(navd_registry_add(&registry, &aside, 1, &id) == NAVD_OK && navd_registry_add(&registry, &near, 2, &id) == NAVD_OK, "two of them");
    want(navd_registry_add(&registry, &far, 3, &id) == NAVD_OK && navd_registry_remove(&registry, 1) == NAVD_OK && id == 3, "the first goes");
    for (int round = 0; round < ROUNDS; round++) {
        for (int i = 0; i < MOVES; i++) want(navd_registry_move(&registry, 2, i % 2 ? &near : &aside) == NAVD_OK, "a move of many");
        navd_updated told = update(ALL);
        want(told.published && !told.pending && told.version == (uint64_t)round * 2 + 1 && !is_open(&version), "both gaps are shut");
        want(navd_registry_enable(&registry, 3, 0) == NAVD_OK && update(ALL).published && is_open(&version), "the far one is open");
        want(navd_registry_enable(&registry, 3, 1) == NAVD_OK && version == (uint64_t)round * 2 + 2, "and is switched on");
        want(navd_registry_rows(&registry, rows, KEPT, &count) == NAVD_OK && count == 2 && rows[0].id == 2 && rows[1].id == 3, "the rows go on");
    }
    want(navd_registry_add(&registry, &aside, 4, &id) == NAVD_OK && id == 4, "the next id");
    navd_view_close(&view);
    navd_registry_close(&registry);
}

/* What is to be in the registry, by rising ids. */
typedef struct {
    uint64_t id, user;
    bool is_on;
    uint32_t kind, z;
} door;

static door doors[KEPT];
static size_t kept, on;
static uint64_t last;

static uint32_t gap(void) {
    static const uint32_t places[] = {8, 48, 20, 32};
    return places[pick(4)];
}

static void change(void) {
    uint32_t kind = pick(4), z = gap(), what = pick(6);
    navd_solid solid = door_at(kind, z);
    size_t which = kept ? pick((uint32_t)kept) : 0;
    door *it = &doors[which];
    uint64_t id = 0;
    if (what == 0 && kept < KEPT) {
        uint32_t status = navd_registry_add(&registry, &solid, last, &id);
        want(status == (on == LIMIT ? NAVD_TOO_MANY : NAVD_OK), "an add");
        if (status) return;
        doors[kept++] = (door){id, last, true, kind, z};
        want(id == ++last, "the next id");
        on++;
    }
    if (!kept) return;
    if (what == 1) {
        want(navd_registry_remove(&registry, it->id) == NAVD_OK, "a remove");
        on -= it->is_on;
        memmove(it, it + 1, (--kept - which) * sizeof *it);
    }
    if (what == 2 || what == 3) {
        want(navd_registry_move(&registry, it->id, &solid) == NAVD_OK, "a move");
        it->kind = kind;
        it->z = z;
    }
    if (what == 4) {
        uint32_t due = it->is_on ? NAVD_OK : on == LIMIT ? NAVD_TOO_MANY : NAVD_OK;
        want(navd_registry_enable(&registry, it->id, !it->is_on) == due, "a switch");
        if (due) return;
        it->is_on = !it->is_on;
        on += it->is_on ? 1 : (size_t)-1;
    }
    if (what == 5) want(navd_registry_mark(&registry, it->id, it->user = pick(1000)) == NAVD_OK, "a mark");
}

static navd_job jobs[JOBS];
static bool is_held[JOBS];
static long handed_in;

/* Jobs that are claimed, built, and handed in or put back in this frame or in a later one. */
static void work(void) {
    for (size_t i = 0; i < JOBS; i++) {
        uint32_t tile, status;
        if (!is_held[i]) {
            status = navd_registry_claim(&registry, &jobs[i], &tile);
            want(status == NAVD_OK || status == NAVD_SAME, "a claim");
            is_held[i] = status == NAVD_OK;
            if (status == NAVD_OK) want(navd_build(&jobs[i]) == NAVD_OK, "a build");
        } else if (pick(3)) {
            status = pick(4) ? navd_registry_submit(&registry, &jobs[i]) : navd_registry_put_back(&registry, &jobs[i]);
            want(status == NAVD_OK || status == NAVD_STALE, "a job's end");
            is_held[i] = false;
            handed_in += status == NAVD_OK;
        }
    }
    if (!pick(40)) want(navd_registry_put_back_all(&registry) == NAVD_OK, "all claims end");
}

/* What was saved, and the table of then. */
typedef struct {
    uint8_t bytes[SAVED];
    size_t length, kept, on;
    uint64_t last, version;
    door doors[KEPT];
} saving;

static saving savings[4];

/* Saves the doors, or brings back those of a saving; the version is then one more than the greater. */
static void save_or_restore(uint64_t *version) {
    static uint8_t again[SAVED];
    saving *it = &savings[pick(4)];
    if (pick(2) || !it->length) {
        it->length = save(it->bytes);
        want(it->length == HEAD + kept * ROW + on * ON, "as many bytes as it has rows");
        it->kept = kept, it->on = on, it->last = last, it->version = *version;
        memcpy(it->doors, doors, sizeof doors);
        return;
    }
    want(navd_registry_restore(&registry, it->bytes, it->length) == NAVD_OK, "a saving is brought back");
    want(save(again) == it->length && are_alike(it->bytes, again, it->length), "the saving of then");
    kept = it->kept, on = it->on;
    if (it->last > last) last = it->last;
    *version = (*version > it->version ? *version : it->version) + 1;
    memcpy(doors, it->doors, sizeof doors);
}

static void compare(navd_updated told, uint64_t *before) {
    navd_row rows[KEPT];
    size_t count;
    uint64_t version;
    want(navd_registry_rows(&registry, rows, KEPT, &count) == NAVD_OK && count == kept, "as many rows as doors");
    for (size_t i = 0; i < kept; i++) {
        want(rows[i].id == doors[i].id && rows[i].user == doors[i].user, "an id and a number of the host's");
        want(rows[i].enabled == doors[i].is_on && rows[i].solid.kind == doors[i].kind, "a row as the table has it");
    }
    want(told.version == *before + told.published, "the version counts what is shown");
    *before = told.version;
    if (told.pending) return;
    bool shut[2] = {false, false};
    for (size_t i = 0; i < kept; i++) {
        shut[0] |= doors[i].is_on && doors[i].z == 8;
        shut[1] |= doors[i].is_on && doors[i].z == 48;
    }
    want(is_open(&version) == !(shut[0] && shut[1]) && version == told.version, "the way is open where a gap is");
}

int main(int count, char **words) {
    long frames = count == 2 ? strtol(words[1], NULL, 10) : 0;
    want(frames > 0, "FRAMES is a number above 0");
    play();
    play_jobs();
    play_long();
    navd_level level = open_level();
    want(navd_registry_begin(&registry, &level) == NAVD_OK, "a registry");
    uint64_t version = 0;
    long shown = 0;
    for (long frame = 0; frame < frames; frame++) {
        for (uint32_t changes = pick(3); changes; changes--) change();
        if (!pick(8)) save_or_restore(&version);
        if (pick(2)) work();
        navd_updated told = update(pick(4) ? pick(6) : ALL);
        shown += !told.pending;
        compare(told, &version);
    }
    want(handed_in && shown, "jobs were handed in, and nothing was pending");
    printf("a registry played %ld frames: %" PRIu64 " versions, %ld times nothing was pending, %" PRIu64 " ids, %ld jobs ended\n", frames, version, shown,
           last, handed_in);
    for (size_t i = 0; i < JOBS; i++) navd_job_close(&jobs[i]);
    navd_view_close(&view);
    navd_registry_close(&registry);
    return 0;
}
