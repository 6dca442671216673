/* Threads that build the tiles of a registry while doors move, as a host in C:
 *
 *     workers FRAMES
 *
 * Three workers claim tiles, build them and hand them in; the registry is locked while a tile is claimed and handed in, and not while it is built.
 * The main thread moves, switches, adds and removes doors for FRAMES frames, with an update of no tile in each, which shows what the workers have built.
 * Two readers copy the view that the main thread looks with, and ask their copies. Beside the registry stands another one, which is changed alike and
 * builds all by itself: whenever nothing is pending the two show the same, polygon for polygon, link for link and row for row. It ends with 1 where
 * something is not. */
#define _POSIX_C_SOURCE 200809L

#include <inttypes.h>
#include <pthread.h>
#include <stdatomic.h>

#include "common.h"
#include "gaps.h"

enum { WORKERS = 3, READERS = 2, MOST = 4096, ALL = 0x7fffffff };

static navd_registry registry, alone;
static navd_view view, view_alone;
static pthread_mutex_t lock = PTHREAD_MUTEX_INITIALIZER, on_view = PTHREAD_MUTEX_INITIALIZER; /* on the registry, and on the view */
static atomic_bool is_done;
static atomic_long built, stale, asked;

static void rest(long microseconds) {
    struct timespec time = {0, 1000 * microseconds};
    nanosleep(&time, NULL);
}

/* A worker: now and then it puts a job back, or ends all claims, so that a tile is built twice. */
static void *work(void *number) {
    uint64_t seed = (uintptr_t)number + 7;
    navd_job job = {0};
    while (!atomic_load(&is_done)) {
        uint32_t tile, kind = pick_by(&seed, 40);
        pthread_mutex_lock(&lock);
        uint32_t status = navd_registry_claim(&registry, &job, &tile);
        if (kind == 0) want(navd_registry_put_back_all(&registry) == NAVD_OK, "all claims end");
        pthread_mutex_unlock(&lock);
        if (status == NAVD_SAME) {
            rest(50);
            continue;
        }
        want(status == NAVD_OK && navd_build(&job) == NAVD_OK, "a job is built");
        pthread_mutex_lock(&lock);
        status = kind == 1 ? navd_registry_put_back(&registry, &job) : navd_registry_submit(&registry, &job);
        pthread_mutex_unlock(&lock);
        want(status == NAVD_OK || status == NAVD_STALE, "a job is handed in, or wanted no more");
        if (kind != 1) atomic_fetch_add(status == NAVD_OK ? &built : &stale, 1);
    }
    return NULL;
}

/* A reader: its copy shows no older version than the one before. */
static void *read_on(void *number) {
    navd_view mine = {0};
    (void)number;
    while (!atomic_load(&is_done)) {
        pthread_mutex_lock(&on_view);
        want(navd_view_copy(&mine, &view) == NAVD_OK, "a copy");
        pthread_mutex_unlock(&on_view);
        for (int i = 0; i < 8; i++) is_open_in(&mine);
        atomic_fetch_add(&asked, 8);
    }
    navd_view_close(&mine);
    return NULL;
}

/* Changes a door of both registries. */
static void change(uint64_t *seed, uint64_t *last) {
    static const uint32_t places[] = {8, 48, 20, 32};
    uint32_t what = pick_by(seed, 5), kind = pick_by(seed, 4), z = places[pick_by(seed, 4)];
    uint64_t id = 1 + pick_by(seed, (uint32_t)*last + 1), told = 0, also = 0;
    navd_solid door = door_at(kind, z);
    uint32_t status = 0, due = 0;
    if (what == 0) {
        status = navd_registry_add(&registry, &door, 0, &told);
        due = navd_registry_add(&alone, &door, 0, &also);
        if (told) *last = told;
    } else if (what == 1) {
        status = navd_registry_remove(&registry, id);
        due = navd_registry_remove(&alone, id);
    } else if (what == 2) {
        status = navd_registry_enable(&registry, id, kind & 1);
        due = navd_registry_enable(&alone, id, kind & 1);
    } else {
        status = navd_registry_move(&registry, id, &door);
        due = navd_registry_move(&alone, id, &door);
    }
    want(status == due && told == also, "the two are changed alike");
}

/* The two show the same. */
static void compare(void) {
    static navd_face faces[2][MOST];
    static navd_link links[2][MOST];
    static navd_row rows[2][MOST];
    navd_updated told;
    navd_shown shown;
    uint64_t version;
    size_t count = 0, other = 0;
    want(navd_registry_update(&alone, ALL, &told) == NAVD_OK && !told.pending, "all is built");
    want(navd_registry_look(&view_alone, &alone, &version) == NAVD_OK && navd_view_count(&view_alone, &shown) == NAVD_OK, "a look");
    for (uint32_t tile = 0; tile < shown.tiles; tile++) {
        want(navd_view_polygons(&view, tile, faces[0], MOST, &count) == NAVD_OK &&
                 navd_view_polygons(&view_alone, tile, faces[1], MOST, &other) == NAVD_OK,
             "the polygons of a tile");
        want(count == other && count <= MOST && !memcmp(faces[0], faces[1], count * sizeof **faces), "the same polygons");
        want(navd_view_border_links(&view, tile, links[0], MOST, &count) == NAVD_OK &&
                 navd_view_border_links(&view_alone, tile, links[1], MOST, &other) == NAVD_OK,
             "the links of a tile");
        want(count == other && count <= MOST && !memcmp(links[0], links[1], count * sizeof **links), "the same links");
    }
    want(navd_registry_rows(&registry, rows[0], MOST, &count) == NAVD_OK && navd_registry_rows(&alone, rows[1], MOST, &other) == NAVD_OK, "the rows");
    want(count == other && count <= MOST, "as many rows");
    for (size_t i = 0; i < count; i++)
        want(rows[0][i].id == rows[1][i].id && rows[0][i].enabled == rows[1][i].enabled && rows[0][i].solid.kind == rows[1][i].solid.kind, "the same row");
}

int main(int count, char **words) {
    long frames = count == 2 ? strtol(words[1], NULL, 10) : 0, compared = 0;
    want(frames > 0, "FRAMES is a number above 0");
    navd_level level = open_level(), other = open_level();
    uint64_t seed = 3, last = 0, version = 0;
    navd_updated told = {0};
    pthread_t threads[WORKERS + READERS];
    want(navd_registry_begin(&registry, &level) == NAVD_OK && navd_registry_begin(&alone, &other) == NAVD_OK, "two registries");
    want(navd_registry_look(&view, &registry, &version) == NAVD_OK, "a look");
    for (size_t i = 0; i < WORKERS + READERS; i++)
        want(!pthread_create(&threads[i], NULL, i < WORKERS ? work : read_on, (void *)(uintptr_t)i), "a thread");
    for (long frame = 0; frame < frames || told.pending; frame++) {
        pthread_mutex_lock(&lock);
        if (frame < frames && !pick_by(&seed, 4)) change(&seed, &last);
        want(navd_registry_update(&registry, 0, &told) == NAVD_OK && !told.built, "an update of no tile");
        if (told.published) {
            pthread_mutex_lock(&on_view);
            want(navd_registry_look(&view, &registry, &version) == NAVD_OK && version == told.version, "a look");
            pthread_mutex_unlock(&on_view);
        }
        if (!told.pending) {
            pthread_mutex_lock(&on_view);
            compare();
            pthread_mutex_unlock(&on_view);
            compared++;
        }
        pthread_mutex_unlock(&lock);
        rest(100);
    }
    atomic_store(&is_done, true);
    for (size_t i = 0; i < WORKERS + READERS; i++) want(!pthread_join(threads[i], NULL), "a thread's end");
    want(built > 0 && compared > 0 && asked > 0, "tiles were built by threads, and compared");
    fprintf(stderr, "%ld tiles were handed in by threads, %ld were wanted no more; %ld questions of copies\n", (long)built, (long)stale, (long)asked);
    printf("%d workers and %d readers played %ld frames beside the doors, and all was alike\n", WORKERS, READERS, frames);
    navd_view_close(&view);
    navd_view_close(&view_alone);
    navd_registry_close(&registry);
    navd_registry_close(&alone);
    return 0;
}
