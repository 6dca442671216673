/* Four reader threads ask views while the main thread changes the level and publishes, as a host in C:
 *
 *     readers TEXT QUESTIONS
 *
 * Each reader asks QUESTIONS questions of a view of its own and looks again after every eight, under a lock that it shares with the main thread.
 * Afterwards a second level is taken through the same requests, and each answer is compared with what that level answers at the length that the
 * answer's view had. The time of the readers alone and beside the changes is written to standard error, and how many times that is. */
#define _POSIX_C_SOURCE 200809L

#include <inttypes.h>
#include <pthread.h>
#include <stdatomic.h>
#include <stdbool.h>
#include <stdio.h>
#include <stdlib.h>
#include <string.h>
#include <time.h>

#include "../../include/navd.h"
#include "common.h"

enum { READERS = 4, MOST_REQUESTS = 4000 };

typedef struct {
    uint32_t length, status;
    uint64_t cost;
    navd_way way;
} answer;

static navd_level level, second;
static pthread_mutex_t lock = PTHREAD_MUTEX_INITIALIZER;
static atomic_int reading;
static uint32_t width, depth;
static navd_block blocks[MOST_REQUESTS];
static uint32_t requests;
static long questions;
static answer *answers[READERS];

static void want(bool holds, const char *what) {
    if (holds) return;
    fprintf(stderr, "%s\n", what);
    exit(1);
}

static void *read_on(void *number) {
    size_t me = (size_t)(uintptr_t)number;
    uint64_t seed = me + 7;
    navd_view view = {0};
    uint32_t length = 0;
    for (long i = 0; i < questions; i++) {
        if (i % 8 == 0) {
            pthread_mutex_lock(&lock);
            want(navd_look(&view, &level, &length) == NAVD_OK, "a look");
            pthread_mutex_unlock(&lock);
        }
        navd_way way = {{(int32_t)pick_by(&seed, 16 * width), (int32_t)pick_by(&seed, 16 * depth)}, 10,
                        {(int32_t)pick_by(&seed, 16 * width), (int32_t)pick_by(&seed, 16 * depth)}, 10};
        navd_link links[64];
        navd_turn turns[64];
        navd_path path = {0};
        uint32_t status = navd_view_find_path(&view, &way, links, 64, turns, 64, &path);
        answers[me][i] = (answer){length, status, status == NAVD_OK ? path.cost : 0, way};
    }
    /* under the lock for the checks of data races alone: they do not see the counts of owners inside the library */
    pthread_mutex_lock(&lock);
    navd_view_close(&view);
    pthread_mutex_unlock(&lock);
    atomic_fetch_sub(&reading, 1);
    return NULL;
}

static double elapsed(void) {
    struct timespec now;
    clock_gettime(CLOCK_MONOTONIC, &now);
    return (double)now.tv_sec + (double)now.tv_nsec / 1e9;
}

/* A request with its settle: a block put up, or every other time the one before taken away. */
static void change(navd_level *of, uint32_t number) {
    uint32_t entry, published;
    if (number % 2)
        want(navd_remove(of, number, &entry) == NAVD_OK, "a remove");
    else
        want(navd_add_block(of, &blocks[number], 0, &entry) == NAVD_OK, "an add");
    want(navd_settle(of, &published) == NAVD_OK && published == number + 1, "a settle");
}

static double run_readers(bool with_changes) {
    pthread_t threads[READERS];
    double start = elapsed();
    reading = READERS;
    for (size_t i = 0; i < READERS; i++) want(!pthread_create(&threads[i], NULL, read_on, (void *)(uintptr_t)i), "a thread");
    while (with_changes && requests < MOST_REQUESTS && (reading || requests < 40)) {
        pthread_mutex_lock(&lock);
        change(&level, requests++);
        pthread_mutex_unlock(&lock);
        struct timespec rest = {0, 200000};
        nanosleep(&rest, NULL);
    }
    for (size_t i = 0; i < READERS; i++) want(!pthread_join(threads[i], NULL), "a thread's end");
    return elapsed() - start;
}

/* Every answer is that of the second level at the length that it names. */
static void compare(void) {
    for (uint32_t length = 0;; length++) {
        for (size_t reader = 0; reader < READERS; reader++)
            for (long i = 0; i < questions; i++) {
                answer *told = &answers[reader][i];
                navd_link links[1];
                navd_turn turns[1];
                navd_path path = {0};
                if (told->length != length) continue;
                uint32_t status = navd_find_path(&second, &told->way, links, 0, turns, 0, &path);
                want(status == told->status && (status != NAVD_OK || path.cost == told->cost), "an answer of another length");
            }
        if (length == requests) return;
        change(&second, length);
    }
}

int main(int argc, char **words) {
    static uint8_t text[1 << 24];
    FILE *file = argc == 3 ? fopen(words[1], "rb") : NULL;
    if (!file) return 2;
    size_t size = fread(text, 1, sizeof text - 1, file);
    fclose(file);
    char *line = strstr((char *)text, "\nsize ");
    want(line && sscanf(line, "\nsize %" SCNu32 " %" SCNu32, &width, &depth) == 2, "a size");
    questions = atol(words[2]);
    uint64_t seed = 3;
    navd_fault fault;
    want(navd_open(&level, text, size, &fault) == NAVD_OK && navd_open(&second, text, size, &fault) == NAVD_OK, "an open");
    for (size_t i = 0; i < MOST_REQUESTS; i++) {
        uint32_t x = pick_by(&seed, width), z = pick_by(&seed, depth);
        uint32_t to_x = x + pick_by(&seed, 3), to_z = z + pick_by(&seed, 3);
        blocks[i] = (navd_block){x, to_x < 1023 ? to_x : 1023, 0, 100, z, to_z < 1023 ? to_z : 1023};
    }
    for (size_t i = 0; i < READERS; i++) want((answers[i] = calloc((size_t)questions, sizeof(answer))) != NULL, "memory");
    double alone = run_readers(false), beside = run_readers(true);
    compare();
    fprintf(stderr, "readers alone %.3f s, beside %" PRIu32 " changes %.3f s, %.2f times\n", alone, requests, beside, beside / alone);
    printf("%ld answers of %d readers, each right at its length\n", questions * READERS, READERS);
    for (size_t i = 0; i < READERS; i++) free(answers[i]);
    navd_close(&level);
    navd_close(&second);
    return 0;
}
