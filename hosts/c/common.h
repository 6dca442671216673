/* What the programs here and under bench/ share: numbers that a state determines, and the processor time. A file that includes it asks for the clock
 * of POSIX first: #define _POSIX_C_SOURCE 200809L. */
#ifndef NAVD_COMMON_H
#define NAVD_COMMON_H

#include <stdint.h>
#include <time.h>

/* The next number of a state, from 0 to below - 1. */
static inline uint32_t pick_by(uint64_t *seed, uint32_t below) {
    *seed = *seed * 6364136223846793005u + 1442695040888963407u;
    return (uint32_t)((*seed >> 33) % below);
}

/* The processor time of the process, in seconds. */
static inline double seconds(void) {
    struct timespec now;
    clock_gettime(CLOCK_PROCESS_CPUTIME_ID, &now);
    return (double)now.tv_sec + (double)now.tv_nsec / 1e9;
}

#endif
