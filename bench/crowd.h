/* What bench/crowd.c and bench/crowd_peer.cpp tell of a run, from where agents are before and after each step. Lengths are in cells. */
#pragma once

#include <math.h>
#include <stdio.h>
#include <stdlib.h>
#include <string.h>

#ifdef COUNTED
#include <valgrind/callgrind.h>
#define COUNT_ON CALLGRIND_START_INSTRUMENTATION
#define COUNT_OFF CALLGRIND_STOP_INSTRUMENTATION
#define COUNT_TOLD(name) CALLGRIND_DUMP_STATS_AT(name)
#else
#define COUNT_ON
#define COUNT_OFF
#define COUNT_TOLD(name)
#endif

enum { MOST_AGENTS = 1024, STEPS_A_SECOND = 20 };
static const double RADIUS = 2, SPEED = 10, ARRIVES = 2; /* cells, cells a second, and how near its goal an agent has arrived */
static const double SLACK = 0.75 / 256;

typedef struct {
    double x, z;
} spot;

typedef struct {
    int count, has_door;
    double door;
    spot start[MOST_AGENTS], goal[MOST_AGENTS];
} scene;

typedef struct {
    int overlaps, arrived, passed;
    long fast, off, moves, standing;
    double last, first_passed, last_passed;
    unsigned char met[MOST_AGENTS][MOST_AGENTS], has_passed[MOST_AGENTS];
} outcome;

static void read_scene(const char *path, scene *it) {
    FILE *file = fopen(path, "r");
    char word[32];
    int sx, sz, gx, gz;
    if (!file || fscanf(file, "door %31s", word) != 1) fprintf(stderr, "no scene\n"), exit(1);
    it->has_door = strcmp(word, "-") != 0;
    it->door = atof(word);
    it->count = 0;
    while (it->count < MOST_AGENTS && fscanf(file, "%d %d %d %d", &sx, &sz, &gx, &gz) == 4) {
        it->start[it->count].x = sx / 16.0, it->start[it->count].z = sz / 16.0;
        it->goal[it->count].x = gx / 16.0, it->goal[it->count].z = gz / 16.0;
        it->count++;
    }
    fclose(file);
}

/* The square of the least distance of two agents during a step in which each goes straight and evenly. */
static double nearest(spot a, spot a_after, spot b, spot b_after) {
    double x = b.x - a.x, z = b.z - a.z, vx = b_after.x - a_after.x - x, vz = b_after.z - a_after.z - z, v = vx * vx + vz * vz;
    double at = v > 0 ? -(x * vx + z * vz) / v : 0;
    at = at < 0 ? 0 : at > 1 ? 1 : at;
    return (x + at * vx) * (x + at * vx) + (z + at * vz) * (z + at * vz);
}

/* Adds what a step does to the agents that are there. */
static void add_step(outcome *told, const scene *it, const int *there, int count, const spot *before, const spot *after, double time) {
    for (int i = 0; i < count; i++) {
        double x = after[i].x - before[i].x, z = after[i].z - before[i].z, far = sqrt(x * x + z * z);
        told->moves++;
        told->standing += far < SPEED / STEPS_A_SECOND / 8;
        told->fast += far > SPEED / STEPS_A_SECOND + SLACK;
        for (int j = 0; j < i; j++)
            if (nearest(before[i], after[i], before[j], after[j]) < (2 * RADIUS - SLACK) * (2 * RADIUS - SLACK)) told->met[there[i]][there[j]] = 1;
        int begun_behind = it->start[there[i]].x > it->door;
        if (it->has_door && !told->has_passed[there[i]] && (after[i].x > it->door) != begun_behind) {
            told->has_passed[there[i]] = 1;
            if (!told->passed++) told->first_passed = time;
            told->last_passed = time;
        }
    }
}

static int has_arrived(const scene *it, int agent, spot at) {
    double x = at.x - it->goal[agent].x, z = at.z - it->goal[agent].z;
    return x * x + z * z <= ARRIVES * ARRIVES;
}

/* overlapping pairs, moves off the mesh, moves that are too fast, agents, those left behind, the last arrival, passed a minute, moves, those that stand */
static void tell(outcome *told, const scene *it) {
    for (int i = 0; i < it->count; i++)
        for (int j = 0; j < it->count; j++) told->overlaps += told->met[i][j];
    double flow = told->passed > 1 ? (told->passed - 1) / (told->last_passed - told->first_passed) * 60 : 0;
    printf("%d %ld %ld %d %d %.2f %.1f %ld %ld\n", told->overlaps, told->off, told->fast, it->count, it->count - told->arrived, told->last, flow, told->moves,
           told->standing);
}
