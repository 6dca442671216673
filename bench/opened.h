/* What programs that open one level share: the level and its size, and the text of a file. PROGRAM, a string, is what a message begins with. */
#pragma once

#include <inttypes.h>
#include <stdbool.h>
#include <stdio.h>
#include <stdlib.h>
#include <string.h>

#include "../hosts/c/text.h"
#include "../include/navd.h"

static navd_level level;
static uint32_t width, depth;

static void want(bool holds, const char *what) {
    if (holds) return;
    fprintf(stderr, "%s: %s\n", PROGRAM, what);
    exit(1);
}

/* The text of a file, with a 0 behind it, and its length without that. */
static char *text_of(const char *path, size_t *length) {
    char *text = read_text(path, length);
    want(text != NULL, "no such text");
    return text;
}

/* The number at a place, from 0, of the first line of a text that begins so. */
static inline uint32_t number_of(const char *text, const char *name, int place) {
    const char *line = strstr(text, name);
    uint32_t number = 0;
    want(line != NULL, name);
    line += strlen(name);
    for (int i = 0; i <= place; i++) number = (uint32_t)strtoul(line, (char **)&line, 10);
    return number;
}

/* Opens the level of a field text. */
static inline void open_level(const char *path) {
    size_t length;
    char *text = text_of(path, &length);
    const char *size = strstr(text, "\nsize ");
    want(size && sscanf(size, "\nsize %" SCNu32 " %" SCNu32, &width, &depth) == 2, "no size");
    navd_fault fault;
    want(navd_open(&level, (const uint8_t *)text, length, &fault) == NAVD_OK, "no level");
    free(text);
}
