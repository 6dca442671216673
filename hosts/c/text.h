/* The text of a file. */
#pragma once

#include <stdio.h>
#include <stdlib.h>

/* The text of a file, with a 0 behind it, and its length without that; NULL where it cannot be read. */
static inline char *read_text(const char *path, size_t *length) {
    FILE *file = fopen(path, "rb");
    if (!file) return NULL;
    long size = fseek(file, 0, SEEK_END) ? -1 : ftell(file);
    char *text = size < 0 ? NULL : malloc((size_t)size + 1);
    rewind(file);
    if (text && fread(text, 1, (size_t)size, file) != (size_t)size) {
        free(text);
        text = NULL;
    }
    if (text) text[*length = (size_t)size] = 0;
    fclose(file);
    return text;
}
