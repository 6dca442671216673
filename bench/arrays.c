/* Times the opening of one level from arrays beside that from its triangle text:
 *
 *     arrays TEXT KIND
 *
 * TEXT is a triangle text. KIND is `text`, `arrays` or `soup`: triangles of arrays share their vertices, as those of a game's mesh do, and those of a soup
 * have three of their own. Vertices are in cells. A line is written: the kind, and the nanoseconds of processor time of the opening. */
#define _POSIX_C_SOURCE 200809L


#define PROGRAM "arrays"
#include "opened.h"
#include "../hosts/c/common.h"

static float *vertices;
static uint32_t *slots, slot_count, vertex_count;

/* The number of a vertex: of an equal one where there is one and they are shared, else the next. Slots hold numbers from 1; their count is a power of two. */
static uint32_t vertex_of(const float at[3], int shared) {
    uint32_t bits[3], slot;
    memcpy(bits, at, sizeof bits);
    for (slot = (bits[0] * 73856093u ^ bits[1] * 19349663u ^ bits[2] * 83492791u) * 2654435761u & (slot_count - 1); shared && slots[slot]; slot = (slot + 1) & (slot_count - 1))
        if (!memcmp(vertices + 3 * (slots[slot] - 1), at, sizeof bits)) return slots[slot] - 1;
    memcpy(vertices + 3 * vertex_count, at, sizeof bits);
    if (shared) slots[slot] = vertex_count + 1;
    return vertex_count++;
}

int main(int count, char **words) {
    want(count == 3, "usage: arrays TEXT text | arrays | soup");
    size_t length, corners = 0;
    char *text = text_of(words[1], &length);
    for (slot_count = 1; slot_count < length; slot_count *= 2) continue;
    vertices = malloc(3 * length * sizeof *vertices);
    slots = calloc(slot_count, sizeof *slots);
    uint32_t *indices = malloc(length * sizeof *indices);
    uint8_t *areas = malloc(length);
    want(vertices && slots && indices && areas, "no memory");
    for (const char *line = strstr(text, "\ntri "); line; line = strstr(line + 1, "\ntri ")) {
        const char *at = line + 5;
        for (int i = 0; i < 3; i++, corners++) {
            float corner[3];
            for (int j = 0; j < 3; j++) corner[j] = (float)strtol(at, (char **)&at, 10) / (j == 1 ? 1.0f : 16.0f);
            indices[corners] = vertex_of(corner, words[2][0] == 'a');
        }
        areas[corners / 3 - 1] = (uint8_t)strtol(at, NULL, 10);
    }
    navd_mesh mesh = {.frame = {.cell_size = 1, .cell_height = 1}, .slope = {.both_sides = 1}};
    mesh.setting = (navd_setting){number_of(text, "\nsize ", 0), number_of(text, "\nsize ", 1), number_of(text, "\ntile ", 0), number_of(text, "\nagent ", 0),
                                  number_of(text, "\nagent ", 1), number_of(text, "\nagent ", 2), number_of(text, "\nerror ", 0),
                                  strstr(text, "\nmesh contours") != NULL, number_of(text, "\nlimit ", 0), 0};
    navd_fault fault;
    navd_mesh_fault mesh_fault;
    double begun = seconds();
    uint32_t status = words[2][0] == 't' ? navd_open_triangles(&level, (const uint8_t *)text, length, &fault)
                                         : navd_open_mesh(&level, &mesh, vertices, 3 * (size_t)vertex_count, indices, corners, areas, corners / 3, &mesh_fault);
    double took = seconds() - begun;
    want(status == NAVD_OK, "no level");
    printf("%s %.0f\n", words[2], took * 1e9);
    navd_close(&level);
    return 0;
}
