/* The first path: a level is opened, a crate put across its room, and the way round it asked for.
 *
 *     first examples/detour.nav       cost 180, 5 links, 2 turns: (144, 64) (144, 96) */
#include <inttypes.h>
#include <stdio.h>

#include <navd.h>

static uint8_t text[1 << 16];

static size_t read_text(const char *name) {
    FILE *file = fopen(name, "rb");
    size_t length = file ? fread(text, 1, sizeof text, file) : 0;
    if (file) fclose(file);
    return length;
}

int main(int argc, char **words) {
    navd_level level = {0};
    navd_fault fault;
    navd_block block = {1, 8, 0, 100, 4, 5};
    navd_way way = {{40, 40}, 10, {40, 120}, 10};
    navd_link links[64];
    navd_turn turns[64];
    navd_path path;
    uint32_t obstacle, published;
    size_t length = argc == 2 ? read_text(words[1]) : 0;
    if (navd_open(&level, text, length, &fault) != NAVD_OK) return fputs("no level\n", stderr), 1;
    if (navd_add_block(&level, &block, 0, &obstacle) != NAVD_OK || navd_settle(&level, &published) != NAVD_OK
        || navd_find_path(&level, &way, links, 64, turns, 64, &path) != NAVD_OK)
        return fputs("no path\n", stderr), 1;
    printf("cost %" PRIu64 ", %zu links, %zu turns:", path.cost, path.links, path.turns);
    for (size_t i = 0; i < path.turns && i < 64; i++) printf(" (%" PRId32 ", %" PRId32 ")", turns[i].at.x, turns[i].at.z);
    putchar('\n');
    navd_close(&level);
    return 0;
}
