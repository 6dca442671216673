/* Checks navd_quantize against its law, that a float becomes the multiple of a step that is nearest to it, of two the even one, for each of the 2^32
 * floats, in whole numbers of 128 bits:
 *
 *     cc -O2 -Iinclude reference/quantize_check.c LIBRARY -o check && ./check SIZE [SIZE ..]
 *
 * A SIZE is that of a cell, whose sixteenth is the step along x; along y the step is the size itself. It prints what differs, and ends with 1 then. */
#include <inttypes.h>
#include <stdbool.h>
#include <stdio.h>
#include <stdlib.h>
#include <string.h>

#include "navd.h"

enum { AT_ONCE = 4096, LIMIT = 1 << 23 };

/* A finite float above 0 is digits * 2^power. */
typedef struct {
    uint64_t digits;
    int power;
} parts;

static parts parts_of(uint32_t bits) {
    uint32_t field = bits >> 23 & 255, rest = bits & 0x7fffff;
    return field ? (parts){rest | 0x800000, (int)field - 150} : (parts){rest, -149};
}

/* A float above 0 over a step, as a fraction; whether it is too large for one, and whether it is far below a step, are told apart. */
typedef struct {
    unsigned __int128 num, den;
    bool is_large, is_small;
} fraction;

static fraction over(uint32_t bits, parts step) {
    parts x = parts_of(bits);
    int up = x.power - step.power;
    fraction it = {.is_large = (bits >> 23 & 255) == 255 || (x.digits && up > 60), .is_small = !x.digits || up < -60};
    if (it.is_large || it.is_small) return it;
    it.num = (unsigned __int128)x.digits << (up > 0 ? up : 0);
    it.den = (unsigned __int128)step.digits << (up < 0 ? -up : 0);
    return it;
}

/* Whether a float has to be refused: its nearest multiple is that of 2^23, which is even, or a higher one. */
static bool is_far(uint32_t bits, parts step) {
    fraction it = over(bits, step);
    return it.is_large || (!it.is_small && 2 * it.num >= (2 * LIMIT - 1) * it.den);
}

/* Whether n is the multiple that is nearest to a float, of two the even one. */
static bool is_nearest(uint32_t bits, parts step, int32_t n) {
    fraction it = over(bits, step);
    if (it.is_large) return false;
    if (it.is_small) return n == 0;
    if (bits >> 31 ? n > 0 : n < 0) return false;
    unsigned __int128 whole = (unsigned)abs(n), twice = 2 * it.num;
    if (twice > (2 * whole + 1) * it.den || 2 * whole * it.den > twice + it.den) return false;
    bool is_tie = twice == (2 * whole + 1) * it.den || 2 * whole * it.den == twice + it.den;
    return !is_tie || whole % 2 == 0;
}

static float float_of(uint32_t bits) {
    float x;
    memcpy(&x, &bits, sizeof x);
    return x;
}

/* The floats from `first` on, so many, beside zeros or along y. */
static uint64_t check(const navd_frame *frame, bool up, parts step, uint32_t first) {
    static navd_world_point points[AT_ONCE];
    static navd_frame_place places[AT_ONCE];
    uint64_t wrong = 0;
    for (uint32_t i = 0; i < AT_ONCE; i++) {
        float x = float_of(first + i);
        points[i] = up ? (navd_world_point){0, x, 0} : (navd_world_point){x, 0, 0};
    }
    for (uint32_t i = 0; i < AT_ONCE;) {
        size_t count;
        uint32_t status = navd_quantize(frame, points + i, AT_ONCE - i, places + i, AT_ONCE - i, &count);
        for (size_t j = i; j < i + count; j++) {
            uint32_t bits = first + (uint32_t)j;
            if (!is_nearest(bits, step, up ? places[j].y : places[j].x) || is_far(bits, step)) wrong++, printf("differs: %08" PRIx32 "\n", bits);
        }
        i += (uint32_t)count;
        if (status == NAVD_OK) break;
        if (status != NAVD_OUT_OF_RANGE || !is_far(first + i, step)) wrong++, printf("refused: %08" PRIx32 "\n", first + i);
        i++;
    }
    return wrong;
}

int main(int count, char **words) {
    uint64_t wrong = 0;
    for (int i = 1; i < count; i++) {
        float size = strtof(words[i], NULL);
        uint32_t bits;
        memcpy(&bits, &size, sizeof bits);
        parts unit = parts_of(bits), cell = {unit.digits, unit.power - 4};
        navd_frame frame = {.cell_size = size, .cell_height = size};
        for (int up = 0; up < 2; up++) {
            for (uint64_t first = 0; first < (uint64_t)1 << 32 && wrong < 20; first += AT_ONCE)
                wrong += check(&frame, up, up ? unit : cell, (uint32_t)first);
            printf("size %s, along %c: 2^32 floats, %" PRIu64 " differ so far\n", words[i], up ? 'y' : 'x', wrong);
            fflush(stdout);
        }
    }
    return wrong || count < 2;
}
