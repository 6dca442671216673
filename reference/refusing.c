/* The memory of a library that a check loads, over malloc, which is refused where the check says so:
 *
 *     cc -O2 -shared -fPIC -I include -o LIBRARY reference/refusing.c hosts/world/navd_world.c -Wl,--whole-archive ARCHIVE -Wl,--no-whole-archive -pthread
 */
#include <stdbool.h>

static unsigned left;

/* The request of a number from now on, from 1, and all behind it are refused; with 0 none is. */
void refuse_memory(unsigned number);
void refuse_memory(unsigned number) {
    left = number;
}

static bool is_refused(void) {
    if (left > 1) {
        left--;
        return false;
    }
    return left == 1;
}

#define IS_REFUSED is_refused
#include "../hosts/c/heap.h"
