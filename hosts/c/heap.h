/* The memory that the library asks for, over malloc: one file of a program includes this. A program that tries what happens without memory defines
 * IS_REFUSED() first, which is asked before each request whether it is refused. */
#include <stdbool.h>
#include <stddef.h>
#include <stdlib.h>

#ifndef IS_REFUSED
#define IS_REFUSED() false
#endif

typedef struct {
    bool ok;
    void *block;
} navd_tried;

static navd_tried tried(void *block) {
    static char no_block;
    return (navd_tried){block != NULL, block ? block : &no_block};
}

navd_tried rattle_alloc(size_t size, size_t align) {
    return tried(IS_REFUSED() ? NULL : malloc(size ? size : align));
}

navd_tried rattle_realloc(void *block, size_t kept, size_t size, size_t align) {
    (void)kept;
    return tried(IS_REFUSED() ? NULL : realloc(block, size ? size : align));
}

void rattle_dealloc(void *block) {
    free(block);
}
