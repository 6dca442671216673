/* The memory that the library asks for. A host with an allocator of its own puts that in its place. */
#include "heap.h"
