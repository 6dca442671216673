/* Counts what stands between two marks, for a program that callgrind runs with --instr-atstart=no: built with COUNTED, the second mark has it write the
 * instructions since the first into a file of its own, under a name. Built without, the marks are nothing. */
#ifdef COUNTED
#include <valgrind/callgrind.h>
#define COUNT_FROM_HERE do { CALLGRIND_START_INSTRUMENTATION; CALLGRIND_ZERO_STATS; } while (0)
#define COUNT_TO_HERE(name) do { CALLGRIND_DUMP_STATS_AT(name); CALLGRIND_STOP_INSTRUMENTATION; } while (0)
#else
#define COUNT_FROM_HERE
#define COUNT_TO_HERE(name)
#endif
