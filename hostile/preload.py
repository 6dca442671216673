"""A library that is loaded before the C library, made by `cc` from the text below: it counts the calls of the program that ask for memory, read
standard input or write standard output, and fails the one whose number it is given.

NAVD_FAIL   `memory N`, `read N` or `write N`: this call fails; `memory_from N`: this one and all later ones
NAVD_PIECE  how many bytes a read or a write moves at most
NAVD_HOLD   `THREAD CALL MS`: the thread with this number, 0 for the first, sleeps so many milliseconds in this one of its calls for memory, to give
            memory back, or to wait for or wake other threads
NAVD_COUNTS a file of 24 bytes that holds the three counts
"""
import os
import struct
import subprocess
import tempfile

SOURCE = r"""
#define _GNU_SOURCE
#include <errno.h>
#include <fcntl.h>
#include <stdarg.h>
#include <stdatomic.h>
#include <stdio.h>
#include <stdlib.h>
#include <string.h>
#include <sys/mman.h>
#include <sys/syscall.h>
#include <sys/uio.h>
#include <time.h>
#include <unistd.h>

extern void *__libc_malloc(size_t), *__libc_calloc(size_t, size_t), *__libc_realloc(void *, size_t), *__libc_memalign(size_t, size_t);
extern void __libc_free(void *);

enum { MEMORY, MEMORY_FROM, READ, WRITE, KINDS };
static const char *names[KINDS] = {"memory", "memory_from", "read", "write"};
static long fails[KINDS];
static struct { atomic_long memory, reads, writes; } own, *counts = &own;
static size_t piece = (size_t)-1;
static long held_thread = -1, held_call, held_ms;
static atomic_long threads;
static __thread long thread_number = -1, thread_calls;
static int ready;

__attribute__((constructor)) static void begin(void) {
    const char *fail = getenv("NAVD_FAIL"), *most = getenv("NAVD_PIECE");
    char name[20];
    long n;
    if (fail && sscanf(fail, "%19s %ld", name, &n) == 2)
        for (int kind = 0; kind < KINDS; kind++)
            if (!strcmp(name, names[kind])) fails[kind] = n;
    if (most) piece = atol(most);
    const char *hold = getenv("NAVD_HOLD");
    if (hold && sscanf(hold, "%ld %ld %ld", &held_thread, &held_call, &held_ms) != 3) abort();
    int file = open(getenv("NAVD_COUNTS"), O_RDWR);
    void *shared = mmap(0, sizeof own, PROT_READ | PROT_WRITE, MAP_SHARED, file, 0);
    if (shared == MAP_FAILED) abort();
    counts = shared;
    ready = 1;
}

static void hold(void) {
    if (!ready || held_thread < 0) return;
    if (thread_number < 0) thread_number = threads++;
    if (thread_number != held_thread || ++thread_calls != held_call) return;
    struct timespec rest = {held_ms / 1000, held_ms % 1000 * 1000000};
    nanosleep(&rest, 0);
}

static int refused(void) {
    if (!ready) return 0;
    hold();
    long n = ++counts->memory;
    if (n != fails[MEMORY] && !(fails[MEMORY_FROM] && n >= fails[MEMORY_FROM])) return 0;
    errno = ENOMEM;
    return 1;
}

void free(void *block) {
    hold();
    __libc_free(block);
}

long syscall(long number, ...) {
    long a[6];
    va_list rest;
    va_start(rest, number);
    for (int i = 0; i < 6; i++) a[i] = va_arg(rest, long);
    va_end(rest);
    hold();
    register long r10 __asm__("r10") = a[3], r8 __asm__("r8") = a[4], r9 __asm__("r9") = a[5];
    long result;
    __asm__ volatile("syscall" : "=a"(result) : "a"(number), "D"(a[0]), "S"(a[1]), "d"(a[2]), "r"(r10), "r"(r8), "r"(r9) : "rcx", "r11", "memory");
    if (result < 0 && result > -4096) {
        errno = -result;
        return -1;
    }
    return result;
}

void *malloc(size_t n) { return refused() ? 0 : __libc_malloc(n); }
void *calloc(size_t n, size_t m) { return refused() ? 0 : __libc_calloc(n, m); }
void *realloc(void *old, size_t n) { return refused() ? 0 : __libc_realloc(old, n); }
void *memalign(size_t a, size_t n) { return refused() ? 0 : __libc_memalign(a, n); }
void *aligned_alloc(size_t a, size_t n) { return refused() ? 0 : __libc_memalign(a, n); }
int posix_memalign(void **block, size_t a, size_t n) {
    if (refused()) return ENOMEM;
    *block = __libc_memalign(a, n);
    return *block ? 0 : ENOMEM;
}

ssize_t read(int file, void *to, size_t n) {
    if (file != 0) return syscall(SYS_read, file, to, n);
    if (++counts->reads != fails[READ]) return syscall(SYS_read, file, to, n > piece ? piece : n);
    errno = EIO;
    return -1;
}

ssize_t write(int file, const void *from, size_t n) {
    if (file != 1) return syscall(SYS_write, file, from, n);
    if (++counts->writes != fails[WRITE]) return syscall(SYS_write, file, from, n > piece ? piece : n);
    errno = EIO;
    return -1;
}

ssize_t writev(int file, const struct iovec *parts, int count) {
    if (file != 1 || count < 1) return syscall(SYS_writev, file, parts, count);
    for (int i = 0; i < count - 1 && !parts->iov_len; i++) parts++;
    return write(file, parts->iov_base, parts->iov_len);
}
"""


class Preload:
    """A run of the program with the library before it: its status, what it wrote, and the counts of its calls."""

    def __init__(self, navd):
        self.navd = os.path.abspath(navd)
        self.folder = tempfile.TemporaryDirectory(prefix="navd-hostile-")
        self.library = f"{self.folder.name}/preload.so"
        source = f"{self.folder.name}/preload.c"
        with open(source, "w") as it:
            it.write(SOURCE)
        subprocess.run(["cc", "-O1", "-shared", "-fPIC", "-fno-builtin", "-o", self.library, source], check=True)

    def run(self, words, text, fail=None, piece=None, hold=None, seconds=100):
        counts = f"{self.folder.name}/counts"
        with open(counts, "wb") as it:
            it.write(bytes(24))
        env = {"LD_PRELOAD": self.library, "NAVD_COUNTS": counts}
        if fail:
            env["NAVD_FAIL"] = fail
        if piece:
            env["NAVD_PIECE"] = str(piece)
        if hold:
            env["NAVD_HOLD"] = hold
        ran = subprocess.run([self.navd, *words], input=text, capture_output=True, env=env, timeout=seconds)
        with open(counts, "rb") as it:
            calls = dict(zip(("memory", "read", "write"), struct.unpack("3l", it.read())))
        return ran.returncode, ran.stdout, calls
