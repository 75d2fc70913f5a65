/* What the drivers of tests/index, tests/convert and tests/quoted share: frames from standard input, and slices of which each ends where a page starts
   that may not be touched, and may not be written but by `fill`; an empty one is null. So a call that reads past a slice or writes an input ends the
   driver by a signal. ROOM is the longest, in bytes. */
#define _GNU_SOURCE
#include "../bindings/c/ion.h"

#include <stdio.h>
#include <stdlib.h>
#include <sys/mman.h>

enum { PAGE = 4096 };

/* Bytes before a page that may not be touched. */
struct slice {
    uint8_t *end;
    size_t length;
};

static void *start(struct slice s) { return s.length ? s.end - s.length : NULL; }

static void protect(struct slice s, int how) {
    if (mprotect(s.end - ROOM, ROOM, how)) exit(2);
}

static struct slice region(void) {
    uint8_t *p = mmap(NULL, ROOM + PAGE, PROT_READ | PROT_WRITE, MAP_PRIVATE | MAP_ANONYMOUS, -1, 0);
    if (p == MAP_FAILED || mprotect(p + ROOM, PAGE, PROT_NONE)) exit(2);
    struct slice s = {p + ROOM, 0};
    return s;
}

static void take(void *p, size_t n) {
    if (fread(p, 1, n, stdin) != n) exit(2);
}

static uint32_t number(void) {
    uint32_t n;
    take(&n, 4);
    return n;
}

/* So many units of a size, which a frame has. */
static void fill(struct slice *s, size_t n, size_t size) {
    if (n > ROOM / size) exit(2);
    s->length = n * size;
    protect(*s, PROT_READ | PROT_WRITE);
    take(s->end - s->length, s->length);
    protect(*s, PROT_READ);
}

static void answer(int64_t r) { fwrite(&r, 8, 1, stdout); }
