/* What the drivers of tests/convert and tests/quoted share beside slices.h: the buffer of a call. Before the first call its byte at place i is OLD + 7 i,
   and so are those before it. */
enum { BEFORE = 64, OLD = 0xA5 };
#include "slices.h"

static uint8_t old(ptrdiff_t i) { return (uint8_t)(OLD + 7 * i); }

/* A buffer of so many bytes, with more before it. */
static void lay(struct slice *out, size_t m) {
    if (m > ROOM - BEFORE) exit(2);
    out->length = m;
    uint8_t *first = out->end - m;
    for (ptrdiff_t i = -BEFORE; i < (ptrdiff_t)m; i++) first[i] = old(i);
}

/* What a call left of the buffer. */
static void show(struct slice out) {
    const uint8_t *first = out.end - out.length;
    for (ptrdiff_t i = -BEFORE; i < 0; i++)
        if (first[i] != old(i)) exit(3);
    fwrite(first, 1, out.length, stdout);
}
