/* Answers frames through libion_c.a. A frame is a byte (0..15: ion_write in that layout, 16: ion_read, 17: ion_read_line from offset 0
   until the end mark, 18: ion_write_tree, 19: ion_convert), u32 room, u32 length and bytes. The answer is i64; behind a count come that many bytes,
   behind -6 all of the room's; behind each answer of a line, u64 offset first. The driver itself checks the rest of the buffer, which is 0xA5 before
   the first call, and ends with 2 to 9 where something is wrong: guard bytes beside the room, bytes past the count, a refusal's buffer (untouched by
   the writers but for -6 and by the converter, all zero by the readers), the input, for lines what the end mark and an offset past the text leave, and
   for the writers the length by ion_length or ion_tree_length: the count, a number past the room behind -6, or the same refusal. */
#include "../bindings/c/ion.h"

#include <stdio.h>
#include <stdlib.h>
#include <string.h>

enum { READ = 16, LINES = 17, TREE = 18, CONVERT = 19, GUARD = 8, OLD = 0xA5 };

static int take(void *p, size_t n) { return fread(p, 1, n, stdin) == n; }

static int all(const uint8_t *p, size_t n, uint8_t b) {
    for (size_t i = 0; i < n; i++)
        if (p[i] != b) return 0;
    return 1;
}

/* What must stand behind the first bytes that the caller compares; 0 if it does. */
static int rest(uint8_t mode, int64_t r, const uint8_t *room, size_t n) {
    if (r > (int64_t)n) return 4;
    if (r >= 0) return all(room + r, n - (size_t)r, OLD) ? 0 : 5;
    if (mode == READ) return r == -8 || r == -9 ? (all(room, n, 0) ? 0 : 6) : 4;
    if (mode == CONVERT) return r == -13 || r == -14 ? (all(room, n, OLD) ? 0 : 6) : 4;
    if (r == -6) return 0;
    return r >= (mode == TREE ? -5 : -7) ? (all(room, n, OLD) ? 0 : 6) : 4;
}

static int64_t call(uint8_t mode, const uint8_t *in, size_t length, uint8_t *room, size_t n) {
    if (mode == READ) return ion_read(in, length, room, n);
    if (mode == TREE) return ion_write_tree(in, length, room, n);
    if (mode == CONVERT) return ion_convert(in, length, room, n);
    return ion_write(mode, in, length, room, n);
}

/* 0 if the text's length, asked for by itself, goes with a writer's answer r in n bytes of room. */
static int length_of(uint8_t mode, const uint8_t *in, size_t length, int64_t r, size_t n) {
    if (mode == READ || mode == LINES || mode == CONVERT) return 0;
    int64_t due = mode == TREE ? ion_tree_length(in, length) : ion_length(mode, in, length);
    return (r == -6 ? due > (int64_t)n : due == r) ? 0 : 9;
}

/* Every line of a text, each call given what the last one left; 0 if all is as it must be. */
static int lines(const uint8_t *text, size_t length, uint8_t *room, size_t n) {
    uint8_t *was = malloc(n + 1);
    uint64_t at = 0, from, past = length + 1;
    int64_t r;
    do {
        memcpy(was, room, n);
        from = at;
        r = ion_read_line(text, length, &at, room, n);
        fwrite(&r, 8, 1, stdout);
        fwrite(&at, 8, 1, stdout);
        if (r > (int64_t)n || (r < 0 && r != -8 && r != -9)) return 4;
        if (r > 0 && memcmp(room + r, was + r, n - (size_t)r)) return 5;
        if (r < 0 && !all(room, n, 0)) return 6;
        if (r ? at <= from || at > length : at != length || from != at || memcmp(room, was, n)) return 8;
        fwrite(room, 1, r > 0 ? (size_t)r : 0, stdout);
    } while (r);
    if (ion_read_line(text, length, &at, room, n) || at != length || memcmp(room, was, n)) return 8;
    if (ion_read_line(text, length, &past, room, n) != -10 || past != length + 1 || memcmp(room, was, n)) return 8;
    free(was);
    return 0;
}

int main(void) {
    uint8_t mode;
    uint32_t room, length;
    while (take(&mode, 1) && take(&room, 4) && take(&length, 4)) {
        uint8_t *in = malloc(length + 1), *was = malloc(length + 1), *out = malloc((size_t)room + 2 * GUARD);
        if (!in || !was || !out || !take(in, length)) return 2;
        memcpy(was, in, length);
        memset(out, OLD, (size_t)room + 2 * GUARD);
        int64_t r = 0;
        int wrong = mode == LINES ? lines(in, length, out + GUARD, room) : 0;
        if (mode != LINES) r = call(mode, in, length, out + GUARD, room);
        if (!all(out, GUARD, OLD) || !all(out + GUARD + room, GUARD, OLD)) return 3;
        if (memcmp(in, was, length)) return 7;
        if (mode != LINES) wrong = rest(mode, r, out + GUARD, room);
        if (wrong) return wrong;
        if ((wrong = length_of(mode, in, length, r, room))) return wrong;
        size_t shown = r >= 0 ? (size_t)r : r == -6 ? room : 0;
        if (mode != LINES) {
            fwrite(&r, 8, 1, stdout);
            fwrite(out + GUARD, 1, shown, stdout);
        }
        free(in);
        free(was);
        free(out);
    }
    return 0;
}
