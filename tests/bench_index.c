/* Times the index of the struct at offset 0 of tapes, and lookups in it: thread processor time in ns, best of many.
     bench_index index FILE..   the files' tapes in turn, on average: the time of ion_index, and that of ion_index at an offset past the tape, which
                                is the validation of the tape and refusal 11
     bench_index find FILE      for a lookup: ion_find and a linear search over the tape, for the struct's own names in their order, for 4,096 of them in
                                any order, and for as many names as it has fields that no field has
     bench_index once FILE      one call of ion_index and nothing else, for valgrind */
#include "../bindings/c/ion.h"

#include <stdio.h>
#include <stdlib.h>
#include <string.h>
#include <time.h>

enum { TAPES = 128, MOST = 150000, FIELDS = 100, NAMES = 4096, LONGEST = 64 };

static struct {
    const uint8_t *bytes;
    size_t length;
    int64_t fields;
} tapes[TAPES];
static int count;
static ion_entry entries[MOST];

static double now(void) {
    struct timespec t;
    clock_gettime(CLOCK_THREAD_CPUTIME_ID, &t);
    return t.tv_sec * 1e9 + t.tv_nsec;
}

/* The best time of a call of ion_index, at offset 0 or past the tape. */
static double indexing(int past) {
    size_t bytes = 0;
    for (int k = 0; k < count; k++) bytes += tapes[k].length;
    int turns = 1 + 200000 / (int)(bytes + 20);
    double best = 1e18, spent = 0;
    for (int i = 0; i < 1000 && (i < 5 || spent < 1e9); i++) {
        double a = now();
        for (int j = 0; j < turns; j++)
            for (int k = 0; k < count; k++) {
                size_t n = tapes[k].length;
                if (ion_index(tapes[k].bytes, n, past ? n : 0, entries, MOST) != (past ? ION_NO_STRUCT : tapes[k].fields)) exit(3);
            }
        double d = now() - a;
        spent += d;
        if (d < best) best = d;
    }
    return best / turns / count;
}

/* ---- The linear search: node by node, on the first tape, which was validated before. ---- */

static uint32_t u32_at(const uint8_t *p) { return p[0] | p[1] << 8 | p[2] << 16 | (uint32_t)p[3] << 24; }

/* The length of a node. */
static size_t size_of(const uint8_t *p) {
    switch (*p) {
    case 0: case 1: return 2;
    case 2: case 3: return 9;
    case 4: return 14;
    case 5: return 16;
    case 7: return 5;
    case 13: {
        size_t size = 2;
        for (int i = 0; i < p[1] + 1; i++) size += size_of(p + size);
        return size;
    }
    default: return 5 + (size_t)u32_at(p + 1);
    }
}

/* The offset of the value of the latest field with a name, or -1: a tape is walked forward alone, so that every field is looked at. */
static int64_t linear(const uint8_t *name, size_t k) {
    const uint8_t *tape = tapes[0].bytes, *p = tape + 5, *end = p + u32_at(tape + 1);
    int64_t latest = -1;
    while (p < end) {
        const uint8_t *value = p + size_of(p);
        if (*p == 6 && u32_at(p + 1) == k && !memcmp(p + 5, name, k)) latest = value - tape;
        p = value + size_of(value);
    }
    return latest;
}

static int64_t found(const uint8_t *name, size_t k) {
    int64_t place = ion_find(tapes[0].bytes, tapes[0].length, entries, (size_t)tapes[0].fields, name, k);
    return place == ION_NONE ? -1 : (int64_t)entries[place].value;
}

/* ---- Lookups of names, which stand outside the tape. ---- */

static uint8_t names[NAMES][LONGEST];
static size_t lengths[NAMES];

static double lookups(int64_t (*lookup)(const uint8_t *, size_t), size_t n, int64_t *sum) {
    int turns = 1 + 20000 / (int)n;
    double best = 1e18;
    for (int i = 0; i < 300; i++) {
        *sum = 0;
        double a = now();
        for (int j = 0; j < turns; j++)
            for (size_t k = 0; k < n; k++) *sum += lookup(names[k], lengths[k]);
        double d = now() - a;
        if (d < best) best = d;
    }
    return best / turns / (double)n;
}

static void print_lookups(const char *what, size_t n) {
    int64_t one, other;
    for (size_t k = 0; k < n; k++)
        if (found(names[k], lengths[k]) != linear(names[k], lengths[k])) exit(3);
    double ours = lookups(found, n, &one), theirs = lookups(linear, n, &other);
    if (one != other) exit(3);
    printf("%s %.1f %.1f\n", what, ours, theirs);
}

/* The name at a place of the tape, with a byte behind it if `more` is not 0. */
static void set_name(size_t k, const uint8_t *p, uint8_t more) {
    size_t length = u32_at(p + 1);
    if (*p != 6 || length >= LONGEST) exit(2);
    memcpy(names[k], p + 5, length);
    names[k][length] = more;
    lengths[k] = length + (more != 0);
}

static void find(void) {
    const uint8_t *at[FIELDS], *tape = tapes[0].bytes;
    size_t n = 0;
    for (const uint8_t *p = tape + 5, *end = p + u32_at(tape + 1); p < end; p += size_of(p), p += size_of(p)) {
        if (n == FIELDS) exit(2);
        at[n++] = p;
    }
    for (size_t k = 0; k < n; k++) set_name(k, at[k], 0);
    print_lookups("in-order", n);
    uint64_t seed = 1;
    for (size_t k = 0; k < NAMES; k++) {
        seed = seed * 6364136223846793005u + 1442695040888963407u;
        set_name(k, at[(seed >> 33) % n], 0);
    }
    print_lookups("any-order", NAMES);
    for (size_t k = 0; k < n; k++) set_name(k, at[k], 'x');
    print_lookups("absent", n);
}

int main(int words_count, char **words) {
    for (int k = 2; k < words_count && count < TAPES; k++, count++) {
        FILE *f = fopen(words[k], "rb");
        uint8_t *bytes = malloc(ION_TAPE_MAX);
        if (!f || !bytes) return 2;
        tapes[count].length = fread(bytes, 1, ION_TAPE_MAX, f);
        tapes[count].bytes = bytes;
        fclose(f);
        tapes[count].fields = ion_index(bytes, tapes[count].length, 0, entries, MOST);
        if (tapes[count].fields < 0) return 2;
    }
    if (!count) return 2;
    if (!strcmp(words[1], "find")) {
        find();
    } else if (!strcmp(words[1], "index")) {
        double whole = indexing(0), validation = indexing(1);
        printf("%.1f %.1f\n", whole, validation);
    }
    return 0;
}
