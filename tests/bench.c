/* Times ion_write in a layout, or ion_write_tree, over tape files, and in turn with it ion_length or ion_tree_length; or ion_read or ion_convert over text
   files: thread processor time, best of many. With q before the layout or `tree` it is the calls with _quoted. Prints for each file the answer and both
   times. For count.py, with `once` there is one call for each file, and with `both` one of the length behind it. Nothing is printed of a call that the
   archive does not have.
   Usage: bench [once|both] [q]LAYOUT|[q]tree|read|convert FILE.. */
#include "../bindings/c/ion.h"

#include <stdio.h>
#include <stdlib.h>
#include <string.h>
#include <time.h>

/* bench_both.py links archives that have no lengths, no converter or no calls with _quoted, too. */
#pragma weak ion_length
#pragma weak ion_tree_length
#pragma weak ion_convert
#pragma weak ion_write_quoted
#pragma weak ion_write_tree_quoted
#pragma weak ion_length_quoted
#pragma weak ion_tree_length_quoted

static double now(void) {
    struct timespec t;
    clock_gettime(CLOCK_THREAD_CPUTIME_ID, &t);
    return t.tv_sec * 1e9 + t.tv_nsec;
}

static uint8_t in[1 << 20], out[1 << 24];

enum { WRITE, TREE, READ, CONVERT };

static int64_t call(int what, int quoted, uint32_t layout, size_t n) {
    if (what == CONVERT) return ion_convert(in, n, out, sizeof out);
    if (what == READ) return ion_read(in, n, out, sizeof out);
    if (what == TREE) return quoted ? ion_write_tree_quoted(in, n, out, sizeof out) : ion_write_tree(in, n, out, sizeof out);
    return quoted ? ion_write_quoted(layout, in, n, out, sizeof out) : ion_write(layout, in, n, out, sizeof out);
}

static int64_t tell(int what, int quoted, uint32_t layout, size_t n) {
    if (what == TREE) return quoted ? ion_tree_length_quoted(in, n) : ion_tree_length(in, n);
    return quoted ? ion_length_quoted(layout, in, n) : ion_length(layout, in, n);
}

int main(int count, char **words) {
    int both = !strcmp(words[1], "both"), once = both || !strcmp(words[1], "once");
    const char *word = words[1 + once];
    int quoted = *word == 'q';
    word += quoted;
    int what = !strcmp(word, "tree") ? TREE : !strcmp(word, "read") ? READ : !strcmp(word, "convert") ? CONVERT : WRITE;
    uint32_t layout = atoi(word);
    if ((what == CONVERT && !ion_convert) || (quoted && !ion_write_quoted)) return 0;
    for (int k = 2 + once; k < count; k++) {
        FILE *f = fopen(words[k], "rb");
        if (!f) return 1;
        size_t n = fread(in, 1, sizeof in, f);
        fclose(f);
        int turns = once ? 1 : 1 + 200000 / (int)(n + 20), runs = once ? 1 : 300;
        double best = 1e18, length = 1e18;
        int64_t r = 0;
        for (int i = 0; i < runs; i++) {
            double a = now();
            for (int j = 0; j < turns; j++) r = call(what, quoted, layout, n);
            double d = (now() - a) / turns;
            if (d < best) best = d;
            if (once > both || !ion_length || what > TREE) continue;
            a = now();
            for (int j = 0; j < turns; j++)
                if (tell(what, quoted, layout, n) != r) return 2;
            d = (now() - a) / turns;
            if (d < length) length = d;
        }
        printf("%s %lld %.1f %.1f\n", words[k], (long long)r, best, length);
    }
    return 0;
}
