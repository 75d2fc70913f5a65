/* Times ion_read or ion_convert over a text file, or jansson's json_loadb over a JSON file: thread processor time, best of many.
   Usage: bench_read ion|convert|json FILE.., the last where it was compiled with JANSSON. */
#include "../bindings/c/ion.h"

#ifdef JANSSON
#include <jansson.h>
#endif
#include <stdio.h>
#include <string.h>
#include <time.h>

static double now(void) {
    struct timespec t;
    clock_gettime(CLOCK_THREAD_CPUTIME_ID, &t);
    return t.tv_sec * 1e9 + t.tv_nsec;
}

static uint8_t text[1 << 22], out[1 << 20], output[1 << 23];

int main(int count, char **words) {
    int json = !strcmp(words[1], "json"), convert = !strcmp(words[1], "convert");
    for (int k = 2; k < count; k++) {
        FILE *f = fopen(words[k], "rb");
        if (!f) return 1;
        size_t n = fread(text, 1, sizeof text, f);
        fclose(f);
        double best = 1e18, spent = 0;
        long long r = 0;
        for (int i = 0; i < 1000 && (i < 5 || spent < 1e9); i++) {
            double a = now();
            if (json) {
#ifdef JANSSON
                json_error_t e;
                json_t *j = json_loadb((char *)text, n, 0, &e);
                r = j ? 1 : -1;
                json_decref(j);
#endif
            } else {
                r = convert ? ion_convert(text, n, output, sizeof output) : ion_read(text, n, out, sizeof out);
            }
            double d = now() - a;
            spent += d;
            if (d < best) best = d;
        }
        printf("%s %lld %zu %.0f\n", words[k], r, n, best);
    }
    return 0;
}
