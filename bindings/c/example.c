/* An example in C: a pass list written in every text and read back, one of them with always-quoted symbols, fields of a pass found by name, a damaged
   list read line by line, then a stored list converted.

   From the repository's root:
       (cd crates/ion_c && rt lib)
       mkdir -p target
       cc -o target/example bindings/c/example.c crates/ion_c/out/libion_c.a
       target/example
   What it prints stands in bindings/c/example.stdout. */
#include "ion.h"

#include <stdio.h>
#include <stdlib.h>
#include <string.h>

/* ---- Making a tape: nodes one behind the other, then the trailer. ---- */

struct tape {
    uint8_t bytes[1024];
    size_t length;
};

/* The low bytes of a number, little-endian; the tape's integers are all made so. */
static void put(struct tape *t, uint64_t number, size_t bytes) {
    if (bytes > sizeof t->bytes - t->length) {
        fprintf(stderr, "the tape is full\n");
        exit(1);
    }
    for (; bytes; bytes--, number >>= 8) t->bytes[t->length++] = (uint8_t)number;
}

enum { BOOL = 1, INT = 2, DECIMAL = 4, TIMESTAMP = 5, SYMBOL = 6, STRING = 8, LIST = 10, STRUCT = 12, ANNOTATED = 13 };

static void put_text(struct tape *t, uint8_t kind, const char *text) {
    size_t length = strlen(text);
    put(t, kind, 1);
    put(t, length, 4);
    for (; *text; text++) put(t, (uint8_t)*text, 1);
}

/* A container's length is known when it ends, so its place is kept. */
static size_t open_container(struct tape *t, uint8_t kind) {
    put(t, kind, 1);
    put(t, 0, 4);
    return t->length;
}

static void close_container(struct tape *t, size_t body) {
    size_t end = t->length;
    t->length = body - 4;
    put(t, end - body, 4);
    t->length = end;
}

static void end_tape(struct tape *t, uint32_t nodes) {
    size_t body = t->length;
    put(t, body, 4);
    put(t, nodes, 4);
}

/* {norad: .., name: .., rise: .., peak: .., sunlit: ..}; the peak is in hundredths of a degree. */
static void put_pass(struct tape *t, int64_t norad, const char *name, uint8_t minute, uint8_t second, uint64_t peak, int sunlit) {
    size_t body = open_container(t, STRUCT);
    put_text(t, SYMBOL, "norad");
    put(t, INT, 1);
    put(t, (uint64_t)norad, 8);
    put_text(t, SYMBOL, "name");
    put_text(t, STRING, name);
    put_text(t, SYMBOL, "rise");
    put(t, TIMESTAMP, 1);
    put(t, 4, 1); /* to the second */
    put(t, 2026, 2);
    put(t, 11, 1);
    put(t, 15, 1);
    put(t, 2, 1);
    put(t, minute, 1);
    put(t, second, 1);
    put(t, 0, 2); /* minutes from UTC */
    put(t, 0, 1); /* no digits behind the seconds */
    put(t, 0, 4);
    put_text(t, SYMBOL, "peak");
    put(t, DECIMAL, 1);
    put(t, 0, 1); /* not negative */
    put(t, peak, 8);
    put(t, (uint32_t)-2, 4); /* times ten to the -2 */
    put_text(t, SYMBOL, "sunlit");
    put(t, BOOL, 1);
    put(t, sunlit != 0, 1);
    close_container(t, body);
}

static void put_passes(struct tape *t) {
    put_pass(t, 22675, "COSMOS 2251", 14, 7, 6125, 1);
    put_pass(t, 25544, "ISS (ZARYA)", 31, 40, 1250, 0);
    put_pass(t, 43013, "NOAA 20", 52, 3, 8803, 1);
}

/* ---- The calls. ---- */

static uint8_t text[4096], tape_read[4096];

/* The count of a call that must succeed. */
static size_t counted(const char *call, int64_t answer) {
    if (answer < 0) {
        fprintf(stderr, "%s: refused %d\n", call, (int)-answer);
        exit(1);
    }
    return (size_t)answer;
}

static void print_text(size_t length) {
    fwrite(text, 1, length, stdout);
    if (length == 0 || text[length - 1] != '\n') putchar('\n');
}

/* What is written reads back as its own tape. */
static void read_back(const struct tape *t, size_t length) {
    size_t count = counted("ion_read", ion_read(text, length, tape_read, sizeof tape_read));
    if (count != t->length || memcmp(tape_read, t->bytes, count) != 0) {
        fprintf(stderr, "ion_read: another tape than the one written\n");
        exit(1);
    }
    printf("-- %zu bytes of text, read back as the same %zu bytes of tape\n\n", length, count);
}

/* A field of an index, by its name. */
static void print_field(const struct tape *t, const ion_entry *index, size_t fields, const char *name) {
    int64_t place = ion_find(t->bytes, t->length, index, fields, (const uint8_t *)name, strlen(name));
    if (place == ION_NONE) {
        printf("%s: no field has this name\n", name);
    } else {
        size_t value = (size_t)index[place].value;
        printf("%s: place %d, a value of kind %d at offset %d\n", name, (int)place, t->bytes[value], (int)value);
    }
}

int main(void) {
    static const char *const names[] = {"Compact", "Lines", "Pretty"};
    struct tape three = {{0}, 0}, one = {{0}, 0};

    /* Three values at top level, in the three layouts. */
    put_passes(&three);
    end_tape(&three, 3);
    for (uint32_t layout = ION_COMPACT; layout <= ION_PRETTY; layout++) {
        printf("-- %s\n", names[layout]);
        size_t length = counted("ion_write", ion_write(layout, three.bytes, three.length, text, sizeof text));
        print_text(length);
        read_back(&three, length);
    }

    /* One annotated value, passes::[..]. It has a tree text; streaming refuses annotations. */
    put(&one, ANNOTATED, 1);
    put(&one, 1, 1);
    put_text(&one, SYMBOL, "passes");
    size_t body = open_container(&one, LIST);
    put_passes(&one);
    close_container(&one, body);
    end_tape(&one, 1);
    printf("-- tree text of one annotated list\n");
    size_t length = counted("ion_write_tree", ion_write_tree(one.bytes, one.length, text, sizeof text));
    print_text(length);
    read_back(&one, length);
    printf("-- the same with always-quoted symbols, for a dome that takes bare words for commands\n");
    length = counted("ion_write_tree_quoted", ion_write_tree_quoted(one.bytes, one.length, text, sizeof text));
    print_text(length);
    read_back(&one, length);
    int64_t answer = ion_length(ION_LINES, one.bytes, one.length);
    if (answer != ION_UNSUITED) {
        fprintf(stderr, "ion_length: answered %lld for an annotated value\n", (long long)answer);
        return 1;
    }
    printf("-- the same list in Lines: refused 5, since streaming has no annotations\n\n");

    /* The fields of the first pass, whose struct starts the tape, sorted by name; and some looked up. */
    ion_entry index[8];
    size_t fields = counted("ion_index", ion_index(three.bytes, three.length, 0, index, 8));
    printf("-- the fields of the first pass, sorted by name\n");
    for (size_t i = 0; i < fields; i++) {
        /* A name by its text: the kind byte, u32 length, the text; then comes the value. */
        int name_length = (int)(index[i].value - index[i].name) - 5;
        printf("%.*s, its value at offset %d\n", name_length, (const char *)three.bytes + index[i].name + 5, (int)index[i].value);
    }
    printf("-- and looked up\n");
    print_field(&three, index, fields, "rise");
    print_field(&three, index, fields, "norad");
    print_field(&three, index, fields, "magnitude");
    putchar('\n');

    /* The Lines text again, in exactly as many bytes as it has, which are known before it is written. A relay loses a block of 64 bytes, all of
       them within the second line, and puts ? in their place. */
    length = counted("ion_length", ion_length(ION_LINES, three.bytes, three.length));
    if (length > sizeof text) return 1;
    counted("ion_write", ion_write(ION_LINES, three.bytes, three.length, text, length));
    memset(text + 120, '?', 64);
    printf("-- the Lines text, damaged\n");
    print_text(length);
    printf("-- and read line by line\n");
    uint64_t at = 0, from = 0;
    while ((answer = ion_read_line(text, length, &at, tape_read, sizeof tape_read)) != ION_END) {
        printf("bytes %3d to %3d: ", (int)from, (int)at);
        if (answer < 0) {
            printf("refused %d\n", (int)-answer);
        } else {
            uint8_t value[256];
            size_t count = counted("ion_write_tree", ion_write_tree(tape_read, (size_t)answer, value, sizeof value));
            printf("%.*s\n", (int)count, (const char *)value);
        }
        from = at;
    }
    printf("-- the end mark, at offset %d\n\n", (int)at);

    /* A list that was stored with a control character raw, U+0001 in a name. The reader refuses it; converted, it is read. */
    static const char stored[] = "{norad: 43013, name: \"NOAA\1 20\"}\n";
    answer = ion_read((const uint8_t *)stored, sizeof stored - 1, tape_read, sizeof tape_read);
    if (answer != ION_OUTSIDE_GRAMMAR) {
        fprintf(stderr, "ion_read: answered %lld for a raw control character\n", (long long)answer);
        return 1;
    }
    printf("-- a stored list with a raw control character: refused 8; converted\n");
    length = counted("ion_convert", ion_convert((const uint8_t *)stored, sizeof stored - 1, text, sizeof text));
    print_text(length);
    size_t count = counted("ion_read", ion_read(text, length, tape_read, sizeof tape_read));
    printf("-- %zu bytes of text from %zu, read as %zu bytes of tape\n", length, sizeof stored - 1, count);
    return 0;
}
