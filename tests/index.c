/* Answers frames through libion_c.a, for tests/index. A frame is a letter and what goes with it:
     T  u32 n, n bytes       the tape of the frames behind it; no answer
     I  u64 offset, u32 m    ion_index in m entries, which hold OLD and their place before; the answer, i64, and the m entries
     E  u32 m, m entries     the entries of the lookups behind it; no answer
     F  u32 k, k bytes       ion_find of that name; the answer, i64
     N  u32 identifier       ion_find_id; the answer, i64
   The slices are those of slices.h; the entries of ion_index alone may be written. The driver ends with 2 if a frame is broken, with 3 if ion_index wrote
   before the entries. */
enum { ROOM = 4 << 20, BEFORE = 4 };
#include "slices.h"

static const uint64_t OLD = 0xA5A5A5A500000000;

static void index_frame(struct slice tape, struct slice room) {
    uint64_t at;
    take(&at, 8);
    size_t m = number();
    if (m > ROOM / sizeof(ion_entry) - BEFORE) exit(2);
    ion_entry *last = (ion_entry *)room.end, *first = last - m;
    for (ion_entry *e = first - BEFORE; e < last; e++) {
        e->name = OLD + (uint64_t)(e - first);
        e->value = ~e->name;
    }
    answer(ion_index(start(tape), tape.length, at, m ? first : NULL, m));
    for (ion_entry *e = first - BEFORE; e < first; e++)
        if (e->name != OLD + (uint64_t)(e - first) || e->value != ~e->name) exit(3);
    fwrite(first, sizeof *first, m, stdout);
}

int main(void) {
    struct slice tape = region(), entries = region(), name = region(), room = region();
    int letter;
    while ((letter = getchar()) != EOF) {
        size_t m = entries.length / sizeof(ion_entry);
        if (letter == 'T') {
            fill(&tape, number(), 1);
        } else if (letter == 'I') {
            index_frame(tape, room);
        } else if (letter == 'E') {
            fill(&entries, number(), sizeof(ion_entry));
        } else if (letter == 'F') {
            fill(&name, number(), 1);
            answer(ion_find(start(tape), tape.length, start(entries), m, start(name), name.length));
        } else if (letter == 'N') {
            answer(ion_find_id(start(tape), tape.length, start(entries), m, number()));
        } else {
            return 2;
        }
    }
    return 0;
}
