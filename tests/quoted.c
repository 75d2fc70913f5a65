/* Answers frames through libion_c.a, for tests/quoted. A frame is a letter and what goes with it:
     T  u32 n, n bytes        the tape, or the text, of the frames behind it; no answer
     W  u32 layout, u32 m     ion_write_quoted in a buffer of m bytes; the answer, i64, and the m bytes
     S  u32 layout, u32 m     ion_write_tree_quoted, the same; whatever the layout
     L  u32 layout, u32 m     ion_length_quoted; the answer, and a buffer of m bytes that is not handed over
     M  u32 layout, u32 m     ion_tree_length_quoted, the same
     w, s, l, m               the calls without _quoted, the same
     R  u32 layout, u32 m     ion_read in a buffer of m bytes; the answer and the m bytes
   The slices are those of slices.h, the buffer that of buffers.h, which alone may be written. The driver ends with 2 if a frame is broken, with 3 if a
   call wrote before the buffer. */
enum { ROOM = 1 << 25 };
#include "buffers.h"

static int64_t call(int letter, uint32_t layout, struct slice in, struct slice out) {
    switch (letter) {
    case 'W': return ion_write_quoted(layout, start(in), in.length, start(out), out.length);
    case 'w': return ion_write(layout, start(in), in.length, start(out), out.length);
    case 'S': return ion_write_tree_quoted(start(in), in.length, start(out), out.length);
    case 's': return ion_write_tree(start(in), in.length, start(out), out.length);
    case 'L': return ion_length_quoted(layout, start(in), in.length);
    case 'l': return ion_length(layout, start(in), in.length);
    case 'M': return ion_tree_length_quoted(start(in), in.length);
    case 'm': return ion_tree_length(start(in), in.length);
    case 'R': return ion_read(start(in), in.length, start(out), out.length);
    default: exit(2);
    }
}

int main(void) {
    struct slice in = region(), out = region();
    int letter;
    while ((letter = getchar()) != EOF) {
        if (letter == 'T') {
            fill(&in, number(), 1);
            continue;
        }
        uint32_t layout = number();
        lay(&out, number());
        answer(call(letter, layout, in, out));
        show(out);
    }
    return 0;
}
