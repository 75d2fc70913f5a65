/* Answers frames through libion_c.a, for tests/convert. A frame is a letter and what goes with it:
     T  u32 n, n bytes   the text of the frames behind it; no answer
     C  u32 m            ion_convert in a buffer of m bytes; the answer, i64, and the m bytes
     R  u32 m            ion_read, the same
     L  u32 m, u32 k     k calls of ion_read_line from offset 0 on in one buffer of m bytes; of each the answer, the offset, u64, and the m bytes
   The slices are those of slices.h, the buffer that of buffers.h, which alone may be written. The driver ends with 2 if a frame is broken, with 3 if a
   call wrote before the buffer. */
enum { ROOM = 1 << 25 };
#include "buffers.h"

int main(void) {
    struct slice text = region(), out = region();
    int letter;
    while ((letter = getchar()) != EOF) {
        if (letter == 'T') {
            fill(&text, number(), 1);
            continue;
        }
        lay(&out, number());
        if (letter == 'C') {
            answer(ion_convert(start(text), text.length, start(out), out.length));
            show(out);
        } else if (letter == 'R') {
            answer(ion_read(start(text), text.length, start(out), out.length));
            show(out);
        } else if (letter == 'L') {
            uint64_t at = 0;
            for (uint32_t k = number(); k; k--) {
                answer(ion_read_line(start(text), text.length, &at, start(out), out.length));
                fwrite(&at, 8, 1, stdout);
                show(out);
            }
        } else {
            return 2;
        }
    }
    return 0;
}
