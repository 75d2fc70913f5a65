/* Ion text for C and C++ (x86-64 Linux): tapes written as text, texts read back as tapes, stored texts converted, the fields of a struct found by
   name. Link crates/ion_c/out/libion_c.a, which `rt lib` in crates/ion_c makes and which needs nothing but memset.

   A tape is the binary form of a list of values: nodes, then u32 body length and u32 number of top-level nodes, all little-endian.
   docs/FORMAT.md has the nodes byte by byte, the texts, and the grammar of what is read.

   Every call but the lookups answers a count, of the bytes that it finished at the start of `out`, or for the four lengths of those that a text will
   have, or for ion_index of a struct's fields; or one of the refusals below. Where more than one refusal would do, the first in the list at the
   function comes. The lookups, ion_find and ion_find_id, answer a place or ION_NONE. `out` and `entries` have any length; bytes behind them are never
   touched, nor is the tape or text.

   What a caller owes:
   - Each pointer and its length name memory that is there during the call. With length 0 the pointer is not followed, so it may be null.
   - `out` shares no byte with the tape or the text, and `*at` none with either. The entries that ion_index writes share none with the tape.
   - Nobody else writes the tape, text, name, `*at`, `out` or `entries` during the call.
   The library has no state and keeps no pointer: threads may call it at once, each with its own `out`, or `entries` where they are written. It takes
   no heap, and of the stack less than 64 KiB at the greatest depth, as bindings/c/limits.c measures. */
#ifndef LECHUQTA_ION_H
#define LECHUQTA_ION_H

#include <stddef.h>
#include <stdint.h>

#ifdef __cplusplus
extern "C" {
#endif

/* Layouts: what stands behind each value at top level, and in containers. */
enum {
    ION_COMPACT = 0, /* a blank; all on one line */
    ION_LINES = 1,   /* a line feed; one value a line, as ion_read_line reads them */
    ION_PRETTY = 2   /* a line feed; children on lines of their own, indented by two blanks a level */
};

/* The end mark of ion_read_line. ion_write and ion_length answer 0 too, for a tape of no values, ion_convert for a text of no bytes, ion_index for a
   struct of no fields, and a lookup for the first place. */
enum { ION_END = 0 };

/* What ion_find and ion_find_id answer where no field has the name. They refuse nothing, so it is never ION_MISFIT, which has the same number. */
enum { ION_NONE = -1 };

/* Refusals, as they are answered: minus the number in the table of docs/FORMAT.md, "Refusals". */
enum {
    ION_MISFIT = -1,
    ION_BAD_NODE = -2,
    ION_TOO_DEEP = -3,
    ION_FINITE_FLOAT = -4,
    ION_UNSUITED = -5,
    ION_TEXT_TOO_LONG = -6,
    ION_NO_LAYOUT = -7,
    ION_OUTSIDE_GRAMMAR = -8,
    ION_TAPE_TOO_LONG = -9,
    ION_PAST_TEXT = -10,
    ION_NO_STRUCT = -11,
    ION_TOO_MANY_FIELDS = -12,
    ION_OUTSIDE_OLD_GRAMMAR = -13,
    ION_OUTPUT_TOO_LONG = -14
};

/* The longest tape, in bytes. */
enum { ION_TAPE_MAX = 1048576 };

/* Writes the tape's streaming text in a layout.

   Answers, the first that holds:
     ION_NO_LAYOUT      the layout is over 2
     ION_MISFIT         the tape has under 8 or over ION_TAPE_MAX bytes, or its trailer's body length plus 8 is not its length
     then the first node at fault in tape order, and at that node
     ION_BAD_NODE       it is not as the tape's layout has it
     ION_TOO_DEEP       it is a container that opens while 64 are open
     ION_FINITE_FLOAT   it is a float that is finite and no whole number of magnitude up to 2^53
     and with every node in order
     ION_BAD_NODE       the trailer's number of top-level nodes is wrong
     ION_UNSUITED       an annotated value stands somewhere
     ION_TEXT_TOO_LONG  the text is longer than `out`
     the count          the text's length

   `out` behind the count: the text, then the bytes that were there. Behind ION_TEXT_TOO_LONG: the text's first bytes, filling it.
   Behind every other refusal: untouched. */
int64_t ion_write(uint32_t layout, const uint8_t *tape, size_t tape_length, uint8_t *out, size_t out_length);

/* The length of the text that ion_write writes of the tape in a layout, for reserving `out` before; this call writes nothing. With `out` of that many
   bytes ion_write succeeds, and with one byte less it answers ION_TEXT_TOO_LONG.

   Answers as ion_write, but never ION_TEXT_TOO_LONG. In ION_COMPACT and ION_LINES the count is at most nine times tape_length. */
int64_t ion_length(uint32_t layout, const uint8_t *tape, size_t tape_length);

/* Writes the tree text of a tape of one value, annotations included.

   Answers, the first that holds:
     ION_MISFIT         as ion_write
     ION_BAD_NODE, ION_TOO_DEEP, ION_FINITE_FLOAT by nodes in tape order, then ION_BAD_NODE for the number of nodes: as ion_write
     ION_UNSUITED       not one top-level node, or it is a version marker, or a symbol identifier but 0 stands somewhere
     ION_TEXT_TOO_LONG  the text is longer than `out`
     the count          the text's length

   `out` is left as by ion_write. */
int64_t ion_write_tree(const uint8_t *tape, size_t tape_length, uint8_t *out, size_t out_length);

/* The length of the text that ion_write_tree writes of the tape, as ion_length is of ion_write's. Answers as ion_write_tree, but never
   ION_TEXT_TOO_LONG. */
int64_t ion_tree_length(const uint8_t *tape, size_t tape_length);

/* The same four with always-quoted symbols: every symbol text, as a value, a field's name or an annotation, stands between two ', with the escapes of
   strings, also where it could stand bare. Identifiers stay $ and digits, the marker stays $ion_1_0, and every other byte is as without _quoted. The
   texts are read back to the same tape.

   All else is as at the call without _quoted: answers, the order of refusals, what `out` holds behind each, and that in ION_COMPACT and ION_LINES
   ion_length_quoted counts at most nine times tape_length. Each length is that of the _quoted text. */
int64_t ion_write_quoted(uint32_t layout, const uint8_t *tape, size_t tape_length, uint8_t *out, size_t out_length);
int64_t ion_length_quoted(uint32_t layout, const uint8_t *tape, size_t tape_length);
int64_t ion_write_tree_quoted(const uint8_t *tape, size_t tape_length, uint8_t *out, size_t out_length);
int64_t ion_tree_length_quoted(const uint8_t *tape, size_t tape_length);

/* Reads a text of any number of values as their tape.

   Answers, the first that holds:
     ION_OUTSIDE_GRAMMAR  the text is not of the grammar (docs/FORMAT.md, "Reading a text")
     ION_TAPE_TOO_LONG    its tape is longer than the lesser of `out` and ION_TAPE_MAX
     the count            the tape's length, at least 8
   Of the control characters below U+0020, tab, 11 and 12 alone may stand raw in quoted text. Stored texts that have others go through ion_convert.

   `out` behind the count: the tape, then the bytes that were there. Behind a refusal: all zero, to its end. */
int64_t ion_read(const uint8_t *text, size_t text_length, uint8_t *out, size_t out_length);

/* Reads the line that starts at the offset *at: the bytes from there through the next line feed, or to the text's end.

   Answers, the first that holds:
     ION_PAST_TEXT        *at is past the text's length
     ION_END              *at is the text's length
     ION_OUTSIDE_GRAMMAR  the line is not one value or marker of ion_read's grammar, blanks around it allowed, and a line feed
     ION_TAPE_TOO_LONG    the tape of that one value is longer than the lesser of `out` and ION_TAPE_MAX
     the count            the length of that tape, at least 9

   *at behind ION_PAST_TEXT and ION_END: kept. Otherwise: behind the line, so a refused line does not stop the calls.
   `out` behind the count: the tape, then the bytes that were there. Behind ION_PAST_TEXT and ION_END: untouched. Behind the other two: all
   zero, to its end.

   To read a text line by line, start with *at = 0 and call until ION_END. Hand each call the offset and the buffer that the last one left,
   and let nobody write these or the text meanwhile. Then, in an ION_LINES text of which one run of bytes was changed, cut out or lengthened,
   and with `out` at least as long as the tape written, the lines that end before the run and those that start behind a line feed of the
   untouched rest are read as they were written. `at` is not null, whatever the lengths. */
int64_t ion_read_line(const uint8_t *text, size_t text_length, uint64_t *at, uint8_t *out, size_t out_length);

/* Converts a stored text that may have control characters raw: writes the same bytes, each raw U+0000 to U+0008 and U+000E to U+001F in quoted text
   replaced by \x and two lower-case hex digits. The output is of the grammar of ion_read, and means the tape that the stored text meant. A text of
   that grammar comes out unchanged, so that converting twice is converting once.

   Answers, the first that holds:
     ION_OUTSIDE_OLD_GRAMMAR  the text is not of the old grammar: that of ion_read, but in quoted text every raw character except line feed and CR is taken
     ION_OUTPUT_TOO_LONG      the output is longer than `out`
     the count                the output's length

   `out` behind the count: the output, then the bytes that were there. Behind a refusal: untouched.

   The text has any length, also where its tape would be longer than ION_TAPE_MAX. The output has text_length bytes and three more for each character
   replaced: exactly text_length where nothing is replaced, and at most four times text_length, which is always enough to reserve. In a text of the old
   grammar every byte from 0 to 8 and from 14 to 31 is such a character, so that counting these bytes tells the exact length before. */
int64_t ion_convert(const uint8_t *text, size_t text_length, uint8_t *out, size_t out_length);

/* A field of a struct, by two offsets from the tape's start: those of the kind bytes of its name and of its value. An annotated value starts with
   its kind 13. */
typedef struct ion_entry {
    uint64_t name, value;
} ion_entry;

/* Makes the index of a struct: an entry for each of its fields, sorted by name. `at` is the offset of the struct's kind byte, the 12, at whatever
   depth it stands; behind annotations too it is that of the 12.

   Answers, the first that holds:
     ION_MISFIT           as ion_write
     ION_BAD_NODE, ION_TOO_DEEP, ION_FINITE_FLOAT by nodes in tape order, then ION_BAD_NODE for the number of nodes: as ion_write
     ION_NO_STRUCT        no struct node of the tape has its kind byte at the offset
     ION_TOO_MANY_FIELDS  the struct has more fields than there are entries
     the count            the number of fields
   Annotated values may stand anywhere: never ION_UNSUITED.

   Identifiers come first, by number; then texts by their bytes, a proper beginning first. An identifier equals no text. Equal names stand latest
   first: of two fields with one name the one that stands later in the struct comes first.

   `entries` behind the count: the index, then the entries that were there. Behind a refusal: untouched. A field takes 7 bytes of the tape or more,
   so that tape_length / 7 entries are always enough, and 149,794 for every tape.

   Each call validates the whole tape. Of a long list of records each is best indexed on a tape of its own, as ion_read_line gives them. */
int64_t ion_index(const uint8_t *tape, size_t tape_length, uint64_t at, ion_entry *entries, size_t entries_length);

/* Finds a field by its name: by a text, `name_length` bytes of UTF-8, or by an identifier. `entries` is an index, as many entries as ion_index
   counted, and the tape is the one that it was made of.

   Answers the place in `entries`, from 0, of the first entry with the name, which is that of the latest field with it; or ION_NONE, exactly if no
   field has it. Bytes that are not UTF-8 are no field's name.

   Over any other entries or tape it answers ION_NONE or some place below entries_length; which one is not said. Offsets past the tape are not
   followed. */
int64_t ion_find(const uint8_t *tape, size_t tape_length, const ion_entry *entries, size_t entries_length, const uint8_t *name, size_t name_length);
int64_t ion_find_id(const uint8_t *tape, size_t tape_length, const ion_entry *entries, size_t entries_length, uint32_t id);

#ifdef __cplusplus
}
#endif

#endif
