/* The calls at their limits, from C: every answer at least once, and, but for the longest tapes and the
   deepest, every byte of the buffer and beside it, or every entry; and how much of the stack they take. Prints what is
   wrong and ends with 1, or prints how many calls were checked. bindings/rust/tests and tests/index have many more. */
#define _XOPEN_SOURCE 700
#include "ion.h"

#include <stdio.h>
#include <stdlib.h>
#include <string.h>
#include <ucontext.h>

enum { ROOM = 64, GUARD = 16, KEPT = -1 };

static int checked, wrong;

/* A buffer of n bytes between guards; each byte tells its place. */
static uint8_t memory[GUARD + ROOM + GUARD];
static uint8_t *const out = memory + GUARD;

static uint8_t old(size_t i) { return (uint8_t)(0xA5 ^ i * 7); }

static void refill(void) {
    for (size_t i = 0; i < sizeof memory; i++) memory[i] = old(i);
}

/* After a call over n bytes: the answer, and a buffer that begins with `lead` and goes on as it was (KEPT) or in zeros (0). */
static void check(const char *what, int64_t answer, int64_t due, size_t n, const char *lead, size_t lead_length, int rest) {
    checked++;
    if (answer != due) {
        printf("%s: answered %lld, expected %lld\n", what, (long long)answer, (long long)due);
        wrong++;
    }
    for (size_t i = 0; i < sizeof memory; i++) {
        uint8_t byte = old(i);
        if (i >= GUARD && i < GUARD + n) {
            size_t k = i - GUARD;
            if (k < lead_length) byte = (uint8_t)lead[k];
            else if (rest != KEPT) byte = (uint8_t)rest;
        }
        if (memory[i] != byte) {
            printf("%s: byte %d of the buffer is %d, expected %d\n", what, (int)i - GUARD, memory[i], byte);
            wrong++;
            break;
        }
    }
    refill();
}

/* A call's tape or text: a literal without its closing 0. */
#define BYTES(s) (const uint8_t *)(s), sizeof(s) - 1

/* Tapes: no value; [true]; a::true; the string of U+0001; two bools where one is counted; 1.5; a broken bool. */
#define EMPTY "\0\0\0\0\0\0\0\0"
#define LIST "\12\2\0\0\0\1\1\7\0\0\0\1\0\0\0"
#define NOTED "\15\1\6\1\0\0\0a\1\1\12\0\0\0\1\0\0\0"
#define CONTROL "\10\1\0\0\0\1\6\0\0\0\1\0\0\0"
#define MISCOUNTED "\1\1\1\1\4\0\0\0\1\0\0\0"
#define FLOAT "\3\0\0\0\0\0\0\370\77\11\0\0\0\1\0\0\0"
#define BROKEN "\1\2\2\0\0\0\1\0\0\0"

static void writers(void) {
    check("empty tape, no buffer", ion_write(ION_LINES, BYTES(EMPTY), NULL, 0), 0, 0, "", 0, KEPT);
    check("no tape", ion_write(ION_LINES, NULL, 0, out, ROOM), ION_MISFIT, ROOM, "", 0, KEPT);
    check("7 bytes of tape", ion_write(ION_LINES, (const uint8_t *)EMPTY, 7, out, ROOM), ION_MISFIT, ROOM, "", 0, KEPT);
    check("room to spare", ion_write(ION_LINES, BYTES(LIST), out, ROOM), 9, ROOM, "[true, ]\n", 9, KEPT);
    check("exactly full", ion_write(ION_LINES, BYTES(LIST), out, 9), 9, 9, "[true, ]\n", 9, KEPT);
    check("one byte short", ion_write(ION_LINES, BYTES(LIST), out, 8), ION_TEXT_TOO_LONG, 8, "[true, ]", 8, KEPT);
    check("no buffer", ion_write(ION_LINES, BYTES(LIST), NULL, 0), ION_TEXT_TOO_LONG, 0, "", 0, KEPT);
    check("Compact", ion_write(ION_COMPACT, BYTES(LIST), out, ROOM), 9, ROOM, "[true, ] ", 9, KEPT);
    check("Pretty", ion_write(ION_PRETTY, BYTES(LIST), out, ROOM), 12, ROOM, "[\n  true,\n]\n", 12, KEPT);
    check("a control character", ion_write(ION_LINES, BYTES(CONTROL), out, ROOM), 7, ROOM, "\"\\x01\"\n", 7, KEPT);
    check("its escape cut", ion_write(ION_LINES, BYTES(CONTROL), out, 4), ION_TEXT_TOO_LONG, 4, "\"\\x0", 4, KEPT);
    check("layout 3", ion_write(3, BYTES(EMPTY), out, ROOM), ION_NO_LAYOUT, ROOM, "", 0, KEPT);
    check("the last layout, no tape", ion_write(UINT32_MAX, NULL, 0, out, ROOM), ION_NO_LAYOUT, ROOM, "", 0, KEPT);
    check("broken node", ion_write(ION_LINES, BYTES(BROKEN), out, ROOM), ION_BAD_NODE, ROOM, "", 0, KEPT);
    check("wrong count", ion_write(ION_LINES, BYTES(MISCOUNTED), out, ROOM), ION_BAD_NODE, ROOM, "", 0, KEPT);
    check("1.5", ion_write(ION_LINES, BYTES(FLOAT), out, ROOM), ION_FINITE_FLOAT, ROOM, "", 0, KEPT);
    check("annotated", ion_write(ION_LINES, BYTES(NOTED), out, ROOM), ION_UNSUITED, ROOM, "", 0, KEPT);

    check("tree: annotated", ion_write_tree(BYTES(NOTED), out, ROOM), 7, ROOM, "a::true", 7, KEPT);
    check("tree: exactly full", ion_write_tree(BYTES(NOTED), out, 7), 7, 7, "a::true", 7, KEPT);
    check("tree: one byte short", ion_write_tree(BYTES(NOTED), out, 6), ION_TEXT_TOO_LONG, 6, "a::tru", 6, KEPT);
    check("tree: no buffer", ion_write_tree(BYTES(NOTED), NULL, 0), ION_TEXT_TOO_LONG, 0, "", 0, KEPT);
    check("tree: no tape", ion_write_tree(NULL, 0, out, ROOM), ION_MISFIT, ROOM, "", 0, KEPT);
    check("tree: no value", ion_write_tree(BYTES(EMPTY), out, ROOM), ION_UNSUITED, ROOM, "", 0, KEPT);
}

/* The lengths of texts; a null pointer with length 0 is as no tape. */
static void lengths(void) {
    check("length: no value", ion_length(ION_LINES, BYTES(EMPTY)), 0, 0, "", 0, KEPT);
    check("length: no tape", ion_length(ION_LINES, NULL, 0), ION_MISFIT, 0, "", 0, KEPT);
    check("length: Compact", ion_length(ION_COMPACT, BYTES(LIST)), 9, 0, "", 0, KEPT);
    check("length: Lines", ion_length(ION_LINES, BYTES(LIST)), 9, 0, "", 0, KEPT);
    check("length: Pretty", ion_length(ION_PRETTY, BYTES(LIST)), 12, 0, "", 0, KEPT);
    check("length: a control character", ion_length(ION_LINES, BYTES(CONTROL)), 7, 0, "", 0, KEPT);
    check("length: layout 3, no tape", ion_length(3, NULL, 0), ION_NO_LAYOUT, 0, "", 0, KEPT);
    check("length: broken node", ion_length(ION_LINES, BYTES(BROKEN)), ION_BAD_NODE, 0, "", 0, KEPT);
    check("length: wrong count", ion_length(ION_LINES, BYTES(MISCOUNTED)), ION_BAD_NODE, 0, "", 0, KEPT);
    check("length: 1.5", ion_length(ION_LINES, BYTES(FLOAT)), ION_FINITE_FLOAT, 0, "", 0, KEPT);
    check("length: annotated", ion_length(ION_LINES, BYTES(NOTED)), ION_UNSUITED, 0, "", 0, KEPT);
    check("tree length: annotated", ion_tree_length(BYTES(NOTED)), 7, 0, "", 0, KEPT);
    check("tree length: [true]", ion_tree_length(BYTES(LIST)), 6, 0, "", 0, KEPT);
    check("tree length: no tape", ion_tree_length(NULL, 0), ION_MISFIT, 0, "", 0, KEPT);
    check("tree length: no value", ion_tree_length(BYTES(EMPTY)), ION_UNSUITED, 0, "", 0, KEPT);
}

/* With always-quoted symbols, and the lengths of these texts; the tape is {b: (a $7)}. What is refused is refused as without. */
#define SYMBOLS "\14\26\0\0\0\6\1\0\0\0b\13\13\0\0\0\6\1\0\0\0a\7\7\0\0\0\33\0\0\0\1\0\0\0"

static void quoted_writers(void) {
    static const char lines[] = "{'b': ('a' $7 ), }\n", pretty[] = "{\n  'b': (\n    'a'\n    $7\n  ),\n}\n";
    size_t full = sizeof lines - 1;
    check("quoted: room to spare", ion_write_quoted(ION_LINES, BYTES(SYMBOLS), out, ROOM), (int64_t)full, ROOM, lines, full, KEPT);
    check("quoted: exactly full", ion_write_quoted(ION_LINES, BYTES(SYMBOLS), out, full), (int64_t)full, full, lines, full, KEPT);
    for (size_t n = 0; n < full; n++)
        check("quoted: too short", ion_write_quoted(ION_LINES, BYTES(SYMBOLS), out, n), ION_TEXT_TOO_LONG, n, lines, n, KEPT);
    check("quoted: no buffer", ion_write_quoted(ION_LINES, BYTES(SYMBOLS), NULL, 0), ION_TEXT_TOO_LONG, 0, "", 0, KEPT);
    check("quoted: Compact", ion_write_quoted(ION_COMPACT, BYTES(SYMBOLS), out, ROOM), 19, ROOM, "{'b': ('a' $7 ), } ", 19, KEPT);
    check("quoted: Pretty", ion_write_quoted(ION_PRETTY, BYTES(SYMBOLS), out, ROOM), sizeof pretty - 1, ROOM, pretty, sizeof pretty - 1, KEPT);
    check("quoted: no symbol", ion_write_quoted(ION_LINES, BYTES(LIST), out, ROOM), 9, ROOM, "[true, ]\n", 9, KEPT);
    check("quoted: empty tape, no buffer", ion_write_quoted(ION_LINES, BYTES(EMPTY), NULL, 0), 0, 0, "", 0, KEPT);
    check("quoted: no tape", ion_write_quoted(ION_LINES, NULL, 0, out, ROOM), ION_MISFIT, ROOM, "", 0, KEPT);
    check("quoted: the last layout, no tape", ion_write_quoted(UINT32_MAX, NULL, 0, out, ROOM), ION_NO_LAYOUT, ROOM, "", 0, KEPT);
    check("quoted: broken node", ion_write_quoted(ION_LINES, BYTES(BROKEN), out, ROOM), ION_BAD_NODE, ROOM, "", 0, KEPT);
    check("quoted: wrong count", ion_write_quoted(ION_LINES, BYTES(MISCOUNTED), out, ROOM), ION_BAD_NODE, ROOM, "", 0, KEPT);
    check("quoted: 1.5", ion_write_quoted(ION_LINES, BYTES(FLOAT), out, ROOM), ION_FINITE_FLOAT, ROOM, "", 0, KEPT);
    check("quoted: annotated", ion_write_quoted(ION_LINES, BYTES(NOTED), out, ROOM), ION_UNSUITED, ROOM, "", 0, KEPT);

    check("quoted tree: annotated", ion_write_tree_quoted(BYTES(NOTED), out, ROOM), 9, ROOM, "'a'::true", 9, KEPT);
    check("quoted tree: exactly full", ion_write_tree_quoted(BYTES(NOTED), out, 9), 9, 9, "'a'::true", 9, KEPT);
    check("quoted tree: one byte short", ion_write_tree_quoted(BYTES(NOTED), out, 8), ION_TEXT_TOO_LONG, 8, "'a'::tru", 8, KEPT);
    check("quoted tree: no buffer", ion_write_tree_quoted(BYTES(NOTED), NULL, 0), ION_TEXT_TOO_LONG, 0, "", 0, KEPT);
    check("quoted tree: no tape", ion_write_tree_quoted(NULL, 0, out, ROOM), ION_MISFIT, ROOM, "", 0, KEPT);
    check("quoted tree: an identifier", ion_write_tree_quoted(BYTES(SYMBOLS), out, ROOM), ION_UNSUITED, ROOM, "", 0, KEPT);

    check("quoted length: Compact", ion_length_quoted(ION_COMPACT, BYTES(SYMBOLS)), 19, 0, "", 0, KEPT);
    check("quoted length: Lines", ion_length_quoted(ION_LINES, BYTES(SYMBOLS)), 19, 0, "", 0, KEPT);
    check("quoted length: Pretty", ion_length_quoted(ION_PRETTY, BYTES(SYMBOLS)), sizeof pretty - 1, 0, "", 0, KEPT);
    check("quoted length: no value", ion_length_quoted(ION_LINES, BYTES(EMPTY)), 0, 0, "", 0, KEPT);
    check("quoted length: no tape", ion_length_quoted(ION_LINES, NULL, 0), ION_MISFIT, 0, "", 0, KEPT);
    check("quoted length: layout 3, no tape", ion_length_quoted(3, NULL, 0), ION_NO_LAYOUT, 0, "", 0, KEPT);
    check("quoted length: annotated", ion_length_quoted(ION_LINES, BYTES(NOTED)), ION_UNSUITED, 0, "", 0, KEPT);
    check("quoted tree length: annotated", ion_tree_length_quoted(BYTES(NOTED)), 9, 0, "", 0, KEPT);
    check("quoted tree length: no tape", ion_tree_length_quoted(NULL, 0), ION_MISFIT, 0, "", 0, KEPT);
    check("quoted tree length: no value", ion_tree_length_quoted(BYTES(EMPTY)), ION_UNSUITED, 0, "", 0, KEPT);
}

/* Entries between guards, which tell their places too. */
enum { ENTRIES = 8, BESIDE = 2 };

static ion_entry entry_memory[BESIDE + ENTRIES + BESIDE];
static ion_entry *const entries = entry_memory + BESIDE;

static ion_entry old_entry(size_t i) {
    ion_entry e = {UINT64_MAX - i, 0xA5A5A5A5A5A5 + i};
    return e;
}

static void refill_entries(void) {
    for (size_t i = 0; i < BESIDE + ENTRIES + BESIDE; i++) entry_memory[i] = old_entry(i);
}

/* After ion_index: the answer, entries that begin with the index, where it is a count, and go on as they were. */
static void check_index(const char *what, int64_t answer, int64_t due, const ion_entry *index) {
    checked++;
    if (answer != due) {
        printf("%s: answered %lld, expected %lld\n", what, (long long)answer, (long long)due);
        wrong++;
    }
    for (size_t i = 0; i < BESIDE + ENTRIES + BESIDE; i++) {
        ion_entry e = old_entry(i);
        if (due > 0 && i >= BESIDE && i - BESIDE < (size_t)due) e = index[i - BESIDE];
        if (entry_memory[i].name != e.name || entry_memory[i].value != e.value) {
            printf("%s: entry %d is not as it must be\n", what, (int)i - BESIDE);
            wrong++;
            break;
        }
    }
    refill_entries();
}

/* {b: true, a: x::{}, $7: null.struct, '$7': "\f", a: false}, and its index. Structs start at 0 and at 27, behind the annotation at 19; a byte 12
   stands at 38 and at 51, too. */
#define PASS \
    "\14\67\0\0\0\6\1\0\0\0b\1\1\6\1\0\0\0a\15\1\6\1\0\0\0x\14\0\0\0\0\7\7\0\0\0\0\14" \
    "\6\2\0\0\0$7\10\1\0\0\0\14\6\1\0\0\0a\1\0\74\0\0\0\1\0\0\0"

enum { INNER = 27, FIELDS = 5 };

static const ion_entry pass_index[FIELDS] = {{32, 37}, {39, 46}, {52, 58}, {13, 19}, {5, 11}};

static void index_calls(void) {
    check_index("index: room to spare", ion_index(BYTES(PASS), 0, entries, ENTRIES), FIELDS, pass_index);
    check_index("index: exactly full", ion_index(BYTES(PASS), 0, entries, FIELDS), FIELDS, pass_index);
    check_index("index: one entry short", ion_index(BYTES(PASS), 0, entries, FIELDS - 1), ION_TOO_MANY_FIELDS, NULL);
    check_index("index: no entries", ion_index(BYTES(PASS), 0, NULL, 0), ION_TOO_MANY_FIELDS, NULL);
    check_index("index: no fields", ion_index(BYTES(PASS), INNER, entries, ENTRIES), 0, NULL);
    check_index("index: no fields, no entries", ion_index(BYTES(PASS), INNER, NULL, 0), 0, NULL);
    for (uint64_t at = 1; at < sizeof PASS + 8; at++)
        if (at != INNER) check_index("index: no struct there", ion_index(BYTES(PASS), at, entries, ENTRIES), ION_NO_STRUCT, NULL);
    check_index("index: far past the tape", ion_index(BYTES(PASS), UINT64_MAX, entries, ENTRIES), ION_NO_STRUCT, NULL);
    check_index("index: past the tape by 2 to the 32", ion_index(BYTES(PASS), (uint64_t)1 << 32, entries, ENTRIES), ION_NO_STRUCT, NULL);
    check_index("index: 11 before 12", ion_index(BYTES(PASS), 1, NULL, 0), ION_NO_STRUCT, NULL);
    check_index("index: no value", ion_index(BYTES(EMPTY), 0, entries, ENTRIES), ION_NO_STRUCT, NULL);
    check_index("index: annotated", ion_index(BYTES(NOTED), 0, entries, ENTRIES), ION_NO_STRUCT, NULL);
    check_index("index: no tape", ion_index(NULL, 0, 0, entries, ENTRIES), ION_MISFIT, NULL);
    check_index("index: nothing", ion_index(NULL, 0, UINT64_MAX, NULL, 0), ION_MISFIT, NULL);
    check_index("index: a tape cut short", ion_index((const uint8_t *)PASS, sizeof PASS - 2, 0, entries, ENTRIES), ION_MISFIT, NULL);
    check_index("index: broken node", ion_index(BYTES(BROKEN), 99, NULL, 0), ION_BAD_NODE, NULL);
    check_index("index: wrong count", ion_index(BYTES(MISCOUNTED), 99, NULL, 0), ION_BAD_NODE, NULL);
    check_index("index: 1.5", ion_index(BYTES(FLOAT), 99, NULL, 0), ION_FINITE_FLOAT, NULL);
}

/* {'': true} */
#define NAMELESS "\14\7\0\0\0\6\0\0\0\0\1\1\14\0\0\0\1\0\0\0"

static void check_find(const char *what, int64_t answer, int64_t due) { check(what, answer, due, 0, "", 0, KEPT); }

/* Over foreign entries: none, or a place among n. */
static void check_within(const char *what, int64_t answer, int64_t n) {
    check_find(what, answer >= ION_NONE && answer < n ? ION_NONE : answer, ION_NONE);
}

static void lookups(void) {
    const ion_entry *index = pass_index;
    check_find("find: an identifier", ion_find_id(BYTES(PASS), index, FIELDS, 7), 0);
    check_find("find: a text like it", ion_find(BYTES(PASS), index, FIELDS, BYTES("$7")), 1);
    check_find("find: the latest of two", ion_find(BYTES(PASS), index, FIELDS, BYTES("a")), 2);
    check_find("find: the latest of two, the earlier in the middle", ion_find(BYTES(PASS), index + 1, FIELDS - 1, BYTES("a")), 1);
    check_find("find: the last", ion_find(BYTES(PASS), index, FIELDS, BYTES("b")), 4);
    check_find("find: before all texts", ion_find(BYTES(PASS), index, FIELDS, BYTES("!")), ION_NONE);
    check_find("find: between two", ion_find(BYTES(PASS), index, FIELDS, BYTES("aa")), ION_NONE);
    check_find("find: behind all", ion_find(BYTES(PASS), index, FIELDS, BYTES("c")), ION_NONE);
    check_find("find: a proper beginning", ion_find(BYTES(PASS), index, FIELDS, BYTES("$")), ION_NONE);
    check_find("find: not UTF-8", ion_find(BYTES(PASS), index, FIELDS, BYTES("\377")), ION_NONE);
    check_find("find: the empty name", ion_find(BYTES(PASS), index, FIELDS, NULL, 0), ION_NONE);
    check_find("find: another identifier", ion_find_id(BYTES(PASS), index, FIELDS, 6), ION_NONE);
    check_find("find: the last identifier", ion_find_id(BYTES(PASS), index, FIELDS, UINT32_MAX), ION_NONE);
    check_find("find: no entries", ion_find(BYTES(PASS), NULL, 0, BYTES("a")), ION_NONE);
    check_find("find: no entries, an identifier", ion_find_id(BYTES(PASS), NULL, 0, 7), ION_NONE);
    check_find("find: nothing", ion_find(NULL, 0, NULL, 0, NULL, 0), ION_NONE);
    static const ion_entry only = {5, 10};
    check_find("find: the empty name, there", ion_find(BYTES(NAMELESS), &only, 1, NULL, 0), 0);

    /* Entries at the tape's end, past it and far past it; such as ion_index never wrote; an index over no tape; one entry at every offset. */
    static const ion_entry foreign[] = {{0, 0}, {64, 65}, {67, 68}, {68, 0}, {1 << 20, 1 << 20}, {UINT64_MAX - 4, 0}, {UINT64_MAX, UINT64_MAX}};
    static const int64_t n = sizeof foreign / sizeof *foreign;
    check_within("find: foreign entries", ion_find(BYTES(PASS), foreign, (size_t)n, BYTES("a")), n);
    check_within("find: foreign entries, the empty name", ion_find(BYTES(PASS), foreign, (size_t)n, NULL, 0), n);
    check_within("find: foreign entries, an identifier", ion_find_id(BYTES(PASS), foreign, (size_t)n, 0), n);
    check_within("find: entries never written", ion_find(BYTES(PASS), entries, ENTRIES, BYTES("a")), ENTRIES);
    check_within("find: no tape", ion_find(NULL, 0, index, FIELDS, BYTES("a")), FIELDS);
    check_within("find: no tape, the empty name", ion_find(NULL, 0, index, FIELDS, NULL, 0), FIELDS);
    check_within("find: no tape, an identifier", ion_find_id(NULL, 0, index, FIELDS, 7), FIELDS);
    for (uint64_t at = 0; at <= sizeof PASS; at++) {
        ion_entry one = {at, at};
        check_within("find: any offset", ion_find(BYTES(PASS), &one, 1, BYTES("a")), 1);
        check_within("find: any offset, an identifier", ion_find_id(BYTES(PASS), &one, 1, 7), 1);
    }
}

/* Lists within each other, and tapes of the greatest length and one more. */
static void depth_and_length(void) {
    for (size_t depth = 64; depth <= 65; depth++) {
        uint8_t tape[5 * 65 + 8] = {0}, text[256];
        size_t body = 5 * depth;
        for (size_t i = 0; i < depth; i++) {
            size_t inside = body - 5 * (i + 1);
            tape[5 * i] = 10;
            tape[5 * i + 1] = (uint8_t)inside;
            tape[5 * i + 2] = (uint8_t)(inside >> 8);
        }
        tape[body] = (uint8_t)body;
        tape[body + 1] = (uint8_t)(body >> 8);
        tape[body + 4] = 1;
        check("depth, length", ion_tree_length(tape, body + 8), depth == 64 ? 128 : ION_TOO_DEEP, 0, "", 0, KEPT);
        check("depth", ion_write_tree(tape, body + 8, text, sizeof text), depth == 64 ? 128 : ION_TOO_DEEP, 0, "", 0, KEPT);
        check("depth, quoted length", ion_tree_length_quoted(tape, body + 8), depth == 64 ? 128 : ION_TOO_DEEP, 0, "", 0, KEPT);
        check("depth, quoted", ion_write_tree_quoted(tape, body + 8, text, sizeof text), depth == 64 ? 128 : ION_TOO_DEEP, 0, "", 0, KEPT);
        tape[body - 5] = 12; /* the innermost is a struct */
        check_index("depth, index", ion_index(tape, body + 8, body - 5, entries, ENTRIES), depth == 64 ? 0 : ION_TOO_DEEP, NULL);
        check_index("depth, no struct", ion_index(tape, body + 8, 0, NULL, 0), depth == 64 ? ION_NO_STRUCT : ION_TOO_DEEP, NULL);
        memset(text, '[', depth);
        memset(text + depth, ']', depth);
        check("depth, read", ion_read(text, 2 * depth, tape, sizeof tape), depth == 64 ? 5 * 64 + 8 : ION_OUTSIDE_GRAMMAR, 0, "", 0, KEPT);
    }
    for (size_t length = ION_TAPE_MAX; length <= ION_TAPE_MAX + 1; length++) {
        /* One clob that fills the tape: a kind, u32 length, bytes, the trailer. Its text is the bytes between {{" and "}} and a line feed. */
        size_t bytes = length - 13, body = length - 8, text_length = bytes + 7;
        uint8_t *tape = malloc(length), *text = malloc(text_length);
        if (!tape || !text) exit(2);
        memset(tape, 'c', length);
        tape[0] = 9;
        for (int i = 0; i < 4; i++) {
            tape[1 + i] = (uint8_t)(bytes >> 8 * i);
            tape[body + (size_t)i] = (uint8_t)(body >> 8 * i);
            tape[body + 4 + (size_t)i] = i == 0;
        }
        int fits = length == ION_TAPE_MAX;
        check("long tape, length", ion_length(ION_LINES, tape, length), fits ? (int64_t)text_length : ION_MISFIT, 0, "", 0, KEPT);
        check("long tape", ion_write(ION_LINES, tape, length, text, text_length), fits ? (int64_t)text_length : ION_MISFIT, 0, "", 0, KEPT);
        tape[0] = 6; /* a symbol, whose text is the bytes between two ' and a line feed */
        int64_t due = fits ? (int64_t)bytes + 3 : ION_MISFIT;
        check("long tape, quoted length", ion_length_quoted(ION_LINES, tape, length), due, 0, "", 0, KEPT);
        check("long tape, quoted", ion_write_quoted(ION_LINES, tape, length, text, bytes + 3), due, 0, "", 0, KEPT);
        check_index("long tape, index", ion_index(tape, length, 0, entries, ENTRIES), fits ? ION_NO_STRUCT : ION_MISFIT, NULL);
        memset(text, 'c', text_length);
        memcpy(text, "{{\"", 3);
        memcpy(text + text_length - 4, "\"}}\n", 4);
        check("long text", ion_read(text, text_length, tape, length), fits ? (int64_t)length : ION_TAPE_TOO_LONG, 0, "", 0, KEPT);
        free(tape);
        free(text);
    }
}

static void readers(void) {
    check("no text", ion_read(NULL, 0, out, ROOM), 8, ROOM, EMPTY, 8, KEPT);
    check("no text, 8 bytes", ion_read(NULL, 0, out, 8), 8, 8, EMPTY, 8, KEPT);
    check("no text, 7 bytes", ion_read(NULL, 0, out, 7), ION_TAPE_TOO_LONG, 7, "", 0, 0);
    check("no text, no buffer", ion_read(NULL, 0, NULL, 0), ION_TAPE_TOO_LONG, 0, "", 0, KEPT);
    check("read, room to spare", ion_read(BYTES("[true]"), out, ROOM), 15, ROOM, LIST, 15, KEPT);
    check("read, exactly full", ion_read(BYTES("[true]"), out, 15), 15, 15, LIST, 15, KEPT);
    check("read, one byte short", ion_read(BYTES("[true]"), out, 14), ION_TAPE_TOO_LONG, 14, "", 0, 0);
    check("read, a control character escaped", ion_read(BYTES("\"\\x01\""), out, ROOM), 14, ROOM, CONTROL, 14, KEPT);
    check("read, a control character raw", ion_read(BYTES("\"\1\""), out, ROOM), ION_OUTSIDE_GRAMMAR, ROOM, "", 0, 0);
    check("read, an open list", ion_read(BYTES("[true"), out, ROOM), ION_OUTSIDE_GRAMMAR, ROOM, "", 0, 0);
    check("read, 8 before 9", ion_read(BYTES("[true"), NULL, 0), ION_OUTSIDE_GRAMMAR, 0, "", 0, KEPT);
}

static void check_line(const char *what, uint64_t from, uint64_t to, int64_t due, size_t n, const char *lead, size_t lead_length, int rest) {
    static const uint8_t text[] = "[true]\n?\n\ntrue true\n[true]";
    uint64_t at = from;
    int64_t answer = ion_read_line(text, sizeof text - 1, &at, out, n);
    check(what, answer, due, n, lead, lead_length, rest);
    if (at != to) {
        printf("%s: the offset is %llu, expected %llu\n", what, (unsigned long long)at, (unsigned long long)to);
        wrong++;
    }
}

static void line_reader(void) {
    check_line("a line", 0, 7, 15, ROOM, LIST, 15, KEPT);
    check_line("a line, exactly full", 0, 7, 15, 15, LIST, 15, KEPT);
    check_line("a line, one byte short", 0, 7, ION_TAPE_TOO_LONG, 14, "", 0, 0);
    check_line("a line, no buffer", 0, 7, ION_TAPE_TOO_LONG, 0, "", 0, KEPT);
    check_line("outside the grammar", 7, 9, ION_OUTSIDE_GRAMMAR, ROOM, "", 0, 0);
    check_line("an empty line", 9, 10, ION_OUTSIDE_GRAMMAR, ROOM, "", 0, 0);
    check_line("two values", 10, 20, ION_OUTSIDE_GRAMMAR, ROOM, "", 0, 0);
    check_line("no line feed", 20, 26, ION_OUTSIDE_GRAMMAR, ROOM, "", 0, 0);
    check_line("the end mark", 26, 26, ION_END, ROOM, "", 0, KEPT);
    check_line("past the text", 27, 27, ION_PAST_TEXT, ROOM, "", 0, KEPT);
    check_line("far past the text", UINT64_MAX, UINT64_MAX, ION_PAST_TEXT, ROOM, "", 0, KEPT);
    uint64_t at = 0;
    check("no text, the end mark", ion_read_line(NULL, 0, &at, NULL, 0), ION_END, 0, "", 0, KEPT);
    check("a line, a control character raw", ion_read_line(BYTES("\"\1\"\n"), &at, out, ROOM), ION_OUTSIDE_GRAMMAR, ROOM, "", 0, 0);
}

/* Stored texts converted. Behind a refusal `out` is as it was. */
static void converter(void) {
    check("convert, nothing", ion_convert(NULL, 0, NULL, 0), 0, 0, "", 0, KEPT);
    check("convert, no text", ion_convert(NULL, 0, out, ROOM), 0, ROOM, "", 0, KEPT);
    check("convert, no buffer", ion_convert(BYTES("1"), NULL, 0), ION_OUTPUT_TOO_LONG, 0, "", 0, KEPT);
    check("convert, clean", ion_convert(BYTES("[ true ]\r\n"), out, ROOM), 10, ROOM, "[ true ]\r\n", 10, KEPT);
    check("convert, clean, exactly full", ion_convert(BYTES("[ true ]\r\n"), out, 10), 10, 10, "[ true ]\r\n", 10, KEPT);
    check("convert, clean, one byte short", ion_convert(BYTES("[ true ]\r\n"), out, 9), ION_OUTPUT_TOO_LONG, 9, "", 0, KEPT);

    /* An annotation, a name, a symbol and a string; an escape stays, and so does a clob. */
    static const char stored[] = "'\1'::{'\2':'\16'}\n\"\7\\a\" {{\"\\x01\"}}";
    static const char due[] = "'\\x01'::{'\\x02':'\\x0e'}\n\"\\x07\\a\" {{\"\\x01\"}}";
    size_t full = sizeof due - 1;
    check("convert, room to spare", ion_convert(BYTES(stored), out, ROOM), (int64_t)full, ROOM, due, full, KEPT);
    check("convert, exactly full", ion_convert(BYTES(stored), out, full), (int64_t)full, full, due, full, KEPT);
    for (size_t n = 0; n < full; n++) check("convert, too short", ion_convert(BYTES(stored), out, n), ION_OUTPUT_TOO_LONG, n, "", 0, KEPT);
    check("convert, its output", ion_convert(BYTES(due), out, full), (int64_t)full, full, due, full, KEPT);

    /* Cut short it is outside the old grammar: 13 comes before 14. */
    check("convert, cut", ion_convert((const uint8_t *)stored, sizeof stored - 2, out, ROOM), ION_OUTSIDE_OLD_GRAMMAR, ROOM, "", 0, KEPT);
    check("convert, 13 before 14", ion_convert((const uint8_t *)stored, sizeof stored - 2, out, 1), ION_OUTSIDE_OLD_GRAMMAR, 1, "", 0, KEPT);
    check("convert, 13, no buffer", ion_convert(BYTES("]"), NULL, 0), ION_OUTSIDE_OLD_GRAMMAR, 0, "", 0, KEPT);

    /* Each control character raw in a string, between two that are replaced: 9, 11 and 12 stay, and a line's ends are refused. In a clob and behind a
       backslash all are refused. */
    for (int c = 0; c < 32; c++) {
        static const char digits[] = "0123456789abcdef";
        char raw[] = {'"', 1, (char)c, 31, '"'}, hex[] = "\"\\x01\\x__\\x1f\"", kept[] = "\"\\x01_\\x1f\"";
        char alone[] = {'"', (char)c, '"'}, clob[] = {'{', '{', '"', (char)c, '"', '}', '}'}, behind[] = {'"', '\\', (char)c, '"'};
        char tape[] = {8, 1, 0, 0, 0, (char)c, 6, 0, 0, 0, 1, 0, 0, 0};
        hex[7] = digits[c / 16];
        hex[8] = digits[c % 16];
        kept[5] = (char)c;
        int64_t answer = ion_convert((uint8_t *)raw, sizeof raw, out, ROOM);
        if (c == 10 || c == 13) check("convert, a line's end", answer, ION_OUTSIDE_OLD_GRAMMAR, ROOM, "", 0, KEPT);
        else if (c == 9 || c == 11 || c == 12) check("convert, a blank", answer, 11, ROOM, kept, 11, KEPT);
        else check("convert, a control character", answer, 14, ROOM, hex, 14, KEPT);
        answer = ion_read((uint8_t *)alone, sizeof alone, out, ROOM);
        if (c == 9 || c == 11 || c == 12) check("read, a blank", answer, 14, ROOM, tape, 14, KEPT);
        else check("read, a control character", answer, ION_OUTSIDE_GRAMMAR, ROOM, "", 0, 0);
        check("convert, a clob", ion_convert((uint8_t *)clob, sizeof clob, out, ROOM), ION_OUTSIDE_OLD_GRAMMAR, ROOM, "", 0, KEPT);
        check("convert, behind a backslash", ion_convert((uint8_t *)behind, sizeof behind, out, ROOM), ION_OUTSIDE_OLD_GRAMMAR, ROOM, "", 0, KEPT);
    }
}

static void check_same(const char *what, const uint8_t *found, const uint8_t *due, size_t n) {
    if (memcmp(found, due, n) != 0) {
        printf("%s: the buffer or what is beside it is not as it must be\n", what);
        wrong++;
    }
}

/* Texts of 5 MiB, whose tapes would be too long: a string of letters, and one of control characters, each of which takes four bytes. */
static void long_conversions(void) {
    for (size_t wide = 1; wide <= 4; wide += 3) {
        size_t bytes = 5 << 20, text_length = bytes + 2, full = wide * bytes + 2, size = GUARD + full + GUARD;
        uint8_t *text = malloc(text_length), *room = malloc(size), *due = malloc(size), *output = due + GUARD;
        if (!text || !room || !due) exit(2);
        memset(text, wide == 1 ? 'c' : 31, text_length);
        text[0] = text[text_length - 1] = '"';
        memset(room, 0xA5, size);
        memset(due, 0xA5, size);
        int64_t answer = ion_convert(text, text_length, room + GUARD, full - 1);
        check("long text, one byte short", answer, ION_OUTPUT_TOO_LONG, 0, "", 0, KEPT);
        check_same("long text, one byte short", room, due, size);
        for (size_t i = 0; i < bytes; i++) memcpy(output + 1 + wide * i, wide == 1 ? "c" : "\\x1f", wide);
        output[0] = output[full - 1] = '"';
        check("long text", ion_convert(text, text_length, room + GUARD, full), (int64_t)full, 0, "", 0, KEPT);
        check_same("long text", room, due, size);
        check("long text, its output", ion_convert(output, full, room + GUARD, full), (int64_t)full, 0, "", 0, KEPT);
        check_same("long text, its output", room, due, size);
        check("long text, cut", ion_convert(text, text_length - 1, room + GUARD, full), ION_OUTSIDE_OLD_GRAMMAR, 0, "", 0, KEPT);
        check_same("long text, cut", room, due, size);
        check("long text, read", ion_read(output, full, room + GUARD, full), ION_TAPE_TOO_LONG, 0, "", 0, KEPT);
        free(text);
        free(room);
        free(due);
    }
}

/* The calls at the greatest depth: 64 lists, each with a value behind the list in it, so that no walk ends with a body inside. */
static void deepest(void) {
    static uint8_t text[256], tape[14 * 64 + 8], room[1 << 14];
    uint8_t *p = text;
    uint64_t at = 0;
    memset(p, '[', 64);
    p += 64;
    memcpy(p, "0]", 2);
    for (p += 2; p < text + 255; p += 3) memcpy(p, ",0]", 3);
    *p = '\n';
    if (ion_read(text, sizeof text, tape, sizeof tape) != sizeof tape) exit(2);
    if (ion_read_line(text, sizeof text, &at, room, sizeof room) != sizeof tape) exit(2);
    if (ion_convert(text, sizeof text, room, sizeof room) != sizeof text) exit(2);
    for (uint32_t layout = ION_COMPACT; layout <= ION_PRETTY; layout++) {
        int64_t n = ion_write(layout, tape, sizeof tape, room, sizeof room);
        if (n < 318 || n != ion_length(layout, tape, sizeof tape)) exit(2);
        if (n != ion_write_quoted(layout, tape, sizeof tape, room, sizeof room) || n != ion_length_quoted(layout, tape, sizeof tape)) exit(2);
    }
    if (ion_write_tree(tape, sizeof tape, room, sizeof room) != 318 || ion_tree_length(tape, sizeof tape) != 318) exit(2);
    if (ion_write_tree_quoted(tape, sizeof tape, room, sizeof room) != 318 || ion_tree_length_quoted(tape, sizeof tape) != 318) exit(2);
    if (ion_index(tape, sizeof tape, 5 * 64, entries, ENTRIES) != ION_NO_STRUCT) exit(2);
    if (ion_index(BYTES(PASS), 0, entries, ENTRIES) != FIELDS || ion_find(BYTES(PASS), entries, FIELDS, BYTES("b")) != 4) exit(2);
}

/* They run on a stack of their own, which is filled before, so that what they took of it can be told. */
static uint8_t own_stack[256 << 10];

static void run_deepest(void) {
    static ucontext_t caller, callee;
    getcontext(&callee);
    callee.uc_stack.ss_sp = own_stack;
    callee.uc_stack.ss_size = sizeof own_stack;
    callee.uc_link = &caller;
    makecontext(&callee, deepest, 0);
    swapcontext(&caller, &callee);
}

static void stack(void) {
    size_t untouched = 0;
    memset(own_stack, 0xA5, sizeof own_stack);
    run_deepest();
    while (untouched < sizeof own_stack && own_stack[untouched] == 0xA5) untouched++;
    if (sizeof own_stack - untouched >= 64 << 10) {
        printf("the calls take %zu bytes of stack\n", sizeof own_stack - untouched);
        wrong++;
    }
}

int main(void) {
    refill();
    refill_entries();
    writers();
    lengths();
    quoted_writers();
    index_calls();
    lookups();
    depth_and_length();
    readers();
    line_reader();
    converter();
    long_conversions();
    stack();
    if (wrong) printf("limits: %d wrong\n", wrong);
    else printf("limits: %d calls as they must be\n", checked);
    return wrong != 0;
}
