//! The examples of docs/FORMAT.md, and its sentences on layouts and on the tree text.

use crate::check::*;
use crate::tapes::*;
use lechuqta::*;

/// A tape of one value has this text in Lines without its line feed, reads back from it, and has it as its tree text where the two are alike.
fn prints(node: Node, text: &str) {
    let tape = tape(&[node]);
    let line = format!("{text}\n");
    check_text(&tape, line.as_bytes(), |t, out| write(Layout::Lines, t, out));
    check_text(&tape, text.as_bytes(), write_tree);
    check_tape(line.as_bytes(), &tape, read, |n| n);
    check_tape(line.as_bytes(), &tape, |text, out| read_line(text, &mut 0, out), Some);
}

#[test]
fn marked() {
    prints(symbol(""), "''");
    prints(symbol("true"), "'true'");
    prints(symbol("$7"), "'$7'");
    prints(symbol("$ion_1_0_0"), "$ion_1_0_0");
    prints(decimal(false, 123456, 0), "123456.");
    prints(decimal(false, 1234567, 0), "1.234567d6");
    prints(decimal(false, 116, -8), "0.00000116");
    prints(decimal(false, 116, -9), "1.16d-7");
    prints(decimal(true, 0, 0), "-0.");
    prints(timestamp(3, [2026, 11, 15, 2, 14, 0], UNKNOWN, 0, 0), "2026-11-15T02:14-00:00");
    prints(timestamp(3, [2026, 11, 15, 2, 14, 0], -5, 0, 0), "2026-11-15T02:14-00:05");
    check_text(&tape(&[list(&[int(1), int(2)])]), b"[1, 2, ] ", |t, out| write(Layout::Compact, t, out));
}

/// "Tempting" readings that are wrong.
#[test]
fn tempting() {
    prints(decimal(false, 1, -7), "1.d-7");
    prints(timestamp(4, [1999, 12, 31, 23, 59, 7], 0, 3, 42), "1999-12-31T23:59:07.042+00:00");
    prints(symbol("a\nb"), r"'a\nb'");
    prints(string("a\nb"), r#""a\nb""#);
    prints(clob(b"a'\"\x80\n"), r#"{{"a'\"\x80\n"}}"#);
    prints(blob(b"\xfb\xff"), "{{+/8=}}");
}

/// Control characters below U+0020 that have no letter are written as `\x` and two hex digits. But for tab, 11 and 12 none is read raw, and the
/// converter replaces them.
#[test]
fn control_characters() {
    prints(string("\u{1}\u{1f} \u{7f}"), "\"\\x01\\x1f \u{7f}\"");
    prints(symbol("\u{6}\0\u{e}"), r"'\x06\0\x0e'");
    prints(clob(b"\x01"), r#"{{"\x01"}}"#);
    let tape = tape(&[annotated(&[symbol("\u{1}")], structure(&[(symbol("\u{2}"), string("\u{1f}"))]))]);
    let text: &[u8] = br#"'\x01'::{'\x02': "\x1f"}"#;
    check_text(&tape, text, write_tree);
    for text in [text, br#"'\x01'::{'\x02': "\x1F"}"#, br#"'\u0001'::{'\U00000002': "\x1f"}"#] {
        check_tape(text, &tape, read, |n| n);
        check_converted(text, text);
    }
    let stored = b"'\x01'::{'\x02': \"\x1f\"}";
    check(stored, 60, read, Err(Refusal::OutsideGrammar), Left::Zero);
    check_converted(stored, text);
    // Line by line too, and the lines around are read.
    let read: Vec<_> = lines(b"1\n'\x01'\n2\n").map(|line| line.tape).collect();
    assert_eq!(read, [Ok(single(&int(1))), Err(Refusal::OutsideGrammar), Ok(single(&int(2)))]);
}

/// The examples of "Converting a stored text".
#[test]
fn conversion() {
    let texts = [
        ("\"\u{1}\t\u{7f}é'\" '\0' \"\u{7}\\a\"", "\"\\x01\t\u{7f}é'\" '\\x00' \"\\x07\\a\""),
        ("'\u{6}'::{'\u{1e}' : '\u{10}', b: {{\"\\x01\"}}}", r#"'\x06'::{'\x1e' : '\x10', b: {{"\x01"}}}"#),
        ("[ 1 ,\n2 ]\r\n", "[ 1 ,\n2 ]\r\n"),
    ];
    for (text, output) in texts {
        check_converted(text.as_bytes(), output.as_bytes());
        check_converted(output.as_bytes(), output.as_bytes());
    }
    for text in ["1\u{1}", "{{\"\u{1}\"}}", "\"\\\u{1}\"", "\"\n\"", "\"\u{1}"] {
        check_outside_old(text.as_bytes());
    }
}

#[test]
fn layouts() {
    let values = tape(&[structure(&[(symbol("a"), list(&[int(1)]))]), sexp(&[null(0), null(12)]), marker(), list(&[])]);
    let texts = [
        (Layout::Compact, "{a: [1, ], } (null null.struct ) $ion_1_0 [] "),
        (Layout::Lines, "{a: [1, ], }\n(null null.struct )\n$ion_1_0\n[]\n"),
        (Layout::Pretty, "{\n  a: [\n    1,\n  ],\n}\n(\n  null\n  null.struct\n)\n$ion_1_0\n[\n]\n"),
    ];
    for (layout, text) in texts {
        check_text(&values, text.as_bytes(), |t, out| write(layout, t, out));
        check_tape(text.as_bytes(), &values, read, |n| n);
    }
}

#[test]
fn tree_text() {
    let note = annotated(&[symbol("a"), id(0)], structure(&[(symbol("b c"), sexp(&[int(1), list(&[int(2), int(3)])]))]));
    let (tape, text) = (tape(&[note]), b"a::$0::{'b c': (1 [2, 3])}");
    check_text(&tape, text, write_tree);
    check_tape(text, &tape, read, |n| n);
}

#[test]
fn of_the_program_lines() {
    let tape = [0x0A, 2, 0, 0, 0, 1, 1, 7, 0, 0, 0, 1, 0, 0, 0];
    check_text(&tape, b"[true, ]\n", |t, out| write(Layout::Lines, t, out));
}

#[test]
fn one_two_three_damaged() {
    let read = |text| lines(text).map(|line| line.tape).collect::<Vec<_>>();
    let one = |node| Ok(tape(&[node]));
    assert_eq!(read(b"1\nx3\n"), [one(int(1)), one(symbol("x3"))]);
    assert_eq!(read(b"1\nx\n3\n"), [one(int(1)), one(symbol("x")), one(int(3))]);
}

#[test]
fn depth() {
    let text = |depth: usize| "[".repeat(depth) + &"]".repeat(depth);
    let tapes = [64, 65].map(|depth| tape(&[nested(depth)]));
    check_text(&tapes[0], text(64).as_bytes(), write_tree);
    check_tape(text(64).as_bytes(), &tapes[0], read, |n| n);
    check(&tapes[1], 200, write_tree, Err(Refusal::TooDeep), Left::Untouched);
    check(text(65).as_bytes(), 400, read, Err(Refusal::OutsideGrammar), Left::Zero);
    for layout in Layout::ALL {
        assert_eq!(to_tape(&to_text(layout, &tapes[0]).unwrap()).as_ref(), Ok(&tapes[0]));
        check(&tapes[1], 200, |t, out| write(layout, t, out), Err(Refusal::TooDeep), Left::Untouched);
    }
}
