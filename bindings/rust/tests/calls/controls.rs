//! Raw control characters: what the reader and the converter answer where each stands in each place of a text. What is due is told by the place and
//! the byte, from docs/FORMAT.md, or by finding quoted text by its marks; the library's own conversion is nowhere asked for it.

use crate::check::*;
use crate::random::Random;
use crate::tapes::*;
use lechuqta::*;

/// Those below U+0020, and U+007F.
fn controls() -> impl Iterator<Item = u8> {
    (0..32).chain([127])
}

/// Raw in quoted text, these are refused and are to be replaced.
fn is_replaced(byte: u8) -> bool {
    byte < 9 || (byte > 13 && byte < 32)
}

fn escape(byte: u8) -> String {
    format!("\\x{byte:02x}")
}

fn around(before: &str, middle: &str, after: &str) -> Vec<u8> {
    [before, middle, after].concat().into_bytes()
}

/// What stands before and behind a character of quoted text, and what it all means.
type Quoted = (&'static str, &'static str, fn(&str) -> Node);

const QUOTED: [Quoted; 12] = [
    ("\"", "\"", string),
    ("\"'\\\\", "\\\"\"", |c| string(&format!("'\\{c}\""))),
    ("\"\\x07", "é\\a\"", |c| string(&format!("\u{7}{c}é\u{7}"))),
    ("'", "'", symbol),
    ("'\"a", " b\\''", |c| symbol(&format!("\"a{c} b'"))),
    ("{'", "':1}", |c| structure(&[(symbol(c), int(1))])),
    ("{a:1, 'b", "' : 2}", |c| structure(&[(symbol("a"), int(1)), (symbol(&format!("b{c}")), int(2))])),
    ("'", "'::true", |c| annotated(&[symbol(c)], boolean(true))),
    ("a::'", "b'::$7::[]", |c| annotated(&[symbol("a"), symbol(&format!("{c}b")), id(7)], list(&[]))),
    ("{a:'", "'::{{\"\\x01\"}}}", |c| structure(&[(symbol("a"), annotated(&[symbol(c)], clob(b"\x01")))])),
    ("[{{\"'\"}}, \"", "\", ({{Zg==}} '{{\"')]", |c| list(&[clob(b"'"), string(c), sexp(&[blob(b"f"), symbol("{{\"")])])),
    ("\r\n( \"\\u0001", "\\0\" )\t", |c| sexp(&[string(&format!("\u{1}{c}\0"))])),
];

#[test]
fn in_quoted_text() {
    for (before, after, meaning) in QUOTED {
        for byte in controls() {
            let raw = char::from(byte).to_string();
            let tape = single(&meaning(&raw));
            let text = around(before, &raw, after);
            let output = around(before, &escape(byte), after);
            if is_replaced(byte) {
                check(&text, 100, read, Err(Refusal::OutsideGrammar), Left::Zero);
                check_converted(&text, &output);
            } else if byte == b'\n' || byte == b'\r' {
                check(&text, 100, read, Err(Refusal::OutsideGrammar), Left::Zero);
                check_outside_old(&text);
            } else {
                check_tape(&text, &tape, read, |n| n);
                check_converted(&text, &text);
            }
            // As an escape each is read, and left by the converter.
            check_tape(&output, &tape, read, |n| n);
            check_converted(&output, &output);
        }
    }
}

/// The same by lines. Those that start with a line's end are left out.
#[test]
fn in_quoted_text_of_a_line() {
    for (before, after, meaning) in QUOTED.into_iter().filter(|(before, _, _)| !before.contains('\n')) {
        for byte in controls() {
            let raw = char::from(byte).to_string();
            let line = [around(before, &raw, after), b"\n".to_vec()].concat();
            if is_replaced(byte) || byte == b'\n' || byte == b'\r' {
                let mut at = 0;
                check(&line, 100, |text, out| read_line(text, &mut at, out), Err(Refusal::OutsideGrammar), Left::Zero);
                assert_eq!(at, if byte == b'\n' { before.len() + 1 } else { line.len() });
            } else {
                check_tape(&line, &single(&meaning(&raw)), |text, out| read_line(text, &mut 0, out), Some);
            }
        }
    }
}

/// Between tokens the blanks alone, 9 to 13, may stand. They are left; the others are outside the old grammar too.
#[test]
fn between_tokens() {
    let one_two = || vec![int(1), int(2)];
    let places: [(&str, &str, Vec<Node>); 16] = [
        ("", "1 2", one_two()),
        ("1", "2", one_two()),
        ("1 ", " 2", one_two()),
        ("1 2", "", one_two()),
        ("", "", vec![]),
        ("\"a\"", "'b'", vec![string("a"), symbol("b")]),
        ("true", "$ion_1_0", vec![boolean(true), marker()]),
        ("[", "1,2]", vec![list(&one_two())]),
        ("[1", ",2]", vec![list(&one_two())]),
        ("[1,", "2]", vec![list(&one_two())]),
        ("[1,2,", "]", vec![list(&one_two())]),
        ("(1", "2)", vec![sexp(&one_two())]),
        ("{", "}", vec![structure(&[])]),
        ("{'a'", ":1}", vec![structure(&[(symbol("a"), int(1))])]),
        ("{a:", "'b'::1}", vec![structure(&[(symbol("a"), annotated(&[symbol("b")], int(1)))])]),
        ("{a:1", "}", vec![structure(&[(symbol("a"), int(1))])]),
    ];
    for (before, after, nodes) in places {
        for byte in controls() {
            let text = around(before, &char::from(byte).to_string(), after);
            if (9..=13).contains(&byte) {
                check_tape(&text, &tape(&nodes), read, |n| n);
                check_converted(&text, &text);
            } else {
                check(&text, 100, read, Err(Refusal::OutsideGrammar), Left::Zero);
                check_outside_old(&text);
            }
        }
    }
}

/// In clobs and blobs, behind a backslash, in the digits of an escape and beside `::` none of them may stand.
#[test]
fn nowhere_else() {
    let places = [
        ("{{\"", "\"}}"),
        ("{{\"a\\x01", "b\"}}"),
        ("[{{\"\\", "\"}}]"),
        ("{{\"\\x0", "\"}}"),
        ("{{", "\"a\"}}"),
        ("{{\"a\"", "}}"),
        ("{{\"a\"}", "}"),
        ("{{", "}}"),
        ("{{Zg", "==}}"),
        ("{{Zg=", "=}}"),
        ("{{Zg==", "}}"),
        ("\"\\", "\""),
        ("\"\\\\\\", "a\""),
        ("'\\", "'"),
        ("{'\\", "':1}"),
        ("'\\", "'::1"),
        ("\"\\x", "1\""),
        ("\"\\x0", "\""),
        ("\"\\u00", "01\""),
        ("\"\\U0000000", "\""),
        ("a", "::1"),
        ("a:", ":1"),
        ("a::", "1"),
        ("'a'::", "'b'::1"),
        ("null", ".int"),
        ("null.", "int"),
        ("-", "1"),
        ("2026-11-", "15T"),
    ];
    for (before, after) in places {
        for byte in controls() {
            let text = around(before, &char::from(byte).to_string(), after);
            check(&text, 100, read, Err(Refusal::OutsideGrammar), Left::Zero);
            check_outside_old(&text);
        }
    }
}

/// What a byte of a text is.
#[derive(Clone, Copy, PartialEq)]
enum Part {
    /// A raw byte of quoted text.
    Raw,
    /// The backslash of an escape in quoted text.
    Slash,
    /// A byte of an escape, or outside of quoted text.
    Other,
}

/// Quoted text stands between two marks, the second of which is no part of an escape; behind `{{` a mark starts a clob.
fn parts(text: &[u8]) -> Vec<Part> {
    let (mut mark, mut is_clob, mut is_escaped) = (None, false, false);
    let part = |(i, &byte): (usize, &u8)| {
        let is_quoted = mark.is_some() && !is_clob;
        if is_escaped {
            is_escaped = false;
        } else if mark == Some(byte) {
            mark = None;
        } else if mark.is_none() {
            mark = (byte == b'"' || byte == b'\'').then_some(byte);
            is_clob = text[..i].ends_with(b"{{");
        } else if byte == b'\\' {
            is_escaped = true;
            return if is_quoted { Part::Slash } else { Part::Other };
        } else if is_quoted {
            return Part::Raw;
        }
        Part::Other
    };
    text.iter().enumerate().map(part).collect()
}

/// The text with the control characters that are refused raw as escapes where they stand raw in quoted text, and elsewhere as they are.
fn replaced(text: &[u8]) -> Vec<u8> {
    let replace = |(&byte, part)| if part == Part::Raw && is_replaced(byte) { escape(byte).into_bytes() } else { vec![byte] };
    text.iter().zip(parts(text)).flat_map(replace).collect()
}

/// A text as it was stored: with its escapes by `\x` of such characters in quoted text raw.
fn stored(text: &[u8]) -> Vec<u8> {
    let parts = parts(text);
    let (mut out, mut i) = (vec![], 0);
    while i < text.len() {
        let raw = (0..32).find(|byte| is_replaced(*byte) && text[i..].starts_with(escape(*byte).as_bytes()));
        match raw.filter(|_| parts[i] == Part::Slash) {
            Some(byte) => {
                out.push(byte);
                i += 4;
            }
            None => {
                out.push(text[i]);
                i += 1;
            }
        }
    }
    out
}

/// Any text is of the old grammar exactly if the reader takes it with these characters replaced where they stand raw in quoted text; and that is the
/// output. Answers whether it is, and whether something was replaced.
fn judge(text: &[u8]) -> (bool, bool) {
    let due = replaced(text);
    let tape = to_tape(&due);
    match tape {
        Ok(_) => check_converted(text, &due),
        Err(refusal) => {
            assert_eq!(refusal, Refusal::OutsideGrammar);
            check_outside_old(text);
        }
    }
    let is_changed = due != text;
    assert_eq!(to_tape(text), if is_changed { Err(Refusal::OutsideGrammar) } else { tape.clone() });
    // The output is clean, and converting twice is converting once.
    if tape.is_ok() {
        assert!(!due.iter().copied().any(is_replaced));
        check_converted(&due, &due);
    }
    (tape.is_ok(), is_changed)
}

/// Each of them put before each byte of a text, and in its place.
#[test]
fn at_every_offset() {
    let text = "'x y'::{'a' : \"b\\n\\\\\", c: d::{{\"e\\x01'\"}} , f: {{Zg==}}, $7: [1.5, 'g\\''], '': ('{{' \"}}\" null.int)}\n\"é\\u0041\" 2026T"
        .as_bytes();
    assert_eq!(judge(text), (true, false));
    for at in 0..=text.len() {
        for byte in controls() {
            judge(&[&text[..at], &[byte], &text[at..]].concat());
            judge(&[&text[..at], &[byte], &text[text.len().min(at + 1)..]].concat());
        }
    }
}

#[test]
fn every_pair_in_a_string() {
    for first in controls() {
        for second in controls() {
            judge(&[b'"', first, second, b'"']);
            judge(&[b'\'', first, b'\\', second, b'\'']);
        }
    }
}

/// Written texts with the escapes taken out, as they were stored, and with damage.
#[test]
fn random_texts() {
    let mut random = Random(6);
    let (mut kept, mut converted, mut refused) = (0, 0, 0);
    for _ in 0..1500 {
        let (tape, written) = if random.below(2) == 0 {
            let tape = tape(&random.list_of_values(5));
            let layout = Layout::ALL[random.below(3)];
            (tape.clone(), to_text(layout, &tape).unwrap())
        } else {
            let tape = single(&random.value(4, false, true));
            (tape.clone(), to_tree_text(&tape).unwrap())
        };
        let mut text = stored(&written);
        assert_eq!(judge(&text), (true, text != written));
        assert_eq!(to_converted(&text).as_ref(), Ok(&written));
        assert_eq!(to_tape(&written).as_ref(), Ok(&tape));
        for _ in 0..1 + random.below(2) {
            // Half of it in quoted text.
            let raw: Vec<_> = parts(&text).into_iter().enumerate().filter(|(_, part)| *part == Part::Raw).map(|(at, _)| at).collect();
            let at = if raw.is_empty() || random.below(2) == 0 { random.below(text.len() + 1) } else { raw[random.below(raw.len())] };
            let to = at + random.below(2).min(text.len() - at);
            let new = random.pick(&[&b"\x01"[..], b"\x00", b"\x1f", b"\x0b", b"\r", b"\x7f", b"\\", b"'", b"\"", b"a", b""]);
            text.splice(at..to, new.iter().copied());
        }
        match judge(&text) {
            (true, false) => kept += 1,
            (true, true) => converted += 1,
            (false, _) => refused += 1,
        }
    }
    assert!(kept > 50 && converted > 50 && refused > 50, "{kept} kept, {converted} converted, {refused} refused");
}
