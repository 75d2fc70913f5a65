//! Each refusal of the table from 1 to 14, its place in the order, and what it leaves in the buffer or the entries.

use crate::check::*;
use crate::index::check_index;
use crate::quoted::QUOTED;
use crate::tapes::*;
use lechuqta::*;

/// A writer, and the length of its text.
type Writer = (fn(&[u8], &mut [u8]) -> Result<usize, Refusal>, fn(&[u8]) -> Result<usize, Refusal>);

/// With always-quoted symbols they refuse the same.
const STREAMS: [Writer; 6] = [
    (|t, out| write(Layout::Compact, t, out), |t| length(Layout::Compact, t)),
    (|t, out| write(Layout::Lines, t, out), |t| length(Layout::Lines, t)),
    (|t, out| write(Layout::Pretty, t, out), |t| length(Layout::Pretty, t)),
    (|t, out| QUOTED.write(Layout::Compact, t, out), |t| QUOTED.length(Layout::Compact, t)),
    (|t, out| QUOTED.write(Layout::Lines, t, out), |t| QUOTED.length(Layout::Lines, t)),
    (|t, out| QUOTED.write(Layout::Pretty, t, out), |t| QUOTED.length(Layout::Pretty, t)),
];

const TREE: [Writer; 2] = [(write_tree, tree_length), (|t, out| QUOTED.write_tree(t, out), |t| QUOTED.tree_length(t))];

/// These writers refuse the tape, in buffers of any length, and touch no byte; and so do the lengths of their texts.
fn refused(writers: &[Writer], tape: &[u8], refusal: Refusal) {
    for (writer, length) in writers {
        for room in [0, 1, 300] {
            check(tape, room, writer, Err(refusal), Left::Untouched);
        }
        assert_eq!(length(tape), Err(refusal));
    }
}

/// And so does the index, wherever a struct is looked for and however many entries there are.
fn refused_by_all(tape: &[u8], refusal: Refusal) {
    refused(&STREAMS, tape, refusal);
    refused(&TREE, tape, refusal);
    for at in [0, 1, 5, tape.len(), usize::MAX] {
        for room in [0, 4] {
            check_index(tape, at, room, Err(refusal));
        }
    }
}

fn broken(node: &[u8]) -> Vec<u8> {
    trailed(node, node.len() as u32, 1)
}

#[test]
fn r1_misfit() {
    let good = tape(&[boolean(true)]);
    for length in 0..8 {
        refused_by_all(&vec![0; length], Refusal::Misfit);
    }
    refused_by_all(&good[..9], Refusal::Misfit);
    refused_by_all(&[good.as_slice(), &[0]].concat(), Refusal::Misfit);
    refused_by_all(&trailed(&boolean(true), 1, 1), Refusal::Misfit);
    refused_by_all(&trailed(&boolean(true), u32::MAX, 1), Refusal::Misfit);
    // It comes before the nodes are looked at.
    refused_by_all(&trailed(&[99, 99], 3, 1), Refusal::Misfit);
}

#[test]
fn r2_bad_node() {
    let nodes: &[&[u8]] = &[
        &[0, 13],
        &[1, 2],
        &[1],
        &[2, 0, 0, 0],
        &[3, 1, 0, 0, 0, 0, 0, 0xF8, 0x7F],
        &[4, 2, 1, 0, 0, 0, 0, 0, 0, 0, 0, 0, 0, 0],
        &timestamp(2, [2023, 2, 29, 0, 0, 0], UNKNOWN, 0, 0),
        &timestamp(2, [2024, 2, 29, 0, 0, 0], 0, 0, 0),
        &timestamp(4, [2024, 2, 29, 23, 60, 0], 0, 0, 0),
        &timestamp(4, [2024, 2, 29, 23, 59, 0], 1440, 0, 0),
        &timestamp(4, [2024, 2, 29, 23, 59, 0], 0, 2, 100),
        &[6, 1, 0, 0, 0, 0xC3],
        &[8, 2, 0, 0, 0, 0xC0, 0x80],
        &[8, 3, 0, 0, 0, 0xED, 0xA0, 0x80],
        &[8, 2, 0, 0, 0, b'a'],
        &[10, 1, 0, 0, 0],
        &structure(&[(string("a"), int(1))]),
        &[12, 6, 0, 0, 0, 6, 1, 0, 0, 0, b'a'],
        &annotated(&[], int(1)),
        &annotated(&vec![symbol("a"); 17], int(1)),
        &annotated(&[symbol("a")], marker()),
        &annotated(&[symbol("a")], annotated(&[symbol("b")], int(1))),
        &list(&[marker()]),
        &[15],
        &[16],
        &[255],
    ];
    for node in nodes {
        refused_by_all(&broken(node), Refusal::BadNode);
        refused_by_all(&broken(&list(&[int(1), node.to_vec()])), Refusal::BadNode);
    }
    // The trailer's number of nodes.
    refused_by_all(&trailed(&boolean(true), 2, 0), Refusal::BadNode);
    refused_by_all(&trailed(&boolean(true), 2, 2), Refusal::BadNode);
    refused_by_all(&trailed(&[], 0, 1), Refusal::BadNode);
}

#[test]
fn r3_too_deep() {
    refused_by_all(&tape(&[nested(65)]), Refusal::TooDeep);
    let mixed = (0..64).fold(sexp(&[]), |inner, i| if i % 2 == 0 { structure(&[(symbol("a"), inner)]) } else { sexp(&[int(1), inner]) });
    refused_by_all(&tape(&[int(1), mixed]), Refusal::TooDeep);
    // A 65th container that overruns the body around it is a bad node first.
    let mut overrun = tape(&[nested(65)]);
    overrun[5 * 64 + 1] = 1;
    refused_by_all(&overrun, Refusal::BadNode);
}

#[test]
fn r4_finite_float() {
    for f in [1.5, -0.5, f64::MIN_POSITIVE, 5e-324, f64::MAX, 9_007_199_254_740_994.0, 1e16] {
        refused_by_all(&tape(&[float(f)]), Refusal::FiniteFloat);
        refused_by_all(&tape(&[list(&[int(1), structure(&[(symbol("a"), float(f))])])]), Refusal::FiniteFloat);
    }
}

#[test]
fn the_first_node_at_fault_decides() {
    let bad: Node = vec![1, 2];
    refused_by_all(&tape(&[float(1.5), bad.clone()]), Refusal::FiniteFloat);
    refused_by_all(&tape(&[bad.clone(), float(1.5)]), Refusal::BadNode);
    refused_by_all(&tape(&[nested(65), float(1.5), bad.clone()]), Refusal::TooDeep);
    refused_by_all(&tape(&[float(1.5), nested(65)]), Refusal::FiniteFloat);
    // Nodes before the count, the count before 5.
    refused_by_all(&trailed(&float(1.5), 9, 7), Refusal::FiniteFloat);
    let noted = annotated(&[id(7)], int(1));
    refused_by_all(&trailed(&noted, noted.len() as u32, 7), Refusal::BadNode);
}

#[test]
fn r5_unsuited() {
    let noted = annotated(&[symbol("a")], int(1));
    refused(&STREAMS, &single(&noted), Refusal::Unsuited);
    refused(&STREAMS, &tape(&[int(1), list(&[structure(&[(symbol("b"), noted)])])]), Refusal::Unsuited);
    let tree: &[Vec<Node>] = &[
        vec![],
        vec![int(1), int(2)],
        vec![marker()],
        vec![marker(), int(1)],
        vec![id(7)],
        vec![list(&[id(u32::MAX)])],
        vec![structure(&[(id(1), int(1))])],
        vec![annotated(&[symbol("a"), id(4)], int(1))],
    ];
    for nodes in tree {
        refused(&TREE, &tape(nodes), Refusal::Unsuited);
    }
}

#[test]
fn r6_text_too_long() {
    let texts = list(&[string("\u{e9}\n"), clob(b"\xff"), string("\u{1}\u{2}\u{3}\u{4}\u{e}\u{f}\u{1f}b")]);
    let t = tape(&[texts, decimal(true, 116, -9), timestamp(0, [2026, 0, 0, 0, 0, 0], UNKNOWN, 0, 0)]);
    for (layout, (stream, length)) in Layout::ALL.into_iter().zip(STREAMS) {
        let text = to_text(layout, &t).unwrap();
        // Every length of the buffer, escapes and characters cut in two among them.
        for room in 0..text.len() {
            check(&t, room, stream, Err(Refusal::TextTooLong), Left::Begins(&text[..room]));
        }
        check(&t, text.len(), stream, Ok(text.len()), Left::Begins(&text));
        // The length never is too long.
        assert_eq!(length(&t), Ok(text.len()));
    }
}

#[test]
fn r7_no_layout() {
    // `Layout` cannot ask for it; the library answers it to whoever does.
    extern "C" {
        fn ion_write(layout: u32, tape: *const u8, tape_length: usize, out: *mut u8, out_length: usize) -> i64;
        fn ion_length(layout: u32, tape: *const u8, tape_length: usize) -> i64;
    }
    for layout in [3, 4, 256, u32::MAX] {
        for tape in [vec![], tape(&[int(1)]), tape(&[float(1.5)])] {
            // SAFETY: both slices are whole and apart.
            let call = |t: &[u8], out: &mut [u8]| unsafe { ion_write(layout, t.as_ptr(), t.len(), out.as_mut_ptr(), out.len()) };
            check(&tape, 40, call, -i64::from(Refusal::NoLayout.number()), Left::Untouched);
            check(&tape, 0, call, -7, Left::Untouched);
            // SAFETY: the slice is whole.
            assert_eq!(unsafe { ion_length(layout, tape.as_ptr(), tape.len()) }, -7);
        }
    }
}

/// Texts outside the grammar, and outside the old one.
const OUTSIDE: [&str; 49] = [
    "[", "[1", "[1,,]", "[,]", "]", "(1]", "{a}", "{a:}", "{\"a\":1}", "1 2]", "[1][2]", "01", "-0", "+1", "9223372036854775808", ".5", "1d", "1D2",
    "1.0d-2147483648", "18446744073709551616.", "$01", "$4294967296", "$ion_1_1", "null.null", "null.foo", "nan::1", "\"a", "\"\n\"", "\"\r\"",
    "'''a'''", "\"\\q\"", "\"\\ud800\"", "{{ \"a\" }}", "{{\"\\u0041\"}}", "a::", "a ::1", "a:: 1", "a::$ion_1_0", "[$ion_1_0]", "2023-02-29T",
    "2026-11-15", "2026-11-15T02:14", "2026-11-15T02:14:07.Z", "2026-11-15T24:00Z", "// comment", "1.5e0", "a,b", "\0", "1\u{1f}",
];

/// Texts of the old grammar alone, and what the converter makes of them.
const STORED: [(&str, &str); 8] = [
    ("\"\0\"", r#""\x00""#),
    ("'a\u{7}b'", r"'a\x07b'"),
    ("{'\u{8}':1}", r"{'\x08':1}"),
    ("'\u{e}'::1", r"'\x0e'::1"),
    ("a::'\u{1f}'::[]", r"a::'\x1f'::[]"),
    ("[\"\t\u{1}é\", {{\"\\x01\"}}]", "[\"\t\\x01é\", {{\"\\x01\"}}]"),
    ("\"\\\\\u{2}\\x02\"", r#""\\\x02\x02""#),
    ("(\"'\u{10}'\" '\"\u{11}\"')", r#"("'\x10'" '"\x11"')"#),
];

#[test]
fn r8_outside_grammar() {
    for text in OUTSIDE.into_iter().chain(STORED.map(|(text, _)| text)) {
        for room in [0, 7, 60] {
            check(text.as_bytes(), room, read, Err(Refusal::OutsideGrammar), Left::Zero);
            let line = format!("{text}\n");
            check(line.as_bytes(), room, read, Err(Refusal::OutsideGrammar), Left::Zero);
        }
        assert_eq!(to_tape(text.as_bytes()), Err(Refusal::OutsideGrammar), "{text}");
    }
    check(b"\"\xC3\"", 60, read, Err(Refusal::OutsideGrammar), Left::Zero);
    let many = "a::".repeat(17) + "1";
    check(many.as_bytes(), 200, read, Err(Refusal::OutsideGrammar), Left::Zero);
    // 8 is found behind a tape that is already too long.
    check(b"1 2 3 4 5 6 7 8 9 ?", 20, read, Err(Refusal::OutsideGrammar), Left::Zero);
    check(b"1 2 3 4 5 6 7 8 9 \"\x01\"", 20, read, Err(Refusal::OutsideGrammar), Left::Zero);
}

#[test]
fn r8_lines() {
    let texts =
        [("\n5\n", 1), (" \t\r\n5\n", 4), ("1 2\n5\n", 4), ("$ion_1_0 $ion_1_0\n5\n", 18), ("[1\n5]\n", 3), ("1", 1), ("$ion_1_0", 8), (" ", 1)];
    let stored = STORED.map(|(text, _)| (format!("{text}\n5\n"), text.len() + 1));
    for (text, end) in texts.map(|(text, end)| (text.to_string(), end)).into_iter().chain(stored) {
        for room in [0, 9, 60] {
            let mut at = 0;
            check(text.as_bytes(), room, |t, out| read_line(t, &mut at, out), Err(Refusal::OutsideGrammar), Left::Zero);
            assert_eq!(at, end, "{text:?}");
        }
    }
}

#[test]
fn r9_tape_too_long() {
    let t = tape(&[int(1), string("abc"), list(&[structure(&[(symbol("a"), int(2))])])]);
    for room in 0..t.len() {
        check(b"1 \"abc\" [{a:2}]", room, read, Err(Refusal::TapeTooLong), Left::Zero);
    }
    check(b"1 \"abc\" [{a:2}]", t.len(), read, Ok(t.len()), Left::Begins(&t));
    let line = tape(&[string("abc")]);
    for room in 0..line.len() {
        let mut at = 2;
        check(b"1\n\"abc\"\n2\n", room, |t, out| read_line(t, &mut at, out), Err(Refusal::TapeTooLong), Left::Zero);
        assert_eq!(at, 8);
    }
}

#[test]
fn r10_past_text() {
    for text in ["", "1\n", "1", "1\n2\n3\n"] {
        for past in [text.len() + 1, text.len() + 1000, usize::MAX] {
            for room in [0, 60] {
                let mut at = past;
                check(text.as_bytes(), room, |t, out| read_line(t, &mut at, out), Err(Refusal::PastText), Left::Untouched);
                assert_eq!(at, past);
            }
        }
    }
}

#[test]
fn r11_no_struct() {
    let field = (symbol("a"), structure(&[]));
    let tapes =
        [tape(&[]), single(&list(&[])), single(&null(12)), single(&string("\u{c}\0\0\0\0")), single(&annotated(&[id(1)], structure(&[field])))];
    for tape in tapes {
        for at in [0, tape.len() - 8, tape.len(), tape.len() + 1, usize::MAX] {
            // Also where there are no entries: 11 comes before 12.
            for room in [0, 4] {
                check_index(&tape, at, room, Err(Refusal::NoStruct));
            }
        }
    }
}

#[test]
fn r12_too_many_fields() {
    let fields = vec![(symbol("a"), annotated(&[symbol("b")], structure(&[]))); 20];
    let t = single(&structure(&fields));
    for room in 0..20 {
        check_index(&t, 0, room, Err(Refusal::TooManyFields));
    }
    let index: Vec<_> = (0..20).rev().map(|i| Entry { name: 5 + 19 * i, value: 11 + 19 * i }).collect();
    check_index(&t, 0, 20, Ok(&index));
}

#[test]
fn r13_outside_old_grammar() {
    for text in OUTSIDE {
        check_outside_old(text.as_bytes());
        // Beside what would be too long for the shorter buffers: 13 comes before 14.
        check_outside_old(format!("\"\u{1}\" {text}").as_bytes());
        check_outside_old(format!("{text} \"\u{1}\"").as_bytes());
    }
    check_outside_old(b"\"\x01\xC3\"");
    check_outside_old(b"\"\xC0\x80\"");
    // The limits of depth and of annotations are those of the reader.
    let deep = |depth: usize| "[".repeat(depth) + "'\u{1}'" + &"]".repeat(depth);
    check_converted(deep(64).as_bytes(), deep(64).replace('\u{1}', r"\x01").as_bytes());
    check_outside_old(deep(65).as_bytes());
    let noted = |notes: usize| "'\u{1}'::".repeat(notes) + "1";
    check_converted(noted(16).as_bytes(), noted(16).replace('\u{1}', r"\x01").as_bytes());
    check_outside_old(noted(17).as_bytes());
}

#[test]
fn r14_output_too_long() {
    for (text, output) in STORED.into_iter().chain([("[1, 2]", "[1, 2]")]) {
        // Every length of the buffer, that of the text among them where something is replaced.
        for room in 0..output.len() {
            check(text.as_bytes(), room, convert, Err(Refusal::OutputTooLong), Left::Untouched);
        }
        check_converted(text.as_bytes(), output.as_bytes());
    }
}

#[test]
fn numbers_and_messages() {
    let numbers = Refusal::ALL.map(Refusal::number);
    assert_eq!(numbers, [1, 2, 3, 4, 5, 6, 7, 8, 9, 10, 11, 12, 13, 14]);
    for (i, refusal) in Refusal::ALL.into_iter().enumerate() {
        assert_eq!(refusal.to_string(), format!("refused {}: {}", i + 1, refusal.message()));
        for other in &Refusal::ALL[..i] {
            assert_ne!(refusal.message(), other.message());
        }
    }
    let error: Box<dyn std::error::Error> = Refusal::PastText.into();
    assert_eq!(error.to_string(), "refused 10: the offset is past the text");
}
