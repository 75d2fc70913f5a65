//! Nothing, one byte too few, exactly full, and far too long.

use crate::check::*;
use crate::tapes::*;
use lechuqta::*;

#[test]
fn nothing_to_write() {
    for layout in Layout::ALL {
        check_text(&tape(&[]), b"", |t, out| write(layout, t, out));
        check(b"", 0, |t, out| write(layout, t, out), Err(Refusal::Misfit), Left::Untouched);
        assert_eq!(to_text(layout, &tape(&[])), Ok(vec![]));
        assert_eq!(to_text(layout, &[]), Err(Refusal::Misfit));
    }
    check(b"", 0, write_tree, Err(Refusal::Misfit), Left::Untouched);
    assert_eq!(to_tree_text(&[]), Err(Refusal::Misfit));
    assert_eq!(to_tree_text(&tape(&[])), Err(Refusal::Unsuited));
}

#[test]
fn nothing_to_read() {
    for text in ["", " ", "\n", " \t\n\x0b\x0c\r "] {
        check_tape(text.as_bytes(), &tape(&[]), read, |n| n);
        assert_eq!(to_tape(text.as_bytes()), Ok(tape(&[])));
    }
    for room in [0, 40] {
        let mut at = 0;
        check(b"", room, |t, out| read_line(t, &mut at, out), Ok(None), Left::Untouched);
        assert_eq!(at, 0);
    }
    assert_eq!(lines(b"").next(), None);
}

#[test]
fn nothing_to_convert() {
    for text in ["", " ", "\n", " \t\n\x0b\x0c\r "] {
        check_converted(text.as_bytes(), text.as_bytes());
    }
}

#[test]
fn the_end_mark_keeps_all() {
    for text in ["1\n", "1", "\n\n", "1\n2\n3\n"] {
        for room in [0, 1, 40] {
            let mut at = text.len();
            for _ in 0..2 {
                check(text.as_bytes(), room, |t, out| read_line(t, &mut at, out), Ok(None), Left::Untouched);
                assert_eq!(at, text.len());
            }
        }
    }
}

/// A clob that makes a tape of one value so long, and its line.
fn long(length: usize) -> (Vec<u8>, Vec<u8>) {
    let bytes: Vec<u8> = (0..length - 13).map(|i| b'a' + (i % 26) as u8).collect();
    (tape(&[clob(&bytes)]), [b"{{\"".as_slice(), &bytes, b"\"}}\n"].concat())
}

#[test]
fn the_longest_tape() {
    let (tape, text) = long(MAX_TAPE);
    assert_eq!(tape.len(), MAX_TAPE);
    check_text(&tape, &text, |t, out| write(Layout::Lines, t, out));
    check_text(&tape, &text[..text.len() - 1], write_tree);
    check_tape(&text, &tape, read, |n| n);
    let mut at = 0;
    check(&text, MAX_TAPE + 5, |t, out| read_line(t, &mut at, out), Ok(Some(MAX_TAPE)), Left::Begins(&tape));
    assert_eq!(at, text.len());
    assert_eq!(to_text(Layout::Lines, &tape).as_ref(), Ok(&text));
    assert_eq!(to_tree_text(&tape).as_deref(), Ok(&text[..text.len() - 1]));
    assert_eq!(to_tape(&text).as_ref(), Ok(&tape));
    check_converted(&text, &text);
}

#[test]
fn tapes_that_are_too_long() {
    for length in [MAX_TAPE + 1, MAX_TAPE + 8, 8 * MAX_TAPE] {
        let (tape, text) = long(length);
        for room in [0, 100, text.len() + 5] {
            for layout in Layout::ALL {
                check(&tape, room, |t, out| write(layout, t, out), Err(Refusal::Misfit), Left::Untouched);
            }
            check(&tape, room, write_tree, Err(Refusal::Misfit), Left::Untouched);
            // However long the buffer is.
            check(&text, room, read, Err(Refusal::TapeTooLong), Left::Zero);
            let mut at = 0;
            check(&text, room, |t, out| read_line(t, &mut at, out), Err(Refusal::TapeTooLong), Left::Zero);
            assert_eq!(at, text.len());
        }
        assert_eq!(to_text(Layout::Lines, &tape), Err(Refusal::Misfit));
        assert_eq!(to_tree_text(&tape), Err(Refusal::Misfit));
        assert_eq!(to_tape(&text), Err(Refusal::TapeTooLong));
        // The converter's text may mean such a tape.
        for room in [text.len(), text.len() + 5] {
            check(&text, room, convert, Ok(text.len()), Left::Begins(&text));
        }
        check(&text, text.len() - 1, convert, Err(Refusal::OutputTooLong), Left::Untouched);
    }
}

/// A string of so many raw control characters, all that are replaced in turn, and the output.
fn stored(count: usize) -> (Vec<u8>, Vec<u8>) {
    let bytes = || (0..=8u8).chain(14..=31).cycle().take(count);
    let escapes: String = bytes().map(|byte| format!("\\x{byte:02x}")).collect();
    ([b"\"".to_vec(), bytes().collect(), b"\"".to_vec()].concat(), format!("\"{escapes}\"").into_bytes())
}

#[test]
fn long_conversions() {
    // The tape of so many characters has 13 bytes more: the first is as long as a tape may be, the others are too long.
    for (count, fits) in [(MAX_TAPE - 13, true), (MAX_TAPE - 12, false), (2 * MAX_TAPE, false)] {
        let (text, output) = stored(count);
        check_converted(&text, &output);
        assert_eq!(to_tape(&text), Err(Refusal::OutsideGrammar));
        assert_eq!(to_tape(&output).map(|tape| tape.len()), if fits { Ok(MAX_TAPE) } else { Err(Refusal::TapeTooLong) });
        assert!(to_converted(&output).as_ref() == Ok(&output));
        check(&text[..text.len() - 1], output.len(), convert, Err(Refusal::OutsideOldGrammar), Left::Untouched);
    }
    // Many short values: their tape is too long too.
    let (text, output) = (b"'\x01' ".repeat(MAX_TAPE / 4), br"'\x01' ".repeat(MAX_TAPE / 4));
    assert!(to_converted(&text).as_ref() == Ok(&output));
    assert_eq!(to_tape(&output), Err(Refusal::TapeTooLong));
}

/// The converter goes by blocks of 1,024 bytes: one character replaced, on both sides of where blocks and texts end.
#[test]
fn ends_of_blocks() {
    for at in (1..4).chain(1020..1028).chain(2044..2052) {
        for behind in (0..4).chain(1020..1028) {
            let parts = |middle: &str| format!("\"{}{middle}{}\"", "a".repeat(at - 1), "b".repeat(behind));
            let (text, output) = (parts("\u{1f}"), parts(r"\x1f"));
            for room in [output.len(), output.len() + 3] {
                check(text.as_bytes(), room, convert, Ok(output.len()), Left::Begins(output.as_bytes()));
            }
            check(text.as_bytes(), output.len() - 1, convert, Err(Refusal::OutputTooLong), Left::Untouched);
        }
    }
}

#[test]
fn long_texts_of_short_tapes() {
    let blanks = b" \n".repeat(MAX_TAPE);
    let text = [blanks.as_slice(), b"true", &blanks].concat();
    check_tape(&text, &tape(&[boolean(true)]), read, |n| n);
    // The longest spelling of a character.
    let escapes = format!("\"{}\"\n", "\\U00000041".repeat(MAX_TAPE / 8)).into_bytes();
    let due = tape(&[string(&"A".repeat(MAX_TAPE / 8))]);
    check_tape(&escapes, &due, read, |n| n);
    check_tape(&escapes, &due, |t, out| read_line(t, &mut 0, out), Some);
    for open in ["[", "{a:", "(", "\"", "a::", "'", "{{\""] {
        check(open.repeat(MAX_TAPE).as_bytes(), 1000, read, Err(Refusal::OutsideGrammar), Left::Zero);
        check(open.repeat(MAX_TAPE).as_bytes(), 1000, convert, Err(Refusal::OutsideOldGrammar), Left::Untouched);
    }
}

/// Texts many times as long as their tapes, and tapes many times as long as their texts: the conveniences find the buffer.
#[test]
fn buffers_grow() {
    // Indented by 128 blanks, each null of 2 bytes takes 144.
    let nulls = 20_000;
    let deep = (0..64).fold(null(5).repeat(nulls), |inner, _| list(&[inner]));
    let opened: String = (0..64).map(|level| "  ".repeat(level) + "[\n").collect();
    let closed: String = (0..64).rev().map(|level| "  ".repeat(level) + if level == 0 { "]\n" } else { "],\n" }).collect();
    let text = opened + &("  ".repeat(64) + "null.timestamp,\n").repeat(nulls) + &closed;
    let tape_of_it = tape(&[deep]);
    assert!(text.len() > 60 * tape_of_it.len());
    assert_eq!(to_text(Layout::Pretty, &tape_of_it).as_deref(), Ok(text.as_bytes()));
    assert_eq!(to_tape(text.as_bytes()).as_ref(), Ok(&tape_of_it));

    let clobs = tape(&[clob(&[0xFF; 1000])]);
    assert_eq!(to_tree_text(&clobs).map(|text| text.len()), Ok(4 * 1000 + 6));

    for count in [1, 100, 70_000] {
        let due = tape(&[list(&vec![decimal(false, 0, 0); count])]);
        let text = format!("[{}]\n", vec!["0."; count].join(","));
        assert_eq!(to_tape(text.as_bytes()).as_ref(), Ok(&due));
        let line = lines(text.as_bytes()).next().unwrap();
        assert_eq!((line.range, line.tape.as_ref()), (0..text.len(), Ok(&due)));
    }
    // One more zero than a tape holds: 74,898 nodes of 14 bytes, the list's 5 and the trailer's 8 are 1,048,585 bytes.
    for (count, fits) in [(74_897, true), (74_898, false)] {
        let text = format!("[{}]", vec!["0."; count].join(","));
        assert_eq!(to_tape(text.as_bytes()).map(|t| t.len()), if fits { Ok(14 * count + 13) } else { Err(Refusal::TapeTooLong) });
    }
}

#[test]
fn many_lines() {
    let blank = b"\n".repeat(200_000);
    assert!(lines(&blank).enumerate().all(|(i, line)| line == Line { range: i..i + 1, tape: Err(Refusal::OutsideGrammar) }));
    assert_eq!(lines(&blank).count(), 200_000);
    // A line that is too long is refused, and those around it are read.
    let (_, long) = long(MAX_TAPE + 1);
    let text = [b"1\n".as_slice(), &long, b"2\n"].concat();
    let read: Vec<_> = lines(&text).map(|line| line.tape).collect();
    assert_eq!(read, [Ok(tape(&[int(1)])), Err(Refusal::TapeTooLong), Ok(tape(&[int(2)]))]);
}
