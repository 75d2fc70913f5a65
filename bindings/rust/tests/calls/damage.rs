//! Damage: a Lines text with one run of bytes replaced by others, read line by line. The lines that end before the run come first, as
//! written; then each line between gets the answer that the line book (docs/FORMAT.md) gives for its own bytes and the buffer; then come the
//! lines behind a line feed of the rest, as written; then the end mark, again and again.

use crate::check::pattern;
use crate::random::Random;
use crate::tapes::*;
use lechuqta::*;

type Answer = Result<Vec<u8>, Refusal>;

/// The book's answer for one line: one value or marker by the grammar and then LF, in a buffer of `room` bytes.
fn book(line: &[u8], room: usize) -> Answer {
    let value = line.strip_suffix(b"\n").ok_or(Refusal::OutsideGrammar)?;
    let tape = to_tape(value)?;
    match tape[tape.len() - 4..] {
        [1, 0, 0, 0] if tape.len() > room => Err(Refusal::TapeTooLong),
        [1, 0, 0, 0] => Ok(tape),
        _ => Err(Refusal::OutsideGrammar),
    }
}

fn cut(text: &[u8]) -> impl Iterator<Item = &[u8]> {
    text.split_inclusive(|byte| *byte == b'\n')
}

/// The Lines text of these nodes with the bytes from `from` to `to` replaced by `new`, and what each of its lines must answer. Both the
/// lines before and those behind the run come from the nodes, not from the text.
fn damaged(nodes: &[Node], text: &[u8], (from, to): (usize, usize), new: &[u8], room: usize) -> (Vec<u8>, Vec<(usize, Answer)>) {
    let (head, tail) = (&text[..from], &text[to..]);
    let feeds = |bytes: &[u8]| bytes.iter().filter(|byte| **byte == b'\n').count();
    let as_written = |(line, node): (&[u8], &Node)| (line.len(), Ok(single(node)));
    let written: Vec<_> = cut(text).zip(nodes).map(as_written).collect();
    let before = feeds(head);
    let behind = feeds(tail).saturating_sub(1);
    let between_from = head.iter().rposition(|byte| *byte == b'\n').map_or(0, |at| at + 1);
    let between_to = tail.iter().position(|byte| *byte == b'\n').map_or(tail.len(), |at| at + 1);
    let between = [&head[between_from..], new, &tail[..between_to]].concat();
    let answers =
        [written[..before].to_vec(), cut(&between).map(|line| (line.len(), book(line, room))).collect(), written[nodes.len() - behind..].to_vec()];
    ([head, new, tail].concat(), answers.concat())
}

/// Calls from a fresh offset, each given what the last one left: every answer, offset and whole buffer.
fn check_calls(text: &[u8], room: usize, answers: &[(usize, Answer)]) {
    let shown = String::from_utf8_lossy(text);
    let (mut at, mut out) = (0, pattern(room));
    let (mut due_at, mut due_out) = (0, out.clone());
    for (length, answer) in answers {
        due_at += length;
        match answer {
            Ok(tape) => due_out[..tape.len()].copy_from_slice(tape),
            Err(_) => due_out.fill(0),
        }
        let due = answer.as_ref().map(|tape| Some(tape.len())).map_err(|refusal| *refusal);
        assert_eq!(read_line(text, &mut at, &mut out), due, "the line before offset {due_at} of {shown:?}");
        assert_eq!(at, due_at, "the offset in {shown:?}");
        assert!(out == due_out, "the buffer at offset {at} of {shown:?}");
    }
    for _ in 0..3 {
        assert_eq!(read_line(text, &mut at, &mut out), Ok(None), "the end mark of {shown:?}");
        assert_eq!((at, at), (due_at, text.len()), "the offset at the end of {shown:?}");
        assert!(out == due_out, "the buffer at the end of {shown:?}");
    }
}

/// A text damaged in one place, by calls and by the iterator.
fn check_damaged(nodes: &[Node], text: &[u8], run: (usize, usize), new: &[u8], spare: usize) {
    let room = tape(nodes).len() + spare;
    let (changed, answers) = damaged(nodes, text, run, new, room);
    check_calls(&changed, room, &answers);
    // The iterator's buffer is long enough for every line here.
    let (_, answers) = damaged(nodes, text, run, new, MAX_TAPE);
    let mut from = 0;
    let due: Vec<_> = answers
        .into_iter()
        .map(|(length, tape)| {
            let range = from..from + length;
            from = range.end;
            Line { range, tape }
        })
        .collect();
    assert_eq!(lines(&changed).collect::<Vec<_>>(), due);
}

#[test]
fn every_run_of_a_short_text() {
    let nodes = [int(1), list(&[string("a\"")]), marker(), symbol("x y"), decimal(false, 12, -1)];
    let text = to_text(Layout::Lines, &tape(&nodes)).unwrap();
    for from in 0..=text.len() {
        for to in from..=text.len() {
            for new in ["", "x", "\n", "\"", "]\n[", "2\n", "\n\n\n", "a::1 ", "\0"] {
                check_damaged(&nodes, &text, (from, to), new.as_bytes(), 0);
            }
        }
    }
}

#[test]
fn random_runs_of_random_texts() {
    let mut random = Random(3);
    let pieces: [&[u8]; 16] =
        [b"\n", b"\r\n", b" ", b"\"", b"'", b"[", b"]", b"{a:", b"}", b"(", b",", b"\\", b"1\n", b"a::b::c\n", b"{{\"", b"\xFF\x00"];
    for _ in 0..300 {
        let nodes = random.list_of_values(8);
        let text = to_text(Layout::Lines, &tape(&nodes)).unwrap();
        for _ in 0..20 {
            let from = random.below(text.len() + 1);
            let to = from + random.below((text.len() - from).min(60) + 1);
            let new = match random.below(4) {
                // Cut out.
                0 => vec![],
                // Changed, bit by bit.
                1 => text[from..to].iter().map(|byte| byte ^ (random.next() & random.next()) as u8).collect(),
                // Replaced by what texts are made of.
                2 => (0..random.below(12)).flat_map(|_| random.pick(&pieces)).copied().collect(),
                // Lengthened by another part of the same text.
                _ => {
                    let start = random.below(text.len() + 1);
                    [&text[from..to], &text[start..]].concat()
                }
            };
            check_damaged(&nodes, &text, (from, to), &new, random.below(3) * 50);
        }
    }
}

/// A long pass list through a relay that loses a block: the first and the last lines come as written.
#[test]
fn a_lost_block() {
    let pass = |i: i64| structure(&[(symbol("norad"), int(i)), (symbol("peak"), decimal(false, i as u64, -2)), (symbol("name"), string("NOAA 20"))]);
    let nodes: Vec<_> = (0..3000).map(pass).collect();
    let text = to_text(Layout::Lines, &tape(&nodes)).unwrap();
    for from in (0..text.len() - 4096).step_by(20_011) {
        check_damaged(&nodes, &text, (from, from + 4096), b"", 0);
        check_damaged(&nodes, &text, (from, from + 4096), &[0; 4096], 0);
        check_damaged(&nodes, &text, (from, from + 4096), &[b'\n'; 5000], 0);
    }
}
