//! A call and all that it may and may not touch.

use lechuqta::{convert, to_converted, Refusal};
use std::fmt::Debug;

const GUARD: usize = 32;

/// What a call leaves in its buffer.
#[derive(Clone, Copy)]
pub enum Left<'a> {
    Untouched,
    Zero,
    /// These bytes, then those that were there.
    Begins(&'a [u8]),
}

/// Bytes that tell their place, none of them 0.
pub fn pattern(length: usize) -> Vec<u8> {
    (0..length).map(|i| (i % 251) as u8 + 1).collect()
}

/// Makes a call on `input` with a buffer of `room` bytes. The answer and what is left must be these; the input and the bytes on both sides of
/// the buffer must be as before.
pub fn check<A: PartialEq + Debug>(input: &[u8], room: usize, call: impl FnOnce(&[u8], &mut [u8]) -> A, answer: A, left: Left) {
    let shown = String::from_utf8_lossy(&input[..input.len().min(80)]).into_owned();
    let given = input.to_vec();
    let mut memory = pattern(room + 2 * GUARD);
    let mut expected = memory.clone();
    let buffer = &mut expected[GUARD..GUARD + room];
    match left {
        Left::Untouched => (),
        Left::Zero => buffer.fill(0),
        Left::Begins(bytes) => buffer[..bytes.len()].copy_from_slice(bytes),
    }
    assert_eq!(call(&given, &mut memory[GUARD..GUARD + room]), answer, "the answer on {shown:?} in {room} bytes");
    assert!(memory == expected, "the buffer or its guards, on {shown:?} in {room} bytes: {:?}", first_difference(&memory, &expected));
    assert!(given == input, "the input was written: {shown:?}");
}

/// The first byte that differs: its place in the buffer, what it is and what it must be.
fn first_difference(found: &[u8], due: &[u8]) -> Option<(isize, u8, u8)> {
    let at = (0..due.len()).find(|&i| found[i] != due[i])?;
    Some((at as isize - GUARD as isize, found[at], due[at]))
}

/// A writer that must give this text: with room to spare, exactly full, one byte short, with half the room and with none.
pub fn check_text(tape: &[u8], text: &[u8], write: impl Fn(&[u8], &mut [u8]) -> Result<usize, Refusal>) {
    let full = text.len();
    for room in [full + 9, full] {
        check(tape, room, &write, Ok(full), Left::Begins(text));
    }
    for room in [full.saturating_sub(1), full / 2, 0] {
        if room < full {
            check(tape, room, &write, Err(Refusal::TextTooLong), Left::Begins(&text[..room]));
        }
    }
}

/// A reader that must give this tape: with room to spare, exactly full, one byte short and with no room.
pub fn check_tape<A: PartialEq + Debug>(
    text: &[u8],
    tape: &[u8],
    read: impl Fn(&[u8], &mut [u8]) -> Result<A, Refusal>,
    answer: impl Fn(usize) -> A,
) {
    let full = tape.len();
    for room in [full + 9, full] {
        check(text, room, &read, Ok(answer(full)), Left::Begins(tape));
    }
    for room in [full - 1, full / 2, 0] {
        check(text, room, &read, Err(Refusal::TapeTooLong), Left::Zero);
    }
}

/// The converter, which must give this output: with room to spare, exactly full, one byte short, with half the room and with none.
pub fn check_converted(text: &[u8], output: &[u8]) {
    let full = output.len();
    for room in [full + 9, full] {
        check(text, room, convert, Ok(full), Left::Begins(output));
    }
    for room in [full.saturating_sub(1), full / 2, 0] {
        if room < full {
            check(text, room, convert, Err(Refusal::OutputTooLong), Left::Untouched);
        }
    }
    assert!(to_converted(text).as_deref() == Ok(output), "to_converted on {:?}", String::from_utf8_lossy(&text[..text.len().min(80)]));
}

/// The converter, which must refuse the text as outside the old grammar, in buffers of any length.
pub fn check_outside_old(text: &[u8]) {
    for room in [0, 1, text.len(), 4 * text.len() + 9] {
        check(text, room, convert, Err(Refusal::OutsideOldGrammar), Left::Untouched);
    }
    assert_eq!(to_converted(text), Err(Refusal::OutsideOldGrammar));
}
