//! Amazon Ion text for pass lists: safe calls over the proved static library `ion_c`.
//!
//! A *tape* is the binary form of a list of values; the repository's `docs/FORMAT.md` has it byte by byte, with the texts and the grammar.
//! [`write()`] and [`write_tree`] turn a tape into text, [`read`] turns a text into its tape, and [`read_line`] does so line by line, going on
//! behind a damaged line. [`convert`] brings over a stored text that has control characters raw, which [`read`] refuses. Each works in a lent buffer of
//! any length and answers the count of bytes that it finished there, or a [`Refusal`]. No input makes a call panic. [`to_text`], [`to_tree_text`],
//! [`to_tape`], [`to_converted`] and [`lines`] are the same with a buffer of their own. [`length`] and [`tree_length`] tell how long a text will be,
//! before it is written. [`WriteOptions`] writes and measures with always-quoted symbols. [`Index`] finds the fields of a struct by name;
//! [`index_into`], [`find`] and [`find_id`] do so in lent entries.
//!
//! ```
//! use lechuqta::{lines, to_tape, to_text, to_tree_text, Index, Layout, Refusal, WriteOptions};
//!
//! let tape = to_tape(b"[1, 2] {peak: 61.25}")?;
//! assert_eq!(to_text(Layout::Lines, &tape)?, b"[1, 2, ]\n{peak: 61.25, }\n");
//!
//! // A field by its name: the struct stands behind the list, at offset 23, and the value of `peak` is a decimal, kind 4.
//! assert_eq!(Index::new(&tape, 23)?.get("peak").map(|field| tape[field.value]), Some(4));
//!
//! // The same text with always-quoted symbols.
//! assert_eq!(WriteOptions::new().quoted(true).to_text(Layout::Lines, &tape)?, b"[1, 2, ]\n{'peak': 61.25, }\n");
//!
//! // A finder image is a blob.
//! let field = to_tape(b"{field: m31, finder: jpeg::{{/9j/4AAQ}}}")?;
//! assert_eq!(to_tree_text(&field)?, b"{field: m31, finder: jpeg::{{/9j/4AAQ}}}");
//!
//! // A damaged text: the lines around the damage are read as they were written.
//! let read: Vec<_> = lines(b"[1, 2, ]\n{pe###.25, }\n3\n").map(|line| line.tape).collect();
//! assert_eq!(to_tree_text(read[0].as_ref().unwrap())?, b"[1, 2]");
//! assert_eq!(read[1], Err(Refusal::OutsideGrammar));
//! assert_eq!(to_tree_text(read[2].as_ref().unwrap())?, b"3");
//! # Ok::<(), Refusal>(())
//! ```
#![deny(missing_docs)]
#![deny(unsafe_code)]

use std::iter::FusedIterator;
use std::ops::Range;

mod index;
mod options;
#[allow(unsafe_code)]
mod raw;
mod refusal;

pub use index::{find, find_id, index_into, Entry, Field, Index};
pub use options::WriteOptions;
pub use refusal::Refusal;

/// The longest tape, in bytes.
pub const MAX_TAPE: usize = 1_048_576;

/// How a streaming text is laid out.
#[derive(Clone, Copy, Debug, PartialEq, Eq, Hash)]
#[repr(u32)]
pub enum Layout {
    /// All on one line; a blank behind each value at top level.
    Compact = 0,
    /// One value a line, for [`read_line`].
    Lines = 1,
    /// Children on lines of their own, indented by two blanks a level.
    Pretty = 2,
}

impl Layout {
    /// Every layout.
    pub const ALL: [Layout; 3] = [Layout::Compact, Layout::Lines, Layout::Pretty];
}

/// An answer of the library: a count, or minus a refusal's number.
fn answered(answer: i64) -> Result<usize, Refusal> {
    if answer >= 0 {
        return Ok(answer as usize);
    }
    let refusal = Refusal::ALL.into_iter().find(|r| i64::from(r.number()) == -answer);
    Err(refusal.unwrap_or_else(|| unreachable!("ion_c answered {answer}, which its contract excludes")))
}

/// Writes a tape's streaming text in a layout, and answers the text's length.
///
/// On success the bytes of `out` behind the text keep their values. Refusals, the first that holds: [`Misfit`](Refusal::Misfit); the first
/// node at fault in tape order, and at that node [`BadNode`](Refusal::BadNode), [`TooDeep`](Refusal::TooDeep),
/// [`FiniteFloat`](Refusal::FiniteFloat); [`BadNode`](Refusal::BadNode) for the number of top-level nodes; [`Unsuited`](Refusal::Unsuited)
/// for an annotated value: with all of these `out` is untouched. [`TextTooLong`](Refusal::TextTooLong): `out` holds the text's first bytes.
///
/// ```
/// use lechuqta::{write, Layout, Refusal};
///
/// let tape = [10, 2, 0, 0, 0, 1, 1, 7, 0, 0, 0, 1, 0, 0, 0];
/// let mut out = *b"............";
/// assert_eq!(write(Layout::Lines, &tape, &mut out), Ok(9));
/// assert_eq!(&out, b"[true, ]\n...");
/// assert_eq!(write(Layout::Lines, &tape, &mut out[..5]), Err(Refusal::TextTooLong));
/// ```
pub fn write(layout: Layout, tape: &[u8], out: &mut [u8]) -> Result<usize, Refusal> {
    WriteOptions::new().write(layout, tape, out)
}

/// The length of a tape's streaming text in a layout, in place of the text: with a buffer of that many bytes [`write()`] succeeds, and with one byte
/// less it refuses the text as too long.
///
/// Refusals are those of [`write()`], but never [`TextTooLong`](Refusal::TextTooLong). In [`Layout::Compact`] and [`Layout::Lines`] the length is at
/// most nine times the tape's.
///
/// ```
/// use lechuqta::{length, to_tape, write, Layout, Refusal};
///
/// let tape = to_tape(b"{peak: 61.25}")?;
/// let reserved = length(Layout::Lines, &tape)?;
/// assert_eq!(reserved, 16);
/// let mut packet = vec![0; reserved];
/// assert_eq!(write(Layout::Lines, &tape, &mut packet), Ok(reserved));
/// assert_eq!(packet, b"{peak: 61.25, }\n");
/// assert_eq!(write(Layout::Lines, &tape, &mut packet[1..]), Err(Refusal::TextTooLong));
/// # Ok::<(), Refusal>(())
/// ```
pub fn length(layout: Layout, tape: &[u8]) -> Result<usize, Refusal> {
    WriteOptions::new().length(layout, tape)
}

/// Writes the tree text of a tape of one value, annotations included, and answers the text's length.
///
/// Refusals and `out` are those of [`write()`], but for [`Unsuited`](Refusal::Unsuited): not one value, a version marker, or a symbol
/// identifier but 0.
///
/// ```
/// let tape = lechuqta::to_tape(b"pass::[ 1,2 ]")?;
/// let mut out = [0; 16];
/// let count = lechuqta::write_tree(&tape, &mut out)?;
/// assert_eq!(&out[..count], b"pass::[1, 2]");
/// # Ok::<(), lechuqta::Refusal>(())
/// ```
pub fn write_tree(tape: &[u8], out: &mut [u8]) -> Result<usize, Refusal> {
    WriteOptions::new().write_tree(tape, out)
}

/// The length of the tree text of a tape of one value, in place of the text, as [`length`] is that of a streaming text.
///
/// Refusals are those of [`write_tree`], but never [`TextTooLong`](Refusal::TextTooLong).
///
/// ```
/// let tape = lechuqta::to_tape(b"pass::[ 1,2 ]")?;
/// assert_eq!(lechuqta::tree_length(&tape), Ok(b"pass::[1, 2]".len()));
/// # Ok::<(), lechuqta::Refusal>(())
/// ```
pub fn tree_length(tape: &[u8]) -> Result<usize, Refusal> {
    WriteOptions::new().tree_length(tape)
}

/// Reads a text of any number of values, lays their tape at the start of `out` and answers the tape's length.
///
/// On success the bytes of `out` behind the tape keep their values. Refusals, the first that holds:
/// [`OutsideGrammar`](Refusal::OutsideGrammar); [`TapeTooLong`](Refusal::TapeTooLong). Either leaves all of `out` zero. Of the control characters below
/// U+0020, tab, 11 and 12 alone may stand raw in quoted text; stored texts that have others go through [`convert`].
///
/// ```
/// let mut out = [7; 18];
/// assert_eq!(lechuqta::read(b" true ", &mut out), Ok(10));
/// assert_eq!(out, [1, 1, 2, 0, 0, 0, 1, 0, 0, 0, 7, 7, 7, 7, 7, 7, 7, 7]);
/// ```
pub fn read(text: &[u8], out: &mut [u8]) -> Result<usize, Refusal> {
    answered(raw::read(text, out))
}

/// Reads the line of a text that starts at the offset `at`, which must be one value or version marker, and moves `at` behind it. Answers the
/// length of the line's tape, or `None`, the end mark, where `at` is the text's length.
///
/// Start with 0 and hand each call the offset and the buffer that the last one left. On success and at the end mark the other bytes of `out`
/// keep their values. Refusals, the first that holds: [`PastText`](Refusal::PastText), which keeps `at` and `out`;
/// [`OutsideGrammar`](Refusal::OutsideGrammar), also for a line without line feed; [`TapeTooLong`](Refusal::TapeTooLong). These two leave all
/// of `out` zero and move `at` behind the line, so that the next call goes on there.
///
/// ```
/// use lechuqta::{read_line, Refusal};
///
/// let (text, mut at, mut out) = (b"1\n?\n$ion_1_0\n", 0, [0; 32]);
/// assert_eq!(read_line(text, &mut at, &mut out), Ok(Some(17)));
/// assert_eq!(read_line(text, &mut at, &mut out), Err(Refusal::OutsideGrammar));
/// assert_eq!(at, 4);
/// assert_eq!(read_line(text, &mut at, &mut out), Ok(Some(9)));
/// assert_eq!(read_line(text, &mut at, &mut out), Ok(None));
/// ```
pub fn read_line(text: &[u8], at: &mut usize, out: &mut [u8]) -> Result<Option<usize>, Refusal> {
    let mut offset = *at as u64;
    let count = answered(raw::read_line(text, &mut offset, out));
    *at = offset as usize;
    // A line's tape has 9 bytes or more, so 0 is the end mark alone.
    count.map(|n| (n > 0).then_some(n))
}

/// Converts a stored text that may have control characters raw, and answers the output's length. The output is the same bytes, each raw U+0000 to U+0008
/// and U+000E to U+001F in quoted text replaced by `\x` and two lower-case hex digits. It is of the grammar of [`read`], and means the tape that the
/// stored text meant. A text of that grammar comes out unchanged, so that converting twice is converting once.
///
/// On success the bytes of `out` behind the output keep their values. Refusals, the first that holds:
/// [`OutsideOldGrammar`](Refusal::OutsideOldGrammar); [`OutputTooLong`](Refusal::OutputTooLong). Both leave `out` untouched. The text has any length,
/// also where its tape would be longer than [`MAX_TAPE`]. The output has three bytes more than the text for each character replaced: at most four times
/// the text's length.
///
/// ```
/// use lechuqta::{convert, to_tape, Refusal};
///
/// let stored = b"{name: \"M\x01 31\"}\n";
/// assert_eq!(to_tape(stored), Err(Refusal::OutsideGrammar));
/// let mut out = [b'.'; 22];
/// assert_eq!(convert(stored, &mut out), Ok(19));
/// assert_eq!(&out, b"{name: \"M\\x01 31\"}\n...");
/// assert_eq!(to_tape(&out[..19]), to_tape(br#"{name: "M\u0001 31"}"#));
///
/// assert_eq!(convert(stored, &mut out[..18]), Err(Refusal::OutputTooLong));
/// assert_eq!(convert(b"{name: \"M\x01 31\"", &mut out), Err(Refusal::OutsideOldGrammar));
///
/// // A clean text comes out unchanged.
/// assert_eq!(convert(b"[1, 2]", &mut out), Ok(6));
/// assert_eq!(&out[..6], b"[1, 2]");
/// ```
pub fn convert(text: &[u8], out: &mut [u8]) -> Result<usize, Refusal> {
    answered(raw::convert(text, out))
}

/// The tape that a call gives in a buffer that is long enough: the buffer is doubled, until it has [`MAX_TAPE`] bytes, as long as it is too short.
fn tape_of(input: usize, mut call: impl FnMut(&mut [u8]) -> Result<usize, Refusal>) -> Result<Vec<u8>, Refusal> {
    // A first guess: most tapes need less, some need more.
    let mut out = vec![0; (2 * input + 64).min(MAX_TAPE)];
    loop {
        match call(&mut out) {
            Ok(count) => {
                out.truncate(count);
                return Ok(out);
            }
            Err(Refusal::TapeTooLong) if out.len() < MAX_TAPE => out = vec![0; (2 * out.len()).min(MAX_TAPE)],
            Err(refusal) => return Err(refusal),
        }
    }
}

/// The streaming text of a tape in a layout. As [`write()`], never [`TextTooLong`](Refusal::TextTooLong).
///
/// ```
/// # use lechuqta::{to_tape, to_text, Layout};
/// let tape = to_tape(b"{a: [1]}")?;
/// assert_eq!(to_text(Layout::Pretty, &tape)?, b"{\n  a: [\n    1,\n  ],\n}\n");
/// # Ok::<(), lechuqta::Refusal>(())
/// ```
pub fn to_text(layout: Layout, tape: &[u8]) -> Result<Vec<u8>, Refusal> {
    WriteOptions::new().to_text(layout, tape)
}

/// The tree text of a tape of one value. As [`write_tree`], never [`TextTooLong`](Refusal::TextTooLong).
///
/// ```
/// # use lechuqta::{to_tape, to_tree_text};
/// assert_eq!(to_tree_text(&to_tape(b"a::{b:(c d)}")?)?, b"a::{b: (c d)}");
/// # Ok::<(), lechuqta::Refusal>(())
/// ```
pub fn to_tree_text(tape: &[u8]) -> Result<Vec<u8>, Refusal> {
    WriteOptions::new().to_tree_text(tape)
}

/// The tape of a text. As [`read`]; [`TapeTooLong`](Refusal::TapeTooLong) only for a tape over [`MAX_TAPE`] bytes.
///
/// ```
/// # use lechuqta::{to_tape, Refusal};
/// assert_eq!(to_tape(b"true"), Ok(vec![1, 1, 2, 0, 0, 0, 1, 0, 0, 0]));
/// assert_eq!(to_tape(b"{ a: 1 "), Err(Refusal::OutsideGrammar));
/// ```
pub fn to_tape(text: &[u8]) -> Result<Vec<u8>, Refusal> {
    tape_of(text.len(), |out| read(text, out))
}

/// A stored text converted. As [`convert`], never [`OutputTooLong`](Refusal::OutputTooLong).
///
/// ```
/// # use lechuqta::{to_converted, to_tape, to_tree_text, Refusal};
/// let stored = b"[{field: 'm\x00'}, {field: \"\x07\t\"}]";
/// assert_eq!(to_tape(stored), Err(Refusal::OutsideGrammar));
/// let text = to_converted(stored)?;
/// assert_eq!(text, b"[{field: 'm\\x00'}, {field: \"\\x07\t\"}]");
///
/// // It reads to the tape that the stored list meant, and is clean, so that it comes out unchanged.
/// assert_eq!(to_tree_text(&to_tape(&text)?)?, br#"[{field: 'm\0'}, {field: "\a\t"}]"#);
/// assert_eq!(to_converted(&text)?, text);
/// # Ok::<(), Refusal>(())
/// ```
pub fn to_converted(text: &[u8]) -> Result<Vec<u8>, Refusal> {
    // In a text of the old grammar these bytes stand raw in quoted text and nowhere else. Each takes three bytes more.
    let replaced = text.iter().filter(|byte| matches!(byte, 0..=8 | 14..=31)).count();
    let mut out = vec![0; text.len() + 3 * replaced];
    let count = convert(text, &mut out)?;
    out.truncate(count);
    Ok(out)
}

/// A line of a text, as [`Lines`] gives it.
#[derive(Clone, Debug, PartialEq, Eq, Hash)]
pub struct Line {
    /// Where it stands in the text, its line feed included.
    pub range: Range<usize>,
    /// The tape of its one value, or why it is refused.
    pub tape: Result<Vec<u8>, Refusal>,
}

/// The lines of a text, damaged or not, from its start to the end mark. Made by [`lines`].
#[derive(Clone, Debug)]
pub struct Lines<'a> {
    text: &'a [u8],
    at: usize,
}

/// Reads a text line by line, by [`read_line`] with a buffer long enough for each line.
///
/// The ranges follow each other and make up the text. A line is refused as [`OutsideGrammar`](Refusal::OutsideGrammar), or as
/// [`TapeTooLong`](Refusal::TapeTooLong) if its tape is over [`MAX_TAPE`] bytes, and the lines behind it still come. In a text written in
/// [`Layout::Lines`] of which one run of bytes was changed, cut out or lengthened, the lines that end before the run and those that start
/// behind a line feed of the untouched rest are read as they were written.
///
/// ```
/// use lechuqta::{lines, Refusal};
///
/// let read: Vec<_> = lines(b"true\nx y\n").collect();
/// assert_eq!(read[0].range, 0..5);
/// assert_eq!(read[0].tape, Ok(vec![1, 1, 2, 0, 0, 0, 1, 0, 0, 0]));
/// assert_eq!(read[1].range, 5..9);
/// assert_eq!(read[1].tape, Err(Refusal::OutsideGrammar));
/// ```
pub fn lines(text: &[u8]) -> Lines<'_> {
    Lines { text, at: 0 }
}

impl Iterator for Lines<'_> {
    type Item = Line;

    fn next(&mut self) -> Option<Line> {
        let (text, from) = (self.text, self.at);
        // The line's length is only a guess at the buffer's; where the line ends is the library's answer.
        let line = text[from..].split_inclusive(|byte| *byte == b'\n').next()?;
        let tape = tape_of(line.len(), |out| {
            self.at = from;
            Ok(read_line(text, &mut self.at, out)?.unwrap_or(0))
        });
        Some(Line { range: from..self.at, tape })
    }
}

impl FusedIterator for Lines<'_> {}

// The README's example runs as a test.
#[cfg(doctest)]
#[doc = include_str!("../README.md")]
struct Readme;
