//! The refusals.

use std::error::Error;
use std::fmt;

/// Why a call was refused: the rows of the table "Refusals" in the repository's `docs/FORMAT.md`.
///
/// What a refused call leaves in its buffer is said at each function.
#[derive(Clone, Copy, Debug, PartialEq, Eq, Hash)]
#[repr(u8)]
pub enum Refusal {
    /// 1: the tape has under 8 or over [`MAX_TAPE`](crate::MAX_TAPE) bytes, or its trailer's body length plus 8 is not its length.
    Misfit = 1,
    /// 2: a node is not as the tape's layout has it, or the trailer's number of top-level nodes is wrong.
    BadNode,
    /// 3: a container opens while 64 are open.
    TooDeep,
    /// 4: a float is finite and no whole number of magnitude up to 2^53.
    FiniteFloat,
    /// 5: the tape has no text of this kind. Streaming: it has an annotated value. Tree text: it is not one value (but a marker, none or
    /// several), or a symbol identifier but 0 stands in it.
    Unsuited,
    /// 6: the text is longer than the buffer.
    TextTooLong,
    /// 7: no such layout. [`Layout`](crate::Layout) has only those that there are, so no function of this crate gives it.
    NoLayout,
    /// 8: the text, or the line, is outside the grammar.
    OutsideGrammar,
    /// 9: the tape is longer than the buffer, or than [`MAX_TAPE`](crate::MAX_TAPE).
    TapeTooLong,
    /// 10: the offset is past the text.
    PastText,
    /// 11: no struct node of the tape has its kind byte at the offset.
    NoStruct,
    /// 12: the struct has more fields than there are entries.
    TooManyFields,
    /// 13: the text is outside the old grammar: that of [`read`](crate::read), but in quoted text every raw character except line feed and CR is taken.
    OutsideOldGrammar,
    /// 14: the output is longer than the buffer.
    OutputTooLong,
}

impl Refusal {
    /// Every refusal, in the table's order.
    pub const ALL: [Refusal; 14] = [
        Refusal::Misfit,
        Refusal::BadNode,
        Refusal::TooDeep,
        Refusal::FiniteFloat,
        Refusal::Unsuited,
        Refusal::TextTooLong,
        Refusal::NoLayout,
        Refusal::OutsideGrammar,
        Refusal::TapeTooLong,
        Refusal::PastText,
        Refusal::NoStruct,
        Refusal::TooManyFields,
        Refusal::OutsideOldGrammar,
        Refusal::OutputTooLong,
    ];

    /// Its number in the table.
    ///
    /// ```
    /// assert_eq!(lechuqta::Refusal::OutsideGrammar.number(), 8);
    /// ```
    pub const fn number(self) -> u8 {
        self as u8
    }

    /// What is wrong, in words.
    pub const fn message(self) -> &'static str {
        match self {
            Refusal::Misfit => "the tape's length is under 8, over 1048576 or not what its trailer says",
            Refusal::BadNode => "a node of the tape is broken, or the number of top-level nodes is wrong",
            Refusal::TooDeep => "more than 64 containers are open together",
            Refusal::FiniteFloat => "a float is finite and no whole number of magnitude up to 2^53",
            Refusal::Unsuited => "the tape has no text of this kind",
            Refusal::TextTooLong => "the text is longer than the buffer",
            Refusal::NoLayout => "there is no such layout",
            Refusal::OutsideGrammar => "the text is outside the grammar",
            Refusal::TapeTooLong => "the tape is longer than the buffer or than 1048576 bytes",
            Refusal::PastText => "the offset is past the text",
            Refusal::NoStruct => "no struct starts at the offset",
            Refusal::TooManyFields => "the struct has more fields than there are entries",
            Refusal::OutsideOldGrammar => "the text is outside the old grammar",
            Refusal::OutputTooLong => "the output is longer than the buffer",
        }
    }
}

impl fmt::Display for Refusal {
    fn fmt(&self, f: &mut fmt::Formatter<'_>) -> fmt::Result {
        write!(f, "refused {}: {}", self.number(), self.message())
    }
}

impl Error for Refusal {}
