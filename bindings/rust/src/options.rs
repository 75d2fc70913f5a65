//! The writers with a setting.

use crate::{answered, raw, Layout, Refusal};

/// How texts are written and measured: a setting, and the calls under it. Without a setting they are those of the crate's functions,
/// [`write()`](crate::write()) and the others by the same names.
///
/// [`quoted`](WriteOptions::quoted) has every symbol text quoted, for a reader of the text that takes bare words for something else. The bytes
/// are others then, and so is the length; refusals, their order and what a refused call leaves are as without, and the text is read back to the
/// same tape.
///
/// ```
/// use lechuqta::{to_tape, to_text, Layout, Refusal, WriteOptions};
///
/// let quoted = WriteOptions::new().quoted(true);
/// let tape = to_tape(b"{field: m31, $7: \"dome 2\"} $ion_1_0")?;
/// let text = quoted.to_text(Layout::Lines, &tape)?;
/// assert_eq!(text, b"{'field': 'm31', $7: \"dome 2\", }\n$ion_1_0\n");
/// assert_eq!(quoted.length(Layout::Lines, &tape)?, text.len());
/// assert_eq!(to_tape(&text)?, tape);
///
/// // Annotations too, which the tree text has.
/// let note = to_tape(b"finder::jpeg::{{/9j/4AAQ}}")?;
/// assert_eq!(quoted.to_tree_text(&note)?, b"'finder'::'jpeg'::{{/9j/4AAQ}}");
///
/// // Off, it is as without.
/// assert_eq!(WriteOptions::new().to_text(Layout::Lines, &tape)?, to_text(Layout::Lines, &tape)?);
/// # Ok::<(), Refusal>(())
/// ```
#[derive(Clone, Copy, Debug, Default, PartialEq, Eq, Hash)]
pub struct WriteOptions {
    quoted: bool,
}

impl WriteOptions {
    /// Every setting off, as by [`Default`].
    #[must_use]
    pub const fn new() -> WriteOptions {
        WriteOptions { quoted: false }
    }

    /// Always-quoted symbols, on or off: every symbol text, as a value, a field's name or an annotation, stands between two `'`, also where it could
    /// stand bare. Identifiers stay `$` and digits, version markers `$ion_1_0`; every other byte is as without.
    ///
    /// ```
    /// # use lechuqta::{to_tape, WriteOptions};
    /// let tape = to_tape(b"a::{b: c}")?;
    /// assert_eq!(WriteOptions::new().to_tree_text(&tape)?, b"a::{b: c}");
    /// assert_eq!(WriteOptions::new().quoted(true).to_tree_text(&tape)?, b"'a'::{'b': 'c'}");
    /// # Ok::<(), lechuqta::Refusal>(())
    /// ```
    #[must_use]
    pub const fn quoted(self, on: bool) -> WriteOptions {
        WriteOptions { quoted: on }
    }

    /// As [`write()`](crate::write()).
    ///
    /// ```
    /// # use lechuqta::{to_tape, Layout, WriteOptions};
    /// let tape = to_tape(b"m31")?;
    /// let mut out = *b"........";
    /// assert_eq!(WriteOptions::new().quoted(true).write(Layout::Lines, &tape, &mut out), Ok(6));
    /// assert_eq!(&out, b"'m31'\n..");
    /// # Ok::<(), lechuqta::Refusal>(())
    /// ```
    pub fn write(self, layout: Layout, tape: &[u8], out: &mut [u8]) -> Result<usize, Refusal> {
        let call = if self.quoted { raw::write_quoted } else { raw::write };
        answered(call(layout as u32, tape, out))
    }

    /// As [`length`](crate::length): with a buffer of that many bytes [`write`](WriteOptions::write) succeeds under the same setting. Under each, in
    /// [`Layout::Compact`] and [`Layout::Lines`], the length is at most nine times the tape's.
    pub fn length(self, layout: Layout, tape: &[u8]) -> Result<usize, Refusal> {
        let call = if self.quoted { raw::length_quoted } else { raw::length };
        answered(call(layout as u32, tape))
    }

    /// As [`write_tree`](crate::write_tree).
    pub fn write_tree(self, tape: &[u8], out: &mut [u8]) -> Result<usize, Refusal> {
        let call = if self.quoted { raw::write_tree_quoted } else { raw::write_tree };
        answered(call(tape, out))
    }

    /// As [`tree_length`](crate::tree_length): that of what [`write_tree`](WriteOptions::write_tree) writes under the same setting.
    pub fn tree_length(self, tape: &[u8]) -> Result<usize, Refusal> {
        let call = if self.quoted { raw::tree_length_quoted } else { raw::tree_length };
        answered(call(tape))
    }

    /// As [`to_text`](crate::to_text).
    pub fn to_text(self, layout: Layout, tape: &[u8]) -> Result<Vec<u8>, Refusal> {
        let mut out = vec![0; self.length(layout, tape)?];
        self.write(layout, tape, &mut out)?;
        Ok(out)
    }

    /// As [`to_tree_text`](crate::to_tree_text).
    pub fn to_tree_text(self, tape: &[u8]) -> Result<Vec<u8>, Refusal> {
        let mut out = vec![0; self.tree_length(tape)?];
        self.write_tree(tape, &mut out)?;
        Ok(out)
    }
}
