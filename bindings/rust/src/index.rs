//! The fields of a struct, found by name.

use crate::{answered, raw, Refusal};
use std::iter::FusedIterator;

/// A field in an index that was made in lent entries: two offsets from the tape's start, as in the header's `ion_entry`.
#[derive(Clone, Copy, Debug, Default, PartialEq, Eq, Hash)]
#[repr(C)]
pub struct Entry {
    /// That of the name's kind byte.
    pub name: u64,
    /// That of the value's kind byte, of its 13 where the value is annotated.
    pub value: u64,
}

/// Makes the index of a struct in lent entries, an entry for each of its fields, sorted by name, and answers the number of fields. `at` is the offset
/// of the struct's kind byte, the 12, at whatever depth it stands; behind annotations too it is that of the 12.
///
/// Identifiers come first, by number; then texts by their bytes, a proper beginning first. An identifier equals no text. Equal names stand latest
/// first: of two fields with one name the one that stands later in the struct comes first.
///
/// On success the entries behind the index keep their values. Refusals, the first that holds: those of the tape, [`Misfit`](Refusal::Misfit) to
/// [`FiniteFloat`](Refusal::FiniteFloat), as by [`write()`](crate::write()); [`NoStruct`](Refusal::NoStruct);
/// [`TooManyFields`](Refusal::TooManyFields). All leave the entries untouched. Annotated values are not refused. A field takes 7 bytes of the tape or
/// more, so `tape.len() / 7` entries are always enough.
///
/// ```
/// use lechuqta::{find, index_into, to_tape, Entry, Refusal};
///
/// let tape = to_tape(b"{rise: 1, name: 2}")?;
/// let mut entries = [Entry::default(); 20];
/// let fields = index_into(&tape, 0, &mut entries)?;
/// let index = &entries[..fields];
/// assert_eq!(index, [Entry { name: 23, value: 32 }, Entry { name: 5, value: 14 }]);
/// assert_eq!(find(&tape, index, "rise"), Some(1));
/// assert_eq!(index_into(&tape, 0, &mut entries[..1]), Err(Refusal::TooManyFields));
/// assert_eq!(index_into(&tape, 1, &mut entries), Err(Refusal::NoStruct));
/// # Ok::<(), Refusal>(())
/// ```
pub fn index_into(tape: &[u8], at: usize, entries: &mut [Entry]) -> Result<usize, Refusal> {
    answered(raw::index(tape, at as u64, entries))
}

/// A place that a lookup answers; only the mark for none is below 0.
fn place(answer: i64) -> Option<usize> {
    usize::try_from(answer).ok()
}

/// The place in an index of the first entry whose name is this text, which is that of the latest field with it, or `None`, exactly if no field has
/// the name.
///
/// The entries are the index that [`index_into`] made of the same tape, as many as it answered. Over any other entries or tape the answer is `None` or
/// some place in the slice. A name that is not UTF-8 is no field's.
///
/// ```
/// # use lechuqta::{find, index_into, to_tape, Entry};
/// let tape = to_tape(b"{$7: 1, '$7': 2, rise: 3}")?;
/// let mut index = [Entry::default(); 3];
/// index_into(&tape, 0, &mut index)?;
/// assert_eq!(find(&tape, &index, "$7"), Some(1));
/// assert_eq!(find(&tape, &index, b"ris"), None);
/// # Ok::<(), lechuqta::Refusal>(())
/// ```
pub fn find(tape: &[u8], index: &[Entry], name: impl AsRef<[u8]>) -> Option<usize> {
    place(raw::find(tape, index, name.as_ref()))
}

/// The same for a name that is a symbol identifier.
///
/// ```
/// # use lechuqta::{find_id, index_into, to_tape, Entry};
/// let tape = to_tape(b"{'$7': 1, $7: 2}")?;
/// let mut index = [Entry::default(); 2];
/// index_into(&tape, 0, &mut index)?;
/// assert_eq!(find_id(&tape, &index, 7), Some(0));
/// assert_eq!(find_id(&tape, &index, 0), None);
/// # Ok::<(), lechuqta::Refusal>(())
/// ```
pub fn find_id(tape: &[u8], index: &[Entry], id: u32) -> Option<usize> {
    place(raw::find_id(tape, index, id))
}

/// A field that an [`Index`] gives: two offsets in the tape.
#[derive(Clone, Copy, Debug, PartialEq, Eq, Hash)]
pub struct Field {
    /// That of the name's kind byte. The name's node ends where the value's starts.
    pub name: usize,
    /// That of the value's kind byte, of its 13 where the value is annotated.
    pub value: usize,
}

impl From<Entry> for Field {
    fn from(entry: Entry) -> Field {
        Field { name: entry.name as usize, value: entry.value as usize }
    }
}

/// The index of a struct of a tape: its fields by name. The order, and what is refused, is that of [`index_into`], but never
/// [`TooManyFields`](Refusal::TooManyFields).
///
/// Making it validates the whole tape. Of a long list of records each is best indexed on a tape of its own, as [`lines`](crate::lines()) gives them.
///
/// ```
/// use lechuqta::{to_tape, Index, Refusal};
///
/// let tape = to_tape(b"{name: \"ISS\", site: {dome: 2}, $7: null}")?;
/// let pass = Index::new(&tape, 0)?;
/// assert_eq!(pass.len(), 3);
///
/// // A value by its field's name, here a string: its kind byte, u32 length, and its bytes.
/// let name = pass.get("name").expect("a pass has a name").value;
/// assert_eq!(tape[name..name + 8], *b"\x08\x03\0\0\0ISS");
/// assert_eq!(pass.get("rise"), None);
/// assert_eq!(pass.get_id(7).map(|field| tape[field.value]), Some(0));
///
/// // A struct in a field has an index too; a string has none.
/// let site = Index::new(&tape, pass.get("site").unwrap().value)?;
/// assert!(site.get("dome").is_some());
/// assert_eq!(Index::new(&tape, name).err(), Some(Refusal::NoStruct));
/// # Ok::<(), Refusal>(())
/// ```
///
/// A record is corrected by adding the field again at its end: of fields with one name [`get`](Index::get) and [`get_id`](Index::get_id) give the
/// latest. The tape and its texts keep them all.
///
/// ```
/// # use lechuqta::{to_tape, to_tree_text, Index};
/// let tape = to_tape(b"{norad: 25544, peak: 61.25, peak: 62.50}")?;
/// let pass = Index::new(&tape, 0)?;
/// let peak = pass.get("peak").expect("a pass has a peak").value;
///
/// // A decimal is its kind byte, its sign, u64 digits and its exponent: here 6250 and -2.
/// assert_eq!(tape[peak..peak + 14], *b"\x04\0\x6A\x18\0\0\0\0\0\0\xFE\xFF\xFF\xFF");
/// assert_eq!(to_tree_text(&tape)?, b"{norad: 25544, peak: 61.25, peak: 62.50}");
/// # Ok::<(), lechuqta::Refusal>(())
/// ```
#[derive(Clone, Debug, PartialEq, Eq, Hash)]
pub struct Index<'a> {
    tape: &'a [u8],
    entries: Vec<Entry>,
}

impl<'a> Index<'a> {
    /// The index of the struct whose kind byte stands at an offset of the tape.
    pub fn new(tape: &'a [u8], at: usize) -> Result<Index<'a>, Refusal> {
        // Enough for most records; else as many as the struct's length allows, at 7 bytes a field.
        let mut entries = vec![Entry::default(); 32];
        let mut count = index_into(tape, at, &mut entries);
        if count == Err(Refusal::TooManyFields) {
            let length = tape[at + 1..at + 5].iter().rev().fold(0, |sum, byte| sum << 8 | usize::from(*byte));
            entries.resize(length / 7, Entry::default());
            count = index_into(tape, at, &mut entries);
        }
        entries.truncate(count?);
        entries.shrink_to_fit();
        Ok(Index { tape, entries })
    }

    /// The latest field whose name is this text, or `None`, exactly if there is none.
    pub fn get(&self, name: impl AsRef<[u8]>) -> Option<Field> {
        find(self.tape, &self.entries, name).map(|place| self.entries[place].into())
    }

    /// The latest field whose name is this symbol identifier, or `None`, exactly if there is none.
    pub fn get_id(&self, id: u32) -> Option<Field> {
        find_id(self.tape, &self.entries, id).map(|place| self.entries[place].into())
    }

    /// The number of fields.
    pub fn len(&self) -> usize {
        self.entries.len()
    }

    /// Whether the struct has no field.
    pub fn is_empty(&self) -> bool {
        self.entries.is_empty()
    }

    /// The fields, sorted by name, of equal names the latest first.
    ///
    /// ```
    /// # use lechuqta::{to_tape, Index};
    /// let tape = to_tape(b"{rise: 1, name: 2, norad: 3}")?;
    /// // Behind the kind byte and the length of a name stands its text, up to the value.
    /// let names: Vec<_> = Index::new(&tape, 0)?.iter().map(|field| &tape[field.name + 5..field.value]).collect();
    /// assert_eq!(names, [b"name".as_slice(), b"norad", b"rise"]);
    /// # Ok::<(), lechuqta::Refusal>(())
    /// ```
    pub fn iter(&self) -> impl DoubleEndedIterator<Item = Field> + ExactSizeIterator + FusedIterator + '_ {
        self.entries.iter().map(|entry| Field::from(*entry))
    }

    /// The entries, for [`find`] and [`find_id`].
    pub fn entries(&self) -> &[Entry] {
        &self.entries
    }

    /// The tape.
    pub fn tape(&self) -> &'a [u8] {
        self.tape
    }
}
