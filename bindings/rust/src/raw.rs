//! The functions of `libion_c.a` over slices: the one place with unsafe code.
//!
//! What the library asks of a caller (`bindings/c/ion.h`) is what slices have. A slice's bytes are there during the call, and its length is
//! true. `out`, `at` and the entries of an index are `&mut`, so they share no byte with anything, and nobody else writes the rest meanwhile. The
//! library keeps no pointer and has no state, so any thread may call. The pointer of an empty slice dangles, and that is fine: each function is
//! proved to follow a pointer only within its length, so this one is never followed. [`Entry`] is laid out as the header's `ion_entry`, and any
//! bits are one.

use crate::Entry;

extern "C" {
    fn ion_write(layout: u32, tape: *const u8, tape_length: usize, out: *mut u8, out_length: usize) -> i64;
    fn ion_length(layout: u32, tape: *const u8, tape_length: usize) -> i64;
    fn ion_write_tree(tape: *const u8, tape_length: usize, out: *mut u8, out_length: usize) -> i64;
    fn ion_tree_length(tape: *const u8, tape_length: usize) -> i64;
    fn ion_write_quoted(layout: u32, tape: *const u8, tape_length: usize, out: *mut u8, out_length: usize) -> i64;
    fn ion_length_quoted(layout: u32, tape: *const u8, tape_length: usize) -> i64;
    fn ion_write_tree_quoted(tape: *const u8, tape_length: usize, out: *mut u8, out_length: usize) -> i64;
    fn ion_tree_length_quoted(tape: *const u8, tape_length: usize) -> i64;
    fn ion_read(text: *const u8, text_length: usize, out: *mut u8, out_length: usize) -> i64;
    fn ion_read_line(text: *const u8, text_length: usize, at: *mut u64, out: *mut u8, out_length: usize) -> i64;
    fn ion_convert(text: *const u8, text_length: usize, out: *mut u8, out_length: usize) -> i64;
    fn ion_index(tape: *const u8, tape_length: usize, at: u64, entries: *mut Entry, entries_length: usize) -> i64;
    fn ion_find(tape: *const u8, tape_length: usize, entries: *const Entry, entries_length: usize, name: *const u8, name_length: usize) -> i64;
    fn ion_find_id(tape: *const u8, tape_length: usize, entries: *const Entry, entries_length: usize, id: u32) -> i64;
}

pub fn write(layout: u32, tape: &[u8], out: &mut [u8]) -> i64 {
    // SAFETY: both slices are whole and apart, as said above; any layout may be asked for.
    unsafe { ion_write(layout, tape.as_ptr(), tape.len(), out.as_mut_ptr(), out.len()) }
}

pub fn length(layout: u32, tape: &[u8]) -> i64 {
    // SAFETY: the slice is whole, as said above; any layout may be asked for.
    unsafe { ion_length(layout, tape.as_ptr(), tape.len()) }
}

pub fn write_tree(tape: &[u8], out: &mut [u8]) -> i64 {
    // SAFETY: both slices are whole and apart, as said above.
    unsafe { ion_write_tree(tape.as_ptr(), tape.len(), out.as_mut_ptr(), out.len()) }
}

pub fn tree_length(tape: &[u8]) -> i64 {
    // SAFETY: the slice is whole, as said above.
    unsafe { ion_tree_length(tape.as_ptr(), tape.len()) }
}

pub fn write_quoted(layout: u32, tape: &[u8], out: &mut [u8]) -> i64 {
    // SAFETY: as `write`.
    unsafe { ion_write_quoted(layout, tape.as_ptr(), tape.len(), out.as_mut_ptr(), out.len()) }
}

pub fn length_quoted(layout: u32, tape: &[u8]) -> i64 {
    // SAFETY: as `length`.
    unsafe { ion_length_quoted(layout, tape.as_ptr(), tape.len()) }
}

pub fn write_tree_quoted(tape: &[u8], out: &mut [u8]) -> i64 {
    // SAFETY: as `write_tree`.
    unsafe { ion_write_tree_quoted(tape.as_ptr(), tape.len(), out.as_mut_ptr(), out.len()) }
}

pub fn tree_length_quoted(tape: &[u8]) -> i64 {
    // SAFETY: as `tree_length`.
    unsafe { ion_tree_length_quoted(tape.as_ptr(), tape.len()) }
}

pub fn read(text: &[u8], out: &mut [u8]) -> i64 {
    // SAFETY: both slices are whole and apart, as said above.
    unsafe { ion_read(text.as_ptr(), text.len(), out.as_mut_ptr(), out.len()) }
}

pub fn read_line(text: &[u8], at: &mut u64, out: &mut [u8]) -> i64 {
    // SAFETY: both slices and the offset are whole and apart, as said above; the offset may be any number.
    unsafe { ion_read_line(text.as_ptr(), text.len(), at, out.as_mut_ptr(), out.len()) }
}

pub fn convert(text: &[u8], out: &mut [u8]) -> i64 {
    // SAFETY: both slices are whole and apart, as said above.
    unsafe { ion_convert(text.as_ptr(), text.len(), out.as_mut_ptr(), out.len()) }
}

pub fn index(tape: &[u8], at: u64, entries: &mut [Entry]) -> i64 {
    // SAFETY: both slices are whole and apart, as said above; the offset may be any number.
    unsafe { ion_index(tape.as_ptr(), tape.len(), at, entries.as_mut_ptr(), entries.len()) }
}

pub fn find(tape: &[u8], entries: &[Entry], name: &[u8]) -> i64 {
    // SAFETY: the three slices are whole, as said above, and only read; they may hold anything.
    unsafe { ion_find(tape.as_ptr(), tape.len(), entries.as_ptr(), entries.len(), name.as_ptr(), name.len()) }
}

pub fn find_id(tape: &[u8], entries: &[Entry], id: u32) -> i64 {
    // SAFETY: both slices are whole, as said above, and only read; they may hold anything, and the identifier may be any number.
    unsafe { ion_find_id(tape.as_ptr(), tape.len(), entries.as_ptr(), entries.len(), id) }
}
