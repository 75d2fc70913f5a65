//! Values by a fixed pseudo-random sequence (splitmix64), the same in every run.

use crate::tapes::*;

pub struct Random(pub u64);

impl Random {
    pub fn next(&mut self) -> u64 {
        self.0 = self.0.wrapping_add(0x9E37_79B9_7F4A_7C15);
        let z = (self.0 ^ (self.0 >> 30)).wrapping_mul(0xBF58_476D_1CE4_E5B9);
        let z = (z ^ (z >> 27)).wrapping_mul(0x94D0_49BB_1331_11EB);
        z ^ (z >> 31)
    }

    /// A number below `n`.
    pub fn below(&mut self, n: usize) -> usize {
        (self.next() % n as u64) as usize
    }

    pub fn pick<'a, T: ?Sized>(&mut self, from: &[&'a T]) -> &'a T {
        from[self.below(from.len())]
    }

    fn several<T>(&mut self, most: usize, mut make: impl FnMut(&mut Random) -> T) -> Vec<T> {
        (0..self.below(most + 1)).map(|_| make(self)).collect()
    }

    fn text(&mut self) -> String {
        let pieces = [
            "a", "norad", "$", "7", "_", " ", "true", "null", "$ion_1_0", "\t", "\n", "\r", "\0", "\u{7}", "'", "\"", "\\", "\u{1}", "\u{e}",
            "\u{1f}", "\u{7f}", "é", "日", "\u{10FFFF}",
        ];
        self.several(4, |r| r.pick(&pieces)).concat()
    }

    fn name(&mut self, ids: bool) -> Node {
        match self.below(4) {
            0 if ids => id(self.next() as u32),
            0 => id(0),
            _ => symbol(&self.text()),
        }
    }

    fn timestamp(&mut self) -> Node {
        let precision = self.below(5) as u8;
        let mut fields =
            [1 + self.below(9999), 1 + self.below(12), 1 + self.below(28), self.below(24), self.below(60), self.below(60)].map(|f| f as u16);
        // Hour and minute come together: what a precision leaves out starts at this field.
        fields[[1, 2, 3, 5, 6][precision as usize]..].fill(0);
        let offset = if precision < 3 || self.below(4) == 0 { UNKNOWN } else { self.below(2879) as i16 - 1439 };
        let digits = if precision < 4 { 0 } else { self.below(10) as u8 };
        let fraction = self.next() % 10u64.pow(digits.into());
        timestamp(precision, fields, offset, digits, fraction as u32)
    }

    /// A value with at most `depth` containers in each other; with `ids`, symbol identifiers, and with `notes`, annotations.
    pub fn value(&mut self, depth: usize, ids: bool, notes: bool) -> Node {
        if notes && self.below(5) == 0 {
            let first = self.name(ids);
            let more = self.several(2, |r| r.name(ids));
            let value = self.value(depth, ids, false);
            return annotated(&[vec![first], more].concat(), value);
        }
        match self.below(if depth > 0 { 14 } else { 11 }) {
            0 => null(self.below(13) as u8),
            1 => boolean(self.below(2) == 1),
            2 => int(self.next() as i64 >> self.below(64)),
            3 if self.below(2) == 0 => [nan(), float(f64::INFINITY), float(f64::NEG_INFINITY), float(0.0), float(-0.0)][self.below(5)].clone(),
            3 => float((self.next() as i64 >> (10 + self.below(50))) as f64),
            4 | 5 => decimal(self.below(2) == 1, self.next() >> self.below(64), self.below(40) as i32 - 25),
            6 => self.timestamp(),
            7 => self.name(ids),
            8 => string(&self.text()),
            9 => clob(&self.several(5, |r| r.next() as u8)),
            10 => blob(&self.several(20, |r| r.next() as u8)),
            11 => list(&self.several(4, |r| r.value(depth - 1, ids, notes))),
            12 => sexp(&self.several(4, |r| r.value(depth - 1, ids, notes))),
            _ => structure(&self.several(4, |r| (r.name(ids), r.value(depth - 1, ids, notes)))),
        }
    }

    /// Values at top level, markers among them.
    pub fn list_of_values(&mut self, most: usize) -> Vec<Node> {
        self.several(most, |r| if r.below(12) == 0 { marker() } else { r.value(4, true, false) })
    }
}
