//! The readings, on both sides: the answer, the words, their table, and what was not to be touched.

use std::ptr::null_mut;

use crate::calls::shapes::SHAPES;
use crate::comparison::{display, Comparison, Lent};
use crate::expected::readings::{self, Reading};
use crate::howhakiru;

/// How many there are: the readings with words, which come first, and roman_value.
pub const READING_CALLS: usize = howhakiru::READINGS.len() + 1;

/// Three of them, as `one_call` numbers the calls.
pub const REAL: usize = SHAPES + 4;
pub const LETTERS: usize = SHAPES + 5;
pub const ROMAN_VALUE: usize = SHAPES + 6;

const NONE: isize = isize::MIN;

/// How much longer store and table are than the words need. NONE: an empty buffer.
#[rustfmt::skip]
const ROOMS: &[(isize, isize)] = &[
    (-1, 0), (0, -1), (1, 0), (0, 1), (-2, 0), (0, -2), (2, 0), (0, 2), (-3, 0), (0, -3), (3, 0), (0, 3),
    (-1, -1), (1, 1), (-3, 3), (3, -3), (3, 3), (0, -8), (0, -4), (0, 8), (-1, -8), (5, -1), (-1, 8), (60, 90),
    (NONE, 0), (0, NONE), (NONE, NONE), (NONE, 9), (9, NONE),
];

impl Comparison {
    /// One call, in buffers of the exact size and in those whose turn it is.
    pub fn reading(&mut self, call: usize, lent: Lent) {
        if call == howhakiru::READINGS.len() {
            return self.roman_value(lent);
        }
        let reading = self.rust_reading(call, lent);
        self.reading_in(call, lent, &reading, (0, 0));
        self.rotation += 1;
        self.reading_in(call, lent, &reading, ROOMS[self.rotation % ROOMS.len()]);
    }

    /// Compares every reading in buffers of every size.
    pub fn every_room(&mut self, text: &[u8], gap: usize) {
        self.with(text, gap, |comparison, lent| {
            for call in 0..howhakiru::READINGS.len() {
                let reading = comparison.rust_reading(call, lent);
                comparison.reading_in(call, lent, &reading, (0, 0));
                ROOMS.iter().for_each(|&room| comparison.reading_in(call, lent, &reading, room));
            }
            comparison.roman_value(lent);
        });
    }

    /// The pointers for empty buffers may be null.
    pub fn readings_without_buffers(&mut self, lent: Lent) {
        for (call, read) in howhakiru::READINGS.iter().enumerate() {
            // SAFETY: all three lengths are 0, so nothing is read or written.
            let ours = unsafe { read(lent.start, 0, null_mut(), 0, null_mut(), 0) };
            let name = readings::READINGS[call].0;
            let rust = self.rust_reading(call, lent).answer(0, 0);
            self.settle(lent, format_args!("hwk_{name} (null buffers)"), ours, rust);
        }
    }

    fn rust_reading(&mut self, call: usize, lent: Lent) -> Reading {
        let reading = Reading::of(lent.admitted, call);
        if !reading.fits_most(lent.text.len()) {
            let name = readings::READINGS[call].0;
            let needed = (reading.store.len(), reading.table.len());
            self.differ(lent, format_args!("the room that suffices for hwk_{name}"), &"the header's", &needed);
        }
        reading
    }

    fn reading_in(&mut self, call: usize, lent: Lent, reading: &Reading, room: (isize, isize)) {
        let store_len = reading.store.len().saturating_add_signed(room.0);
        let table_len = reading.table.len().saturating_add_signed(room.1);
        let store = self.store.lend(store_len, lent.gap);
        let table = self.table.lend(table_len, lent.gap);
        let rust = reading.answer(store_len, table_len);
        // SAFETY: the text and both buffers are lent for the call, and stand apart.
        let ours = unsafe { howhakiru::READINGS[call](lent.start, lent.text.len(), store, store_len, table, table_len) };
        let name = readings::READINGS[call].0;
        let name = format_args!("hwk_{name} (store of {store_len}, table of {table_len})");
        self.settle(lent, name, ours, rust);
        let (words, pairs) =
            if rust.refusal == 0 { (&reading.store[..], &reading.table[..]) } else { (&b""[..], &b""[..]) };
        if !self.store.holds_only(words) {
            self.differ(lent, name, &self.store.display(), &format!("{} in the store, all else as it was", display(words)));
        }
        if !self.table.holds_only(pairs) {
            self.differ(lent, name, &self.table.display(), &format!("{} in the table, all else as it was", display(pairs)));
        }
    }

    fn roman_value(&mut self, lent: Lent) {
        // SAFETY: the text is lent for the call.
        let ours = unsafe { howhakiru::hwk_roman_value(lent.start, lent.text.len()) };
        self.settle(lent, format_args!("hwk_roman_value"), ours, readings::roman_value(lent.admitted));
    }
}
