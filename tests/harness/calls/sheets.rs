//! The calls of one entry and of a whole sheet, and the verdict on clear names, on both sides.

use std::ptr::null_mut;

use crate::comparison::{display, Comparison, Lent};
use crate::expected::rows::{call_most, Called};
use crate::expected::{answers, clear};
use crate::howhakiru;

/// How many there are: the whole sheet, one entry, the verdict.
pub const CALL_CALLS: usize = 3;

/// How much longer the buffer is than the whole result.
const NEAR: [isize; 17] = [-1, 1, -2, 2, -3, 3, -4, 4, -5, 5, -8, 8, -16, 16, -33, 64, 1_000];

/// If a sheet has more entries, some of them are called each time.
const ENTRIES_MOST: usize = 40;

impl Comparison {
    /// One of the three calls. This is for texts that are too many for every call.
    pub fn call_call(&mut self, call: usize, lent: Lent) {
        match call {
            0 => {
                let called = Called::of(lent.admitted);
                self.whole_in_rotation(lent, &called);
            }
            1 => {
                let called = Called::of(lent.admitted);
                self.entries(lent, &called);
            }
            _ => self.clear(lent),
        }
    }

    /// The whole sheet, its entries one by one, and the verdict on the text as a name.
    pub fn every_call_of_sheet(&mut self, text: &[u8], gap: usize) {
        self.with(text, gap, |comparison, lent| {
            let called = Called::of(lent.admitted);
            comparison.whole_in_rotation(lent, &called);
            comparison.entries(lent, &called);
            comparison.clear(lent);
        });
    }

    /// The same, in buffers of every size.
    pub fn every_call_room(&mut self, text: &[u8], gap: usize) {
        self.with(text, gap, |comparison, lent| {
            let called = Called::of(lent.admitted);
            let sheet = called.sheet();
            let short = sheet.len().saturating_sub(40);
            for len in [0, 1, 2].into_iter().chain(short..=sheet.len() + 3).chain([sheet.len() + 1_000]) {
                comparison.whole(lent, &called, &sheet, len);
            }
            for (number, line) in called.lines.iter().enumerate().take(ENTRIES_MOST) {
                (0..=line.bytes.len() + 3).for_each(|len| comparison.entry(lent, &called, number, len));
            }
            comparison.entries(lent, &called);
            comparison.whole_null(lent, &called, &sheet);
        });
    }

    /// The pointers for an empty buffer may be null.
    pub fn calls_without_buffers(&mut self, lent: Lent) {
        let called = Called::of(lent.admitted);
        self.whole_null(lent, &called, &called.sheet());
        // SAFETY: the text is lent for the call, and the buffer has no bytes.
        let ours = unsafe { howhakiru::hwk_call_entry(lent.start, lent.text.len(), 0, null_mut(), 0) };
        self.settle(lent, format_args!("hwk_call_entry (null buffer)"), ours, called.entry(0, 0).0);
    }

    /// The exact buffer, and the one whose turn it is.
    fn whole_in_rotation(&mut self, lent: Lent, called: &Called) {
        let sheet = called.sheet();
        if sheet.len() > call_most(lent.text.len()) {
            self.differ(lent, format_args!("the room that suffices for hwk_call_sheet"), &"the header's", &sheet.len());
        }
        self.whole(lent, called, &sheet, sheet.len());
        self.rotation += 1;
        let other = sheet.len().saturating_add_signed(NEAR[self.rotation % NEAR.len()]);
        self.whole(lent, called, &sheet, other);
    }

    fn whole(&mut self, lent: Lent, called: &Called, sheet: &[u8], len: usize) {
        let buffer = self.store.lend(len, lent.gap);
        // SAFETY: the text and the buffer are lent for the call, and stand apart.
        let ours = unsafe { howhakiru::hwk_call_sheet(lent.start, lent.text.len(), buffer, len) };
        let rust = called.whole(sheet.len(), len);
        let name = format_args!("hwk_call_sheet (buffer of {len})");
        self.settle(lent, name, ours, rust);
        self.holds(lent, name, if rust.refusal == 0 { sheet } else { b"" });
    }

    fn whole_null(&mut self, lent: Lent, called: &Called, sheet: &[u8]) {
        // SAFETY: the text is lent for the call, and the buffer has no bytes.
        let ours = unsafe { howhakiru::hwk_call_sheet(lent.start, lent.text.len(), null_mut(), 0) };
        self.settle(lent, format_args!("hwk_call_sheet (null buffer)"), ours, called.whole(sheet.len(), 0));
    }

    /// Entries one by one: all of a short sheet, of a longer one those whose turn it is. Then numbers that no entry has.
    fn entries(&mut self, lent: Lent, called: &Called) {
        let count = called.lines.len();
        let step = count.div_ceil(ENTRIES_MOST).max(1);
        let first = self.rotation % step;
        for number in (first..count).step_by(step).chain(count.checked_sub(1)) {
            self.entry_in_rotation(lent, called, number);
        }
        for number in [count, count + 1, count + (1 << 32), usize::MAX] {
            self.entry(lent, called, number, 64);
        }
        self.entry(lent, called, count, 0);
    }

    fn entry_in_rotation(&mut self, lent: Lent, called: &Called, number: usize) {
        let exact = called.lines[number].bytes.len();
        self.entry(lent, called, number, exact);
        self.rotation += 1;
        self.entry(lent, called, number, exact.saturating_add_signed(NEAR[self.rotation % NEAR.len()]));
    }

    fn entry(&mut self, lent: Lent, called: &Called, number: usize, len: usize) {
        let buffer = self.store.lend(len, lent.gap);
        // SAFETY: the text and the buffer are lent for the call, and stand apart.
        let ours = unsafe { howhakiru::hwk_call_entry(lent.start, lent.text.len(), number, buffer, len) };
        let (rust, line) = called.entry(number, len);
        let name = format_args!("hwk_call_entry (entry {number}, buffer of {len})");
        self.settle(lent, name, ours, rust);
        self.holds(lent, name, line);
    }

    fn holds(&mut self, lent: Lent, name: std::fmt::Arguments, result: &[u8]) {
        if !self.store.holds_only(result) {
            self.differ(lent, name, &self.store.display(), &format!("{}, all else as it was", display(result)));
        }
    }

    /// The verdict on a name, against the list of documents 01 and 02.
    pub fn clear(&mut self, lent: Lent) {
        // SAFETY: the text is lent for the call.
        let ours = unsafe { howhakiru::hwk_is_clear(lent.start, lent.text.len()) };
        self.settle(lent, format_args!("hwk_is_clear"), ours, answers::verdict(lent.admitted, clear::is_clear));
    }

    pub fn clear_name(&mut self, text: &[u8], gap: usize) {
        self.with(text, gap, |comparison, lent| comparison.clear(lent));
    }
}
