//! The calls about shapes, on both sides.

use crate::comparison::{Comparison, Lent};
use crate::expected::answers;
use crate::howhakiru;

/// How many there are: the verdicts, which come first, and four more.
pub const SHAPES: usize = howhakiru::VERDICTS.len() + 4;

/// Stores for a text that has no word: none, too short for any word, exact for the longest, and longer.
const STORES_WITHOUT_WORD: [usize; 4] = [0, 1, 11, 16];

const STORE_MOST: usize = 64;

impl Comparison {
    pub fn shape(&mut self, call: usize, lent: Lent) {
        match call.checked_sub(howhakiru::VERDICTS.len()) {
            None => self.verdict(call, lent),
            Some(0) => self.n_digits(lent),
            Some(1) => self.time(lent),
            Some(2) => self.unit(lent),
            _ => self.word(lent),
        }
    }

    /// The pointer for an empty store may be null.
    pub fn word_without_store(&mut self, lent: Lent) {
        // SAFETY: both lengths are 0, so nothing is read or written.
        let ours = unsafe { howhakiru::hwk_unit_word(std::ptr::null(), 0, std::ptr::null_mut(), 0) };
        self.settle(lent, format_args!("hwk_unit_word (null store)"), ours, answers::Word::default());
    }

    fn verdict(&mut self, call: usize, lent: Lent) {
        let (name, shape) = answers::SHAPES[call];
        // SAFETY: the text is lent for the call.
        let ours = unsafe { howhakiru::VERDICTS[call](lent.start, lent.text.len()) };
        self.settle(lent, format_args!("hwk_{name}"), ours, answers::verdict(lent.admitted, shape));
    }

    fn n_digits(&mut self, lent: Lent) {
        let len = lent.text.len();
        // If a count is cut to 32 bits, the last but one is the length again.
        for n in (0..=9).chain([len, len + 1, len + (1 << 32), usize::MAX]) {
            // SAFETY: the text is lent for the call.
            let ours = unsafe { howhakiru::hwk_is_n_digits(lent.start, len, n) };
            let rust = answers::is_n_digits(lent.admitted, n);
            self.settle(lent, format_args!("hwk_is_n_digits (n = {n})"), ours, rust);
        }
    }

    fn time(&mut self, lent: Lent) {
        // SAFETY: the text is lent for the call.
        let ours = unsafe { howhakiru::hwk_split_time_meridiem(lent.start, lent.text.len()) };
        let rust = answers::split_time_meridiem(lent.admitted);
        self.settle(lent, format_args!("hwk_split_time_meridiem"), ours, rust);
    }

    fn unit(&mut self, lent: Lent) {
        // SAFETY: the text is lent for the call.
        let ours = unsafe { howhakiru::hwk_split_unit(lent.start, lent.text.len()) };
        self.settle(lent, format_args!("hwk_split_unit"), ours, answers::split_unit(lent.admitted));
    }

    fn word(&mut self, lent: Lent) {
        let (whole, _) = answers::unit_word(lent.admitted, usize::MAX);
        if whole.yes == 0 {
            STORES_WITHOUT_WORD.iter().for_each(|&store_len| self.word_in(lent, store_len));
        } else {
            (0..=whole.len + 3).chain([STORE_MOST]).for_each(|store_len| self.word_in(lent, store_len));
        }
    }

    fn word_in(&mut self, lent: Lent, store_len: usize) {
        let store = self.store.lend(store_len, lent.gap);
        // SAFETY: the text and the store are lent for the call, and stand apart.
        let ours = unsafe { howhakiru::hwk_unit_word(lent.start, lent.text.len(), store, store_len) };
        let (rust, written) = answers::unit_word(lent.admitted, store_len);
        let name = format_args!("hwk_unit_word (store of {store_len})");
        self.settle(lent, name, ours, rust);
        if !self.store.holds_only(written) {
            let wanted = format!("{:?} at the store's front, all else as it was", written.escape_ascii().to_string());
            self.differ(lent, name, &self.store.display(), &wanted);
        }
    }
}
