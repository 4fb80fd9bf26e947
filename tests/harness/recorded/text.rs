//! A text as a recorded line holds it: a repeated byte, and what follows.

use std::collections::HashSet;

use crate::expected::answers;

#[derive(Clone, PartialEq, Eq, Hash)]
pub struct RecordedText {
    repeat: usize,
    byte: u8,
    tail: Vec<u8>,
}

impl RecordedText {
    pub fn plain(text: &[u8]) -> Self {
        RecordedText { repeat: 0, byte: 0, tail: text.to_vec() }
    }

    /// A byte repeated, and the tail, of `len` bytes together.
    pub fn of_length(&(byte, tail, len): &(u8, &[u8], usize)) -> Self {
        RecordedText { repeat: len - tail.len(), byte, tail: tail.to_vec() }
    }

    pub fn text(&self) -> Vec<u8> {
        let mut text = vec![self.byte; self.repeat];
        text.extend_from_slice(&self.tail);
        text
    }

    /// REPEAT BYTE TAIL REFUSAL
    pub fn head(&self) -> String {
        let refusal = answers::admit(&self.text()).err().unwrap_or(0);
        format!("{} {:02x} {} {refusal}", self.repeat, self.byte, hex(&self.tail))
    }
}

/// Each text once, in the order of their first places.
pub fn each_once(texts: Vec<RecordedText>) -> Vec<RecordedText> {
    let mut seen = HashSet::new();
    texts.into_iter().filter(|text| seen.insert(text.clone())).collect()
}

pub fn hex(bytes: &[u8]) -> String {
    if bytes.is_empty() {
        return "-".to_string();
    }
    bytes.iter().map(|byte| format!("{byte:02x}")).collect()
}
