//! Pieces that texts are made of.

use crate::corners::control_bytes::CONTROL_BYTES;
use crate::random::Random;

/// Every piece that some function looks for, and neighbours of those.
#[rustfmt::skip]
pub const PIECES: &[&str] = &[
    "0", "1", "2", "3", "4", "5", "6", "7", "8", "9", "00", "12", "30", "555", "1234", "000",
    "+", "-", ".", ",", ":", "/", "%", "$", " ", "\t", "\n", "'", "@", "[", "`", "{", ";",
    "a", "p", "m", "e", "E", "A", "P", "M", "s", "S", "t", "T", "h", "H", "n", "N", "d", "D", "r", "R",
    "k", "K", "g", "G", "l", "L", "b", "B", "o", "z", "Z", "c", "f", "F", "I", "V", "X", "i", "x",
    "am", "PM", "th", "st", "nd", "rd", "dr", "illion", "kg", "mm", "KHz", "lbs", "e+", "E-",
    "~", "é", "µ", "\u{80}", "\u{7ff}", "€", "\u{800}", "\u{ffff}", "𐍈", "\u{10ffff}",
];

/// A control byte once in sixteen times, else nothing. They are no pieces, since then most texts of many pieces would be refused.
pub fn rare_control_byte(random: &mut Random) -> Option<String> {
    (random.below(16) == 0).then(|| char::from(*random.one_of(CONTROL_BYTES)).to_string())
}

/// Up to `most` pieces; half of the texts draw from four pieces only, so that runs and repetitions come up. A rare text has a
/// control byte.
pub fn some_pieces(random: &mut Random, pieces: &[&str], most: usize) -> String {
    let few: Vec<&str> = (0..4).map(|_| *random.one_of(pieces)).collect();
    let pieces = if random.below(2) == 0 { &few[..] } else { pieces };
    let mut chosen: Vec<&str> = (0..random.below(most + 1)).map(|_| *random.one_of(pieces)).collect();
    let byte = rare_control_byte(random);
    if let Some(byte) = &byte {
        chosen.insert(random.below(chosen.len() + 1), byte);
    }
    chosen.concat()
}

/// The text with one character replaced by a piece, left out, doubled, or with a piece put before it. A rare piece is a control
/// byte.
pub fn slip(random: &mut Random, pieces: &[&str], text: &str) -> String {
    let characters: Vec<char> = text.chars().collect();
    let place = random.below(characters.len() + 1);
    let front: String = characters[..place].iter().collect();
    let back: String = characters.iter().skip(place + 1).collect();
    let here: String = characters.get(place).iter().copied().collect();
    let piece = rare_control_byte(random).unwrap_or_else(|| random.one_of(pieces).to_string());
    match random.below(4) {
        0 => front + &piece + &back,
        1 => front + &back,
        2 => front + &here + &here + &back,
        _ => front + &piece + &here + &back,
    }
}
