//! Every text of a few pieces: over one alphabet of every piece, and over one for each family of shapes.

use crate::comparison::Comparison;

/// An alphabet, and how many of its pieces a text has at most.
struct Theme {
    name: &'static str,
    most: usize,
    pieces: &'static [&'static str],
}

// "é" has two bytes and "𐍈" four. Signs that stand next to the digits and letters in ASCII catch a bound that is off by one.
const THEMES: &[Theme] = &[
    Theme {
        name: "numbers", most: 5, pieces: &["0", "1", "9", "-", "+", ".", "e", "E", ",", "/", ":", " ", "é", "𐍈"]
    },
    Theme { name: "comma groups", most: 5, pieces: &["0", "12", "345", "6789", ",", ",000", ".", "-", "a", "é", " "] },
    Theme {
        name: "times",
        most: 5,
        pieces: &["0", "5", "6", "12", ":", ".", "am", "PM", "a", "p", "m", "-", " ", "é", "𐍈"],
    },
    Theme {
        name: "money", most: 5, pieces: &["$", "0", "5", "9", ",", ".", "-", "+", "%", "e", "/", " ", "é", "𐍈"]
    },
    Theme {
        name: "roman numerals",
        most: 5,
        pieces: &["I", "V", "X", "L", "C", "i", "v", "x", "W", "Y", "5", ".", " ", "é", "𐍈"],
    },
    Theme {
        name: "units by letter",
        most: 4,
        pieces: &[
            "0", "7", ",", "L", "B", "S", "l", "b", "s", "f", "t", "F", "T", "k", "g", "m", "c", "o", "z", "h", "H",
            "Z", "K", "M", "G", "é",
        ],
    },
    Theme {
        name: "units after numbers",
        most: 4,
        pieces: &[
            "0", "9", ",", "-", "LB", "LBS", "lb", "lbs", "ft", "FT", "kg", "km", "cm", "mm", "ml", "oz", "hz", "Hz",
            "HZ", "KHz", "MHz", "GHz", "KB", "GB", "MB", "TB", "é", "𐍈",
        ],
    },
    Theme {
        name: "ordinals and suffixes",
        most: 5,
        pieces: &["0", "1", ",", "t", "h", "s", "n", "d", "r", "T", "H", "S", "D", "é", "𐍈"],
    },
    Theme {
        name: "millions",
        most: 5,
        pieces: &["illion", "illio", "ill", "ion", "i", "l", "o", "n", "m", "s", "I", "5", ".", "é"],
    },
    Theme {
        name: "dotted", most: 5, pieces: &["A", "z", "U", ".", "1", ",", "-", "@", "[", "`", "{", " ", "é", "𐍈"]
    },
    Theme {
        name: "slashes, dashes and phones",
        most: 5,
        pieces: &["0", "55", "123", "1234", "-", "/", ".", ":", ",", "+", "s", " ", "é", "𐍈"],
    },
];

// Everything that some shape looks for, in one alphabet.
const EVERY_PIECE: &[&str] = &[
    "0", "1", "5", "9", "+", "-", ".", ",", ":", "/", "%", "$", "a", "p", "m", "A", "M", "e", "E", "s", "t", "h", "n",
    "d", "r", "k", "g", "l", "b", "I", "V", "X", " ", "é", "𐍈",
];

/// `most` bounds the texts over the one alphabet of every piece.
pub fn run(comparison: &mut Comparison, most: usize) {
    comparison.begin("every piece");
    each_text(&mut Vec::new(), most, EVERY_PIECE, &mut |text| comparison.every_shape(text, 0));
    for theme in THEMES {
        comparison.begin(theme.name);
        each_text(&mut Vec::new(), theme.most, theme.pieces, &mut |text| comparison.every_shape(text, 0));
    }
    comparison.begin("all ASCII up to 3 bytes");
    let ascii: Vec<String> = (0..128_u8).map(|byte| char::from(byte).to_string()).collect();
    let ascii: Vec<&str> = ascii.iter().map(String::as_str).collect();
    each_text(&mut Vec::new(), 3, &ascii, &mut |text| comparison.every_shape(text, 0));
}

/// Visits `text` followed by every choice of up to `most` pieces.
pub fn each_text(text: &mut Vec<u8>, most: usize, pieces: &[&str], visit: &mut impl FnMut(&[u8])) {
    visit(text);
    if most == 0 {
        return;
    }
    for piece in pieces {
        let len = text.len();
        text.extend_from_slice(piece.as_bytes());
        each_text(text, most - 1, pieces, visit);
        text.truncate(len);
    }
}
