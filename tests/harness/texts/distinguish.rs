//! Call sheets distinguish their sheets, on pairs: two sheets of clear entries have the same call sheet exactly if they have the
//! same names and sentences that start at the same entries. Both call sheets are the library's.

use std::collections::HashMap;

use crate::comparison::{Comparison, Lent};
use crate::expected::clear::{self, UNITS};
use crate::expected::rows::{call_most, Called};
use crate::expected::tokens::Tokenized;
use crate::howhakiru;
use crate::random::Random;
use crate::texts::exhaustive::each_text;

#[rustfmt::skip]
const ALPHABETS: &[(usize, &[&str])] = &[
    (5, &["0", "1", "2", "10", "12", ".", "-", "+", "e", "%"]),
    (5, &["0", "1", "2", "5", "9", ":", "am", "pm", "%", "10", "20", "00"]),
    (6, &["0", "1", "2", "12", "00", "-", "."]),
    (5, &["0", "2", "20", "1000000000000", "-", "%", "to", "e"]),
    (4, &["0", "1", "2", "3", "11", "100", "000", "st", "nd", "rd", "th", "mm", "kg", "LB"]),
    (5, &["A", "B", "Z", ".", "a", "zz", "oh", "one", "cent", "per", "hundred", "point", "e", "m", "p"]),
];

#[rustfmt::skip]
const WORDS: &[&str] = &[
    "aa", "zz", "bar", "rack", "to", "oh", "per", "cent", "point", "minus", "plus", "am", "pm", "mm", "pounds", "feet", "hertz", "hundred",
    "hundredth", "thousandth", "millionth", "eth", "teen", "oneone", "clock", "oclock", "half", "slash", "toto",
];

/// Every clear name of a few pieces: no two have the same line.
pub fn names(comparison: &mut Comparison) {
    comparison.begin("clear names, no two called alike");
    let mut names_by_line: HashMap<Vec<u8>, Vec<u8>> = HashMap::new();
    let mut visit = |text: &[u8]| {
        if std::str::from_utf8(text).is_ok_and(clear::is_clear) {
            comparison.with(text, 0, |comparison, lent| {
                let line = comparison.sheet_of(lent);
                let first = names_by_line.entry(line).or_insert_with(|| text.to_vec());
                comparison.settle(lent, format_args!("the name of this line"), text, &first[..]);
            });
        }
    };
    for &(most, pieces) in ALPHABETS {
        each_text(&mut Vec::new(), most, pieces, &mut visit);
    }
    for hour in 0..100 {
        for minute in 0..60 {
            ["", "am", "pm", "%"].iter().for_each(|end| visit(format!("{hour}:{minute:02}{end}").as_bytes()));
        }
    }
    for number in 0..20_000_u64 {
        visit(number.to_string().as_bytes());
        ["st", "nd", "rd", "th"].iter().for_each(|suffix| visit(format!("{number}{suffix}").as_bytes()));
    }
    for left in 0..130 {
        (0..130).for_each(|right| visit(format!("{left}-{right}").as_bytes()));
        (0..1_300).step_by(7).for_each(|right| visit(format!("0{right}-{left}").as_bytes()));
    }
    for unit in UNITS {
        (0..1_200).for_each(|number| visit(format!("{number}{unit}").as_bytes()));
    }
}

/// Fractions that are called alike, two by two. So no fraction is a clear name: of two runs of digits beside each other nobody hears
/// where the first one ends.
pub fn fractions(comparison: &mut Comparison) {
    comparison.begin("fractions that are called alike");
    let ones = |count: usize| "1".repeat(count);
    let long = [13, 14].map(|count| format!("{}/{}", ones(count), ones(29 - count)));
    for (names, words) in [
        (["100/21000", "120/1000"].map(str::to_string), "one hundred twenty one thousandth 's".to_string()),
        (long, format!("{}first 's", "one ".repeat(28))),
    ] {
        let line = format!("+ {words}\n").into_bytes();
        for name in names {
            assert_eq!((clear::is_clear(&name), Called::of(Ok(&name)).sheet()), (false, line.clone()), "{name}");
            comparison.with(name.as_bytes(), 0, |comparison, lent| {
                let called = comparison.sheet_of(lent);
                comparison.settle(lent, format_args!("the line of this name"), &called, &line);
                comparison.clear(lent);
            });
        }
    }
}

/// Pairs of random sheets: with the same names or all but one, and each with whitespace and marks of its own.
pub fn sheets(comparison: &mut Comparison, random: &mut Random, pairs: usize) {
    comparison.begin("pairs of sheets of clear entries");
    for _ in 0..pairs {
        let names: Vec<String> = (0..random.below(6)).map(|_| some_name(random)).collect();
        let mut others = names.clone();
        if random.below(2) == 0 && !others.is_empty() {
            let place = random.below(others.len());
            match random.below(5) {
                0 => others[place] = some_name(random),
                1 => others[place] = neighbour(random, &others[place]),
                2 => drop(others.remove(place)),
                3 => others.insert(place, some_name(random)),
                _ => taken_apart(&mut others, place),
            }
        }
        let (first, second) = (sheet_of(random, &names), sheet_of(random, &others));
        comparison.distinguished(first.as_bytes(), second.as_bytes());
    }
}

/// In place of a range its numbers and the word between them, which are clear names too.
fn taken_apart(names: &mut Vec<String>, place: usize) {
    if let Some((left, right)) = names[place].split_once('-').filter(|(left, _)| !left.is_empty() && !left.ends_with('e')) {
        let parts = [left, "to", right].map(str::to_string);
        names.splice(place..=place, parts);
    }
}

/// A clear name near this one, or itself.
fn neighbour(random: &mut Random, name: &str) -> String {
    let changes = [
        format!("{name}%"), format!("{name}0"), format!("0{name}"), format!("-{name}"), format!("{name}.0"), format!("{name}e0"),
        format!("{name}th"), format!("{name}:00"), format!("{name}:01"), format!("{name}:00am"), format!("{name}am"), format!("{name}mm"),
        name.replace('1', "2"), name.replace('0', ""), name.replace('%', ""), name.replace("am", "pm"), name.replace(":00", ""),
        name.replace(":00am", ":00"), format!("{name}-0"), format!("0-{name}"), format!("{name}-{name}"), name.replace('-', ""),
        name.replace('-', "0-"), name.replace('-', "-0"), name.replace("0-", "-0"), name.replace("-0", "0-"),
    ];
    let changed = random.one_of(&changes);
    if clear::is_clear(changed) { changed.clone() } else { name.to_string() }
}

fn some_name(random: &mut Random) -> String {
    loop {
        let digits = |random: &mut Random| -> String {
            let len = [1, 1, 2, 3, 4, 7, 12, 13][random.below(8)];
            (0..len).map(|_| char::from(*random.one_of(b"0001257"))).collect()
        };
        let (a, b) = (digits(random), digits(random));
        let name = match random.below(13) {
            0 => a,
            1 => format!("{a}%"),
            2 => format!("-{a}"),
            3 => format!("{a}.{b}"),
            4 => format!("{a}e{}{b}", random.one_of(&["", "+", "-"])),
            5 => format!("{}:{:02}{}", random.below(100), random.below(60), random.one_of(&["", "am", "pm"])),
            6 => format!("{}:00{}", random.below(100), random.one_of(&["", "", "am", "pm"])),
            7 => format!("{a}{}", random.one_of(&["st", "nd", "rd", "th"])),
            8 => format!("{a}{}", random.one_of(UNITS)),
            9 => (0..2 + random.below(3)).map(|_| random.one_of(&["A", "B", "E", "M", "P", "Z"]).to_string()).collect::<Vec<_>>().join("."),
            10 | 11 => format!("{a}-{b}"),
            _ => random.one_of(WORDS).to_string(),
        };
        if clear::is_clear(&name) {
            return name;
        }
    }
}

fn sheet_of(random: &mut Random, names: &[String]) -> String {
    let mut sheet = random.one_of(&["", "", " ", "\n\n"]).to_string();
    for name in names {
        sheet += *random.one_of(&["", "", "", "("]);
        sheet += name;
        sheet += *random.one_of(&["", "", "", ".", "!", ","]);
        sheet += *random.one_of(&[" ", " ", "\n", "\n\n", "  "]);
    }
    sheet
}

impl Comparison {
    /// The call sheet, with room for it.
    fn sheet_of(&mut self, lent: Lent) -> Vec<u8> {
        let mut out = vec![0; call_most(lent.text.len())];
        // SAFETY: the text and the buffer live through the call, and stand apart.
        let called = unsafe { howhakiru::hwk_call_sheet(lent.start, lent.text.len(), out.as_mut_ptr(), out.len()) };
        assert_eq!(called.refusal, 0, "a sheet of clear entries with room");
        out.truncate(called.bytes);
        out
    }

    fn distinguished(&mut self, first: &[u8], second: &[u8]) {
        let mut sheet = Vec::new();
        self.with(first, 0, |comparison, lent| sheet = comparison.sheet_of(lent));
        self.with(second, 0, |comparison, lent| {
            let alike = sheet == comparison.sheet_of(lent);
            let same = entries(first) == entries(second);
            let name = format_args!("same call sheet as {:?}, and same entries", String::from_utf8_lossy(first));
            comparison.settle(lent, name, alike, same);
        });
    }
}

/// The names by the Rust's tokens, each with 1 if it starts a sentence, else 0.
fn entries(sheet: &[u8]) -> Vec<(u8, &[u8])> {
    let tokenized = Tokenized::of(crate::expected::answers::admit(sheet));
    let entries: Vec<(u8, &[u8])> =
        tokenized.places().zip(&tokenized.starts).map(|([_, _, (at, len), _], &starts)| (starts, &sheet[at..at + len])).collect();
    assert!(entries.iter().all(|(_, name)| std::str::from_utf8(name).is_ok_and(clear::is_clear)), "clear entries");
    entries
}
