//! Random short texts, and slips of the pen in texts that have a shape.

use crate::comparison::Comparison;
use crate::corners::pieces::{slip, some_pieces, PIECES};
use crate::corners::shapes::{DAMAGED, LISTS};
use crate::random::Random;

const MOST_PIECES: usize = 40;

/// The corners that the recorder writes down.
pub fn named(comparison: &mut Comparison) {
    comparison.begin("named corners");
    corners().for_each(|text| comparison.every_call(text, 0));
}

/// Each corner with each of its bytes replaced by every byte, left out, and with every byte put before it.
pub fn one_byte_changed(comparison: &mut Comparison) {
    comparison.begin("named corners, one byte changed");
    for corner in corners() {
        for place in 0..=corner.len() {
            let (front, back) = corner.split_at(place);
            let after = back.get(1..).unwrap_or(b"");
            comparison.every_shape(&[front, after].concat(), 0);
            for byte in 0..=255 {
                comparison.every_shape(&[front, &[byte], after].concat(), 0);
                comparison.every_shape(&[front, &[byte], back].concat(), 0);
            }
        }
    }
}

pub fn random(comparison: &mut Comparison, random: &mut Random, texts: usize) {
    comparison.begin("random short texts");
    for _ in 0..texts {
        let text = some_pieces(random, PIECES, MOST_PIECES);
        comparison.every_shape(text.as_bytes(), random.below(64));
    }
}

pub fn slips(comparison: &mut Comparison, random: &mut Random, texts: usize) {
    comparison.begin("shapes with up to three slips");
    let examples: Vec<&str> = LISTS.iter().flat_map(|list| list.iter().copied()).collect();
    for _ in 0..texts {
        let mut text = random.one_of(&examples).to_string();
        for _ in 0..random.below(4) {
            text = slip(random, PIECES, &text);
        }
        comparison.every_shape(text.as_bytes(), random.below(64));
    }
}

fn corners() -> impl Iterator<Item = &'static [u8]> {
    let named = LISTS.iter().flat_map(|list| list.iter().map(|text| text.as_bytes()));
    named.chain(DAMAGED.iter().copied())
}
