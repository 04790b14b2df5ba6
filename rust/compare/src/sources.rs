//! Random sources of all sorts.

use crate::damage::{byte_soup, cut, damaged_bytes, damaged_tokens, faulty_late, token_soup};
use crate::grammar::text;
use crate::limits::at_a_limit;
use crate::random::Random;
use crate::rules::rules;

/// A source of any sort.
pub fn source(random: &mut Random) -> Vec<u8> {
    match random.below(100) {
        0..=42 => text(random),
        43..=44 => faulty_late(random),
        45..=48 => rules(random),
        49..=69 => damaged_tokens(random),
        70..=84 => damaged_bytes(random),
        85..=89 => cut(random),
        90..=93 => token_soup(random),
        94..=96 => byte_soup(random),
        _ => at_a_limit(random),
    }
}
