//! The library and the reference take for reserved exactly the words of `crates/wordlist/src/list.rt`, each with the class of
//! its place there: the words, and what differs little from one of them, alone and among other bytes. What is wanted of a
//! token comes from the list alone.

use library::Token;
use reference::Lexer;
use std::collections::BTreeSet;
use std::fs;
use std::ops::Range;

const LIST: &str = concat!(env!("CARGO_MANIFEST_DIR"), "/../../crates/wordlist/src/list.rt");

/// `VFR_TOKEN_RESERVED`, `VFR_TOKEN_NAME`, `VFR_TOKEN_DECIMAL` and `VFR_TOKEN_BAD` of the header.
const RESERVED: u64 = 22;
const NAME: u64 = 79;
const DECIMAL: u64 = 81;
const BAD: u64 = 82;

/// To how many bytes the list fills a word up with blanks.
const FILLED: usize = 16;

const WORD_BYTES: &[u8; 63] = b"ABCDEFGHIJKLMNOPQRSTUVWXYZ_abcdefghijklmnopqrstuvwxyz0123456789";

/// What stands before a word on its line, and the place from which the token is looked for.
const BEFORE: [(&[u8], usize); 4] = [(b"", 0), (b"(", 1), (b" \t", 0), (b"x", 1)];

/// What stands after a word: nothing, or a byte that no word has, with more after it or not.
const AFTER: [&[u8]; 10] =
    [b"", b";", b")", b" ", b"\"", b"'", b"\x80", b"                AND", b"\0\0\0\0\0\0\0\0\0\0\0\0\0\0\0\0", b"//S"];

/// The words of the list, in its order.
fn listed() -> Vec<Vec<u8>> {
    let text = fs::read_to_string(LIST).expect("the list of reserved words can be read");
    let filled = text.lines().filter_map(|line| line.strip_prefix("    *b\"")?.strip_suffix("\","));
    let words: Vec<_> = filled
        .inspect(|word| assert_eq!(word.len(), FILLED, "{word:?}"))
        .map(|word| word.trim_end_matches(' ').as_bytes().to_vec())
        .collect();
    assert!(!words.is_empty(), "{LIST} has no words");
    words
}

/// The class that the list gives a run of word bytes. One of digits alone is a number; another that begins with a digit is
/// bad, as none here begins with `0x`.
fn class(words: &[Vec<u8>], run: &[u8]) -> u64 {
    if run[0].is_ascii_digit() {
        return if run.iter().all(u8::is_ascii_digit) { DECIMAL } else { BAD };
    }
    words.iter().position(|word| word == run).map_or(NAME, |place| RESERVED + place as u64)
}

/// Asks both for the token from the place `at` on, in a source of one line. It is to have this class and range; a bad one
/// has an empty range, at its start.
fn check(source: &[u8], at: usize, class: u64, start: usize, end: usize) {
    let is_bad = class == BAD;
    let end = if is_bad { start } else { end };
    let wanted = Token {
        class,
        start: start as u64,
        end: end as u64,
        line: 1,
        column: start as u64 + 1,
        next: if is_bad { at } else { end } as u64,
        last: is_bad.into(),
    };
    assert_eq!(library::token(source, at, 1, at + 1), wanted, "library, \"{}\" from {at} on", source.escape_ascii());
    let token = Lexer::at(source, at).next_token();
    let given = (token.kind.class(), token.start, token.end);
    assert_eq!(given, (class, start, end), "reference, \"{}\" from {at} on", source.escape_ascii());
}

/// A run of word bytes of this class, behind and before all that may stand there.
fn check_among(run: &[u8], class: u64) {
    for (before, at) in BEFORE {
        for after in AFTER {
            let source = [before, run, after].concat();
            check(&source, at, class, before.len(), before.len() + run.len());
        }
    }
}

/// A word with its bytes in a range replaced.
fn with(word: &[u8], range: Range<usize>, bytes: &[u8]) -> Vec<u8> {
    let mut changed = word.to_vec();
    changed.splice(range, bytes.iter().copied());
    changed
}

/// What differs little from a word: its beginnings and ends, a byte taken out, put in or replaced, a letter's case changed.
fn near(word: &[u8]) -> Vec<Vec<u8>> {
    let mut all = Vec::new();
    for place in 0..word.len() {
        all.push(word[..place].to_vec());
        all.push(word[place..].to_vec());
        all.push(with(word, place..place + 1, &[]));
        all.push(with(word, place..place + 1, &[word[place] ^ 0x20]));
        all.extend(WORD_BYTES.iter().map(|&byte| with(word, place..place + 1, &[byte])));
        all.extend(WORD_BYTES.iter().map(|&byte| with(word, place..place, &[byte])));
    }
    all.extend(WORD_BYTES.iter().map(|&byte| with(word, word.len()..word.len(), &[byte])));
    all.retain(|run| !run.is_empty() && run.iter().all(|byte| WORD_BYTES.contains(byte)));
    all
}

#[test]
fn the_list_rises() {
    let words = listed();
    assert_eq!(words.len() as u64, NAME - RESERVED);
    for pair in words.windows(2) {
        assert!(pair[0] < pair[1], "{} before {}", pair[0].escape_ascii(), pair[1].escape_ascii());
    }
}

#[test]
fn listed_words_have_their_classes() {
    for (place, word) in listed().iter().enumerate() {
        check_among(word, RESERVED + place as u64);
    }
}

#[test]
fn near_words_are_reserved_where_listed() {
    let words = listed();
    let mut runs: BTreeSet<_> = words.iter().flat_map(|word| near(word)).collect();
    runs.extend(words.iter().flat_map(|first| words.iter().map(|second| [&first[..], second].concat())));
    let mut names = 0;
    for run in &runs {
        let class = class(&words, run);
        check_among(run, class);
        names += u64::from(class == NAME);
    }
    assert!(names > 40_000, "only {names} of {} are names", runs.len());
}

/// The rest of the word stands in memory past the source's end.
#[test]
fn a_source_may_end_within_a_word() {
    let words = listed();
    for word in &words {
        for end in 1..=word.len() {
            check(&word[..end], 0, class(&words, &word[..end]), 0, end);
        }
    }
}
