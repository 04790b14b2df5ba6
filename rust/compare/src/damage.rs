//! Texts of the grammar that are damaged, cut or mere soup.

use crate::grammar::{many_tokens, render, render_lines, text, tokens, NAMES};
use crate::random::Random;

pub const SIGNS: [&str; 22] = [
    "{", "}", "(", ")", ",", ";", "=", "|", "&", "==", "!=", "<", "<=", ">", ">=", "<<", ">>", "+", "-", "*", "/", "%",
];

#[rustfmt::skip]
pub const RESERVED: [&str; 57] = [
    "formset", "guid", "title", "help", "endformset", "STRING_TOKEN", "form", "formid", "endform", "rule", "endrule",
    "subtitle", "text", "label", "goto", "flags", "checkbox", "default", "TRUE", "FALSE", "endcheckbox", "numeric",
    "minimum", "maximum", "step", "endnumeric", "oneof", "endoneof", "suppressif", "grayoutif", "disableif", "endif",
    "option", "value", "DEFAULT", "name", "questionid", "prompt", "READ_ONLY", "INTERACTIVE", "RESET_REQUIRED", "OR",
    "AND", "NOT", "ZERO", "ONE", "ONES", "UNDEFINED", "questionref", "ruleref", "NUMERIC_SIZE_1", "NUMERIC_SIZE_2",
    "NUMERIC_SIZE_4", "NUMERIC_SIZE_8", "DISPLAY_INT_DEC", "DISPLAY_UINT_DEC", "DISPLAY_UINT_HEX",
];

const BAD: [&str; 14] =
    ["@", "!", "0X10", "0x", "12ab", "1_", "0xg", "00x1", "#", "\"", "'", "\u{0c}", "\u{feff}", "\u{0}"];

/// Any lexeme, a bad one now and then.
fn lexeme(random: &mut Random) -> String {
    match random.below(20) {
        0..=7 => random.pick(&SIGNS).to_string(),
        8..=15 => random.pick(&RESERVED).to_string(),
        16..=17 => random.pick(&NAMES).to_string(),
        18 if random.once_in(3) => random.pick(&BAD).to_string(),
        _ => random.below(70_000).to_string(),
    }
}

/// Statements with a fault, from stage 2 to stage 14, whatever stands before them.
pub const FAULTY: [&str; 15] = [
    "label 0X1 ;",
    "label ;",
    "suppressif NOT NOT NOT NOT NOT NOT NOT NOT NOT NOT NOT NOT NOT NOT NOT NOT NOT NOT NOT NOT NOT NOT NOT NOT NOT NOT NOT \
     NOT NOT NOT NOT NOT NOT 1 ; endif ;",
    "numeric prompt = STRING_TOKEN ( 1 ) , help = STRING_TOKEN ( 2 ) , flags = NUMERIC_SIZE_1 | DISPLAY_INT_DEC | \
     NUMERIC_SIZE_2 , minimum = 0 , maximum = 1 , endnumeric ;",
    "label 65536 ;",
    "numeric prompt = STRING_TOKEN ( 1 ) , help = STRING_TOKEN ( 2 ) , flags = NUMERIC_SIZE_2 | READ_ONLY , minimum = 0 , \
     maximum = 65536 , endnumeric ;",
    "endform ; form formid = 64999 , title = STRING_TOKEN ( 1 ) ; endform ; form formid = 64999 , title = STRING_TOKEN ( 2 ) ;",
    "goto 1 , questionid = 64998 , prompt = STRING_TOKEN ( 1 ) , help = STRING_TOKEN ( 2 ) ; \
     goto 1 , questionid = 64998 , prompt = STRING_TOKEN ( 1 ) , help = STRING_TOKEN ( 2 ) ;",
    "rule late_name , 1 endrule ; rule late_name , 1 endrule ;",
    "rule late_name , ruleref ( lost_name ) endrule ;",
    "rule late_name , 1 endrule ; endform ; form formid = 64997 , title = STRING_TOKEN ( 1 ) ; \
     rule later_name , ruleref ( later_rule ) endrule ; suppressif 1 ; suppressif ruleref ( late_name ) ; endif ; endif ; \
     rule later_rule , 1 endrule ;",
    "rule late_name , ruleref ( later_name ) endrule ; rule later_name , NOT ruleref ( late_name ) endrule ;",
    "numeric prompt = STRING_TOKEN ( 1 ) , help = STRING_TOKEN ( 2 ) , minimum = 5 , maximum = 4 , endnumeric ;",
    "numeric prompt = STRING_TOKEN ( 1 ) , help = STRING_TOKEN ( 2 ) , flags = DISPLAY_INT_DEC | NUMERIC_SIZE_1 , \
     minimum = 127 , maximum = 128 , endnumeric ;",
    "oneof prompt = STRING_TOKEN ( 1 ) , help = STRING_TOKEN ( 2 ) , option text = STRING_TOKEN ( 3 ) , value = 7 , flags = 0 ; \
     option text = STRING_TOKEN ( 3 ) , value = 0x7 , flags = 0 ; endoneof ;",
];

/// A text of many lines with a fault in the last of them.
pub fn faulty_late(random: &mut Random) -> Vec<u8> {
    const END: usize = 4;
    let mut tokens = many_tokens(random);
    let at = tokens.len() - END;
    tokens.splice(at..at, random.pick(&FAULTY).split(' ').map(str::to_string));
    if random.once_in(3) {
        let at = tokens.len() - 1 - random.below(3 * END);
        tokens[at] = lexeme(random);
    }
    render_lines(&tokens, random)
}

pub fn damaged_tokens(random: &mut Random) -> Vec<u8> {
    let mut tokens = tokens(random);
    for _ in 0..random.between(1, 3) {
        damage_tokens(&mut tokens, random);
    }
    render(&tokens, random)
}

fn damage_tokens(tokens: &mut Vec<String>, random: &mut Random) {
    if tokens.is_empty() {
        return;
    }
    let at = random.below(tokens.len());
    let other = random.below(tokens.len());
    match random.below(8) {
        0 => drop(tokens.remove(at)),
        1 => tokens.insert(at, tokens[at].clone()),
        2 => tokens.swap(at, other),
        3 => {
            let next = (at + 1).min(tokens.len() - 1);
            tokens.swap(at, next);
        }
        4 => tokens[at] = lexeme(random),
        5 => tokens.insert(at, lexeme(random)),
        6 => {
            let run = tokens[other..(other + random.between(1, 40)).min(tokens.len())].to_vec();
            tokens.splice(at..at, run);
        }
        _ => drop(tokens.drain(at..(at + random.between(1, 20)).min(tokens.len()))),
    }
}

pub fn damaged_bytes(random: &mut Random) -> Vec<u8> {
    let mut bytes = text(random);
    for _ in 0..random.between(1, 4) {
        damage_bytes(&mut bytes, random);
    }
    bytes
}

fn damage_bytes(bytes: &mut Vec<u8>, random: &mut Random) {
    if bytes.is_empty() {
        return;
    }
    let at = random.below(bytes.len());
    let other = random.below(bytes.len());
    match random.below(6) {
        0 => drop(bytes.remove(at)),
        1 => bytes.insert(at, any_byte(random)),
        2 => bytes[at] = any_byte(random),
        3 => bytes.swap(at, other),
        4 => bytes[at] ^= 1 << random.below(8),
        _ => {
            let run = bytes[other..(other + random.between(1, 30)).min(bytes.len())].to_vec();
            bytes.splice(at..at, run);
        }
    }
}

fn any_byte(random: &mut Random) -> u8 {
    const USUAL: &[u8] = b" \t\r\n/_=!<>|&(){},;+-*%0123456789xXabcfFTN";
    if random.once_in(4) {
        random.number() as u8
    } else {
        USUAL[random.below(USUAL.len())]
    }
}

/// A start of a text.
pub fn cut(random: &mut Random) -> Vec<u8> {
    let mut bytes = text(random);
    bytes.truncate(random.below(bytes.len() + 1));
    bytes
}

pub fn token_soup(random: &mut Random) -> Vec<u8> {
    let lexemes: Vec<String> = (0..random.below(60)).map(|_| lexeme(random)).collect();
    render(&lexemes, random)
}

pub fn byte_soup(random: &mut Random) -> Vec<u8> {
    (0..random.below(40)).map(|_| any_byte(random)).collect()
}
