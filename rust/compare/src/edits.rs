//! Every small edit of one source that has every form of the grammar. A line ends after each `;`.

use crate::damage::{RESERVED, SIGNS};
use reference::read;

const WHOLE: &str = "\
formset guid = { 0x1 , 0x2 , 0x3 , { 0x4 , 0x5 , 0x6 , 0x7 , 0x8 , 0x9 , 0xA , 0xB } } , \
title = STRING_TOKEN ( 2 ) , help = STRING_TOKEN ( 3 ) , \
form formid = 1 , title = STRING_TOKEN ( 4 ) ; \
rule A , 1 OR TRUE AND FALSE | ZERO & ONE == ONES != UNDEFINED < 2 <= 3 > 4 >= 5 << 6 >> 7 + 8 - 9 * 1 / 2 % 3 endrule ; \
rule B , NOT ( NOT ruleref ( A ) + questionref ( Q ) ) * questionref ( 9 ) endrule ; \
subtitle text = STRING_TOKEN ( 5 ) ; \
text help = STRING_TOKEN ( 6 ) , text = STRING_TOKEN ( 7 ) ; \
label 8 ; \
goto 2 , prompt = STRING_TOKEN ( 1 ) , help = STRING_TOKEN ( 2 ) ; \
goto 1 , name = Q , questionid = 9 , prompt = STRING_TOKEN ( 1 ) , help = STRING_TOKEN ( 2 ) , flags = READ_ONLY ; \
endform ; \
form formid = 2 , title = STRING_TOKEN ( 4 ) ; \
checkbox name = R , prompt = STRING_TOKEN ( 1 ) , help = STRING_TOKEN ( 2 ) , \
flags = INTERACTIVE | RESET_REQUIRED , default = TRUE , endcheckbox ; \
suppressif 7 - 2 * 3 == 1 AND NOT questionref ( R ) ; grayoutif ( ruleref ( C ) ) ; label 1 ; endif ; \
disableif TRUE ; label 1 ; endif ; \
checkbox prompt = STRING_TOKEN ( 1 ) , help = STRING_TOKEN ( 2 ) , endcheckbox ; endif ; \
rule C , 4 >= 1 << 2 OR FALSE endrule ; \
numeric questionid = 8 , prompt = STRING_TOKEN ( 1 ) , help = STRING_TOKEN ( 2 ) , \
flags = NUMERIC_SIZE_1 | READ_ONLY | DISPLAY_INT_DEC , \
minimum = 251 , maximum = 9 , step = 2 , default = 255 , endnumeric ; \
numeric prompt = STRING_TOKEN ( 1 ) , help = STRING_TOKEN ( 2 ) , minimum = 0 , maximum = 0 , endnumeric ; \
oneof prompt = STRING_TOKEN ( 1 ) , help = STRING_TOKEN ( 2 ) , flags = READ_ONLY , \
option text = STRING_TOKEN ( 3 ) , value = 4 , flags = DEFAULT ; \
option text = STRING_TOKEN ( 5 ) , value = 6 , flags = 0 ; endoneof ; \
endform ; endformset ;";

const OTHERS: [&str; 15] =
    ["A", "C", "Q", "X", "0", "1", "2", "9", "0x9", "250", "256", "65536", "18446744073709551616", "0x", "@"];

const BYTES: &[u8] = b" \t\r\n/!=<>|(){},;0x9aA_\x00\x0c\xff";

/// Tokens with blanks between: LF after a `;`, CR LF after a closing brace, and a space elsewhere.
fn lines(tokens: &[&str]) -> String {
    let end = |token: &str| match token {
        ";" => "\n",
        "}" => "\r\n",
        _ => " ",
    };
    tokens.iter().flat_map(|token| [*token, end(token)]).collect()
}

/// Hands on the source with each token replaced, preceded by another, left out or the last; then the same for bytes.
pub fn every_edit(mut visit: impl FnMut(&[u8])) {
    let tokens: Vec<&str> = WHOLE.split(' ').collect();
    let whole = lines(&tokens);
    assert!(read(whole.as_bytes(), whole.len()).is_ok(), "without an edit the source is accepted");
    let mut hand =
        |start: &[&str], middle: &[&str], end: &[&str]| visit(lines(&[start, middle, end].concat()).as_bytes());
    hand(&tokens, &[], &[]);
    for at in 0..tokens.len() {
        let (before, after) = tokens.split_at(at);
        hand(before, &[], &[]);
        hand(before, &[], &after[1..]);
        for lexeme in SIGNS.iter().chain(&RESERVED).chain(&OTHERS) {
            hand(before, &[lexeme], &after[1..]);
            hand(before, &[lexeme], after);
        }
    }
    for at in 0..whole.len() {
        let (before, after) = whole.as_bytes().split_at(at);
        visit(&[before, &after[1..]].concat());
        for byte in BYTES {
            visit(&[before, &[*byte], &after[1..]].concat());
            visit(&[before, &[*byte], after].concat());
        }
    }
}
