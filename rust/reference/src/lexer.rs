//! Document 01, section "Tokens", with the words of document 02's W-204.

/// What a token is to the grammar. The order is that of the classes' numbers.
#[derive(Clone, Copy, PartialEq, Eq, Debug)]
#[rustfmt::skip]
pub enum Kind {
    // Signs, in document 01's order.
    OpenBrace, CloseBrace, OpenParen, CloseParen, Comma, Semicolon, Equals, Bar, Ampersand,
    Equal, NotEqual, Less, LessEqual, Greater, GreaterEqual, ShiftLeft, ShiftRight,
    Plus, Minus, Star, Slash, Percent,
    // Reserved words, in byte order.
    And, DefaultFlag, DisplayIntDec, DisplayUintDec, DisplayUintHex, False, Interactive, Not, NumericSize1,
    NumericSize2, NumericSize4, NumericSize8, One, Ones, Or, ReadOnly, ResetRequired, StringToken, True,
    Undefined, Zero, Checkbox, Default, Disableif, Endcheckbox, Endform, Endformset, Endif, Endnumeric,
    Endoneof, Endrule, Flags, Form, Formid, Formset, Goto, Grayoutif, Guid, Help, Label, Maximum,
    Minimum, Name, Numeric, Oneof, Option, Prompt, Questionid, Questionref, Rule, Ruleref, Step,
    Subtitle, Suppressif, Text, Title, Value,
    // Other words, numbers, and what is no token.
    Word, Hex, Decimal, Bad, End,
}

/// A token and its bytes' range; a bad token and the end have an empty one.
#[derive(Clone, Copy, PartialEq, Eq, Debug)]
pub struct Token {
    pub kind: Kind,
    pub start: usize,
    pub end: usize,
}

/// Walks over a source, and stays at a bad token and at the end.
pub struct Lexer<'a> {
    source: &'a [u8],
    place: usize,
}

impl<'a> Lexer<'a> {
    pub fn new(source: &'a [u8]) -> Self {
        Self::at(source, 0)
    }

    /// From a place within the source.
    pub fn at(source: &'a [u8], place: usize) -> Self {
        Lexer { source, place }
    }

    pub fn next_token(&mut self) -> Token {
        let start = after_blanks(self.source, self.place);
        let (kind, length) = match self.source[start..] {
            [] => (Kind::End, 0),
            [b'a'..=b'z' | b'A'..=b'Z' | b'_', ..] => word(&self.source[start..]),
            [b'0'..=b'9', ..] => number(&self.source[start..]),
            _ => sign(&self.source[start..]),
        };
        let end = start + length;
        if length > 0 {
            self.place = end;
        }
        Token { kind, start, end }
    }
}

fn after_blanks(source: &[u8], mut place: usize) -> usize {
    loop {
        match source[place..] {
            [b' ' | b'\t' | b'\r' | b'\n', ..] => place += 1,
            [b'/', b'/', ..] => place += run(&source[place..], |byte| byte != b'\n'),
            _ => return place,
        }
    }
}

/// How many bytes from the start have the property.
fn run(bytes: &[u8], property: impl Fn(u8) -> bool) -> usize {
    bytes.iter().position(|&byte| !property(byte)).unwrap_or(bytes.len())
}

/// Letters, digits and `_`.
const IN_WORD: [bool; 256] = {
    let mut table = [false; 256];
    let mut byte = 0;
    while byte < 256 {
        table[byte] = (byte as u8).is_ascii_alphanumeric() || byte as u8 == b'_';
        byte += 1;
    }
    table
};

fn in_word(byte: u8) -> bool {
    IN_WORD[byte as usize]
}

fn word(bytes: &[u8]) -> (Kind, usize) {
    let length = run(bytes, in_word);
    (reserved(&bytes[..length]).unwrap_or(Kind::Word), length)
}

fn number(bytes: &[u8]) -> (Kind, usize) {
    let (kind, length) = match bytes {
        [b'0', b'x', digit, ..] if digit.is_ascii_hexdigit() => {
            (Kind::Hex, 2 + run(&bytes[2..], |byte| byte.is_ascii_hexdigit()))
        }
        _ => (Kind::Decimal, run(bytes, |byte| byte.is_ascii_digit())),
    };
    match bytes.get(length) {
        Some(&byte) if in_word(byte) => (Kind::Bad, 0),
        _ => (kind, length),
    }
}

fn sign(bytes: &[u8]) -> (Kind, usize) {
    match bytes {
        [b'=', b'=', ..] => (Kind::Equal, 2),
        [b'!', b'=', ..] => (Kind::NotEqual, 2),
        [b'<', b'=', ..] => (Kind::LessEqual, 2),
        [b'>', b'=', ..] => (Kind::GreaterEqual, 2),
        [b'<', b'<', ..] => (Kind::ShiftLeft, 2),
        [b'>', b'>', ..] => (Kind::ShiftRight, 2),
        [b'{', ..] => (Kind::OpenBrace, 1),
        [b'}', ..] => (Kind::CloseBrace, 1),
        [b'(', ..] => (Kind::OpenParen, 1),
        [b')', ..] => (Kind::CloseParen, 1),
        [b',', ..] => (Kind::Comma, 1),
        [b';', ..] => (Kind::Semicolon, 1),
        [b'=', ..] => (Kind::Equals, 1),
        [b'|', ..] => (Kind::Bar, 1),
        [b'&', ..] => (Kind::Ampersand, 1),
        [b'<', ..] => (Kind::Less, 1),
        [b'>', ..] => (Kind::Greater, 1),
        [b'+', ..] => (Kind::Plus, 1),
        [b'-', ..] => (Kind::Minus, 1),
        [b'*', ..] => (Kind::Star, 1),
        [b'/', ..] => (Kind::Slash, 1),
        [b'%', ..] => (Kind::Percent, 1),
        _ => (Kind::Bad, 0),
    }
}

fn reserved(word: &[u8]) -> Option<Kind> {
    Some(match word {
        b"AND" => Kind::And,
        b"DEFAULT" => Kind::DefaultFlag,
        b"DISPLAY_INT_DEC" => Kind::DisplayIntDec,
        b"DISPLAY_UINT_DEC" => Kind::DisplayUintDec,
        b"DISPLAY_UINT_HEX" => Kind::DisplayUintHex,
        b"FALSE" => Kind::False,
        b"INTERACTIVE" => Kind::Interactive,
        b"NOT" => Kind::Not,
        b"NUMERIC_SIZE_1" => Kind::NumericSize1,
        b"NUMERIC_SIZE_2" => Kind::NumericSize2,
        b"NUMERIC_SIZE_4" => Kind::NumericSize4,
        b"NUMERIC_SIZE_8" => Kind::NumericSize8,
        b"ONE" => Kind::One,
        b"ONES" => Kind::Ones,
        b"OR" => Kind::Or,
        b"READ_ONLY" => Kind::ReadOnly,
        b"RESET_REQUIRED" => Kind::ResetRequired,
        b"STRING_TOKEN" => Kind::StringToken,
        b"TRUE" => Kind::True,
        b"UNDEFINED" => Kind::Undefined,
        b"ZERO" => Kind::Zero,
        b"checkbox" => Kind::Checkbox,
        b"default" => Kind::Default,
        b"disableif" => Kind::Disableif,
        b"endcheckbox" => Kind::Endcheckbox,
        b"endform" => Kind::Endform,
        b"endformset" => Kind::Endformset,
        b"endif" => Kind::Endif,
        b"endnumeric" => Kind::Endnumeric,
        b"endoneof" => Kind::Endoneof,
        b"endrule" => Kind::Endrule,
        b"flags" => Kind::Flags,
        b"form" => Kind::Form,
        b"formid" => Kind::Formid,
        b"formset" => Kind::Formset,
        b"goto" => Kind::Goto,
        b"grayoutif" => Kind::Grayoutif,
        b"guid" => Kind::Guid,
        b"help" => Kind::Help,
        b"label" => Kind::Label,
        b"maximum" => Kind::Maximum,
        b"minimum" => Kind::Minimum,
        b"name" => Kind::Name,
        b"numeric" => Kind::Numeric,
        b"oneof" => Kind::Oneof,
        b"option" => Kind::Option,
        b"prompt" => Kind::Prompt,
        b"questionid" => Kind::Questionid,
        b"questionref" => Kind::Questionref,
        b"rule" => Kind::Rule,
        b"ruleref" => Kind::Ruleref,
        b"step" => Kind::Step,
        b"subtitle" => Kind::Subtitle,
        b"suppressif" => Kind::Suppressif,
        b"text" => Kind::Text,
        b"title" => Kind::Title,
        b"value" => Kind::Value,
        _ => return None,
    })
}

/// The value of a number, if it is below 2^64.
pub fn value(number: &[u8]) -> Option<u64> {
    match number.strip_prefix(b"0x") {
        Some(digits) => {
            digits.iter().try_fold(0, |value: u64, &digit| (value >> 60 == 0).then(|| value << 4 | hex_digit(digit)))
        }
        None => {
            number.iter().try_fold(0, |value: u64, digit| value.checked_mul(10)?.checked_add(u64::from(digit - b'0')))
        }
    }
}

fn hex_digit(digit: u8) -> u64 {
    match digit {
        b'0'..=b'9' => u64::from(digit - b'0'),
        _ => u64::from((digit | 0x20) - b'a') + 10,
    }
}
