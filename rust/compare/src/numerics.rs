//! Document 02, W-204 and W-208: the numerics of a source by its tokens alone, for what an answer has to do with sizes,
//! signs and steps.

use reference::{Kind, Lexer, Token};

/// A number of a numeric: its place, and its value if it is below 2^64.
#[derive(Clone, Copy)]
struct Setting {
    place: usize,
    value: Option<u64>,
}

/// A numeric's first display and its numbers, as far as they are written.
#[derive(Default)]
pub struct Numeric {
    display: Option<Kind>,
    minimum: Option<Setting>,
    maximum: Option<Setting>,
    step: Option<Setting>,
    default: Option<Setting>,
}

/// What is written for a step.
#[derive(Clone, Copy, PartialEq, Eq, Debug)]
pub enum Step {
    Absent,
    Zero,
    One,
    Other,
}

/// The numerics of a text of the grammar, in order.
pub fn numerics(source: &[u8]) -> Vec<Numeric> {
    let mut lexer = Lexer::new(source);
    let mut numerics = Vec::new();
    loop {
        match lexer.next_token().kind {
            Kind::Numeric => numerics.push(Numeric::of(source, &mut lexer)),
            kind if kind.is_last() => return numerics,
            _ => {}
        }
    }
}

impl Numeric {
    /// The rest of a numeric whose first word is passed.
    fn of(source: &[u8], lexer: &mut Lexer) -> Self {
        let mut numeric = Numeric::default();
        loop {
            let kind = lexer.next_token().kind;
            match kind {
                Kind::DisplayIntDec | Kind::DisplayUintDec | Kind::DisplayUintHex => {
                    numeric.display.get_or_insert(kind);
                }
                Kind::Minimum => numeric.minimum = Some(setting(source, lexer)),
                Kind::Maximum => numeric.maximum = Some(setting(source, lexer)),
                Kind::Step => numeric.step = Some(setting(source, lexer)),
                Kind::Default => numeric.default = Some(setting(source, lexer)),
                Kind::Endnumeric => return numeric,
                kind if kind.is_last() => return numeric,
                _ => {}
            }
        }
    }

    pub fn step(&self) -> Step {
        match self.step.map(|setting| setting.value) {
            None => Step::Absent,
            Some(Some(0)) => Step::Zero,
            Some(Some(1)) => Step::One,
            Some(_) => Step::Other,
        }
    }

    /// Whether a number that is refused at this place is over the numeric's size, and not over any.
    pub fn is_over_size(&self, place: usize) -> bool {
        let settings = [self.minimum, self.maximum, self.step, self.default];
        settings.into_iter().flatten().any(|setting| setting.place == place && setting.value.is_some())
    }

    /// The places of the maximum and the default.
    fn compared(&self) -> impl Iterator<Item = usize> {
        [self.maximum, self.default].into_iter().flatten().map(|setting| setting.place)
    }

    /// Whether the maximum or default at this place is at fault by the unsigned order.
    fn is_unsigned_fault(&self, place: usize) -> bool {
        let [minimum, maximum, default] =
            [self.minimum, self.maximum, self.default].map(|setting| setting.and_then(|setting| setting.value));
        let is_at = |setting: Option<Setting>| setting.is_some_and(|setting| setting.place == place);
        is_at(self.maximum) && maximum < minimum || is_at(self.default) && (default < minimum || default > maximum)
    }

    /// Whether its maximum or default is at this place, which is no fault by the unsigned order.
    pub fn is_signed_fault(&self, place: usize) -> bool {
        self.compared().any(|at| at == place) && !self.is_unsigned_fault(place)
    }

    /// Whether it is signed, and the unsigned order would refuse it.
    pub fn is_signed_alone(&self) -> bool {
        self.display == Some(Kind::DisplayIntDec) && self.compared().any(|place| self.is_unsigned_fault(place))
    }
}

/// The number after `=`.
fn setting(source: &[u8], lexer: &mut Lexer) -> Setting {
    lexer.next_token();
    let Token { start, end, .. } = lexer.next_token();
    let text = String::from_utf8_lossy(&source[start..end]);
    let value = match text.strip_prefix("0x") {
        Some(digits) => u64::from_str_radix(digits, 16),
        None => text.parse(),
    };
    Setting { place: start, value: value.ok() }
}
