//! Which answers were met, call by call, and which tokens, steps, bytes of screens and families; and which should have
//! been.

mod family;

use crate::check::Read;
use crate::families::Family;
use crate::numerics::{numerics, Numeric};
use crate::strays::strays;
use family::Families;
use reference::{
    parted, Kind, Refusal, SourceAnswer, ANSWERS_REFUSAL, BYTES_REFUSAL, CHOICE_REFUSAL, LONGEST, LOST_REFUSAL,
};
use reference::{PLACELESS_REFUSALS, QUICK_REFUSALS, RANGE_REFUSAL, READ_REFUSALS, TEXT_REFUSAL};
use std::collections::BTreeMap;
use std::fmt;

/// The calls that are compared and have answers. Reading is counted once more where its refusal has a line past the
/// first; of a family each source is counted.
#[derive(Clone, Copy, PartialEq, Eq, PartialOrd, Ord, Debug)]
pub enum Call {
    Reading,
    ReadingLater,
    Quick,
    Resolving,
    Showing,
    Family,
}

const CALLS: [Call; 6] = [Call::Reading, Call::ReadingLater, Call::Quick, Call::Resolving, Call::Showing, Call::Family];

/// The refusal of a source that is too long, which no source of an accepted family is.
const LENGTH_REFUSAL: u64 = 1;

/// How many classes of tokens there are.
const CLASSES: usize = Kind::End as usize + 1;

impl fmt::Display for Call {
    fn fmt(&self, f: &mut fmt::Formatter) -> fmt::Result {
        f.pad(match self {
            Call::Reading => "reading",
            Call::ReadingLater => "past line 1",
            Call::Quick => "quick check",
            Call::Resolving => "resolving",
            Call::Showing => "showing",
            Call::Family => "in a family",
        })
    }
}

impl Call {
    /// The answers that a call can give.
    fn answers(self) -> Vec<Met> {
        let first: &[Met] = match self {
            Call::ReadingLater => &[],
            Call::Quick => &[Met::Accepted],
            Call::Reading | Call::Resolving | Call::Showing | Call::Family => &[Met::Accepted, Met::AcceptedSigned],
        };
        let last: &[Met] = match self {
            Call::Resolving => &[Met::OutputShort, Met::TextLong],
            Call::Showing => &LAST_OF_SHOWING,
            Call::Reading | Call::ReadingLater | Call::Quick | Call::Family => &[],
        };
        let refusals = if self == Call::Quick { QUICK_REFUSALS } else { READ_REFUSALS };
        let is_given = |number: &&u64| match self {
            Call::ReadingLater => !PLACELESS_REFUSALS.contains(number),
            Call::Family => **number != LENGTH_REFUSAL,
            Call::Reading | Call::Quick | Call::Resolving | Call::Showing => true,
        };
        let refused = refusals.iter().filter(is_given).flat_map(|&number| Met::of_refusal(number));
        first.iter().copied().chain(refused).chain(last.iter().copied()).collect()
    }
}

/// What a call answered.
#[derive(Clone, Copy, PartialEq, Eq, PartialOrd, Ord, Debug)]
pub enum Met {
    /// Any acceptance but the one below; the quick check has no other.
    Accepted,
    /// There is a numeric that the unsigned order would refuse.
    AcceptedSigned,
    /// Any refusal but those below.
    Refused(u64),
    /// The number is one of a numeric and over its size alone.
    OverSize,
    /// What is referred to is a rule of another form, and not nowhere.
    OtherForm,
    /// The unsigned order would not refuse this maximum or default.
    SignedOrder,
    /// The text is longer than the lent output.
    OutputShort,
    /// The text is longer than any may be, so that no output would do.
    TextLong,
    /// The first answer to a question that is at fault has no value, has a number that is not above the one before it, or
    /// has a number that no question bears.
    AnswerOdd,
    AnswerNotAbove,
    AnswerUnknown,
}

const LAST_OF_SHOWING: [Met; 4] =
    [Met::AnswerOdd, Met::AnswerNotAbove, Met::AnswerUnknown, Met::Refused(BYTES_REFUSAL)];

impl Met {
    /// All that is met with a refusal of reading.
    fn of_refusal(number: u64) -> Vec<Met> {
        match number {
            RANGE_REFUSAL => vec![Met::Refused(number), Met::OverSize],
            LOST_REFUSAL => vec![Met::Refused(number), Met::OtherForm],
            CHOICE_REFUSAL => vec![Met::Refused(number), Met::SignedOrder],
            _ => vec![Met::Refused(number)],
        }
    }

    /// What a refusal of reading is; the source tells why it is refused.
    fn refused(number: u64, place: usize, source: &[u8]) -> Met {
        let some = |property: &dyn Fn(&Numeric) -> bool| numerics(source).iter().any(property);
        match number {
            RANGE_REFUSAL if some(&|numeric| numeric.is_over_size(place)) => Met::OverSize,
            LOST_REFUSAL if strays(source).contains(&place) => Met::OtherForm,
            CHOICE_REFUSAL if some(&|numeric| numeric.is_signed_fault(place)) => Met::SignedOrder,
            _ => Met::Refused(number),
        }
    }

    pub fn is_accepted(self) -> bool {
        matches!(self, Met::Accepted | Met::AcceptedSigned)
    }

    /// What an acceptance of reading is; the source tells why it is accepted.
    fn accepted(source: &[u8]) -> Met {
        match numerics(source).iter().any(Numeric::is_signed_alone) {
            true => Met::AcceptedSigned,
            false => Met::Accepted,
        }
    }

    /// What an answer is; the need of a text tells why it is refused.
    pub fn of<T>(answer: Result<T, &Refusal>, source: &[u8]) -> Met {
        match answer {
            Ok(_) => Met::accepted(source),
            Err(Refusal { number: TEXT_REFUSAL, need, .. }) if *need > LONGEST => Met::TextLong,
            Err(Refusal { number: TEXT_REFUSAL, .. }) => Met::OutputShort,
            Err(refusal) => Met::refused(refusal.number, refusal.place, source),
        }
    }

    /// The same of showing; the answer at fault tells why it is.
    pub fn of_showing<T>(answer: Result<T, &Refusal>, source: &[u8], answers: &[u64]) -> Met {
        match answer {
            Err(Refusal { number: ANSWERS_REFUSAL, place, .. }) => {
                let (before, rest) = answers.split_at(2 * place);
                match (before, rest) {
                    (_, [] | [_]) => Met::AnswerOdd,
                    ([.., last, _], [number, ..]) if number <= last => Met::AnswerNotAbove,
                    _ => Met::AnswerUnknown,
                }
            }
            other => Met::of(other, source),
        }
    }

    /// The same of a source of a family, by its numbers.
    fn of_source([number, place, ..]: SourceAnswer, source: &[u8]) -> Met {
        match number {
            0 => Met::accepted(source),
            _ => Met::refused(number, place as usize, source),
        }
    }

    /// The same of the quick check, by its one number.
    pub fn of_quick(told: u64, source: &[u8]) -> Met {
        match told {
            0 => Met::Accepted,
            _ => Met::refused(told >> 32, told as u32 as usize, source),
        }
    }
}

impl fmt::Display for Met {
    fn fmt(&self, f: &mut fmt::Formatter) -> fmt::Result {
        match self {
            Met::Accepted => f.pad("accepted"),
            Met::AcceptedSigned => f.pad("accepted by signed order"),
            Met::Refused(number) => f.pad(&format!("refusal {number}")),
            Met::OverSize => f.pad(&format!("refusal {RANGE_REFUSAL}, over its size")),
            Met::OtherForm => f.pad(&format!("refusal {LOST_REFUSAL}, another form")),
            Met::SignedOrder => f.pad(&format!("refusal {CHOICE_REFUSAL}, signed order")),
            Met::OutputShort => f.pad(&format!("refusal {TEXT_REFUSAL}, output short")),
            Met::TextLong => f.pad(&format!("refusal {TEXT_REFUSAL}, over {LONGEST} bytes")),
            Met::AnswerOdd => f.pad(&format!("refusal {ANSWERS_REFUSAL}, no value")),
            Met::AnswerNotAbove => f.pad(&format!("refusal {ANSWERS_REFUSAL}, not above")),
            Met::AnswerUnknown => f.pad(&format!("refusal {ANSWERS_REFUSAL}, no question")),
        }
    }
}

/// What the bytes of screens say of a row.
const BYTES: [&str; 4] = ["neither", "hidden", "grey", "both"];

/// What a numeric may write for its step, in the order of `Step`.
const STEPS: [&str; 4] = ["absent", "zero", "one", "other"];

/// How often each call gave each answer, and how often each class of tokens, each sort of step, each byte of screens
/// and each sort of family was met.
#[derive(Default)]
pub struct Tally {
    counts: BTreeMap<(Met, Call), u64>,
    classes: BTreeMap<u64, u64>,
    steps: [u64; STEPS.len()],
    bytes: [u64; BYTES.len()],
    families: Families,
}

impl Tally {
    pub fn note(&mut self, call: Call, met: Met) {
        *self.counts.entry((met, call)).or_default() += 1;
    }

    pub fn note_tokens(&mut self, classes: &[u64]) {
        classes.iter().for_each(|&class| *self.classes.entry(class).or_default() += 1);
    }

    /// Notes the steps of an accepted source's numerics.
    pub fn note_steps(&mut self, source: &[u8]) {
        numerics(source).iter().for_each(|numeric| self.steps[numeric.step() as usize] += 1);
    }

    /// Notes the bytes of a screen; there are no others than those that have a name.
    pub fn note_screen(&mut self, bytes: &[u8]) {
        bytes.iter().for_each(|&byte| self.bytes[usize::from(byte)] += 1);
    }

    /// Notes a family and each of its sources. It is at fault if what the reference read has no cause.
    pub fn note_family(&mut self, family: &Family, read: &Read) -> Result<(), String> {
        self.families.note(family, read)?;
        if let Ok(read) = read {
            let sources = parted(&family.buffer, &family.ends).expect("the call is accepted");
            for (source, &answer) in sources.into_iter().zip(&read.answers) {
                self.note(Call::Family, Met::of_source(answer, source));
            }
        }
        Ok(())
    }

    fn count(&self, call: Call, met: Met) -> u64 {
        self.counts.get(&(met, call)).copied().unwrap_or(0)
    }

    /// The answers that a call can give and never gave, and the classes of tokens, sorts of steps, bytes of screens and
    /// sorts of families that were never met.
    pub fn missing(&self) -> Vec<String> {
        let all = CALLS.into_iter().flat_map(|call| call.answers().into_iter().map(move |met| (call, met)));
        let answers = all.filter(|&(call, met)| self.count(call, met) == 0).map(|(call, met)| format!("{call}, {met}"));
        let classes = (0..CLASSES as u64).filter(|class| !self.classes.contains_key(class));
        let tokens = classes.map(|class| format!("tokens of class {class}"));
        let steps = unmet(&STEPS, &self.steps).map(|name| format!("steps of numerics: {name}"));
        let bytes = unmet(&BYTES, &self.bytes).map(|name| format!("bytes of screens: {name}"));
        answers.chain(tokens).chain(steps).chain(bytes).chain(self.families.missing()).collect()
    }
}

/// The names whose count is 0.
fn unmet<'a>(names: &'a [&str], counts: &'a [u64]) -> impl Iterator<Item = &'a str> {
    names.iter().zip(counts).filter(|(_, count)| **count == 0).map(|(name, _)| *name)
}

/// A line for each answer, a column for each call; `-` where the call cannot give it. Then lines for the tokens, the
/// steps, the bytes of screens and the families.
impl fmt::Display for Tally {
    fn fmt(&self, f: &mut fmt::Formatter) -> fmt::Result {
        write!(f, "{:32}", "")?;
        CALLS.iter().try_for_each(|call| write!(f, "{call:>12}"))?;
        for met in Call::Resolving.answers().into_iter().chain(LAST_OF_SHOWING) {
            write!(f, "\n  {met:30}")?;
            for call in CALLS {
                if call.answers().contains(&met) {
                    write!(f, "{:12}", self.count(call, met))?;
                } else {
                    write!(f, "{:>12}", "-")?;
                }
            }
        }
        let tokens: u64 = self.classes.values().sum();
        write!(f, "\n  {tokens} tokens of {} classes, of {CLASSES} that there are", self.classes.len())?;
        write!(f, "\n  steps of numerics that are accepted:")?;
        STEPS.iter().zip(self.steps).try_for_each(|(name, count)| write!(f, " {count} {name}"))?;
        write!(f, "\n  rows of screens:")?;
        BYTES.iter().zip(self.bytes).try_for_each(|(name, count)| write!(f, " {count} {name}"))?;
        write!(f, "{}", self.families)
    }
}
