//! Which families were met, and which should have been.

use crate::check::Read;
use crate::families::Family;
use reference::{parted, CIRCLE_REFUSAL, FAMILY_ANSWER, LONGEST, MOST_SOURCES, ROW, TABLE_REFUSAL};
use std::fmt;

/// A cause to refuse a family, and whether one has it; a sort of accepted families, and whether one is of it.
type Cause = (&'static str, fn(&Family) -> bool);
type Sort = (&'static str, fn(&Accepted<'_>) -> bool);

/// The causes by what is lent alone. That the last end is not the length has three.
const CAUSES: [Cause; 7] = [
    ("more than 64 ends", |family| family.ends.len() > MOST_SOURCES),
    ("ends that fall", |family| family.ends.windows(2).any(|pair| pair[1] < pair[0])),
    ("a last end past the buffer", |family| last(family).is_some_and(|end| end > length(family))),
    ("a last end short of the buffer", |family| last(family).is_some_and(|end| end < length(family))),
    ("no end of some bytes", |family| last(family).is_none() && length(family) > 0),
    ("a buffer too long", |family| family.buffer.len() > LONGEST),
    ("too few answers", |family| family.answers_len / FAMILY_ANSWER < family.ends.len()),
];

fn last(family: &Family) -> Option<u64> {
    family.ends.last().copied()
}

fn length(family: &Family) -> u64 {
    family.buffer.len() as u64
}

/// An accepted family, its sources, and what the reference read.
struct Accepted<'a> {
    family: &'a Family,
    sources: Vec<&'a [u8]>,
    read: &'a reference::Family,
}

impl Accepted<'_> {
    /// Whether one source is answered with the first sort of number, and a later one with the second.
    fn follows(&self, first: fn(u64) -> bool, second: fn(u64) -> bool) -> bool {
        let mut numbers = self.read.answers.iter().map(|answer| answer[0]);
        numbers.any(first) && numbers.any(second)
    }

    /// The rows that no source took.
    fn left(&self) -> usize {
        self.family.table_len / ROW - self.read.rows.len()
    }
}

fn is_accepted(number: u64) -> bool {
    number == 0
}

fn is_refused(number: u64) -> bool {
    number != 0
}

fn is_short(number: u64) -> bool {
    number == TABLE_REFUSAL
}

/// Refused after the rows are there.
fn is_late(number: u64) -> bool {
    (TABLE_REFUSAL + 1..=CIRCLE_REFUSAL).contains(&number)
}

fn in_word(byte: Option<&u8>) -> bool {
    byte.is_some_and(|byte| byte.is_ascii_alphanumeric())
}

const ACCEPTED: [Sort; 18] = [
    ("no source", |accepted| accepted.sources.is_empty()),
    ("one source", |accepted| accepted.sources.len() == 1),
    ("64 sources", |accepted| accepted.sources.len() == MOST_SOURCES),
    ("a buffer of 65,536 bytes", |accepted| accepted.family.buffer.len() == LONGEST),
    ("an empty source among others", |accepted| {
        accepted.sources.len() > 1 && accepted.sources.iter().any(|source| source.is_empty())
    }),
    ("an end inside a word", |accepted| {
        accepted.sources.windows(2).any(|pair| in_word(pair[0].last()) && in_word(pair[1].first()))
    }),
    ("two accepted sources", |accepted| accepted.follows(is_accepted, is_accepted)),
    ("an accepted source behind a refused one", |accepted| accepted.follows(is_refused, is_accepted)),
    ("an accepted source behind a 6", |accepted| accepted.follows(is_short, is_accepted)),
    ("an accepted source behind a refusal of 7 to 14", |accepted| accepted.follows(is_late, is_accepted)),
    ("a refusal of 7 to 14 behind an accepted source", |accepted| accepted.follows(is_accepted, is_late)),
    ("a refusal past line 1 behind an accepted source", |accepted| {
        let mut answers = accepted.read.answers.iter();
        answers.any(|answer| answer[0] == 0) && answers.any(|answer| answer[4] > 1)
    }),
    ("a 6 that lacks one row", |accepted| {
        let need = accepted.left() as u64 + 1;
        let last = accepted.read.answers.iter().rfind(|answer| answer[0] == 0 || is_short(answer[0]));
        last.is_some_and(|answer| is_short(answer[0]) && answer[2] == need)
    }),
    ("rows, and none left", |accepted| accepted.left() == 0 && !accepted.read.rows.is_empty()),
    ("rows left", |accepted| accepted.left() > 0),
    ("numbers past the whole rows", |accepted| !accepted.family.table_len.is_multiple_of(ROW)),
    ("numbers past the whole answers", |accepted| !accepted.family.answers_len.is_multiple_of(FAMILY_ANSWER)),
    ("more answers than sources", |accepted| accepted.family.answers_len / FAMILY_ANSWER > accepted.sources.len()),
];

/// How often each sort was met: refusals for one cause alone, those for more, and accepted families.
#[derive(Default)]
pub struct Families {
    causes: [u64; CAUSES.len()],
    several: u64,
    accepted: [u64; ACCEPTED.len()],
}

impl Families {
    /// Notes a family and what the reference read. It is at fault if it refuses without a cause, or accepts with one.
    pub fn note(&mut self, family: &Family, read: &Read) -> Result<(), String> {
        let causes: Vec<usize> = (0..CAUSES.len()).filter(|&at| CAUSES[at].1(family)).collect();
        match (read, &causes[..]) {
            (Err(_), [alone]) => self.causes[*alone] += 1,
            (Err(_), [_, ..]) => self.several += 1,
            (Ok(read), []) => self.note_accepted(family, read),
            _ => return Err(format!("{} causes to refuse, but {read:?}", causes.len())),
        }
        Ok(())
    }

    fn note_accepted(&mut self, family: &Family, read: &reference::Family) {
        let sources = parted(&family.buffer, &family.ends).expect("the call is accepted");
        let accepted = Accepted { family, sources, read };
        for ((_, is_met), count) in ACCEPTED.iter().zip(&mut self.accepted) {
            *count += u64::from(is_met(&accepted));
        }
    }

    /// Every sort with its count.
    fn counts(&self) -> impl Iterator<Item = (String, u64)> + '_ {
        let refused = CAUSES.iter().map(|(name, _)| format!("refused for {name} alone")).zip(self.causes);
        let several = ("refused for several causes".to_string(), self.several);
        let accepted = ACCEPTED.iter().map(|(name, _)| format!("accepted with {name}")).zip(self.accepted);
        refused.chain([several]).chain(accepted)
    }

    /// The sorts that were never met.
    pub fn missing(&self) -> impl Iterator<Item = String> + '_ {
        self.counts().filter(|(_, count)| *count == 0).map(|(name, _)| format!("families {name}"))
    }
}

/// A line for each sort.
impl fmt::Display for Families {
    fn fmt(&self, f: &mut fmt::Formatter) -> fmt::Result {
        write!(f, "\n  families:")?;
        self.counts().try_for_each(|(name, count)| write!(f, "\n    {name:62}{count:8}"))
    }
}
