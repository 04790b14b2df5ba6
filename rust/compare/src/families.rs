//! Random families of sources, good and damaged.

use crate::damage::FAULTY;
use crate::limits::{framed, many_rules};
use crate::random::Random;
use crate::sources;
use reference::{parted, read_family, FAMILY_ANSWER, LONGEST, MOST_SOURCES, ROW};

/// Sources joined in one buffer, their ends, and how many numbers are lent for rows and for answers.
#[derive(Clone, Debug)]
pub struct Family {
    pub buffer: Vec<u8>,
    pub ends: Vec<u64>,
    pub table_len: usize,
    pub answers_len: usize,
}

impl Family {
    /// Without one of its sources, if the ends part the buffer.
    pub fn without(&self, at: usize) -> Option<Family> {
        let mut sources = parted(&self.buffer, &self.ends)?;
        sources.remove(at);
        Some(Family { buffer: sources.concat(), ends: ends_of(&sources), ..*self })
    }
}

fn ends_of<T: AsRef<[u8]>>(sources: &[T]) -> Vec<u64> {
    let end = |length: &mut u64, source: &T| {
        *length += source.as_ref().len() as u64;
        Some(*length)
    };
    sources.iter().scan(0, end).collect()
}

/// A family of any sort.
pub fn family(random: &mut Random) -> Family {
    let count = match random.below(24) {
        0 => 0,
        1 => 1,
        2 => MOST_SOURCES,
        3 => MOST_SOURCES + 1,
        4 => random.between(MOST_SOURCES - 4, MOST_SOURCES + 4),
        5..=7 => random.between(8, 20),
        _ => random.between(2, 7),
    };
    let sources = some_sources(count, random);
    let (mut buffer, mut ends) = (sources.concat(), ends_of(&sources));
    if random.once_in(16) {
        pad(&mut buffer, &mut ends, random);
    }
    if random.once_in(3) {
        damage(&mut ends, buffer.len(), random);
    }
    let table_len = table_length(&buffer, &ends, random);
    let answers_len = answers_length(ends.len(), random);
    Family { buffer, ends, table_len, answers_len }
}

/// So many sources, together no longer than a buffer may be: of any sort where there is room, else short ones.
fn some_sources(count: usize, random: &mut Random) -> Vec<Vec<u8>> {
    let mut room = LONGEST;
    let source = |at: usize| {
        let source = match random.below(40) {
            0 => many_rules(random),
            1..=3 => Vec::new(),
            4..=10 => short(random),
            _ => sources::source(random),
        };
        let source = if source.len() > room / (count - at) { short(random) } else { source };
        room -= source.len();
        source
    };
    (0..count).map(source).collect()
}

/// A source of few rows: accepted, or refused in one of the stages 2 to 14.
fn short(random: &mut Random) -> Vec<u8> {
    const ITEMS: [&str; 4] = [
        "",
        "label 1;",
        "label 1;\nlabel 2;label 3;",
        "checkbox name=A,prompt=STRING_TOKEN(1),help=STRING_TOKEN(2),endcheckbox;suppressif questionref(A);endif;",
    ];
    let lines = random.pick(&["", "label 1;", "\n\tlabel 1;\n"]);
    match random.below(3) {
        0 => framed(&format!("{lines}{}", random.pick(&FAULTY))),
        _ => framed(random.pick(&ITEMS)),
    }
}

/// Blanks after the last source, up to the longest buffer or a little past it.
fn pad(buffer: &mut Vec<u8>, ends: &mut [u64], random: &mut Random) {
    if let Some(last) = ends.last_mut() {
        let length = LONGEST + [0, 0, 1, random.between(2, 9)][random.below(4)];
        buffer.resize(length.max(buffer.len()), b' ');
        *last = buffer.len() as u64;
    }
}

/// Ends that part the buffer at other places, or do not part it.
fn damage(ends: &mut Vec<u64>, length: usize, random: &mut Random) {
    let any = random.below(length + 1) as u64;
    if ends.is_empty() {
        return ends.push([0, 1, any, u64::MAX][random.below(4)]);
    }
    let (at, last) = (random.below(ends.len()), ends.len() - 1);
    let before = if at > 0 { ends[at - 1] } else { 0 };
    match random.below(13) {
        0 => ends[last] += random.between(1, 3) as u64,
        1 => ends[last] = [u64::MAX, ends[last] | 1 << 32, u64::MAX - any][random.below(3)],
        2 => ends[last] = ends[last].saturating_sub(random.between(1, 3) as u64),
        3 => _ = ends.pop(),
        4 => ends.clear(),
        5 => ends.insert(at, before),
        6 => ends.push(ends[last]),
        7 => ends[at] = before,
        8 => ends[at] = before.saturating_sub(random.between(1, 3) as u64),
        9 => ends[at] = [u64::MAX, ends[at] | 1 << 32, length as u64 + 1][random.below(3)],
        10 => ends[at] = any,
        11 => ends.swap(at, last),
        _ => ends.insert(at, before + random.below((ends[at] - before) as usize + 1) as u64),
    }
}

/// Just the rows that are needed, with and without numbers past them, a row or a number fewer, so many that one source
/// lacks a row, none, some more, or so many that sources are refused after their rows are counted.
fn table_length(buffer: &[u8], ends: &[u64], random: &mut Random) -> usize {
    let Ok(read) = read_family(buffer, ends, usize::MAX, MOST_SOURCES) else {
        return [0, random.below(100), ROW * random.below(50)][random.below(3)];
    };
    let exact = ROW * read.rows.len();
    let over = random.below(ROW);
    match random.below(14) {
        0 => 0,
        1 => random.below(exact + 1),
        2 => exact.saturating_sub(1),
        3 => exact.saturating_sub(ROW) + over,
        4..=6 => {
            let at = random.below(ends.len().max(1));
            let rows: u64 =
                read.answers.iter().filter(|answer| answer[0] == 0).take(at + 1).map(|answer| answer[2]).sum();
            (ROW * rows as usize).saturating_sub(ROW) + over
        }
        7 => exact + over,
        8 => exact + random.between(ROW, 200),
        9..=11 => exact + ROW * random.between(16, 3_000),
        _ => exact,
    }
}

/// Just the answers that are needed, with and without numbers past them, a number fewer, or any.
fn answers_length(count: usize, random: &mut Random) -> usize {
    let exact = FAMILY_ANSWER * count;
    match random.below(16) {
        0 => exact.saturating_sub(1),
        1 if random.once_in(2) => random.below(exact + 1),
        2..=4 => exact + random.between(1, FAMILY_ANSWER - 1),
        5..=6 => exact + random.between(FAMILY_ANSWER, 20),
        _ => exact,
    }
}
