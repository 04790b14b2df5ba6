//! Document 02, W-206: many sources in one call.

use crate::{read, Reading, Refusal, Row, FAMILY_REFUSAL, LONGEST};

/// The most sources of a family.
pub const MOST_SOURCES: usize = 64;

/// How many numbers the answer to one source has.
pub const FAMILY_ANSWER: usize = 6;

/// Number, place, row count, free count, line and column.
pub type SourceAnswer = [u64; FAMILY_ANSWER];

/// What an accepted call leaves: the rows of all accepted sources, one after another, and an answer for each source.
#[derive(Clone, PartialEq, Eq, Default, Debug)]
pub struct Family {
    pub rows: Vec<Row>,
    pub answers: Vec<SourceAnswer>,
}

/// The sources that these ends part a buffer into, if none falls and the last is the buffer's length.
pub fn parted<'a>(buffer: &'a [u8], ends: &[u64]) -> Option<Vec<&'a [u8]>> {
    let (mut sources, mut start) = (Vec::new(), 0);
    for &end in ends {
        let end = usize::try_from(end).ok()?;
        sources.push(buffer.get(start..end)?);
        start = end;
    }
    (start == buffer.len()).then_some(sources)
}

/// Reads the sources of a buffer, each alone, with this many rows and answers lent.
pub fn read_family(buffer: &[u8], ends: &[u64], rows_lent: usize, answers_lent: usize) -> Result<Family, Refusal> {
    let has_room = buffer.len() <= LONGEST && ends.len() <= MOST_SOURCES.min(answers_lent);
    let sources = parted(buffer, ends).filter(|_| has_room).ok_or(Refusal::new(FAMILY_REFUSAL, 0))?;
    let mut family = Family::default();
    for source in sources {
        let reading = read(source, rows_lent - family.rows.len());
        family.answers.push(answer(&reading));
        family.rows.extend(reading.into_iter().flat_map(|reading| reading.rows));
    }
    Ok(family)
}

fn answer(reading: &Result<Reading, Refusal>) -> SourceAnswer {
    match reading {
        Ok(reading) => [0, 0, reading.rows.len() as u64, reading.free, 0, 0],
        Err(Refusal { number, place, position, need }) => {
            [*number, *place as u64, *need as u64, 0, position.line, position.column]
        }
    }
}
