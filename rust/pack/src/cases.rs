//! Cases: sources with the rows lent for them.

use reference::{Position, Reading, Refusal};
use std::path::Path;
use std::{fs, io};

/// The rows that the program `resolve` lends.
const PROGRAM_ROWS: usize = 512;

/// A source and the rows that are lent for it.
pub struct Case {
    pub number: u32,
    pub rows: usize,
    pub source: Vec<u8>,
}

/// What reading tells of a case.
pub struct Told {
    pub number: u64,
    pub place: usize,
    pub rows: usize,
    pub free: u64,
    pub position: Position,
    pub cells: Vec<u64>,
}

impl Case {
    pub fn told(&self) -> Told {
        match reference::read(&self.source, self.rows) {
            Ok(Reading { rows, free }) => Told {
                number: 0,
                place: 0,
                rows: rows.len(),
                free,
                position: Position::NONE,
                cells: rows.into_flattened(),
            },
            Err(Refusal { number, place, position, need }) => {
                Told { number, place, rows: need, free: 0, position, cells: Vec::new() }
            }
        }
    }

    /// The rows that the source needs, or 0 if it is refused before they are counted.
    pub fn need(&self) -> usize {
        reference::read(&self.source, 0).map_or_else(|refusal| refusal.need, |reading| reading.rows.len())
    }
}

fn fault(path: &Path, what: impl std::fmt::Display) -> io::Error {
    io::Error::other(format!("{}: {what}", path.display()))
}

fn contents(path: &Path) -> io::Result<Vec<u8>> {
    fs::read(path).map_err(|error| fault(path, error))
}

/// The cases of reading, each with its group: the lines `NUMBER ROWS GROUP` of `reading.txt`, in order. The source of a
/// case is `reading/NUMBER.vfr`; lines that start with `#` are comments.
pub fn of_reading(folder: &Path) -> io::Result<Vec<(String, Case)>> {
    let list = folder.join("reading.txt");
    let text = String::from_utf8(contents(&list)?).map_err(|error| fault(&list, error))?;
    let lines = text.lines().filter(|line| !line.starts_with('#'));
    lines.map(|line| listed(folder, line).unwrap_or_else(|| Err(fault(&list, format!("not a case: {line}"))))).collect()
}

/// The case of a line, if it is one.
fn listed(folder: &Path, line: &str) -> Option<io::Result<(String, Case)>> {
    let mut words = line.splitn(3, ' ');
    let (name, rows, group) = (words.next()?, words.next()?.parse().ok()?, words.next()?);
    let number = name.parse().ok()?;
    let source = contents(&folder.join("reading").join(name).with_extension("vfr"));
    Some(source.map(|source| (group.to_string(), Case { number, rows, source })))
}

/// The cases of resolving: `resolving/NUMBER.vfr`, in the order of their names. What is lent is what the program `resolve`
/// lends.
pub fn of_resolving(folder: &Path) -> io::Result<Vec<Case>> {
    let folder = folder.join("resolving");
    let entries = fs::read_dir(&folder).map_err(|error| fault(&folder, error))?;
    let mut paths: Vec<_> = entries.map(|entry| Ok(entry?.path())).collect::<io::Result<_>>()?;
    paths.sort();
    let numbered = |path: &Path| path.file_stem()?.to_str()?.parse().ok();
    let case = |path: &Path| match numbered(path) {
        Some(number) => Ok(Case { number, rows: PROGRAM_ROWS, source: contents(path)? }),
        None => Err(fault(path, "the name of a case is its number")),
    };
    paths.iter().filter(|path| path.extension().is_some_and(|end| end == "vfr")).map(|path| case(path)).collect()
}
