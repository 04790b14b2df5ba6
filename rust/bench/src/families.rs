//! Families: one call beside a call for each source.

use crate::inputs::{in_form, KINDS};
use crate::{medians, need};
use library::FAMILY_ANSWER;
use reference::{read_family, MOST_SOURCES, ROW};
use std::hint::black_box;

/// The most rows that a buffer of sources can have, for it has no more bytes.
const MOST_ROWS: usize = reference::LONGEST;

/// Sources joined, where each ends, and the rows that each needs.
struct Family {
    sources: Vec<String>,
    buffer: Vec<u8>,
    ends: Vec<u64>,
    needs: Vec<usize>,
}

impl Family {
    fn of(sources: Vec<String>) -> Self {
        let end = |length: &mut u64, source: &String| {
            *length += source.len() as u64;
            Some(*length)
        };
        let ends = sources.iter().scan(0, end).collect();
        let needs = sources.iter().map(|source| need(source.as_bytes())).collect();
        Family { buffer: sources.concat().into_bytes(), ends, needs, sources }
    }

    /// A call for each source, with just the rows that it needs.
    fn each_with_its_own(&self, table: &mut [u64]) {
        let mut at = 0;
        for (source, need) in self.sources.iter().zip(&self.needs) {
            let rows = &mut table[at..at + ROW * need];
            black_box(library::read(black_box(source.as_bytes()), rows));
            at += ROW * need;
        }
    }

    /// A call for each source, with all rows that are left: what a caller does who does not know what each needs.
    fn each_with_the_rest(&self, table: &mut [u64]) {
        let mut at = 0;
        for source in &self.sources {
            let answer = library::read(black_box(source.as_bytes()), &mut table[at..]);
            at += if answer.number == 0 { ROW * answer.rows as usize } else { 0 };
        }
    }
}

/// One form as set-up menus have it, with names of its own.
fn realistic(at: usize) -> String {
    (KINDS[0].build)(1_600).replace("Fan", &format!("Fan{at}"))
}

/// A source of 1,000 bytes whose last token is the first that is wrong.
fn refused_late(_: usize) -> String {
    let good = in_form(1_000, |at| format!("  label {at};\n  subtitle text = STRING_TOKEN({at});\n"));
    let bad = format!("{},\n", good.trim_end_matches(";\n"));
    format!("{bad:>1000}")
}

/// Both have to answer alike, with all rows and all answers.
fn assert_alike(family: &Family, rows: usize) {
    let Family { sources, buffer, ends, .. } = family;
    let (mut table, mut answers) = (vec![0; ROW * rows], vec![0; FAMILY_ANSWER * sources.len()]);
    let answer = library::read_family(buffer, ends, &mut table, &mut answers);
    let read = read_family(buffer, ends, rows, sources.len()).expect("a family that is accepted");
    assert_eq!((answer.number, answer.rows), (0, read.rows.len() as u64));
    assert_eq!(answers, read.answers.as_flattened());
    assert_eq!(table[..ROW * read.rows.len()], *read.rows.as_flattened());
}

fn line(name: &str, family: &Family, rows: usize) {
    assert_alike(family, rows);
    let Family { sources, buffer, ends, .. } = family;
    let mut tables = [(); 3].map(|()| vec![0; ROW * rows]);
    let [one, own, rest] = &mut tables;
    let mut answers = vec![0; FAMILY_ANSWER * sources.len()];
    let times = medians([
        &mut || _ = black_box(library::read_family(black_box(buffer), black_box(ends), one, &mut answers)),
        &mut || family.each_with_its_own(own),
        &mut || family.each_with_the_rest(rest),
        &mut || _ = black_box(read_family(black_box(buffer), black_box(ends), rows, sources.len())),
    ]);
    let [one, own, rest, reference] = times.map(|nanoseconds| nanoseconds / 1000.0);
    println!(
        "{name:38} {:6} {rows:6} | {one:9.1} | {own:9.1} {:6.2} | {rest:9.1} {:6.2} | {reference:9.1} {:6.2}",
        buffer.len(),
        one / own,
        one / rest,
        one / reference
    );
}

/// Reading a family in one call, beside a call for each source with just the rows that it needs, a call for each with
/// all rows that are left, and the reference.
pub fn families() {
    println!("\nA family, microseconds for all sources. Beside the one call: a call for each source, with just its");
    println!("own rows or with all rows that are left; the reference's one call. Ratios: the one call over these.\n");
    println!(
        "{:38} {:>6} {:>6} | {:>9} | {:>9} {:>6} | {:>9} {:>6} | {:>9} {:>6}",
        "sources", "bytes", "lent", "one call", "own rows", "ratio", "rows left", "ratio", "reference", "ratio"
    );
    let menus = Family::of((0..40).map(realistic).collect());
    let refused = Family::of((0..MOST_SOURCES).map(refused_late).collect());
    for (name, family) in [("40 realistic", &menus), ("64 refused at the last token", &refused)] {
        line(name, family, family.needs.iter().sum());
        line("the same, 65,536 rows lent", family, MOST_ROWS);
    }
}
