//! The library beside the reference: same sources, same run, both built for release.

#![forbid(unsafe_code)]

mod families;
mod inputs;
mod screens;

use families::families;
use inputs::{EXAMPLE, KINDS};
use reference::{Position, Walk, ROW};
use screens::{screens, Screen};
use std::hint::black_box;
use std::thread;
use std::time::{Duration, Instant};

const SAMPLES: usize = 31;
const SAMPLE: Duration = Duration::from_micros(300);
const KB: usize = 1024;

/// The sizes over which growth is told.
const SIZES: [usize; 3] = [4 * KB, 16 * KB, 64 * KB];

/// Medians in nanoseconds of one call of each.
fn medians<const N: usize>(mut calls: [&mut dyn FnMut(); N]) -> [f64; N] {
    let repeats: Vec<u32> = calls.iter_mut().map(|call| repeats(call)).collect();
    let mut samples = vec![[0.0; N]; SAMPLES];
    for sample in &mut samples {
        for (at, call) in calls.iter_mut().enumerate() {
            rest(call);
            sample[at] = timed(call, repeats[at]);
        }
    }
    std::array::from_fn(|at| {
        samples.sort_by(|one, other| one[at].total_cmp(&other[at]));
        samples[SAMPLES / 2][at]
    })
}

/// A pause, after which the scheduler of a busy machine lets a sample run undisturbed more often; then a warm cache.
fn rest(call: &mut dyn FnMut()) {
    thread::sleep(Duration::from_millis(1));
    call();
}

fn timed(call: &mut dyn FnMut(), repeats: u32) -> f64 {
    let start = Instant::now();
    for _ in 0..repeats {
        call();
    }
    start.elapsed().as_nanos() as f64 / f64::from(repeats)
}

/// How many calls make a sample.
fn repeats(call: &mut dyn FnMut()) -> u32 {
    let mut repeats = 1;
    while timed(call, repeats) * f64::from(repeats) < SAMPLE.as_nanos() as f64 {
        repeats *= 2;
    }
    repeats
}

/// The rows that a source needs, or 0.
fn need(source: &[u8]) -> usize {
    reference::read(source, 0).map_or_else(|refusal| refusal.need, |reading| reading.rows.len())
}

/// The times of reading by both and of the quick check by both.
struct Times {
    answer: u64,
    rows: usize,
    read: [f64; 2],
    quick: [f64; 2],
}

/// Both have to answer alike, so that they are timed on the same work.
fn times(source: &[u8], rows: usize) -> Times {
    let mut table = vec![0; ROW * rows];
    let answer = library::read(source, &mut table).number;
    assert_eq!(answer, reference::read(source, rows).map_or_else(|refusal| refusal.number, |_| 0));
    assert_eq!(library::quick_check(source), reference::quick_check(source));
    let [a, b, c, d] = medians([
        &mut || _ = black_box(library::read(black_box(source), &mut table)),
        &mut || _ = black_box(reference::read(black_box(source), rows)),
        &mut || _ = black_box(library::quick_check(black_box(source))),
        &mut || _ = black_box(reference::quick_check(black_box(source))),
    ]);
    Times { answer, rows, read: [a, b], quick: [c, d] }
}

fn pair(nanoseconds: [f64; 2], bytes: usize) -> String {
    let [library, reference] = nanoseconds.map(|time| time / bytes as f64);
    format!("{library:8.2} {reference:9.2} {:6.2}", library / reference)
}

fn line(name: &str, source: &[u8], rows: usize) {
    let times = times(source, rows);
    println!(
        "{name:38} {:6} {:6} {:6} | {} | {}",
        source.len(),
        times.rows,
        times.answer,
        pair(times.read, source.len()),
        pair(times.quick, source.len())
    );
}

fn table() {
    println!("Nanoseconds a byte, medians of {SAMPLES} samples. The table lent has just the rows needed unless the line says");
    println!("otherwise; the call itself clears or writes all of it, so nothing is cleared before. The reference makes its own rows.");
    println!();
    println!("{:60}| {:25} | {:25}", "", "read", "quick check");
    println!(
        "{:38} {:>6} {:>6} {:>6} | {:>8} {:>9} {:>6} | {:>8} {:>9} {:>6}",
        "source", "bytes", "lent", "answer", "library", "reference", "ratio", "library", "reference", "ratio"
    );
    line("document 01's example", EXAMPLE.as_bytes(), need(EXAMPLE.as_bytes()));
    line("the same, 512 rows lent", EXAMPLE.as_bytes(), 512);
    let realistic = (KINDS[0].build)(20 * KB);
    line("realistic, 20 KB", realistic.as_bytes(), need(realistic.as_bytes()));
    for kind in &KINDS {
        let source = (kind.build)(64 * KB);
        line(&format!("{}, 64 KB", kind.name), source.as_bytes(), need(source.as_bytes()));
    }
}

fn growth() {
    println!("\nGrowth: the library's nanoseconds a byte at 4, 16 and 64 KB, and the last over the first.\n");
    println!("{:38} | {:31} | {:31}", "", "read", "quick check");
    for kind in &KINDS {
        let by_size = SIZES.map(|size| {
            let source = (kind.build)(size);
            let times = times(source.as_bytes(), need(source.as_bytes()));
            [times.read[0], times.quick[0]].map(|time| time / source.len() as f64)
        });
        print!("{:38}", kind.name);
        for which in 0..2 {
            let [small, middle, large] = by_size.map(|times| times[which]);
            print!(" | {small:7.2} {middle:7.2} {large:7.2} {:7.2}", large / small);
        }
        println!();
    }
}

/// Resolving: the output lent is the longest.
fn resolving() {
    println!(
        "\nResolving, nanoseconds a byte of the source; 65,536 bytes of output are lent and cleared by the call.\n"
    );
    println!("{:38} {:>6} {:>6} | {:>8} {:>9} {:>6}", "source", "bytes", "answer", "library", "reference", "ratio");
    let longest = (KINDS[0].build)(54 * KB);
    resolve_line("realistic, 54 KB", longest.as_bytes());
    for kind in &KINDS {
        let source = (kind.build)(20 * KB);
        resolve_line(&format!("{}, 20 KB", kind.name), source.as_bytes());
    }
}

fn resolve_line(name: &str, source: &[u8]) {
    let rows = need(source);
    let (mut table, mut out) = (vec![0; ROW * rows], vec![0; reference::LONGEST]);
    let answer = library::resolve(source, &mut table, &mut out).number;
    assert_eq!(answer, reference::resolve(source, rows, out.len()).map_or_else(|refusal| refusal.number, |_| 0));
    let times =
        medians([&mut || _ = black_box(library::resolve(black_box(source), &mut table, &mut out)), &mut || {
            _ = black_box(reference::resolve(black_box(source), rows, reference::LONGEST))
        }]);
    println!("{name:38} {:6} {answer:6} | {}", source.len(), pair(times, source.len()));
}

/// How many tokens a walk met, and the sum of their lines and columns.
#[derive(PartialEq, Debug)]
struct Walked {
    tokens: u64,
    sum: u64,
}

/// A call for each token, by the rule that the header gives a caller.
fn library_walk(source: &[u8]) -> Walked {
    library::walk(source).fold(Walked { tokens: 0, sum: 0 }, |walked, token| Walked {
        tokens: walked.tokens + 1,
        sum: walked.sum + token.line + token.column,
    })
}

fn reference_walk(source: &[u8]) -> Walked {
    let mut walk = Walk::new(source);
    let mut walked = Walked { tokens: 0, sum: 0 };
    loop {
        let placed = walk.next_token();
        let Position { line, column } = placed.position;
        walked = Walked { tokens: walked.tokens + 1, sum: walked.sum + line + column };
        if placed.token.kind.is_last() {
            return walked;
        }
    }
}

/// The tokens of a source, each with its line and column. Both walks have to meet the same.
fn walking() {
    println!("\nWalking over all tokens, a call for each: nanoseconds a byte at 4, 16 and 64 KB, and the last over the first.\n");
    println!("{:38} {:>6} | {:31} | {:31} | {:>6}", "", "tokens", "library", "reference", "ratio");
    for kind in &KINDS {
        let by_size = SIZES.map(|size| {
            let source = (kind.build)(size);
            let source = source.as_bytes();
            let walked = library_walk(source);
            assert_eq!(walked, reference_walk(source));
            let times = medians([&mut || _ = black_box(library_walk(black_box(source))), &mut || {
                _ = black_box(reference_walk(black_box(source)))
            }]);
            (walked.tokens, times.map(|time| time / source.len() as f64))
        });
        print!("{:38} {:6}", kind.name, by_size[2].0);
        for which in 0..2 {
            let [small, middle, large] = by_size.map(|(_, times)| times[which]);
            print!(" | {small:7.2} {middle:7.2} {large:7.2} {:7.2}", large / small);
        }
        let [library, reference] = by_size[2].1;
        println!(" | {:6.2}", library / reference);
    }
}

/// Showing beside reading, and beside the reference. Both have to show the same.
fn showing() {
    println!("\nShowing, microseconds a call; as many rows and bytes are lent as there are rows.\n");
    println!(
        "{:44} {:>6} {:>6} {:>7} {:>6} | {:>9} {:>9} {:>6} | {:>9} {:>12}",
        "source", "bytes", "rows", "answers", "answer", "library", "reference", "ratio", "reading", "show to read"
    );
    screens().iter().for_each(show_line);
}

fn show_line(Screen { name, source, answers }: &Screen) {
    let source = source.as_bytes();
    let rows = need(source);
    let (mut table, mut other, mut out) = (vec![0; ROW * rows], vec![0; ROW * rows], vec![0; rows]);
    let answer = library::show(source, answers, &mut table, &mut out).number;
    match reference::show(source, answers, rows, rows) {
        Ok((_, bytes)) => assert_eq!((answer, &out), (0, &bytes), "{name}"),
        Err(refusal) => assert_eq!(answer, refusal.number, "{name}"),
    }
    let times = medians([
        &mut || _ = black_box(library::show(black_box(source), black_box(answers), &mut table, &mut out)),
        &mut || _ = black_box(reference::show(black_box(source), black_box(answers), rows, rows)),
        &mut || _ = black_box(library::read(black_box(source), &mut other)),
    ]);
    let [show, reference, read] = times.map(|nanoseconds| nanoseconds / 1000.0);
    println!(
        "{name:44} {:6} {rows:6} {:7} {answer:6} | {show:9.1} {reference:9.1} {:6.2} | {read:9.1} {:12.2}",
        source.len(),
        answers.len() / 2,
        show / reference,
        show / read
    );
}

fn main() {
    table();
    growth();
    resolving();
    showing();
    families();
    walking();
}
