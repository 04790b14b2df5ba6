//! `compare SECONDS [SEED]`: the library against the reference on every edit of one source, which takes
//! about twenty seconds, then on random sources and families of them for so long. It prints how often each call gave
//! each answer, how many tokens were compared, how many accepted numerics have no step, 0, 1 or another, how many rows
//! of screens were hidden, grey, both or neither, and which families were met; a run of at least a minute fails where
//! an answer that a call can give, a token, a sort of step or of families or a byte of a screen was never met, a
//! shorter one only says so.

#![forbid(unsafe_code)]

use compare::answers::answers;
use compare::check::{self, Answered, Shown, MOST_NUMBERS};
use compare::edits::every_edit;
use compare::families::{family, Family};
use compare::random::Random;
use compare::sources;
use compare::tally::{Call, Tally};
use library::ANSWER;
use reference::{Position, ROW, TABLE_REFUSAL, TEXT_REFUSAL};
use std::env;
use std::process::ExitCode;
use std::time::{Duration, Instant, SystemTime, UNIX_EPOCH};

/// The seconds from which on every answer has to be met; the gate's run is as long.
const WHOLE_RUN: u64 = 60;

/// One family for so many sources.
const FAMILY: usize = 6;

/// How long a source that fails is made shorter.
const SHRINKING: Duration = Duration::from_secs(20);

fn seconds_and_seed() -> Option<(u64, u64)> {
    let mut words = env::args().skip(1);
    let seconds = words.next()?.parse().ok()?;
    let seed = match words.next() {
        Some(word) => word.parse().ok()?,
        None => SystemTime::now().duration_since(UNIX_EPOCH).ok()?.as_secs(),
    };
    Some((seconds, seed))
}

/// The rows that a source needs, if it passes stages 1 to 5.
fn need(source: &[u8]) -> Option<usize> {
    reference::read(source, 0).err().filter(|refusal| refusal.number == TABLE_REFUSAL).map(|refusal| refusal.need)
}

/// Lengths of tables: none, odd ones, one number or one row short, exact, and more than enough.
fn table_lengths(source: &[u8], random: &mut Random) -> Vec<usize> {
    let Some(need) = need(source) else {
        return vec![[0, ROW, random.below(100)][random.below(3)]];
    };
    let exact = ROW * need;
    let short = [0, random.between(1, 2 * ROW), exact - 1, exact - ROW, random.below(exact)][random.below(5)];
    let enough = [exact, exact + random.between(1, ROW - 1), exact + random.between(ROW, 200)][random.below(3)];
    vec![enough, short]
}

/// What is compared on one source, with the lengths of what is lent: of tables, outputs, answers and tokens.
#[derive(Clone, Debug)]
enum Check {
    Quick,
    Read { table: usize, answer: usize },
    Resolve { table: usize, out: usize, answer: usize },
    Show { answers: Vec<u64>, table: usize, out: usize, answer: usize },
    Walk,
    Token { at: usize, position: Position, token: usize },
}

/// What a check met.
enum Outcome {
    Answer(Call, Answered),
    Screen(Shown),
    Tokens(Vec<u64>),
    Nothing,
}

/// What a check met, or how the two differ.
fn outcome(source: &[u8], check: &Check) -> Result<Outcome, String> {
    let of = |call| move |answered| Outcome::Answer(call, answered);
    match *check {
        Check::Quick => check::quick(source).map(of(Call::Quick)),
        Check::Read { table, answer } => check::reading(source, table, answer).map(of(Call::Reading)),
        Check::Resolve { table, out, answer } => check::resolving(source, table, out, answer).map(of(Call::Resolving)),
        Check::Show { ref answers, table, out, answer } => {
            check::showing(source, answers, table, out, answer).map(Outcome::Screen)
        }
        Check::Walk => check::walk(source).map(Outcome::Tokens),
        Check::Token { at, position, token } => check::token(source, at, position, token).map(|()| Outcome::Nothing),
    }
}

/// All calls, with answers that have room for all; and now and then with answers and tokens of any length. A source that
/// passes stages 1 to 5 is shown more often, with other answers to its questions.
fn checks(source: &[u8], random: &mut Random) -> Vec<Check> {
    let lengths = table_lengths(source, random);
    let mut checks = vec![Check::Quick, Check::Walk];
    for &table in &lengths {
        let out = output_length(source, random);
        checks.push(Check::Read { table, answer: random.between(ANSWER, MOST_NUMBERS) });
        checks.push(Check::Resolve { table, out, answer: random.between(ANSWER, MOST_NUMBERS) });
    }
    let shows = if lengths.len() > 1 { 3 } else { 1 };
    checks.extend((0..shows).map(|at| show_check(source, lengths[at % lengths.len()], random)));
    if random.once_in(8) {
        let (table, out) = (lengths[random.below(lengths.len())], output_length(source, random));
        checks.push(Check::Read { table, answer: random.between(0, MOST_NUMBERS) });
        checks.push(Check::Resolve { table, out, answer: random.between(0, MOST_NUMBERS) });
    }
    if random.once_in(4) {
        checks.extend((0..3).map(|_| token_check(source, random)));
    }
    checks
}

/// Showing with a table of this length and an answer of any, and as many bytes as rows, one fewer, none, more or any.
fn show_check(source: &[u8], table: usize, random: &mut Random) -> Check {
    let reading = reference::read(source, usize::MAX).ok();
    let rows = reading.as_ref().map_or(random.below(100), |reading| reading.rows.len());
    let answers = answers(reading.map_or_else(Vec::new, |reading| reading.question_numbers()), random);
    let out = match random.below(10) {
        0 => 0,
        1 => rows.saturating_sub(1),
        2 => random.below(rows + 1),
        3..=5 => rows + random.between(1, 100),
        _ => rows,
    };
    Check::Show { answers, table, out, answer: random.between(0, MOST_NUMBERS) }
}

/// The token from any place on, an LF or the length or past it now and then, with any line and column.
fn token_check(source: &[u8], random: &mut Random) -> Check {
    let within = random.below(source.len() + 1);
    let at = match random.below(10) {
        0 => source.len(),
        1 => source.len().saturating_add(random.between(1, 100)),
        2 => usize::MAX - random.below(100),
        3..=5 => within + source[within..].iter().position(|&byte| byte == b'\n').unwrap_or(0),
        _ => within,
    };
    let position = Position { line: any_count(random), column: any_count(random) };
    Check::Token { at, position, token: random.between(0, MOST_NUMBERS) }
}

/// A line or column: small, near 2^64 - 1, or any.
fn any_count(random: &mut Random) -> u64 {
    match random.below(5) {
        0 => random.number(),
        1 => u64::MAX - random.below(300) as u64,
        2 => u64::MAX - random.below(2) as u64,
        _ => random.below(300) as u64,
    }
}

/// The length of an output: none, a byte short, exact, more than enough, or any.
fn output_length(source: &[u8], random: &mut Random) -> usize {
    let need = match reference::resolve(source, usize::MAX, 0) {
        Err(refusal) if refusal.number == TEXT_REFUSAL => refusal.need,
        _ => return random.below(200),
    };
    match random.below(6) {
        0 => 0,
        1 => need - 1,
        2 => need + random.between(1, 300),
        3 => random.below(need),
        _ => need,
    }
}

/// A source that fails a check, and until when shorter ones are tried.
struct Shrinking {
    source: Vec<u8>,
    check: Check,
    until: Instant,
}

impl Shrinking {
    /// Takes a run out, if the check still fails; answers that.
    fn take_out(&mut self, start: usize, end: usize) -> bool {
        if Instant::now() > self.until {
            return false;
        }
        let shorter = [&self.source[..start], &self.source[end..]].concat();
        let fails = outcome(&shorter, &self.check).is_err();
        if fails {
            self.source = shorter;
        }
        fails
    }

    fn without_bytes(&mut self) {
        let mut run = self.source.len().div_ceil(2);
        while run > 0 {
            let mut at = 0;
            while at < self.source.len() {
                let end = (at + run).min(self.source.len());
                if !self.take_out(at, end) {
                    at += run;
                }
            }
            run /= 2;
        }
    }

    fn without_statements(&mut self) {
        let mut start = 0;
        while start < self.source.len() {
            let ends = (start..self.source.len()).rev().filter(|&at| self.source[at] == b';').collect::<Vec<_>>();
            if !ends.into_iter().any(|end| self.take_out(start, end + 1)) {
                let next = self.source[start..].iter().position(|&byte| byte == b';');
                start += next.map_or(self.source.len(), |at| at + 1);
            }
        }
    }
}

/// A shorter source that fails the same check: runs of bytes, then runs of statements are taken out.
fn shrunk(source: &[u8], check: &Check) -> Vec<u8> {
    let mut least = Shrinking { source: source.to_vec(), check: check.clone(), until: Instant::now() + SHRINKING };
    loop {
        let before = least.source.len();
        least.without_bytes();
        least.without_statements();
        if least.source.len() == before {
            return least.source;
        }
    }
}

fn report(seed: u64, source: &[u8], check: &Check) {
    let least = shrunk(source, check);
    println!("DISAGREEMENT at seed {seed}, {check:?}, source of {} bytes, shortened to {}:", source.len(), least.len());
    println!("{}", least.escape_ascii());
    println!("{}", outcome(&least, check).err().unwrap_or_default());
}

/// A family of fewer sources that fails the same check.
fn fewer_sources(family: &Family, answer: usize) -> Family {
    let fails = |fewer: &Family| check::family(fewer, answer).is_err();
    let mut least = family.clone();
    let mut at = 0;
    while at < least.ends.len() {
        match least.without(at).filter(fails) {
            Some(fewer) => least = fewer,
            None => at += 1,
        }
    }
    least
}

fn report_family(seed: u64, family: &Family, answer: usize, fault: &str) {
    let least = fewer_sources(family, answer);
    let fault = check::family(&least, answer).err().unwrap_or(fault.to_string());
    let Family { buffer, ends, table_len, answers_len } = least;
    println!("DISAGREEMENT at seed {seed}, a family of {} sources, of which these are left:", family.ends.len());
    println!("{}", buffer.escape_ascii());
    println!("ends {ends:?}, lent {table_len} numbers for rows, {answers_len} for answers, {answer} for the answer");
    println!("{fault}");
}

/// What was compared.
#[derive(Default)]
struct Run {
    sources: u64,
    families: u64,
    bytes: u64,
    checks: u64,
    tally: Tally,
}

impl Run {
    /// Compares on one source, for which the random numbers choose the buffers. Answers whether all agrees.
    fn compare(&mut self, seed: u64, source: &[u8], random: &mut Random) -> bool {
        self.sources += 1;
        self.bytes += source.len() as u64;
        for check in checks(source, random) {
            self.checks += 1;
            match outcome(source, &check) {
                Ok(Outcome::Answer(call, answered)) => self.note(source, call, answered),
                Ok(Outcome::Screen(Shown { answered, bytes })) => {
                    self.note(source, Call::Showing, answered);
                    self.tally.note_screen(&bytes);
                }
                Ok(Outcome::Tokens(classes)) => self.tally.note_tokens(&classes),
                Ok(Outcome::Nothing) => {}
                Err(_) => {
                    report(seed, source, &check);
                    return false;
                }
            }
        }
        true
    }

    /// Notes what a call met; where a source is resolved, so that rows and text agree, also the steps of its numerics.
    fn note(&mut self, source: &[u8], call: Call, answered: Answered) {
        self.tally.note(call, answered.met);
        if call == Call::Reading && answered.line > 1 {
            self.tally.note(Call::ReadingLater, answered.met);
        }
        if call == Call::Resolving && answered.met.is_accepted() {
            self.tally.note_steps(source);
        }
    }

    /// Compares on a random family. Answers whether all agrees.
    fn compare_family(&mut self, seed: u64, random: &mut Random) -> bool {
        let family = family(random);
        let answer = random.between(0, MOST_NUMBERS);
        self.families += 1;
        let agreed = check::family(&family, answer).and_then(|read| self.tally.note_family(&family, &read));
        agreed.inspect_err(|fault| report_family(seed, &family, answer, fault)).is_ok()
    }

    /// Every edit of one source.
    fn compare_edits(&mut self, seed: u64) -> bool {
        let mut random = Random::new(seed);
        let mut good = true;
        every_edit(|source| good = good && self.compare(seed, source, &mut random));
        good
    }

    /// Random sources, and families now and then, for so many seconds.
    fn compare_random(&mut self, first: u64, seconds: u64) -> bool {
        let start = Instant::now();
        let mut seed = first;
        let mut good = true;
        while good && start.elapsed() < Duration::from_secs(seconds) {
            let mut random = Random::new(seed.wrapping_mul(0x2545_f491_4f6c_dd1d));
            let source = sources::source(&mut random);
            good = self.compare(seed, &source, &mut random);
            if random.once_in(FAMILY) {
                good = good && self.compare_family(seed, &mut random);
            }
            seed += 1;
        }
        good
    }

    /// Prints the tally; answers whether the run, if it was long enough, met all that it should.
    fn print(&self, seconds: u64) -> bool {
        let Run { sources, bytes, checks, families, .. } = self;
        println!("{sources} sources of {bytes} bytes, {checks} checks, {families} families, no disagreement");
        println!("{}", self.tally);
        let missing = self.tally.missing();
        let is_whole = seconds >= WHOLE_RUN;
        let weight = if is_whole { "NEVER MET" } else { "not met (a run of a minute or more would fail)" };
        missing.iter().for_each(|what| println!("{weight}: {what}"));
        missing.is_empty() || !is_whole
    }
}

fn main() -> ExitCode {
    let Some((seconds, seed)) = seconds_and_seed() else {
        eprintln!("compare SECONDS [SEED]");
        return ExitCode::from(2);
    };
    println!("seed {seed}");
    let mut run = Run::default();
    if run.compare_edits(seed) && run.compare_random(seed, seconds) && run.print(seconds) {
        ExitCode::SUCCESS
    } else {
        ExitCode::FAILURE
    }
}
