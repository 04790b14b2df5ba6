//! Random answers to the questions of a source, good and bad.

use crate::random::Random;

/// A question's number and its value.
type Answer = [u64; 2];

/// Answers to some of the questions that bear these numbers, at fault now and then.
pub fn answers(mut numbers: Vec<u64>, random: &mut Random) -> Vec<u64> {
    numbers.sort_unstable();
    let rarity = [1, 8, 2][random.below(3)];
    numbers.retain(|_| rarity == 1 || !random.once_in(rarity));
    let mut answers: Vec<Answer> = numbers.into_iter().map(|number| [number, value(random)]).collect();
    let faults = if random.once_in(3) { random.between(1, 2) } else { 0 };
    for _ in 0..faults {
        damage(&mut answers, random);
    }
    let mut words = answers.into_flattened();
    if faults > 0 && random.once_in(3) {
        odd_word(&mut words, random);
    }
    words
}

/// Small ones, those at which operators turn, or any.
fn value(random: &mut Random) -> u64 {
    match random.below(10) {
        0..=3 => random.below(4) as u64,
        4 => 62 + random.below(4) as u64,
        5 => 1 << random.below(64),
        6 => u64::MAX - random.below(3) as u64,
        7 => random.number(),
        _ => 1,
    }
}

/// A number that questions seldom bear: near one of them, past all, or 0.
fn unknown(near: u64, random: &mut Random) -> u64 {
    match random.below(6) {
        0 => 0,
        1 => near + 65_536,
        2 => near | 1 << 32,
        3 => u64::MAX - random.below(2) as u64,
        4 => 65_536,
        _ => near + 1,
    }
}

/// An answer repeated, moved, or under another number.
fn damage(answers: &mut Vec<Answer>, random: &mut Random) {
    if answers.is_empty() {
        return answers.push([unknown(0, random), value(random)]);
    }
    let at = random.below(answers.len());
    let other = random.below(answers.len());
    let near = answers[at][0];
    match random.below(5) {
        0 => answers.insert(at, answers[at]),
        1 => answers.swap(at, other),
        2 => answers.insert(at, [near, value(random)]),
        3 => answers[at][0] = unknown(near, random),
        _ => answers.insert(at + 1, [unknown(near, random), value(random)]),
    }
}

/// One word more, or one fewer.
fn odd_word(words: &mut Vec<u64>, random: &mut Random) {
    if random.once_in(2) {
        words.push(random.below(70_000) as u64);
    } else {
        words.pop();
    }
}
