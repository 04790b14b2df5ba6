//! Numerics: sizes and displays among their flags in any order, and limits about the borders of each size.

use super::{Fault, Sort, Writer, FLAGS};

const SIZES: [(&str, u32); 4] =
    [("NUMERIC_SIZE_1", 1), ("NUMERIC_SIZE_2", 2), ("NUMERIC_SIZE_4", 4), ("NUMERIC_SIZE_8", 8)];

const SIGNED: &str = "DISPLAY_INT_DEC";

const DISPLAYS: [&str; 3] = [SIGNED, "DISPLAY_UINT_DEC", "DISPLAY_UINT_HEX"];

/// What a numeric's words say of its numbers.
#[derive(Clone, Copy)]
struct Format {
    /// The greatest that fits.
    most: u64,
    is_signed: bool,
}

impl Format {
    /// By the first size and the first display among these words.
    fn of(words: &[&str]) -> Self {
        let size = words.iter().find_map(|word| SIZES.iter().find(|(size, _)| size == word));
        let display = words.iter().find(|word| DISPLAYS.contains(word));
        Format {
            most: size.map_or(u64::MAX, |(_, bytes)| u64::MAX >> (64 - 8 * bytes)),
            is_signed: display == Some(&SIGNED),
        }
    }

    /// The least number below zero: the highest bit alone.
    fn least(self) -> u64 {
        self.most / 2 + 1
    }

    /// A number's rank among those that fit, from 0; or the number that has the rank. Signed ones begin with the least.
    fn ranked(self, number: u64) -> u64 {
        if self.is_signed {
            number ^ self.least()
        } else {
            number
        }
    }

    /// The number so many past another, or before it, after the greatest the least.
    fn past(self, number: u64, distance: i64) -> u64 {
        number.wrapping_add_signed(distance) & self.most
    }
}

impl Writer<'_> {
    /// A size or a display.
    pub(super) fn numeric_word(&mut self) -> &'static str {
        if self.random.once_in(2) {
            SIZES[self.random.below(SIZES.len())].0
        } else {
            self.random.pick(&DISPLAYS)
        }
    }

    pub(super) fn numeric(&mut self) {
        self.push("numeric");
        self.head(Sort::Number);
        self.push(",");
        let format = self.numeric_flags();
        let [minimum, maximum, default] = self.limits(format);
        self.setting("minimum", minimum, format);
        self.setting("maximum", maximum, format);
        if self.random.once_in(2) {
            let step = self.near_border(format);
            self.setting("step", step, format);
        }
        if self.random.once_in(2) {
            self.setting("default", default, format);
        }
        self.phrase("endnumeric ;");
    }

    /// [`flags =` FL `,`] of a numeric, its words in any order; answers what they say.
    fn numeric_flags(&mut self) -> Format {
        let mut words: Vec<&str> = (0..self.random.below(3)).map(|_| self.random.pick(&FLAGS)).collect();
        if self.random.once_in(2) {
            words.push(SIZES[self.random.below(SIZES.len())].0);
        }
        if self.random.once_in(2) {
            words.push(if self.random.once_in(2) { SIGNED } else { self.random.pick(&DISPLAYS) });
        }
        while self.slips(Fault::SecondWord) {
            words.push(self.numeric_word());
        }
        words.sort_by_cached_key(|_| self.random.number());
        if !words.is_empty() {
            self.phrase(&format!("flags = {} ,", words.join(" | ")));
        }
        Format::of(&words)
    }

    /// Minimum, maximum and default that go together, if no fault is wanted.
    fn limits(&mut self, format: Format) -> [u64; 3] {
        let [one, other] = [(); 2].map(|()| format.ranked(self.near_border(format)));
        let (low, high) = (one.min(other), one.max(other));
        let default = self.value(low, high);
        let [mut low, mut high, mut default] = [low, high, default].map(|rank| format.ranked(rank));
        if self.slips(Fault::Choice) {
            match self.random.below(3) {
                0 => std::mem::swap(&mut low, &mut high),
                1 => default = format.past(low, -1),
                _ => default = format.past(high, 1),
            }
        }
        [low, high, default]
    }

    /// A number that fits, often near to 0, to the greatest of all or to the least below zero.
    fn near_border(&mut self, format: Format) -> u64 {
        let border = match self.random.below(4) {
            0 => 0,
            1 => format.least(),
            _ => return self.value(0, format.most),
        };
        let distance = self.random.below(7) as i64 - 3;
        format.past(border, distance)
    }

    /// A numeric's number, or one over its size.
    fn setting(&mut self, word: &str, value: u64, format: Format) {
        self.push(word);
        self.push("=");
        if format.most < u64::MAX && self.slips(Fault::Size) {
            let over = self.value(format.most + 1, u64::MAX);
            self.number(over, 0, u64::MAX);
        } else {
            self.number(value, 0, u64::MAX);
        }
        self.push(",");
    }
}
