//! Document 02, W-204: the size of a numeric's numbers, how they are shown, and their order.

use std::ops::RangeInclusive;

/// How numbers are shown, in the order of the displays' numbers.
#[derive(Clone, Copy, PartialEq, Eq, Debug)]
pub enum Display {
    IntDec,
    UintDec,
    UintHex,
}

/// How many bytes a numeric's numbers have, and how they are shown.
#[derive(Clone, Copy, PartialEq, Eq, Debug)]
pub struct Format {
    pub size: u32,
    pub display: Display,
}

impl Format {
    /// What absent words mean, each by itself.
    pub const ABSENT: Format = Format { size: 8, display: Display::UintDec };

    /// As a row holds it.
    pub fn cell(self) -> u64 {
        u64::from(self.size) * 4 + self.display as u64
    }

    /// What a numeric's row holds.
    pub fn of_cell(cell: u64) -> Self {
        let display = match cell % 4 {
            0 => Display::IntDec,
            1 => Display::UintDec,
            _ => Display::UintHex,
        };
        Format { size: (cell / 4) as u32, display }
    }

    /// The words for it: size, then display.
    pub fn words(self) -> [String; 2] {
        let display = match self.display {
            Display::IntDec => "DISPLAY_INT_DEC",
            Display::UintDec => "DISPLAY_UINT_DEC",
            Display::UintHex => "DISPLAY_UINT_HEX",
        };
        [format!("NUMERIC_SIZE_{}", self.size), display.to_string()]
    }

    /// The numbers that fit the size. Signed ones are written in two's complement, so that they have the same range.
    pub fn range(self) -> RangeInclusive<u64> {
        0..=u64::MAX >> (64 - 8 * self.size)
    }

    /// What a number that fits the size stands for: below zero, where it is shown as signed and its highest bit is set.
    pub fn meaning(self, number: u64) -> i128 {
        let bits = 8 * self.size;
        let is_negative = self.display == Display::IntDec && number >> (bits - 1) == 1;
        i128::from(number) - if is_negative { 1 << bits } else { 0 }
    }
}
