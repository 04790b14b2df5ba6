//! Document 01, section "Rows": columns and codes; the last column is that of document 02's W-204.

/// How many numbers a row has.
pub const ROW: usize = 13;

pub type Row = [u64; ROW];

/// Where a row holds what.
pub mod column {
    pub const CODE: usize = 0;
    pub const PARENT: usize = 1;
    pub const NUMBER: usize = 2;
    pub const FIRST: usize = 3;
    pub const SECOND: usize = 4;
    pub const FLAGS: usize = 5;
    pub const A: usize = 6;
    pub const B: usize = 7;
    pub const C: usize = 8;
    pub const D: usize = 9;
    pub const NAME: usize = 10;
    pub const PLACE: usize = 11;
    /// Of a numeric: its size times 4 plus its display.
    pub const SIZE: usize = 12;
}

pub mod code {
    pub const FORM: u64 = 0x01;
    pub const SUBTITLE: u64 = 0x02;
    pub const TEXT: u64 = 0x03;
    pub const ONEOF: u64 = 0x05;
    pub const CHECKBOX: u64 = 0x06;
    pub const NUMERIC: u64 = 0x07;
    pub const OPTION: u64 = 0x09;
    pub const SUPPRESSIF: u64 = 0x0A;
    pub const FORMSET: u64 = 0x0E;
    pub const GOTO: u64 = 0x0F;
    pub const AND: u64 = 0x15;
    pub const OR: u64 = 0x16;
    pub const NOT: u64 = 0x17;
    pub const RULE: u64 = 0x18;
    pub const GRAYOUTIF: u64 = 0x19;
    pub const DISABLEIF: u64 = 0x1E;
    pub const EQUAL: u64 = 0x2F;
    pub const NOT_EQUAL: u64 = 0x30;
    pub const GREATER: u64 = 0x31;
    pub const GREATER_EQUAL: u64 = 0x32;
    pub const LESS: u64 = 0x33;
    pub const LESS_EQUAL: u64 = 0x34;
    pub const BIT_AND: u64 = 0x35;
    pub const BIT_OR: u64 = 0x36;
    pub const SHIFT_LEFT: u64 = 0x38;
    pub const SHIFT_RIGHT: u64 = 0x39;
    pub const ADD: u64 = 0x3A;
    pub const SUBTRACT: u64 = 0x3B;
    pub const MULTIPLY: u64 = 0x3C;
    pub const DIVIDE: u64 = 0x3D;
    pub const REMAINDER: u64 = 0x3E;
    pub const RULEREF: u64 = 0x3F;
    pub const QUESTIONREF: u64 = 0x40;
    pub const NUMBER: u64 = 0x45;
    pub const TRUE: u64 = 0x46;
    pub const FALSE: u64 = 0x47;
    pub const ZERO: u64 = 0x52;
    pub const ONE: u64 = 0x53;
    pub const ONES: u64 = 0x54;
    pub const UNDEFINED: u64 = 0x55;
    pub const LABEL: u64 = 0x5F;
}

pub mod flag {
    pub const READ_ONLY: u64 = 1;
    pub const INTERACTIVE: u64 = 4;
    pub const RESET_REQUIRED: u64 = 16;
    /// Of an option.
    pub const DEFAULT: u64 = 16;
    /// Of a question that writes `default`.
    pub const WRITTEN_DEFAULT: u64 = 256;
}

/// A row with its code, parent and place; the rest is 0.
pub fn row(code: u64, parent: usize, place: usize) -> Row {
    let mut row = [0; ROW];
    row[column::CODE] = code;
    row[column::PARENT] = parent as u64;
    row[column::PLACE] = place as u64;
    row
}

/// The level of a binary operator, 1 for the loosest.
pub fn level(code: u64) -> Option<u8> {
    use code::*;
    Some(match code {
        OR => 1,
        AND => 2,
        BIT_OR => 3,
        BIT_AND => 4,
        EQUAL | NOT_EQUAL => 5,
        LESS | LESS_EQUAL | GREATER | GREATER_EQUAL => 6,
        SHIFT_LEFT | SHIFT_RIGHT => 7,
        ADD | SUBTRACT => 8,
        MULTIPLY | DIVIDE | REMAINDER => 9,
        _ => return None,
    })
}
