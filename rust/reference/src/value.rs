//! Document 02, W-202: values and what operators make of them.

use crate::row::code;

/// What an expression is worth.
#[derive(Clone, Copy, PartialEq, Eq, Debug)]
pub enum Value {
    Truth(bool),
    Number(u64),
    Undefined,
}

/// `NOT` is logic: undefined on what is no boolean.
pub fn not(operand: Value) -> Value {
    match operand {
        Value::Truth(truth) => Value::Truth(!truth),
        Value::Number(_) | Value::Undefined => Value::Undefined,
    }
}

/// A binary operator. With an undefined operand, or operands of two sorts, every operator is undefined.
pub fn operate(operator: u64, left: Value, right: Value) -> Value {
    match (left, right) {
        (Value::Truth(left), Value::Truth(right)) => on_booleans(operator, left, right),
        (Value::Number(left), Value::Number(right)) => on_numbers(operator, left, right),
        _ => Value::Undefined,
    }
}

/// Logic and equality; arithmetic, bits and order are undefined on booleans.
fn on_booleans(operator: u64, left: bool, right: bool) -> Value {
    Value::Truth(match operator {
        code::AND => left && right,
        code::OR => left || right,
        code::EQUAL => left == right,
        code::NOT_EQUAL => left != right,
        _ => return Value::Undefined,
    })
}

/// Arithmetic, bits, order and equality; logic is undefined on numbers.
fn on_numbers(operator: u64, left: u64, right: u64) -> Value {
    let truth = match operator {
        code::EQUAL => left == right,
        code::NOT_EQUAL => left != right,
        code::LESS => left < right,
        code::LESS_EQUAL => left <= right,
        code::GREATER => left > right,
        code::GREATER_EQUAL => left >= right,
        _ => return number(operator, left, right).map_or(Value::Undefined, Value::Number),
    };
    Value::Truth(truth)
}

/// Sums, differences, products and left shifts keep their low 64 bits; a zero divisor gives nothing; a shift by 64 or more
/// gives 0.
fn number(operator: u64, left: u64, right: u64) -> Option<u64> {
    let wide = |number: u64| u128::from(number);
    Some(match operator {
        code::ADD => (wide(left) + wide(right)) as u64,
        code::SUBTRACT => ((1 << 64) + wide(left) - wide(right)) as u64,
        code::MULTIPLY => (wide(left) * wide(right)) as u64,
        code::DIVIDE => return left.checked_div(right),
        code::REMAINDER => return left.checked_rem(right),
        code::BIT_AND => left & right,
        code::BIT_OR => left | right,
        code::SHIFT_LEFT | code::SHIFT_RIGHT if right >= 64 => 0,
        code::SHIFT_LEFT => (wide(left) << right) as u64,
        code::SHIFT_RIGHT => left >> right,
        _ => return None,
    })
}
