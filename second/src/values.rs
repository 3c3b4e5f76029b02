//! What a run works with, and the operations on it.

use crate::tree::Infix;

#[derive(Clone, Copy, Debug, PartialEq)]
pub enum Value {
    Int(i32),
    Float(f64),
    Bool(bool),
    Unit,
    /// The birth number of a cell, which may be long gone.
    Ref(u64),
}

/// How every float that is no number is reported.
const NO_NUMBER: u64 = 0x7FF8_0000_0000_0000;

impl Value {
    /// The number a report gives for this value; of a float its 64 bits.
    pub fn code(self) -> i64 {
        match self {
            Value::Int(int) => i64::from(int),
            Value::Float(float) if float.is_nan() => NO_NUMBER as i64,
            Value::Float(float) => float.to_bits() as i64,
            Value::Bool(truth) => i64::from(truth),
            Value::Unit => 0,
            Value::Ref(birth) => birth as i64,
        }
    }
}

/// The value of a float number: all its digits as one whole number, divided
/// once. Both are below 2 to the 53rd, so neither is rounded before.
pub fn float(digits: &[u8], after_point: usize) -> f64 {
    let whole = digits
        .iter()
        .fold(0u64, |whole, digit| whole * 10 + u64::from(digit - b'0'));
    let power = 10u64.pow(after_point as u32);
    whole as f64 / power as f64
}

/// The result of a mark between two numbers, or the number of the stop.
pub fn operate(mark: Infix, left: Value, right: Value) -> Result<Value, u32> {
    match (left, right) {
        (Value::Int(left), Value::Int(right)) => ints(mark, i64::from(left), i64::from(right)),
        (Value::Float(left), Value::Float(right)) => Ok(floats(mark, left, right)),
        _ => unreachable!("the checker lets no other operands through"),
    }
}

/// Works in 64 bits, where none of these can leave the range, and only then
/// asks whether the result is one of 32 bits.
fn ints(mark: Infix, left: i64, right: i64) -> Result<Value, u32> {
    match mark {
        Infix::Plus => in_range(left + right),
        Infix::Minus => in_range(left - right),
        Infix::Times => in_range(left * right),
        Infix::Over if right == 0 => Err(53),
        Infix::Over => in_range(left / right),
        Infix::Less => Ok(Value::Bool(left < right)),
        Infix::Same => Ok(Value::Bool(left == right)),
        _ => unreachable!("not a mark between ints"),
    }
}

/// An int of 32 bits, or stop 52.
pub fn in_range(result: i64) -> Result<Value, u32> {
    i32::try_from(result).map(Value::Int).map_err(|_| 52)
}

/// Each is one operation of 64 bits, rounded once; no result of them stops.
fn floats(mark: Infix, left: f64, right: f64) -> Value {
    match mark {
        Infix::Plus => Value::Float(left + right),
        Infix::Minus => Value::Float(left - right),
        Infix::Times => Value::Float(left * right),
        Infix::Over => Value::Float(left / right),
        Infix::Less => Value::Bool(left < right),
        _ => unreachable!("not a mark between floats"),
    }
}

#[cfg(test)]
mod tests {
    use super::*;

    #[test]
    fn floats_are_divided_once() {
        assert_eq!(float(b"120", 1), 12.0);
        assert_eq!(float(b"01", 1), 0.1);
        assert_eq!(float(b"999999999999999", 14), 9.99999999999999);
        assert_eq!(float(b"999999999999999", 0), 999_999_999_999_999.0);
    }

    /// Dividing two whole numbers that are not rounded gives the nearest float,
    /// so this way is as good as any other to read a number.
    #[test]
    fn the_same_as_any_reader_of_floats() {
        let mut chance = crate::chance::Chance::new(8, 0);
        for _ in 0..20_000 {
            let count = chance.between(1, 15);
            let digits: Vec<u8> = (0..count).map(|_| b'0' + chance.below(10) as u8).collect();
            let before = chance.between(1, count);
            let text = String::from_utf8(digits.clone()).expect("digits");
            let text = format!("{}.{}", &text[..before], &text[before..]);
            let read: f64 = text.parse().expect("a float");
            assert_eq!(
                float(&digits, count - before).to_bits(),
                read.to_bits(),
                "{text}"
            );
        }
    }
}
