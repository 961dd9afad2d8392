//! Folding, arithmetic, comparison, and numbers as texts.

use crate::tree::{op, Kind};

/// The lowest number of a kind and how many numbers it has.
fn bounds(kind: Kind) -> (i32, i32) {
    match kind {
        Kind::Int => (-32768, 65536),
        Kind::Byte => (0, 256),
    }
}

/// The number of the kind that differs from n by a multiple of the kind's span.
pub fn fold(kind: Kind, n: i32) -> i32 {
    let (low, span) = bounds(kind);
    low + (n - low).rem_euclid(span)
}

/// What an operator with two operands gives; `None` for a zero divisor.
pub fn operate(operator: u8, kind: Kind, left: i32, right: i32) -> Option<i32> {
    let exact = match operator {
        op::ADD => left + right,
        op::SUB => left - right,
        op::MUL => left * right,
        op::DIV | op::REM if right == 0 => return None,
        op::DIV => left / right,
        op::REM => left % right,
        op::BYTE_AND => i32::from(left != 0 && right != 0),
        op::BYTE_OR => i32::from(left != 0 || right != 0),
        _ => unreachable!("kind {operator} is no operator with two operands"),
    };
    Some(fold(kind, exact))
}

/// Whether a comparison holds.
pub fn compares(comparison: u8, left: i32, right: i32) -> bool {
    match comparison {
        op::EQUAL => left == right,
        op::UNEQUAL => left != right,
        op::LESS => left < right,
        op::GREATER => left > right,
        op::AT_MOST => left <= right,
        op::AT_LEAST => left >= right,
        _ => unreachable!("kind {comparison} is no comparison"),
    }
}

/// What a read comes to.
#[derive(Clone, Copy, PartialEq, Eq, Debug)]
pub enum Reading {
    Took { value: i32, count: usize },
    Waits,
    Refused,
}

/// The reading of a format (0 integer, 1 byte, 2 char) at the waiting bytes, of which eight are enough.
pub fn reading(format: u8, waiting: &[u8]) -> Reading {
    if format == 2 {
        return match waiting.first() {
            Some(byte) => Reading::Took { value: i32::from(*byte), count: 1 },
            None => Reading::Waits,
        };
    }
    let seen = &waiting[..waiting.len().min(8)];
    let Some(end) = seen.iter().position(|b| *b == b'\n') else {
        return if seen.len() < 8 { Reading::Waits } else { Reading::Refused };
    };
    let text = &seen[..end];
    if text.is_empty() || !text.iter().all(u8::is_ascii_digit) {
        return Reading::Refused;
    }
    let value = text.iter().fold(0, |n, digit| 10 * n + i32::from(digit - b'0'));
    let highest = if format == 0 { 32767 } else { 255 };
    if value > highest {
        return Reading::Refused;
    }
    Reading::Took { value, count: end + 1 }
}

/// The bytes that a write of a format sends for a value.
pub fn written(format: u8, value: i32) -> Vec<u8> {
    if format == 2 {
        vec![value as u8]
    } else {
        value.to_string().into_bytes()
    }
}

#[cfg(test)]
mod tests {
    use super::*;
    use Kind::{Byte, Int};

    #[test]
    fn arithmetic_of_the_documents() {
        assert_eq!(operate(op::ADD, Int, 32767, 1), Some(-32768));
        assert_eq!(operate(op::DIV, Int, -7, 2), Some(-3));
        assert_eq!(operate(op::REM, Int, -7, 2), Some(-1));
        assert_eq!(operate(op::DIV, Int, -32768, -1), Some(-32768));
        assert_eq!(operate(op::REM, Int, -32768, -1), Some(0));
        assert_eq!(operate(op::ADD, Byte, 250, 10), Some(4));
        assert_eq!(operate(op::SUB, Byte, 3, 5), Some(254));
        assert_eq!(operate(op::MUL, Int, -32768, -32768), Some(0));
        assert_eq!(operate(op::DIV, Byte, 1, 0), None);
        assert_eq!((fold(Byte, -1), fold(Byte, 256), fold(Int, 32768)), (255, 0, -32768));
    }

    #[test]
    fn readings_of_the_documents() {
        assert_eq!(reading(0, b"0042\n9"), Reading::Took { value: 42, count: 5 });
        assert_eq!(reading(0, b"32767\n"), Reading::Took { value: 32767, count: 6 });
        assert_eq!(reading(0, b"0032767\n"), Reading::Took { value: 32767, count: 8 });
        assert_eq!(reading(1, b"255\n"), Reading::Took { value: 255, count: 4 });
        for refused in [&b"32768\n"[..], b"\n", b"-1\n", b" 1\n", b"12345678", b"00000001\n", b"x\n1\n"] {
            assert_eq!(reading(0, refused), Reading::Refused, "{refused:?}");
        }
        assert_eq!(reading(1, b"256\n"), Reading::Refused);
        assert_eq!(reading(0, b"1234567"), Reading::Waits);
        assert_eq!(reading(0, b"xyz"), Reading::Waits);
        assert_eq!((reading(2, b""), reading(2, b"\n1")), (Reading::Waits, Reading::Took { value: 10, count: 1 }));
    }

    #[test]
    fn texts() {
        assert_eq!(written(0, -32768), b"-32768");
        assert_eq!(written(1, 0), b"0");
        assert_eq!(written(2, 200), [200]);
    }
}
