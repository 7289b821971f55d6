//! The six-bit counter: its values as bit strings, the stepping rule, the horizontal and
//! the position kind with their wrap, and the conversions between counts and values.

use crate::model::refusal::Refusal;
use std::fmt;

/// Refusal 10: no such count or value. No record is at fault.
const NO_SUCH: Refusal = Refusal::without_record(10);

/// The greatest count: 63 values, counted from 0.
pub const LAST_COUNT: u8 = 62;

/// A counter value as the paper writes it: six characters 0 or 1, the leftmost bit first.
#[derive(Clone, Copy, Debug, PartialEq, Eq)]
pub struct Value([u8; 6]);

const ALL_ZERO: Value = Value(*b"000000");
const ALL_ONE: Value = Value(*b"111111");

impl Value {
    /// The bit string of a byte, the leftmost bit being the highest. Refuses (10) a byte over 63.
    fn from_byte(byte: u8) -> Result<Value, Refusal> {
        if byte > 63 {
            return Err(NO_SUCH);
        }
        let mut bits = *b"000000";
        for (bit, weight) in bits.iter_mut().zip([32, 16, 8, 4, 2, 1]) {
            if byte / weight % 2 == 1 {
                *bit = b'1';
            }
        }
        Ok(Value(bits))
    }

    /// The byte of the bit string, the leftmost bit being the highest.
    pub fn to_byte(self) -> u8 {
        let append = |byte: u8, bit: u8| 2 * byte + u8::from(bit == b'1');
        self.0.into_iter().fold(0, append)
    }

    /// The step without a wrap: every bit moves one place right, and the new leftmost bit
    /// is 1 exactly when the two rightmost old bits are equal. Never refuses.
    fn plain_step(self) -> Value {
        let [a, b, c, d, e, f] = self.0;
        let leftmost = if e == f { b'1' } else { b'0' };
        Value([leftmost, a, b, c, d, e])
    }
}

impl fmt::Display for Value {
    /// Writes the six bits, leftmost first.
    fn fmt(&self, out: &mut fmt::Formatter<'_>) -> fmt::Result {
        for bit in self.0 {
            write!(out, "{}", char::from(bit))?;
        }
        Ok(())
    }
}

/// The two kinds of counter.
#[derive(Clone, Copy, Debug, PartialEq, Eq)]
pub enum Kind {
    Horizontal,
    Position,
}

impl Kind {
    /// The value from which this kind goes back to 000000. Never refuses.
    fn wrap(self) -> Value {
        match self {
            Kind::Horizontal => Value(*b"010100"),
            Kind::Position => Value(*b"101101"),
        }
    }

    /// The step with the wrap: 000000 from the wrap value and from 111111, the plain step
    /// from every other value. Never refuses.
    fn next(self, value: Value) -> Value {
        if value == self.wrap() || value == ALL_ONE {
            ALL_ZERO
        } else {
            value.plain_step()
        }
    }

    /// The value one step of this kind after the value of a byte. Refuses (10) a byte over 63.
    pub fn step(self, byte: u8) -> Result<Value, Refusal> {
        Ok(self.next(Value::from_byte(byte)?))
    }
}

/// The value reached from 000000 by this many plain steps. Refuses (10) a count over 62.
pub fn value_of_count(count: u8) -> Result<Value, Refusal> {
    if count > LAST_COUNT {
        return Err(NO_SUCH);
    }
    let mut value = ALL_ZERO;
    for _ in 0..count {
        value = value.plain_step();
    }
    Ok(value)
}

/// The number of plain steps from 000000 at which the value of a byte is first met.
/// Refuses (10) a byte over 63 and the value that no count meets, 111111.
pub fn count_of_value(byte: u8) -> Result<u8, Refusal> {
    let wanted = Value::from_byte(byte)?;
    let mut value = ALL_ZERO;
    for count in 0..=LAST_COUNT {
        if value == wanted {
            return Ok(count);
        }
        value = value.plain_step();
    }
    Err(NO_SUCH)
}
