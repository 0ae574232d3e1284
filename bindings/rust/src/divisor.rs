//! A divisor by value.

use crate::DIVISOR_ROOM;
use core::fmt;

/// A meter's key: a divisor that was read or made on a curve, by value. What its record is: [records](crate#records).
///
/// Two of a curve are equal exactly where their records are, byte for byte. They are ordered by weight and then by the bytes
/// of their records, as a census has them. It is shown as the program shows a total: the weight as two hexadecimal digits,
/// then each number as a space and 16 digits.
///
/// A divisor doesn't hold its curve. Every call checks it again, and refuses one of another curve, unless it happens to be
/// on both.
///
/// ```
/// # fn main() -> Result<(), yubisorade::Refusal> {
/// # let mut curve = b"HJC\x00\x01\x02".to_vec();
/// # for number in [7u64, 1, 0, 0, 0, 0] {
/// #     curve.extend_from_slice(&number.to_be_bytes());
/// # }
/// # let curve = yubisorade::Curve::read(&curve)?;
/// # let mut record = vec![1];
/// # for number in [6u64, 3] {
/// #     record.extend_from_slice(&number.to_be_bytes());
/// # }
/// // (x + 6, 3) on y² = x^5 + 1 modulo 7.
/// let meter = curve.divisor(&record)?;
/// assert_eq!(meter.weight(), 1);
/// assert!(meter.u().eq([6]) && meter.v().eq([3]));
/// assert_eq!(meter.to_string(), "01 0000000000000006 0000000000000003");
/// assert_eq!(meter.record(), record);
/// # Ok(())
/// # }
/// ```
#[derive(Clone, Copy, PartialEq, Eq, Hash, PartialOrd, Ord)]
#[must_use]
pub struct Divisor {
    /// The record; 0 behind it.
    bytes: [u8; DIVISOR_ROOM],
}

impl Divisor {
    /// The neutral divisor, u = 1 and v = 0: weight 0.
    pub const NEUTRAL: Divisor = Divisor { bytes: [0; DIVISOR_ROOM] };

    /// What a call makes: it writes a record to the front of zeros.
    pub(crate) fn by<E>(call: impl FnOnce(&mut [u8]) -> Result<usize, E>) -> Result<Divisor, E> {
        let mut bytes = [0; DIVISOR_ROOM];
        call(&mut bytes)?;
        Ok(Divisor { bytes })
    }

    /// Of a record that the library took or wrote.
    pub(crate) fn of(record: &[u8]) -> Divisor {
        let mut bytes = [0; DIVISOR_ROOM];
        let length = record.len().min(DIVISOR_ROOM);
        bytes[..length].copy_from_slice(&record[..length]);
        Divisor { bytes }
    }

    /// Of a weight and the numbers of u, then of v.
    pub(crate) fn made(weight: u8, numbers: impl Iterator<Item = u64>) -> Divisor {
        let mut bytes = [0; DIVISOR_ROOM];
        bytes[0] = weight;
        for (eight, number) in bytes[1..].chunks_exact_mut(8).zip(numbers) {
            eight.copy_from_slice(&number.to_be_bytes());
        }
        Divisor { bytes }
    }

    /// The degree of u, 0 to 3.
    #[must_use]
    pub fn weight(&self) -> usize {
        usize::from(self.bytes[0].min(3))
    }

    /// Whether this is the neutral divisor.
    #[must_use]
    pub fn is_neutral(&self) -> bool {
        *self == Divisor::NEUTRAL
    }

    /// The record: the weight, then the coefficients of u and of v, 1 + 16w bytes.
    #[must_use]
    pub fn record(&self) -> &[u8] {
        &self.bytes[..=16 * self.weight()]
    }

    /// `u_0` to `u_(w-1)`; u's leading 1 isn't among them.
    pub fn u(&self) -> impl Iterator<Item = u64> + '_ {
        numbers(&self.record()[1..]).take(self.weight())
    }

    /// `v_0` to `v_(w-1)`.
    pub fn v(&self) -> impl Iterator<Item = u64> + '_ {
        numbers(&self.record()[1..]).skip(self.weight())
    }
}

/// Numbers of 8 bytes each, one behind the other.
pub(crate) fn numbers(bytes: &[u8]) -> impl Iterator<Item = u64> + '_ {
    bytes.chunks_exact(8).map(|bytes| bytes.iter().fold(0, |number, &byte| number << 8 | u64::from(byte)))
}

/// The neutral divisor.
impl Default for Divisor {
    fn default() -> Divisor {
        Divisor::NEUTRAL
    }
}

/// The record's bytes.
impl AsRef<[u8]> for Divisor {
    fn as_ref(&self) -> &[u8] {
        self.record()
    }
}

impl fmt::Display for Divisor {
    fn fmt(&self, f: &mut fmt::Formatter<'_>) -> fmt::Result {
        write!(f, "{:02x}", self.weight())?;
        numbers(&self.record()[1..]).try_for_each(|number| write!(f, " {number:016x}"))
    }
}

impl fmt::Debug for Divisor {
    fn fmt(&self, f: &mut fmt::Formatter<'_>) -> fmt::Result {
        write!(f, "Divisor({self})")
    }
}
