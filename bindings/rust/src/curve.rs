//! A curve by value, and the calls on it.

use crate::divisor::numbers;
use crate::{calls, Divisor, Refusal, CURVE_ROOM, MOST_PRIMES, SPLIT_ROOM};
use core::fmt;

/// A curve that was checked when it was read, by value: every call of the library, with divisors by value. What its record
/// is: [records](crate#records).
///
/// The library keeps no state and checks curve and divisors at each call. A curve that was read is never refused again; a
/// divisor is where it belongs to another curve.
///
/// ```
/// # fn main() -> Result<(), yubisorade::Refusal> {
/// use yubisorade::{Curve, Divisor, Refusal};
/// // Genus 2, p = 7, f = x^5 + 1; f's leading 1 isn't stored.
/// let mut record = b"HJC\x00\x01\x02".to_vec();
/// for number in [7u64, 1, 0, 0, 0, 0] {
///     record.extend_from_slice(&number.to_be_bytes());
/// }
/// let curve = Curve::read(&record)?;
///
/// // The divisor (x, 1): weight 1, u_0 = 0, v_0 = 1. Twice it is (x², 1), five times it is neutral.
/// let mut record = vec![1];
/// for number in [0u64, 1] {
///     record.extend_from_slice(&number.to_be_bytes());
/// }
/// let meter = curve.divisor(&record)?;
/// let twice = curve.double(&meter)?;
/// assert_eq!(twice.to_string(), "02 0000000000000000 0000000000000000 0000000000000001 0000000000000000");
/// assert_eq!(curve.multiply(&meter, &[4])?.divisor, curve.opposite(&meter)?);
/// assert_eq!(curve.add(&meter, &curve.opposite(&meter)?)?, Divisor::NEUTRAL);
/// assert_eq!(curve.multiply(&meter, &[5]), Err(Refusal::EmptyKey));
/// assert_eq!(curve.check_order(&meter, &[5], &[5]), Ok(()));
/// # Ok(())
/// # }
/// ```
#[derive(Clone, PartialEq, Eq, Hash)]
#[must_use]
pub struct Curve {
    /// The record; 0 behind it.
    bytes: [u8; CURVE_ROOM],
    length: usize,
}

/// A multiple, and what left-to-right double-and-add takes for it over the scalar's signed digits -1, 0 and 1, no two
/// neighbours both nonzero.
#[derive(Clone, Copy, Debug, PartialEq, Eq)]
#[must_use]
pub struct Multiple {
    /// The sum of n copies, never neutral.
    pub divisor: Divisor,
    /// The digits less 1.
    pub doublings: u64,
    /// The nonzero digits less 1.
    pub additions: u64,
}

/// The sum of a batch.
#[derive(Clone, Copy, Debug, PartialEq, Eq)]
#[must_use]
pub struct Total {
    /// The sum, neutral for an empty batch.
    pub divisor: Divisor,
    /// Records summed.
    pub count: u64,
}

/// Two records of the same meter in a batch, whose divisors are equal or opposite, by their places from 1.
#[derive(Clone, Copy, Debug, PartialEq, Eq)]
#[must_use]
pub struct Repeat {
    /// Place of the earlier one.
    pub first: u64,
    /// Place of the later one.
    pub second: u64,
}

impl Curve {
    /// Reads a curve record of either version.
    ///
    /// ```
    /// use yubisorade::{Curve, Refusal};
    /// assert_eq!(Curve::read(b"HJC"), Err(Refusal::CurveLength));
    /// assert_eq!(Curve::read(b"JPEG\x00\x10"), Err(Refusal::CurveMark));
    /// ```
    ///
    /// # Errors
    /// 1 to 7; in version 2 also 18, [`Refusal::Witness`].
    pub fn read(record: &[u8]) -> Result<Curve, Refusal> {
        let mut bytes = [0; CURVE_ROOM];
        let length = calls::rewrite_curve(record, &mut bytes)?;
        Ok(Curve { bytes, length })
    }

    /// The record that was read, with its witness in version 2.
    #[must_use]
    pub fn record(&self) -> &[u8] {
        &self.bytes[..self.length]
    }

    /// The record's version: 1, or 2 where it has a witness that p is prime.
    #[must_use]
    pub fn version(&self) -> u16 {
        u16::from_be_bytes([self.bytes[3], self.bytes[4]])
    }

    /// g: 2 or 3.
    #[must_use]
    pub fn genus(&self) -> usize {
        usize::from(self.bytes[5])
    }

    /// The prime p.
    #[must_use]
    pub fn prime(&self) -> u64 {
        numbers(&self.bytes[6..]).next().unwrap_or(0)
    }

    /// `f_0` to `f_2g`; f's leading 1 isn't among them.
    pub fn f(&self) -> impl Iterator<Item = u64> + '_ {
        numbers(&self.bytes[14..]).take(2 * self.genus() + 1)
    }

    /// Reads a divisor record.
    ///
    /// # Errors
    /// 8 to 11, with place 1.
    pub fn divisor(&self, record: &[u8]) -> Result<Divisor, Refusal> {
        Divisor::by(|out| calls::rewrite_divisor(self.record(), record, out))
    }

    /// The sum of two divisors.
    ///
    /// # Errors
    /// 9 to 11 where one is another curve's, with place 1 for `a`, 2 for `b`.
    pub fn add(&self, a: &Divisor, b: &Divisor) -> Result<Divisor, Refusal> {
        Divisor::by(|out| calls::add(self.record(), a.record(), b.record(), out))
    }

    /// The sum of a divisor with itself.
    ///
    /// # Errors
    /// 9 to 11 where it is another curve's, with place 1.
    pub fn double(&self, a: &Divisor) -> Result<Divisor, Refusal> {
        Divisor::by(|out| calls::double(self.record(), a.record(), out))
    }

    /// The opposite, (u, -v).
    ///
    /// # Errors
    /// 9 to 11 where it is another curve's, with place 1.
    pub fn opposite(&self, a: &Divisor) -> Result<Divisor, Refusal> {
        Divisor::by(|out| calls::opposite(self.record(), a.record(), out))
    }

    /// Whether two divisors are one meter: equal or opposite, since some firmware turns the sign.
    ///
    /// # Errors
    /// 9 to 11 where one is another curve's, with place 1 for `a`, 2 for `b`.
    pub fn same_meter(&self, a: &Divisor, b: &Divisor) -> Result<bool, Refusal> {
        let sum_is_neutral = self.add(a, b)?.is_neutral();
        Ok(a == b || sum_is_neutral)
    }

    /// The sum of n copies of a divisor; the scalar n has 0 to 32 bytes, big-endian. Its time depends on the scalar.
    ///
    /// # Errors
    /// 9 to 11 where the divisor is another curve's, with place 1; 12 where the scalar has more than 32 bytes; 19,
    /// [`Refusal::EmptyKey`], where the divisor or its multiple is neutral, as it is for n = 0.
    pub fn multiply(&self, a: &Divisor, scalar: &[u8]) -> Result<Multiple, Refusal> {
        multiple(|out| calls::multiply(self.record(), a.record(), scalar, out))
    }

    /// The same multiple by inversion-free coordinates, for machines that divide slowly: it answers what
    /// [`multiply`](Curve::multiply) does.
    ///
    /// # Errors
    /// Those of [`multiply`](Curve::multiply).
    pub fn multiply_inversion_free(&self, a: &Divisor, scalar: &[u8]) -> Result<Multiple, Refusal> {
        multiple(|out| calls::multiply_inversion_free(self.record(), a.record(), scalar, out))
    }

    /// Checks a batch: 0 to 4,096 divisor records, one behind the other. [`records`](crate::records) parts it.
    ///
    /// # Errors
    /// Those of [`total`](Curve::total).
    pub fn check_batch(&self, batch: &[u8]) -> Result<(), Refusal> {
        calls::check_batch(self.record(), batch)
    }

    /// The sum of a batch: 0 to 4,096 divisor records, one behind the other.
    ///
    /// # Errors
    /// 8 to 11 at the place of the first record at fault; 14 where the batch goes on after 4,096.
    pub fn total(&self, batch: &[u8]) -> Result<Total, Refusal> {
        let mut count = 0;
        let divisor = Divisor::by(|out| {
            let total = calls::total_batch(self.record(), batch, out)?;
            count = total.count;
            Ok(total.length)
        })?;
        Ok(Total { divisor, count })
    }

    /// Checks a whole batch, then finds its first two records of the same meter, whose divisors are equal or opposite: the
    /// least `second`, then the least `first` before it.
    ///
    /// # Errors
    /// Those of [`total`](Curve::total).
    pub fn first_repeat(&self, batch: &[u8]) -> Result<Option<Repeat>, Refusal> {
        calls::first_repeat(self.record(), batch)
    }

    /// Checks that n is the order of a divisor, by the list of n's primes, rising, whoever proposed them; n has 0 to 32
    /// bytes, big-endian. Where it is accepted, the sum of m copies is neutral exactly where n divides m. An empty list goes
    /// with n = 1, the order of the neutral divisor.
    ///
    /// # Errors
    /// 9 to 11 where the divisor is another curve's, with place 1; 12 where n has more than 32 bytes; otherwise 27,
    /// [`Refusal::NotTheOrder`].
    pub fn check_order(&self, a: &Divisor, order: &[u8], primes: &[u32]) -> Result<(), Refusal> {
        // A list of more than 32 is refused whatever it holds, so one more than that stands for all longer ones.
        let mut list = [0; 4 * (MOST_PRIMES + 1)];
        for (bytes, prime) in list.chunks_exact_mut(4).zip(primes) {
            bytes.copy_from_slice(&prime.to_be_bytes());
        }
        let length = 4 * primes.len().min(MOST_PRIMES + 1);
        calls::check_order(self.record(), a.record(), order, &list[..length])
    }

    /// Splits a divisor in two whose sum it is.
    ///
    /// The first has weight 1. Of weight 2 the other has weight 1 too: the one with the smaller `u_0` comes first, and at a
    /// double root they are equal. Of weight 3 the first is at the largest root of u, as a number below p, and the other has
    /// weight 2; it may be split again.
    ///
    /// # Errors
    /// 9 to 11 where it is another curve's, with place 1; 26, [`Refusal::NoRoot`], where its weight is below 2 or u has no
    /// root modulo p.
    pub fn split(&self, a: &Divisor) -> Result<(Divisor, Divisor), Refusal> {
        let mut parts = [0; SPLIT_ROOM];
        let length = calls::split(self.record(), a.record(), &mut parts)?;
        let (first, second) = parts[..length].split_at(17.min(length));
        Ok((Divisor::of(first), Divisor::of(second)))
    }

    /// The next divisor of a training curve after the one given, by weight and then by the bytes of its record.
    ///
    /// # Errors
    /// 25, [`Refusal::NotForTraining`], where p is above 13; 9 to 11 where the divisor is another curve's, with place 1; 24,
    /// [`Refusal::LastDivisor`], after the last.
    pub fn next(&self, a: &Divisor) -> Result<Divisor, Refusal> {
        Divisor::by(|out| calls::next_divisor(self.record(), a.record(), out))
    }

    /// All divisors of a training curve, the neutral one first, each once, in the order of [`next`](Curve::next).
    ///
    /// ```
    /// # fn main() -> Result<(), yubisorade::Refusal> {
    /// # let mut curve = b"HJC\x00\x01\x02".to_vec();
    /// # for number in [7u64, 1, 0, 0, 0, 0] {
    /// #     curve.extend_from_slice(&number.to_be_bytes());
    /// # }
    /// # let curve = yubisorade::Curve::read(&curve)?;
    /// // y² = x^5 + 1 modulo 7 has 50 divisors.
    /// assert_eq!(curve.census()?.count(), 50);
    /// # Ok(())
    /// # }
    /// ```
    ///
    /// # Errors
    /// 25, [`Refusal::NotForTraining`], where p is above 13.
    pub fn census(&self) -> Result<Census<'_>, Refusal> {
        match self.next(&Divisor::NEUTRAL) {
            Ok(_) | Err(Refusal::LastDivisor) => Ok(Census { curve: self, last: None }),
            Err(refusal) => Err(refusal),
        }
    }
}

fn multiple(call: impl FnOnce(&mut [u8]) -> Result<calls::Multiple, Refusal>) -> Result<Multiple, Refusal> {
    let (mut doublings, mut additions) = (0, 0);
    let divisor = Divisor::by(|out| {
        let multiple = call(out)?;
        (doublings, additions) = (multiple.doublings, multiple.additions);
        Ok(multiple.length)
    })?;
    Ok(Multiple { divisor, doublings, additions })
}

/// The record's bytes.
impl AsRef<[u8]> for Curve {
    fn as_ref(&self) -> &[u8] {
        self.record()
    }
}

impl fmt::Debug for Curve {
    fn fmt(&self, f: &mut fmt::Formatter<'_>) -> fmt::Result {
        let mut shown = f.debug_struct("Curve");
        shown.field("version", &self.version()).field("genus", &self.genus()).field("prime", &self.prime());
        shown.finish_non_exhaustive()
    }
}

/// The divisors of a training curve, of [`Curve::census`].
#[derive(Clone, Debug)]
#[must_use]
pub struct Census<'c> {
    curve: &'c Curve,
    /// What came last; nothing did before the neutral divisor.
    last: Option<Divisor>,
}

impl Iterator for Census<'_> {
    type Item = Divisor;

    fn next(&mut self) -> Option<Divisor> {
        let next = match self.last {
            None => Divisor::NEUTRAL,
            // The curve was taken and the divisor came from it: only the last one is refused.
            Some(last) => self.curve.next(&last).ok()?,
        };
        self.last = Some(next);
        Some(next)
    }
}

impl core::iter::FusedIterator for Census<'_> {}
