//! The calls on bytes, with outputs that the caller lends, and refusals as [`Result`]s.
//!
//! These are the library's calls, one by one, for programs that keep records in their own memory. Nothing is copied; a
//! call writes its result to the front of `out`, leaves the rest of `out` as it was, and changes no byte of it where it
//! refuses. [`Curve`](crate::Curve) has the same calls by value.

use crate::{raw, Refusal, Repeat};

/// What [`multiply`] or [`multiply_inversion_free`] did.
#[derive(Clone, Copy, Debug, PartialEq, Eq)]
pub struct Multiple {
    /// Bytes written.
    pub length: usize,
    /// Doublings, as in [`Multiple`](crate::Multiple).
    pub doublings: u64,
    /// Additions.
    pub additions: u64,
}

/// What [`total_batch`] did.
#[derive(Clone, Copy, Debug, PartialEq, Eq)]
pub struct Total {
    /// Bytes written.
    pub length: usize,
    /// Records summed.
    pub count: u64,
}

/// A length that was answered fits a slice, and so a `usize`.
fn length(answered: u64) -> usize {
    answered as usize
}

fn length_of(answer: raw::YubiAnswer) -> Result<usize, Refusal> {
    Refusal::check(answer.number, answer.place)?;
    Ok(length(answer.length))
}

fn nothing_of(answer: raw::YubiAnswer) -> Result<(), Refusal> {
    Refusal::check(answer.number, answer.place)
}

fn multiple_of(answer: raw::YubiMultiple) -> Result<Multiple, Refusal> {
    Refusal::check(answer.number, answer.place)?;
    Ok(Multiple { length: length(answer.length), doublings: answer.doublings, additions: answer.additions })
}

/// Checks a curve record.
///
/// ```
/// use yubisorade::{calls::check_curve, Refusal};
/// assert_eq!(check_curve(b"HJC"), Err(Refusal::CurveLength));
/// assert_eq!(check_curve(b"JPEG\x00\x10"), Err(Refusal::CurveMark));
/// // Version 2 with p = 7, f = x^5 + 1, and a witness: the base 3 and the primes 2 and 3 of p - 1.
/// let mut curve = b"HJC\x00\x02\x02".to_vec();
/// for number in [7u64, 1, 0, 0, 0, 0, 3] {
///     curve.extend_from_slice(&number.to_be_bytes());
/// }
/// curve.push(2);
/// for prime in [2u64, 3] {
///     curve.extend_from_slice(&prime.to_be_bytes());
/// }
/// assert_eq!(check_curve(&curve), Ok(()));
/// curve[61] = 2; // 2 has order 3
/// assert_eq!(check_curve(&curve), Err(Refusal::Witness));
/// ```
///
/// # Errors
/// 1 to 7 and 18, the curve's own. Every call below has them too.
pub fn check_curve(curve: &[u8]) -> Result<(), Refusal> {
    nothing_of(raw::check_curve(curve))
}

/// Checks a divisor record on a curve.
///
/// # Errors
/// The curve's; then 8 to 11.
pub fn check_divisor(curve: &[u8], divisor: &[u8]) -> Result<(), Refusal> {
    nothing_of(raw::check_divisor(curve, divisor))
}

/// Checks a batch on a curve: 0 to 4,096 divisor records, one behind the other.
///
/// The library has no call that checks a batch and does no more. The writer of a pole file checks curve and batch first, and
/// its output last: lent no output, it refuses a good batch with 13 and another with its own number.
///
/// # Errors
/// The curve's; then 8 to 11 at the place of the first record at fault, and 14.
pub fn check_batch(curve: &[u8], batch: &[u8]) -> Result<(), Refusal> {
    match nothing_of(raw::write_pole_file(0, curve, batch, &mut [])) {
        Err(Refusal::OutputLength) => Ok(()),
        other => other,
    }
}

/// Writes a checked curve record to the front of `out` and gives its length.
///
/// # Errors
/// The curve's; then 13.
pub fn rewrite_curve(curve: &[u8], out: &mut [u8]) -> Result<usize, Refusal> {
    length_of(raw::rewrite_curve(curve, out))
}

/// Writes a checked divisor record to the front of `out` and gives its length.
///
/// # Errors
/// The curve's; 8 to 11; then 13.
pub fn rewrite_divisor(curve: &[u8], divisor: &[u8], out: &mut [u8]) -> Result<usize, Refusal> {
    length_of(raw::rewrite_divisor(curve, divisor, out))
}

/// Writes the sum of two divisors to the front of `out` and gives its length.
///
/// # Errors
/// The curve's; 8 to 11 with place 1 for `a`, 2 for `b`; then 13.
pub fn add(curve: &[u8], a: &[u8], b: &[u8], out: &mut [u8]) -> Result<usize, Refusal> {
    length_of(raw::add(curve, a, b, out))
}

/// Writes the sum of a divisor with itself to the front of `out` and gives its length.
///
/// # Errors
/// The curve's; 8 to 11; then 13.
pub fn double(curve: &[u8], a: &[u8], out: &mut [u8]) -> Result<usize, Refusal> {
    length_of(raw::double(curve, a, out))
}

/// Writes the opposite of a divisor to the front of `out` and gives its length.
///
/// # Errors
/// The curve's; 8 to 11; then 13.
pub fn opposite(curve: &[u8], a: &[u8], out: &mut [u8]) -> Result<usize, Refusal> {
    length_of(raw::opposite(curve, a, out))
}

/// Splits a divisor in two whose sum it is, writes their records to the front of `out`, one behind the other, and gives
/// their length together: 34 bytes for weight 2, 50 for weight 3. The first has 17 bytes. Which two they are, see
/// [`Curve::split`](crate::Curve::split).
///
/// # Errors
/// The curve's; 8 to 11; 26; then 13.
pub fn split(curve: &[u8], divisor: &[u8], out: &mut [u8]) -> Result<usize, Refusal> {
    length_of(raw::split(curve, divisor, out))
}

/// Writes the sum of n copies of a divisor to the front of `out`; the scalar n has 0 to 32 bytes, big-endian.
///
/// # Errors
/// The curve's; 8 to 11; 12; 19 where the divisor or the sum is neutral; then 13.
pub fn multiply(curve: &[u8], a: &[u8], scalar: &[u8], out: &mut [u8]) -> Result<Multiple, Refusal> {
    multiple_of(raw::multiply(curve, a, scalar, out))
}

/// The same by inversion-free coordinates, for machines that divide slowly; answer and output are those of [`multiply`],
/// on any bytes.
///
/// # Errors
/// Those of [`multiply`].
pub fn multiply_inversion_free(curve: &[u8], a: &[u8], scalar: &[u8], out: &mut [u8]) -> Result<Multiple, Refusal> {
    multiple_of(raw::multiply_inversion_free(curve, a, scalar, out))
}

/// Checks that n is the order of a divisor, by the list of n's primes: n has 0 to 32 bytes, big-endian, and each prime
/// stands in 4, rising.
///
/// # Errors
/// The curve's; 8 to 11; 12; then 27.
pub fn check_order(curve: &[u8], divisor: &[u8], order: &[u8], primes: &[u8]) -> Result<(), Refusal> {
    nothing_of(raw::check_order(curve, divisor, order, primes))
}

/// Writes the next divisor of a training curve after the one given to the front of `out` and gives its length.
///
/// # Errors
/// The curve's; 25 where p is above 13; 8 to 11; 24 after the last; then 13.
pub fn next_divisor(curve: &[u8], divisor: &[u8], out: &mut [u8]) -> Result<usize, Refusal> {
    length_of(raw::next_divisor(curve, divisor, out))
}

/// Writes the sum of a batch, 0 to 4,096 divisor records one behind the other, to the front of `out`.
///
/// # Errors
/// The curve's; 8 to 11 at the place of the first record at fault, and 14; then 13.
pub fn total_batch(curve: &[u8], batch: &[u8], out: &mut [u8]) -> Result<Total, Refusal> {
    let answer = raw::total_batch(curve, batch, out);
    Refusal::check(answer.number, answer.place)?;
    Ok(Total { length: length(answer.length), count: answer.count })
}

/// Checks a whole batch, then finds its first two records of the same meter.
///
/// # Errors
/// The curve's; 8 to 11 at the place of the first record at fault, and 14.
pub fn first_repeat(curve: &[u8], batch: &[u8]) -> Result<Option<Repeat>, Refusal> {
    let answer = raw::first_repeat(curve, batch);
    Refusal::check(answer.number, answer.place)?;
    Ok(match answer.second {
        0 => None,
        second => Some(Repeat { first: answer.first, second }),
    })
}

/// Adds one scan to a running total in its flat form, in place.
///
/// # Errors
/// The curve's; 15; 14; 8 where the scan has under 4 bytes; 20; then 8 to 11, with place 1.
pub fn scan(total: &mut raw::YubiRunning, curve: &[u8], scan: &[u8]) -> Result<(), Refusal> {
    nothing_of(raw::scan_lent(total, curve, scan))
}

/// Writes the file of a pole, a curve and a batch to the front of `out` and gives its length: 11 bytes more than curve and
/// batch have.
///
/// # Errors
/// Those of [`check_batch`]; then 13.
pub fn write_pole_file(pole: u32, curve: &[u8], batch: &[u8], out: &mut [u8]) -> Result<usize, Refusal> {
    length_of(raw::write_pole_file(pole, curve, batch, out))
}

/// Checks a pole file, gives its pole, and writes its curve record and, behind it, its batch to the front of `out`: the
/// length of both is given too, 11 bytes less than the file has.
///
/// # Errors
/// 23 below 9 bytes, 21, 22; the curve's; 23, and 9 to 11 at the place of the first record at fault; then 13.
pub fn read_pole_file(file: &[u8], out: &mut [u8]) -> Result<(u32, usize), Refusal> {
    let answer = raw::read_pole_file(file, out);
    Refusal::check(answer.number, answer.place)?;
    Ok((answer.pole, length(answer.length)))
}
