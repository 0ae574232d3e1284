//! The tablet's calls in plain Rust: arithmetic of divisors on hyperelliptic curves y² = f(x) of genus 2 or 3 over a
//! prime field, on records of bytes.
//!
//! This crate shares nothing with the proved library but the words of the contract. It judges that library
//! (`bindings/judge`) and is the yardstick of its speed (`bindings/bench`). Each call takes records as bytes, checks
//! them itself and answers a number (0 for done), the place of the divisor at fault, and the length it wrote. On a
//! refusal no byte of an output changes, and length and counts are 0.
//!
//! ```
//! // Genus 2, p = 7, f = x^5 + 1, and the divisor (x, 1).
//! let mut curve = b"HJC\x00\x01\x02".to_vec();
//! for number in [7u64, 1, 0, 0, 0, 0] {
//!     curve.extend_from_slice(&number.to_be_bytes());
//! }
//! let mut point = vec![1];
//! for number in [0u64, 1] {
//!     point.extend_from_slice(&number.to_be_bytes());
//! }
//! let mut out = [0; 33];
//! let answer = plain::multiply(&curve, &point, &[6], &mut out);
//! assert_eq!((answer.number, &out[..17]), (0, &point[..])); // five times (x, 1) is neutral, so six times is (x, 1) again
//! assert_eq!((answer.doublings, answer.additions), (3, 1)); // 6 = 8 - 2
//! assert_eq!(plain::multiply(&curve, &point, &[5], &mut out).number, 19);
//! ```

#![forbid(unsafe_code)]

mod census;
mod curve;
mod field;
mod full;
mod large;
mod order;
mod pole;
mod poly;
mod record;
mod split;
mod witness;

use curve::{Curve, Divisor};
use record::{read_curve, read_divisor, read_first, write_divisor, Refused};
use std::collections::hash_map::{Entry, HashMap};

/// The most records of a batch, and the largest count of a running total.
pub const MOST_RECORDS: u64 = 4096;

/// The longest scalar in bytes, and the longest order.
pub const SCALAR_ROOM: usize = 32;

/// Bytes that hold the two records of any split.
pub const SPLIT_ROOM: usize = 50;

/// What most calls answer.
#[derive(Clone, Copy, Debug, Default, PartialEq, Eq)]
pub struct Answer {
    /// 0 for done, otherwise the number of the refusal.
    pub number: u64,
    /// Which divisor is at fault, from 1, for 8 to 11; otherwise 0.
    pub place: u64,
    /// Bytes written to the front of the output.
    pub length: u64,
}

/// What [`multiply`] answers.
#[derive(Clone, Copy, Debug, Default, PartialEq, Eq)]
pub struct Multiple {
    pub number: u64,
    pub place: u64,
    pub length: u64,
    /// Doublings of left-to-right double-and-add over the scalar's signed digits: the digits less 1.
    pub doublings: u64,
    /// Its additions: the nonzero digits less 1.
    pub additions: u64,
}

/// What [`total_batch`] answers.
#[derive(Clone, Copy, Debug, Default, PartialEq, Eq)]
pub struct Total {
    pub number: u64,
    pub place: u64,
    pub length: u64,
    /// How many records were summed.
    pub count: u64,
}

/// What [`first_repeat`] answers.
#[derive(Clone, Copy, Debug, Default, PartialEq, Eq)]
pub struct Repeat {
    pub number: u64,
    pub place: u64,
    pub length: u64,
    /// Place of the earlier of the two equal divisors, or 0 for none.
    pub first: u64,
    /// Place of the later one, or 0 for none.
    pub second: u64,
}

/// A running total: a divisor, a count and a pole. Coefficients that the weight doesn't use are 0.
#[derive(Clone, Copy, Debug, Default, PartialEq, Eq)]
pub struct Running {
    pub weight: u64,
    pub u0: u64,
    pub u1: u64,
    pub u2: u64,
    pub v0: u64,
    pub v1: u64,
    pub v2: u64,
    pub count: u64,
    pub pole: u32,
}

/// What [`scan`] answers.
#[derive(Clone, Copy, Debug, Default, PartialEq, Eq)]
pub struct Scanned {
    pub number: u64,
    pub place: u64,
    pub length: u64,
    /// The total after the scan; as it was lent on a refusal.
    pub total: Running,
}

/// What [`read_pole_file`] answers.
#[derive(Clone, Copy, Debug, Default, PartialEq, Eq)]
pub struct Pole {
    pub number: u64,
    pub place: u64,
    pub length: u64,
    /// The pole's number.
    pub pole: u32,
}

impl From<Result<usize, Refused>> for Answer {
    fn from(result: Result<usize, Refused>) -> Answer {
        match result {
            Ok(length) => Answer { length: length as u64, ..Answer::default() },
            Err(Refused { number, place }) => Answer { number, place, length: 0 },
        }
    }
}

/// Checks a curve record.
pub fn check_curve(curve: &[u8]) -> Answer {
    read_curve(curve).map(|_| 0).into()
}

/// Checks a divisor record on a curve.
pub fn check_divisor(curve: &[u8], divisor: &[u8]) -> Answer {
    read_pair(curve, divisor).map(|_| 0).into()
}

/// Writes a checked curve record anew. An accepted record has one form, so these are the bytes given.
pub fn rewrite_curve(curve: &[u8], out: &mut [u8]) -> Answer {
    read_curve(curve).and_then(|_| put(curve, out)).into()
}

/// Writes a checked divisor record anew.
pub fn rewrite_divisor(curve: &[u8], divisor: &[u8], out: &mut [u8]) -> Answer {
    read_pair(curve, divisor).and_then(|(curve, a)| write_divisor(&curve, &a, out)).into()
}

/// The sum of two divisors.
pub fn add(curve: &[u8], a: &[u8], b: &[u8], out: &mut [u8]) -> Answer {
    read_pair(curve, a)
        .and_then(|(curve, a)| {
            let b = read_divisor(&curve, b, 2)?;
            write_divisor(&curve, &curve.add(&a, &b), out)
        })
        .into()
}

/// Twice a divisor.
pub fn double(curve: &[u8], a: &[u8], out: &mut [u8]) -> Answer {
    read_pair(curve, a).and_then(|(curve, a)| write_divisor(&curve, &curve.double(&a), out)).into()
}

/// The opposite of a divisor.
pub fn opposite(curve: &[u8], a: &[u8], out: &mut [u8]) -> Answer {
    read_pair(curve, a).and_then(|(curve, a)| write_divisor(&curve, &curve.opposite(&a), out)).into()
}

/// Two divisors whose sum is the one given, one record after the other: of weight 2 two of weight 1, the one with the smaller u_0 first; of weight
/// 3 the one of weight 1 at the largest root of u, then the rest. Refused where u has no root, or the weight is below 2.
pub fn split(curve: &[u8], divisor: &[u8], out: &mut [u8]) -> Answer {
    read_pair(curve, divisor)
        .and_then(|(curve, a)| {
            let parts = curve.split(&a).ok_or(Refused::new(26))?;
            let (mut both, mut length) = ([0; SPLIT_ROOM], 0);
            for part in &parts {
                length += write_divisor(&curve, part, &mut both[length..])?;
            }
            put(&both[..length], out)
        })
        .into()
}

/// The n-fold sum of a divisor. The scalar n has 0 to 32 bytes, big-endian. Neither the divisor nor the sum may be neutral: no empty keys.
pub fn multiply(curve: &[u8], a: &[u8], scalar: &[u8], out: &mut [u8]) -> Multiple {
    let result = read_pair(curve, a).and_then(|(curve, a)| {
        if scalar.len() > SCALAR_ROOM {
            return Err(Refused::new(12));
        }
        let multiple = curve.multiple(&a, scalar);
        if a.weight == 0 || multiple.weight == 0 {
            return Err(Refused::new(19));
        }
        write_divisor(&curve, &multiple, out)
    });
    let Answer { number, place, length } = Answer::from(result);
    let (doublings, additions) = if number == 0 { steps(scalar) } else { (0, 0) };
    Multiple { number, place, length, doublings, additions }
}

/// The same multiple: the library makes it by a second engine, here one does for both calls.
pub fn multiply_inversion_free(curve: &[u8], a: &[u8], scalar: &[u8], out: &mut [u8]) -> Multiple {
    multiply(curve, a, scalar, out)
}

/// Checks that n is the order of a divisor: n has 0 to 32 bytes, big-endian, its primes 4 bytes each, rising. The n-fold sum is neutral, and
/// for no listed q the n/q-fold is. Nothing is written.
pub fn check_order(curve: &[u8], divisor: &[u8], order: &[u8], primes: &[u8]) -> Answer {
    read_pair(curve, divisor)
        .and_then(|(curve, a)| {
            if order.len() > SCALAR_ROOM {
                return Err(Refused::new(12));
            }
            Some(0).filter(|_| order::is_order(&curve, &a, order, primes)).ok_or(Refused::new(27))
        })
        .into()
}

/// The next divisor after the one given, by weight and then by the bytes of its record, on a training curve: p is at most 13. Refused after the last.
pub fn next_divisor(curve: &[u8], divisor: &[u8], out: &mut [u8]) -> Answer {
    read_curve(curve)
        .and_then(|curve| {
            if curve.p() > census::LARGEST {
                return Err(Refused::new(25));
            }
            let a = read_divisor(&curve, divisor, 1)?;
            let next = curve.next(&a).ok_or(Refused::new(24))?;
            write_divisor(&curve, &next, out)
        })
        .into()
}

/// The total of a batch: no or more divisor records one after the other, at most 4,096.
pub fn total_batch(curve: &[u8], batch: &[u8], out: &mut [u8]) -> Total {
    let (mut sum, mut count) = (Divisor::NEUTRAL, 0);
    let result = read_curve(curve).and_then(|curve| {
        each_record(&curve, batch, |divisor| {
            sum = curve.add(&sum, divisor);
            count += 1;
        })?;
        write_divisor(&curve, &sum, out)
    });
    let Answer { number, place, length } = Answer::from(result);
    Total { number, place, length, count: if number == 0 { count } else { 0 } }
}

/// The first repeat in a batch: the least j whose divisor or its opposite stood before, and the first place where one did.
pub fn first_repeat(curve: &[u8], batch: &[u8]) -> Repeat {
    let mut first_places = HashMap::new();
    let (mut found, mut place) = (None, 0);
    let result = read_curve(curve).and_then(|curve| {
        // Of a divisor and its opposite the one with the smaller v stands for both.
        each_record(&curve, batch, |divisor| {
            place += 1;
            match first_places.entry((divisor.weight, divisor.u, divisor.v.min(curve.opposite(divisor).v))) {
                Entry::Occupied(earlier) => found = found.or(Some((*earlier.get(), place))),
                Entry::Vacant(fresh) => {
                    fresh.insert(place);
                }
            }
        })
    });
    match result {
        Ok(()) => {
            let (first, second) = found.unwrap_or((0, 0));
            Repeat { first, second, ..Repeat::default() }
        }
        Err(Refused { number, place }) => Repeat { number, place, ..Repeat::default() },
    }
}

/// A running total of a pole that has seen no scan: neutral, with count 0.
pub fn fresh_total(pole: u32) -> Running {
    Running { pole, ..Running::default() }
}

/// Adds one scan to a running total: 4 bytes with the pole's number, then a divisor record. A scan for another pole is refused.
pub fn scan(total: Running, curve: &[u8], scan: &[u8]) -> Scanned {
    match scanned(&total, curve, scan) {
        Ok(total) => Scanned { total, ..Scanned::default() },
        Err(Refused { number, place }) => Scanned { number, place, length: 0, total },
    }
}

/// Adds one scan to a running total in place.
pub fn scan_lent(total: &mut Running, curve: &[u8], scan: &[u8]) -> Answer {
    scanned(total, curve, scan)
        .map(|next| {
            *total = next;
            0
        })
        .into()
}

/// Writes a pole file: its head, the curve record, how many records the batch has, and the batch.
pub fn write_pole_file(pole: u32, curve: &[u8], batch: &[u8], out: &mut [u8]) -> Answer {
    pole::write(pole, curve, batch).and_then(|file| put(&file, out)).into()
}

/// Reads a pole file: writes its curve record, then its divisor records, and answers the pole.
pub fn read_pole_file(file: &[u8], out: &mut [u8]) -> Pole {
    let read = pole::read(file).and_then(|pole::Contents { pole, curve, records }| {
        let length = put(&[curve, records].concat(), out)?;
        Ok((length, pole))
    });
    let pole = read.map_or(0, |(_, pole)| pole);
    let Answer { number, place, length } = read.map(|(length, _)| length).into();
    Pole { number, place, length, pole }
}

/// Writes bytes to the front of an output that has room for them, and gives how many.
fn put(bytes: &[u8], out: &mut [u8]) -> Result<usize, Refused> {
    out.get_mut(..bytes.len()).ok_or(Refused::new(13))?.copy_from_slice(bytes);
    Ok(bytes.len())
}

/// How many records a batch has, all of them good on a good curve.
fn checked_batch(curve: &[u8], batch: &[u8]) -> Result<u64, Refused> {
    let mut count = 0;
    each_record(&read_curve(curve)?, batch, |_| count += 1)?;
    Ok(count)
}

/// The curve, and the one divisor of a call.
fn read_pair(curve: &[u8], divisor: &[u8]) -> Result<(Curve, Divisor), Refused> {
    let curve = read_curve(curve)?;
    let divisor = read_divisor(&curve, divisor, 1)?;
    Ok((curve, divisor))
}

/// Hands every divisor of a batch to `visit`, first to last, up to the first fault.
fn each_record(curve: &Curve, mut batch: &[u8], mut visit: impl FnMut(&Divisor)) -> Result<(), Refused> {
    let mut place = 0;
    while !batch.is_empty() {
        if place == MOST_RECORDS {
            return Err(Refused::new(14));
        }
        place += 1;
        let (divisor, rest) = read_first(curve, batch, place)?;
        visit(&divisor);
        batch = rest;
    }
    Ok(())
}

/// Doublings and additions of left-to-right double-and-add over the signed digits.
fn steps(scalar: &[u8]) -> (u64, u64) {
    let digits = curve::signed_digits(scalar);
    let nonzero = digits.iter().filter(|&&digit| digit != 0).count() as u64;
    ((digits.len() as u64).saturating_sub(1), nonzero.saturating_sub(1))
}

/// The running total after a scan.
fn scanned(total: &Running, curve: &[u8], scan: &[u8]) -> Result<Running, Refused> {
    let curve = read_curve(curve)?;
    let divisor = held(&curve, total).ok_or(Refused::new(15))?;
    if total.count == MOST_RECORDS {
        return Err(Refused::new(14));
    }
    let pole = scan.get(..4).ok_or(Refused::at(8, 1))?;
    if pole != total.pole.to_be_bytes() {
        return Err(Refused::new(20));
    }
    let record = read_divisor(&curve, &scan[4..], 1)?;
    let Divisor { weight, u: [u0, u1, u2], v: [v0, v1, v2] } = curve.numbers(&curve.add(&divisor, &record));
    Ok(Running { weight: weight as u64, u0, u1, u2, v0, v1, v2, count: total.count + 1, pole: total.pole })
}

/// The divisor that a running total holds, or `None` where the total isn't one of this curve.
fn held(curve: &Curve, total: &Running) -> Option<Divisor> {
    if total.weight > curve.genus() as u64 || total.count > MOST_RECORDS {
        return None;
    }
    let weight = total.weight as usize;
    let (u, v) = ([total.u0, total.u1, total.u2], [total.v0, total.v1, total.v2]);
    let used = |c: &[u64; 3]| c[..weight].iter().all(|&x| x < curve.p()) && c[weight..].iter().all(|&x| x == 0);
    if !used(&u) || !used(&v) {
        return None;
    }
    curve.divisor(&Divisor { weight, u, v })
}

#[cfg(test)]
mod tests;
