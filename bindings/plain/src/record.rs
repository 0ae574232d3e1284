//! Curve and divisor records: bytes to values and back, and the refusals that belong to them.

use crate::curve::{Curve, Divisor, Over};
use crate::field::Small;
use crate::large::Large;
use crate::witness;

const MARK: &[u8] = b"HJC";
/// Mark, version and genus.
const HEAD: usize = 6;

/// Why a call was refused: the paper's number, and the place of the divisor at fault or 0.
#[derive(Clone, Copy, Debug, PartialEq, Eq)]
pub struct Refused {
    pub number: u64,
    pub place: u64,
}

impl Refused {
    pub const fn new(number: u64) -> Refused {
        Refused { number, place: 0 }
    }

    pub const fn at(number: u64, place: u64) -> Refused {
        Refused { number, place }
    }
}

/// The 8-byte numbers that `bytes` holds one after the other, put into `into`, as many as it has room for.
fn read_numbers(bytes: &[u8], into: &mut [u64]) {
    for (number, chunk) in into.iter_mut().zip(bytes.chunks_exact(8)) {
        *number = u64::from_be_bytes(chunk.try_into().expect("chunks of 8"));
    }
}

/// Reads a curve record, which must fill `bytes`.
pub fn read_curve(bytes: &[u8]) -> Result<Curve, Refused> {
    if bytes.len() < HEAD {
        return Err(Refused::new(1));
    }
    let (head, rest) = bytes.split_at(HEAD);
    if &head[..3] != MARK {
        return Err(Refused::new(2));
    }
    let with_witness = match u16::from_be_bytes([head[3], head[4]]) {
        1 => false,
        2 => true,
        _ => return Err(Refused::new(3)),
    };
    let genus = match head[5] {
        g @ (2 | 3) => usize::from(g),
        _ => return Err(Refused::new(4)),
    };
    let coefficients = 2 * genus + 1;
    let behind = rest.get(8 * (1 + coefficients)..).ok_or(Refused::new(1))?;
    let mut room = [0; 8];
    read_numbers(rest, &mut room);
    let (p, f) = (room[0], &room[1..=coefficients]);
    if with_witness {
        check_witness(p, behind)?;
    } else if !behind.is_empty() {
        return Err(Refused::new(1));
    } else if Small::new(p).is_none() {
        return Err(Refused::new(5));
    }
    if f.iter().any(|&c| c >= p) {
        return Err(Refused::new(6));
    }
    // From here on p is prime, in whichever version.
    let curve = match Small::new(p) {
        Some(field) => Over::new(field, f).map(Curve::Small),
        None => Large::new(p).and_then(|field| Over::new(field, f)).map(Curve::Large),
    };
    curve.ok_or(Refused::new(7))
}

/// Checks what stands behind the coefficients in version 2: a base, a count of primes, and the primes.
fn check_witness(p: u64, bytes: &[u8]) -> Result<(), Refused> {
    let &count = bytes.get(8).ok_or(Refused::new(1))?;
    let count = usize::from(count);
    if !(1..=witness::MOST).contains(&count) {
        return Err(Refused::new(18));
    }
    if bytes.len() != 9 + 8 * count {
        return Err(Refused::new(1));
    }
    let (mut base, mut primes) = ([0], [0; witness::MOST]);
    read_numbers(bytes, &mut base);
    read_numbers(&bytes[9..], &mut primes);
    let field = Large::new(p).ok_or(Refused::new(5))?;
    if witness::shows(field, base[0], &primes[..count]) {
        Ok(())
    } else {
        Err(Refused::new(18))
    }
}

/// Reads the divisor record at the front of `bytes`, the `place`-th of its call, and gives it with the bytes behind it.
pub fn read_first<'a>(curve: &Curve, bytes: &'a [u8], place: u64) -> Result<(Divisor, &'a [u8]), Refused> {
    let (&weight, rest) = bytes.split_first().ok_or(Refused::at(8, place))?;
    let weight = usize::from(weight);
    if weight > curve.genus() {
        return Err(Refused::at(9, place));
    }
    if rest.len() < 16 * weight {
        return Err(Refused::at(8, place));
    }
    let (numbers, rest) = rest.split_at(16 * weight);
    let mut room = [0; 6];
    read_numbers(numbers, &mut room);
    if room.iter().any(|&c| c >= curve.p()) {
        return Err(Refused::at(10, place));
    }
    let mut divisor = Divisor { weight, ..Divisor::NEUTRAL };
    divisor.u[..weight].copy_from_slice(&room[..weight]);
    divisor.v[..weight].copy_from_slice(&room[weight..2 * weight]);
    let divisor = curve.divisor(&divisor).ok_or(Refused::at(11, place))?;
    Ok((divisor, rest))
}

/// Reads a divisor record that must fill `bytes`.
pub fn read_divisor(curve: &Curve, bytes: &[u8], place: u64) -> Result<Divisor, Refused> {
    match bytes.first() {
        Some(&weight) if usize::from(weight) <= curve.genus() && bytes.len() != 1 + 16 * usize::from(weight) => {
            Err(Refused::at(8, place))
        }
        _ => read_first(curve, bytes, place).map(|(divisor, _)| divisor),
    }
}

/// Writes a divisor's record to the front of `out` and gives its length, or refuses with nothing written.
pub fn write_divisor(curve: &Curve, divisor: &Divisor, out: &mut [u8]) -> Result<usize, Refused> {
    let Divisor { weight, u, v } = curve.numbers(divisor);
    let length = 1 + 16 * weight;
    let out = out.get_mut(..length).ok_or(Refused::new(13))?;
    let (head, numbers) = out.split_at_mut(1);
    head[0] = weight as u8;
    let values = u[..weight].iter().chain(&v[..weight]);
    for (chunk, value) in numbers.chunks_exact_mut(8).zip(values) {
        chunk.copy_from_slice(&value.to_be_bytes());
    }
    Ok(length)
}
