//! Records as bytes, and the two works on them, whatever the engine: every curve and every divisor is checked.

use crate::cantor;
use crate::field::Field;

/// u and v without u's leading 1, the constant first; zeros behind them.
#[derive(Clone, Copy, PartialEq, Eq)]
pub struct Divisor {
    pub weight: usize,
    pub u: [u64; 3],
    pub v: [u64; 3],
}

pub const NEUTRAL: Divisor = Divisor { weight: 0, u: [0; 3], v: [0; 3] };

/// y² = f(x), f monic of degree 2g + 1.
#[derive(Clone, Copy)]
pub struct Curve<F: Field> {
    pub genus: usize,
    pub field: F,
    pub f: [u64; 8],
}

/// A way to add divisors of a curve.
pub trait Engine {
    type F: Field;
    fn add(c: &Curve<Self::F>, a: &Divisor, b: &Divisor) -> Divisor;
    fn double(c: &Curve<Self::F>, a: &Divisor) -> Divisor;
    /// Whether u divides f - v².
    fn contains(c: &Curve<Self::F>, a: &Divisor) -> bool;
}

/// The number of a refusal.
type Refused = u64;

fn word(bytes: &[u8], at: usize) -> u64 {
    let mut eight = [0; 8];
    eight.copy_from_slice(&bytes[at..at + 8]);
    u64::from_be_bytes(eight)
}

/// By trial division.
fn is_prime(n: u64) -> bool {
    if n < 4 {
        return n > 1;
    }
    if n % 2 == 0 {
        return false;
    }
    let mut d = 3;
    while d * d <= n {
        if n % d == 0 {
            return false;
        }
        d += 2;
    }
    true
}

/// Version 2's witness: a base, and the primes that p - 1 is made of, from byte `at` on.
fn witnessed<F: Field>(k: F, record: &[u8], at: usize) -> bool {
    let p = k.p();
    let base = word(record, at);
    if base == 0 || base >= p {
        return false;
    }
    let base = k.enter(base);
    if k.power(base, p - 1) != k.one() {
        return false;
    }
    let (mut rest, mut last) = (p - 1, 0);
    for i in 0..usize::from(record[at + 8]) {
        let q = word(record, at + 9 + 8 * i);
        if q <= last || q >= 1 << 31 || rest % q != 0 || !is_prime(q) || k.power(base, (p - 1) / q) == k.one() {
            return false;
        }
        while rest % q == 0 {
            rest /= q;
        }
        last = q;
    }
    rest == 1
}

pub fn read_curve<F: Field>(record: &[u8]) -> Result<Curve<F>, Refused> {
    if record.len() < 6 {
        return Err(1);
    }
    if &record[..3] != b"HJC" {
        return Err(2);
    }
    let second = record[4] == 2;
    if record[3] != 0 || !(record[4] == 1 || second) {
        return Err(3);
    }
    let genus = usize::from(record[5]);
    if genus != 2 && genus != 3 {
        return Err(4);
    }
    let end = 22 + 16 * genus;
    let whole = if second {
        if record.len() < end + 9 {
            return Err(1);
        }
        if !(1..=15).contains(&record[end + 8]) {
            return Err(18);
        }
        end + 9 + 8 * usize::from(record[end + 8])
    } else {
        end
    };
    if record.len() != whole {
        return Err(1);
    }
    let p = word(record, 6);
    if p < 3 || p % 2 == 0 || p > if second { (1 << 61) - 1 } else { (1 << 31) - 1 } || (!second && !is_prime(p)) {
        return Err(5);
    }
    let field = F::new(p);
    if second && !witnessed(field, record, end) {
        return Err(18);
    }
    let mut f = [0; 8];
    for (i, x) in f[..=2 * genus].iter_mut().enumerate() {
        let number = word(record, 14 + 8 * i);
        if number >= p {
            return Err(6);
        }
        *x = field.enter(number);
    }
    f[2 * genus + 1] = field.one();
    if cantor::square_free(field, &f[..2 * genus + 2]) {
        Ok(Curve { genus, field, f })
    } else {
        Err(7)
    }
}

/// The divisor at the front of the bytes, or of the whole of them, and its record's length.
fn read_divisor<E: Engine>(c: &Curve<E::F>, bytes: &[u8], whole: bool) -> Result<(Divisor, usize), Refused> {
    let weight = usize::from(*bytes.first().ok_or(8u64)?);
    if weight > c.genus {
        return Err(9);
    }
    let length = 1 + 16 * weight;
    if bytes.len() < length || (whole && bytes.len() > length) {
        return Err(8);
    }
    let mut d = Divisor { weight, ..NEUTRAL };
    for i in 0..weight {
        d.u[i] = word(bytes, 1 + 8 * i);
        d.v[i] = word(bytes, 1 + 8 * (weight + i));
    }
    if d.u.iter().chain(&d.v).any(|&x| x >= c.field.p()) {
        return Err(10);
    }
    d.u = d.u.map(|x| c.field.enter(x));
    d.v = d.v.map(|x| c.field.enter(x));
    if E::contains(c, &d) {
        Ok((d, length))
    } else {
        Err(11)
    }
}

pub fn write_divisor<F: Field>(c: &Curve<F>, d: &Divisor) -> Vec<u8> {
    let mut record = vec![d.weight as u8];
    for &x in d.u[..d.weight].iter().chain(&d.v[..d.weight]) {
        record.extend_from_slice(&c.field.leave(x).to_be_bytes());
    }
    record
}

/// The total of a batch as a record, or the number of its refusal.
pub fn total<E: Engine>(curve: &[u8], batch: &[u8]) -> Result<Vec<u8>, Refused> {
    let c = read_curve::<E::F>(curve)?;
    let (mut sum, mut count, mut rest) = (NEUTRAL, 0, batch);
    while !rest.is_empty() {
        if count == 4096 {
            return Err(14);
        }
        let (d, length) = read_divisor::<E>(&c, rest, false)?;
        sum = E::add(&c, &sum, &d);
        rest = &rest[length..];
        count += 1;
    }
    Ok(write_divisor(&c, &sum))
}

/// n times a divisor by doubling and adding from the left, n in bytes, the highest first.
pub fn multiple<E: Engine>(curve: &[u8], divisor: &[u8], n: &[u8]) -> Result<Vec<u8>, Refused> {
    let c = read_curve::<E::F>(curve)?;
    let (d, _) = read_divisor::<E>(&c, divisor, true)?;
    if n.len() > 32 {
        return Err(12);
    }
    let mut sum = NEUTRAL;
    for byte in n {
        for bit in (0..8).rev() {
            sum = E::double(&c, &sum);
            if byte >> bit & 1 == 1 {
                sum = E::add(&c, &sum, &d);
            }
        }
    }
    if d.weight == 0 || sum.weight == 0 {
        return Err(19);
    }
    Ok(write_divisor(&c, &sum))
}
