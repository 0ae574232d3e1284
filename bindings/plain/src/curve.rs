//! Curves, divisors and Cantor's sum.

use crate::field::{Field, Small};
use crate::large::Large;
use crate::poly::Poly;

/// y² = f(x), f monic of degree 2g + 1 without a repeated factor, over a field.
#[derive(Clone, Copy, Debug)]
pub struct Over<K> {
    genus: usize,
    field: K,
    f: Poly,
}

/// The same, over the field that p is quick in.
#[derive(Clone, Copy, Debug)]
pub enum Curve {
    Small(Over<Small>),
    Large(Over<Large>),
}

/// Does the same to a curve over either field.
macro_rules! over {
    ($curve:expr, $one:ident => $does:expr) => {
        match $curve {
            Curve::Small($one) => $does,
            Curve::Large($one) => $does,
        }
    };
}

impl Curve {
    pub fn genus(&self) -> usize {
        over!(self, curve => curve.genus)
    }

    pub fn p(&self) -> u64 {
        over!(self, curve => curve.field.p())
    }

    /// The divisor of this curve that has these numbers, below p; `None` where u doesn't divide f - v².
    pub fn divisor(&self, numbers: &Divisor) -> Option<Divisor> {
        over!(self, curve => {
            let divisor = numbers.map(|x| curve.field.element(x));
            Some(divisor).filter(|divisor| curve.has(divisor))
        })
    }

    /// The numbers of a divisor of this curve.
    pub fn numbers(&self, divisor: &Divisor) -> Divisor {
        over!(self, curve => divisor.map(|x| curve.field.number(x)))
    }

    pub fn opposite(&self, a: &Divisor) -> Divisor {
        over!(self, curve => curve.opposite(a))
    }

    pub fn add(&self, a: &Divisor, b: &Divisor) -> Divisor {
        over!(self, curve => curve.add(a, b))
    }

    pub fn double(&self, a: &Divisor) -> Divisor {
        over!(self, curve => curve.double(a))
    }

    pub fn multiple(&self, a: &Divisor, n: &[u8]) -> Divisor {
        over!(self, curve => curve.multiple(a, n))
    }

    pub fn split(&self, a: &Divisor) -> Option<[Divisor; 2]> {
        over!(self, curve => curve.split(a))
    }
}

/// A reduced divisor in Mumford's form: u monic of degree `weight` ≤ g, deg v < deg u, u divides f - v². The arrays hold the
/// coefficients below u's leading one, and v's, as the field's elements; those from `weight` on are 0.
#[derive(Clone, Copy, Debug, PartialEq, Eq)]
pub struct Divisor {
    pub weight: usize,
    pub u: [u64; 3],
    pub v: [u64; 3],
}

impl Divisor {
    pub const NEUTRAL: Divisor = Divisor { weight: 0, u: [0; 3], v: [0; 3] };

    fn map(&self, each: impl Fn(u64) -> u64) -> Divisor {
        Divisor { weight: self.weight, u: self.u.map(&each), v: self.v.map(&each) }
    }

    pub fn from_polys(u: &Poly, v: &Poly) -> Divisor {
        let mut divisor = Divisor { weight: u.len() - 1, ..Divisor::NEUTRAL };
        for i in 0..divisor.weight {
            divisor.u[i] = u.at(i);
            divisor.v[i] = v.at(i);
        }
        divisor
    }

    pub fn polys(&self, k: impl Field) -> (Poly, Poly) {
        (Poly::monic(k, &self.u[..self.weight]), Poly::new(&self.v[..self.weight]))
    }
}

impl<K: Field> Over<K> {
    /// The curve with the numbers f_0 to f_2g in `lower`, or `None` where f has a repeated factor.
    pub fn new(field: K, lower: &[u64]) -> Option<Over<K>> {
        let mut room = [0; 7];
        let lower_elements = &mut room[..lower.len()];
        for (element, &number) in lower_elements.iter_mut().zip(lower) {
            *element = field.element(number);
        }
        let f = Poly::monic(field, lower_elements);
        let (shared, ..) = f.gcd(field, &f.derivative(field));
        if shared == Poly::one(field) {
            Some(Over { genus: lower.len() / 2, field, f })
        } else {
            None
        }
    }

    pub fn field(&self) -> K {
        self.field
    }

    /// The coefficient of x^i in f.
    pub fn f(&self, i: usize) -> u64 {
        self.f.at(i)
    }

    /// Whether u divides f - v².
    pub fn has(&self, a: &Divisor) -> bool {
        match (self.genus, a.weight) {
            (2, 2) => self.full_is_valid::<2>(&a.u, &a.v),
            (3, 3) => self.full_is_valid::<3>(&a.u, &a.v),
            _ => {
                let (u, v) = a.polys(self.field);
                self.f_less_square(&v).rem(self.field, &u).is_zero()
            }
        }
    }

    fn f_less_square(&self, v: &Poly) -> Poly {
        self.f.sub(self.field, &v.mul(self.field, v))
    }

    pub fn opposite(&self, a: &Divisor) -> Divisor {
        Divisor { v: a.v.map(|x| self.field.neg(x)), ..*a }
    }

    pub fn add(&self, a: &Divisor, b: &Divisor) -> Divisor {
        if a == b {
            return self.double(a);
        }
        let common = match (self.genus, a.weight, b.weight) {
            (_, 0, _) => Some(*b),
            (_, _, 0) => Some(*a),
            (2, 2, 2) => self.add_full::<2>(a, b),
            (3, 3, 3) => self.add_full::<3>(a, b),
            _ => None,
        };
        common.unwrap_or_else(|| self.composed(a, b))
    }

    pub fn double(&self, a: &Divisor) -> Divisor {
        let common = match (self.genus, a.weight) {
            (_, 0) => Some(*a),
            (2, 2) => self.double_full::<2>(a),
            (3, 3) => self.double_full::<3>(a),
            _ => None,
        };
        common.unwrap_or_else(|| self.composed(a, a))
    }

    /// Cantor's composition for any two divisors, reduced.
    fn composed(&self, a: &Divisor, b: &Divisor) -> Divisor {
        let k = self.field;
        let ((u1, v1), (u2, v2)) = (a.polys(k), b.polys(k));
        let (d1, e1, e2) = u1.gcd(k, &u2);
        let (d, c, s3) = d1.gcd(k, &v1.add(k, &v2));
        let (s1, s2) = (c.mul(k, &e1), c.mul(k, &e2));
        let u = u1.mul(k, &u2).div(k, &d).div(k, &d);
        let v = s1
            .mul(k, &u1.mul(k, &v2))
            .add(k, &s2.mul(k, &u2.mul(k, &v1)))
            .add(k, &s3.mul(k, &v1.mul(k, &v2).add(k, &self.f)));
        self.reduced(u, v.div(k, &d).rem(k, &u))
    }

    /// Cantor's reduction.
    fn reduced(&self, mut u: Poly, mut v: Poly) -> Divisor {
        let k = self.field;
        while u.len() - 1 > self.genus {
            u = self.f_less_square(&v).div(k, &u).made_monic(k);
            v = v.neg(k).rem(k, &u);
        }
        Divisor::from_polys(&u, &v)
    }

    /// The n-fold sum, n big-endian, by double-and-add from the left over its signed digits.
    pub fn multiple(&self, a: &Divisor, n: &[u8]) -> Divisor {
        let opposite = self.opposite(a);
        let mut sum = Divisor::NEUTRAL;
        for &digit in signed_digits(n).iter().rev() {
            sum = self.double(&sum);
            match digit {
                1 => sum = self.add(&sum, a),
                -1 => sum = self.add(&sum, &opposite),
                _ => (),
            }
        }
        sum
    }
}

/// The digits -1, 0 and 1 of a big-endian number, the lowest first, no two neighbours both nonzero, without leading zeros.
/// Where bit and carry come to 1, the digit is 1 before a 0 and -1 before a 1, which is then carried.
pub fn signed_digits(n: &[u8]) -> Vec<i8> {
    let bit = |i: usize| n.iter().rev().nth(i / 8).map_or(0, |byte| (byte >> (i % 8) & 1) as i8);
    let (mut digits, mut carry) = (Vec::new(), 0);
    for i in 0..=8 * n.len() {
        let sum = bit(i) + carry;
        let digit = if sum == 1 { 1 - 2 * bit(i + 1) } else { 0 };
        carry = (sum - digit) / 2;
        digits.push(digit);
    }
    while digits.last() == Some(&0) {
        digits.pop();
    }
    digits
}

#[cfg(test)]
mod tests {
    use super::*;

    /// A curve with the point (0, 1), and the first multiples of that point.
    fn walk<K: Field>(genus: usize, field: K, seed: u64) -> Option<(Over<K>, Vec<Divisor>)> {
        let p = field.p();
        let mut f: Vec<u64> =
            (0..=2 * genus as u64).map(|i| (seed + i * i + 3).wrapping_mul(0x9e37_79b9_7f4a_7c15) % p).collect();
        f[0] = 1;
        let curve = Over::new(field, &f)?;
        let point = Divisor { weight: 1, u: [0; 3], v: [field.one(), 0, 0] };
        let mut multiples = vec![Divisor::NEUTRAL];
        for _ in 0..60 {
            let next = curve.composed(multiples.last()?, &point);
            assert!(curve.has(&next));
            multiples.push(next);
        }
        Some((curve, multiples))
    }

    /// The common case gives what Cantor's general composition gives, or leaves it to that.
    fn common_case_agrees(field: impl Field) {
        let (mut curves, mut taken, mut pairs) = (0, 0, 0);
        for (genus, seed) in (0..20).flat_map(|seed| [(2, seed), (3, seed)]) {
            let (curve, multiples) = match walk(genus, field, seed) {
                Some(found) => found,
                None => continue,
            };
            curves += 1;
            let full: Vec<&Divisor> = multiples.iter().filter(|a| a.weight == genus).step_by(5).collect();
            for &a in &full {
                for &b in &full {
                    let common = match (genus, a == b) {
                        (2, true) => curve.double_full::<2>(a),
                        (2, false) => curve.add_full::<2>(a, b),
                        (_, true) => curve.double_full::<3>(a),
                        (_, false) => curve.add_full::<3>(a, b),
                    };
                    pairs += 1;
                    taken += u32::from(common.is_some());
                    let general = curve.composed(a, b);
                    assert_eq!(common.unwrap_or(general), general);
                    assert_eq!(curve.add(a, b), general);
                }
            }
        }
        assert!(curves >= 4 && pairs > 0, "{}: {} curves, {} pairs", field.p(), curves, pairs);
        if field.p() > 11 {
            assert!(taken > pairs * 9 / 10, "{}: {} of {}", field.p(), taken, pairs);
        }
    }

    #[test]
    fn common_case_agrees_with_the_general_one() {
        for p in [3, 5, 7, 11, 65_537, Small::LARGEST] {
            common_case_agrees(Small::new(p).unwrap());
            common_case_agrees(Large::new(p).unwrap());
        }
        for p in [27 * (1 << 56) + 1, 693_386_350_578_511_591, Large::LARGEST] {
            common_case_agrees(Large::new(p).unwrap());
        }
    }

    /// The same multiples over both fields.
    #[test]
    fn the_fields_agree() {
        for (genus, p) in [(2, 3), (3, 7), (2, 65_537), (3, Small::LARGEST)] {
            let seed = (0..).find(|&seed| walk(genus, Small::new(p).unwrap(), seed).is_some()).unwrap();
            let (small, by_small) = walk(genus, Small::new(p).unwrap(), seed).unwrap();
            let (large, by_large) = walk(genus, Large::new(p).unwrap(), seed).unwrap();
            let (small, large) = (Curve::Small(small), Curve::Large(large));
            for (a, b) in by_small.iter().zip(&by_large) {
                assert_eq!(small.numbers(a), large.numbers(b));
                assert_eq!(small.numbers(&small.double(a)), large.numbers(&large.double(b)));
            }
        }
    }

    #[test]
    fn a_full_divisor_off_the_curve_is_seen() {
        for genus in [2, 3] {
            let (curve, multiples) = walk(genus, Small::new(65_537).unwrap(), 1).unwrap();
            let good = multiples[40];
            assert_eq!(good.weight, genus);
            for i in 0..genus {
                let (mut u, mut v) = (good, good);
                u.u[i] = (u.u[i] + 1) % 65_537;
                v.v[i] = (v.v[i] + 1) % 65_537;
                assert!(!curve.has(&u) && !curve.has(&v));
            }
        }
    }
}
