//! Splitting a divisor at a root of u in the field.

use crate::curve::{Divisor, Over};
use crate::field::Field;
use crate::poly::Poly;

/// The different roots of a monic polynomial in the field: those of its greatest common divisor with x^p - x, which has each once.
pub fn roots(k: impl Field, u: &Poly) -> Vec<u64> {
    let x = Poly::new(&[0, k.one()]);
    let different = power(k, &x, k.p(), u).sub(k, &x);
    let mut found = Vec::new();
    let mut parts = vec![u.gcd(k, &different).0];
    while let Some(part) = parts.pop() {
        match part.len() {
            0 | 1 => (),
            2 => found.push(k.neg(part.at(0))),
            _ => parts.extend(parted(k, &part)),
        }
    }
    found
}

/// Two factors of a product of two or more different x - r: for some number below p, adding it to the roots makes squares of some of them
/// and not of others, or zero.
fn parted(k: impl Field, product: &Poly) -> [Poly; 2] {
    let squares = |number: u64| {
        let moved = Poly::new(&[k.element(number), k.one()]);
        let one_at_squares = power(k, &moved, (k.p() - 1) / 2, product);
        product.gcd(k, &one_at_squares.sub(k, &Poly::one(k))).0
    };
    let part = (0..k.p()).map(squares).find(|part| (2..product.len()).contains(&part.len()));
    let part = part.expect("some number tells two roots apart");
    [part, product.div(k, &part)]
}

/// A power modulo a monic polynomial of degree 1 to 3.
fn power(k: impl Field, base: &Poly, exponent: u64, m: &Poly) -> Poly {
    let mut result = Poly::one(k).rem(k, m);
    for i in (0..u64::BITS - exponent.leading_zeros()).rev() {
        result = result.mul(k, &result).rem(k, m);
        if exponent >> i & 1 == 1 {
            result = result.mul(k, base).rem(k, m);
        }
    }
    result
}

impl<K: Field> Over<K> {
    /// A divisor of weight 1 and what is left, where u has a root and the weight is 2 or more: of weight 2 the one with the smaller u_0 first,
    /// of weight 3 the one at the largest root.
    pub fn split(&self, a: &Divisor) -> Option<[Divisor; 2]> {
        let k = self.field();
        let (u, v) = a.polys(k);
        let roots = roots(k, &u).into_iter();
        let root = match a.weight {
            2 => roots.min_by_key(|&root| k.number(k.neg(root))),
            3 => roots.max_by_key(|&root| k.number(root)),
            _ => None,
        }?;
        let point = Poly::monic(k, &[k.neg(root)]);
        let rest = u.div(k, &point);
        Some([point, rest].map(|part| Divisor::from_polys(&part, &v.rem(k, &part))))
    }
}

#[cfg(test)]
mod tests {
    use super::*;
    use crate::field::Small;
    use crate::large::Large;

    /// The numbers that are roots of x^n and so on, by trying them all.
    fn tried(p: u64, lower: &[u64]) -> Vec<u64> {
        let value = |x: u64| lower.iter().rev().fold(1, |sum, c| (sum * x + c) % p);
        (0..p).filter(|&x| value(x) == 0).collect()
    }

    fn found(k: impl Field, lower: &[u64]) -> Vec<u64> {
        let lower: Vec<u64> = lower.iter().map(|&c| k.element(c)).collect();
        let mut roots: Vec<u64> = roots(k, &Poly::monic(k, &lower)).into_iter().map(|r| k.number(r)).collect();
        roots.sort_unstable();
        roots
    }

    /// Every polynomial of degree 0 to 3, over both kinds of field.
    #[test]
    fn roots_agree_with_trying_all() {
        for p in [3, 5, 7, 11, 13, 17] {
            let (small, large) = (Small::new(p).unwrap(), Large::new(p).unwrap());
            for (degree, index) in (0..4).flat_map(|degree| (0..p.pow(degree)).map(move |index| (degree, index))) {
                let lower: Vec<u64> = (0..degree).map(|i| index / p.pow(i) % p).collect();
                let wanted = tried(p, &lower);
                assert_eq!(found(small, &lower), wanted, "{} {:?}", p, lower);
                assert_eq!(found(large, &lower), wanted, "{} {:?}", p, lower);
            }
        }
    }

    /// The coefficients of (x - r)(x - s)(x - t) below its leading one.
    fn product(k: impl Field, roots: &[u64]) -> Vec<u64> {
        let all = roots.iter().fold(Poly::one(k), |all, &r| all.mul(k, &Poly::monic(k, &[k.neg(k.element(r))])));
        all.coefficients()[..roots.len()].iter().map(|&c| k.number(c)).collect()
    }

    /// Known roots far apart, next to each other, double and triple, where p - 1 has one, few or many twos; and none.
    #[test]
    fn roots_in_large_fields() {
        for p in [65_537, 0x7fff_ffff, 27 * (1 << 56) + 1, 693_386_350_578_511_591, Large::LARGEST] {
            let k = Large::new(p).unwrap();
            let numbers = [0, 1, 2, 3, p / 3, p / 2, p / 2 + 1, p - 2, p - 1];
            for (r, s, t) in numbers.into_iter().flat_map(|r| numbers.map(|s| (r, s, (r + s) % p))) {
                for roots in [&[r][..], &[r, s], &[r, r], &[r, s, t], &[r, s, s], &[r, r, r]] {
                    let mut wanted = roots.to_vec();
                    wanted.sort_unstable();
                    wanted.dedup();
                    assert_eq!(found(k, &product(k, roots)), wanted, "{}", p);
                }
            }
            // x² - n for the least n that is no square, alone and with a root beside it.
            let euler = |n: u64| k.pow(k.element(n), (p - 1) / 2) == k.one();
            let n = (2..).find(|&n| !euler(n)).unwrap();
            assert_eq!(found(k, &[p - n, 0]), []);
            for r in numbers {
                let u = Poly::monic(k, &[k.element(p - n), 0]).mul(k, &Poly::monic(k, &[k.neg(k.element(r))]));
                let lower: Vec<u64> = u.coefficients()[..3].iter().map(|&c| k.number(c)).collect();
                assert_eq!(found(k, &lower), [r], "{}", p);
            }
        }
    }

    /// x³ - n has no root for the least n that is no cube, 3 roots for a cube.
    #[test]
    fn roots_of_cubes() {
        for p in [7, 13, 0x7fff_ffff, 27 * (1 << 56) + 1, Large::LARGEST] {
            let k = Large::new(p).unwrap();
            let is_cube = |n: u64| k.pow(k.element(n), (p - 1) / 3) == k.one();
            let n = (2..).find(|&n| !is_cube(n)).unwrap();
            assert_eq!(found(k, &[p - n, 0, 0]), [], "{}", p);
            assert_eq!(found(k, &[p - 1, 0, 0]).len(), 3, "{}", p);
        }
    }
}
