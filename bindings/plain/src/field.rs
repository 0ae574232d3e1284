//! Whole numbers modulo a prime: the common words, and primes below 2^31. `large.rs` has the others.

use std::ops::{Add, AddAssign};

/// Arithmetic modulo `p`. Elements are `u64` below `p`, one for each number modulo `p`; which, is the field's own.
///
/// Products are made first and reduced later: a [`Field::Sum`] has room for a sum of four products, one of them doubled.
pub trait Field: Copy {
    /// A sum of products that isn't reduced yet.
    type Sum: Copy + Default + Add<Output = Self::Sum> + AddAssign;

    fn p(self) -> u64;

    /// The element that stands for 1.
    fn one(self) -> u64;

    /// The element for a number below p.
    fn element(self, number: u64) -> u64;

    /// The number below p that an element stands for.
    fn number(self, element: u64) -> u64;

    fn product(self, a: u64, b: u64) -> Self::Sum;

    /// Twice a sum of two products.
    fn doubled(self, sum: Self::Sum) -> Self::Sum;

    /// The element that a sum comes to.
    fn reduce(self, sum: Self::Sum) -> u64;

    /// The same with an element added.
    fn reduce_plus(self, sum: Self::Sum, a: u64) -> u64;

    /// Adds `a * b` to a sum that begins with 0 and is made by this alone: no number of steps overflows.
    fn mac(self, sum: Self::Sum, a: u64, b: u64) -> Self::Sum;

    /// The inverse of a nonzero element.
    fn inv(self, a: u64) -> u64;

    #[inline(always)]
    fn add(self, a: u64, b: u64) -> u64 {
        let s = a + b;
        s.min(s.wrapping_sub(self.p()))
    }

    #[inline(always)]
    fn sub(self, a: u64, b: u64) -> u64 {
        let d = a.wrapping_sub(b);
        d.min(d.wrapping_add(self.p()))
    }

    #[inline(always)]
    fn neg(self, a: u64) -> u64 {
        if a == 0 {
            0
        } else {
            self.p() - a
        }
    }

    #[inline(always)]
    fn mul(self, a: u64, b: u64) -> u64 {
        self.reduce(self.product(a, b))
    }

    fn pow(self, base: u64, mut exponent: u64) -> u64 {
        let (mut result, mut square) = (self.one(), base);
        while exponent != 0 {
            if exponent & 1 == 1 {
                result = self.mul(result, square);
            }
            square = self.mul(square, square);
            exponent >>= 1;
        }
        result
    }
}

/// The whole numbers modulo a prime below 2^31, with what makes a reduction cheap. An element is the number itself. A product of two
/// is below 2^62, so four fit 64 bits.
#[derive(Clone, Copy, Debug)]
pub struct Small {
    p: u64,
    /// floor((2^64 - 1) / p), for Barrett's reduction.
    reciprocal: u64,
    /// 2 * p * p, the bound of an unreduced sum of products.
    bound: u64,
}

/// Whether a number is a prime below 2^31.
pub fn is_prime(n: u64) -> bool {
    n == 2 || Small::new(n).is_some()
}

impl Small {
    /// The largest modulus, 2^31 - 1.
    pub const LARGEST: u64 = 0x7fff_ffff;

    /// The field of `p` elements, or `None` unless `p` is an odd prime of at most 31 bits.
    pub fn new(p: u64) -> Option<Small> {
        if !(3..=Small::LARGEST).contains(&p) || p % 2 == 0 {
            return None;
        }
        let field = Small { p, reciprocal: u64::MAX / p, bound: 2 * p * p };
        if field.modulus_is_prime() {
            Some(field)
        } else {
            None
        }
    }

    /// Miller and Rabin's test of the odd modulus. The bases 2, 3, 5 and 7 decide every number below 3,215,031,751.
    fn modulus_is_prime(self) -> bool {
        let twos = (self.p - 1).trailing_zeros();
        let odd = (self.p - 1) >> twos;
        [2, 3, 5, 7].iter().all(|&base| {
            if base % self.p == 0 {
                return true;
            }
            let mut x = self.pow(self.reduce(base), odd);
            if x == 1 || x == self.p - 1 {
                return true;
            }
            for _ in 1..twos {
                x = self.mul(x, x);
                if x == self.p - 1 {
                    return true;
                }
            }
            false
        })
    }
}

impl Field for Small {
    type Sum = u64;

    #[inline(always)]
    fn p(self) -> u64 {
        self.p
    }

    #[inline(always)]
    fn one(self) -> u64 {
        1
    }

    #[inline(always)]
    fn element(self, number: u64) -> u64 {
        number
    }

    #[inline(always)]
    fn number(self, element: u64) -> u64 {
        element
    }

    #[inline(always)]
    fn product(self, a: u64, b: u64) -> u64 {
        a * b
    }

    #[inline(always)]
    fn doubled(self, sum: u64) -> u64 {
        2 * self.reduce(sum)
    }

    /// Any 64-bit number modulo p.
    #[inline(always)]
    fn reduce(self, x: u64) -> u64 {
        // The estimate of the quotient is right or one too small.
        let q = ((x as u128 * self.reciprocal as u128) >> 64) as u64;
        let r = x - q * self.p;
        r.min(r.wrapping_sub(self.p))
    }

    #[inline(always)]
    fn reduce_plus(self, sum: u64, a: u64) -> u64 {
        self.reduce(sum + a)
    }

    /// Both stay below 2 * p^2.
    #[inline(always)]
    fn mac(self, sum: u64, a: u64, b: u64) -> u64 {
        let s = sum + a * b;
        s.min(s.wrapping_sub(self.bound))
    }

    /// By Euclid's algorithm on 32-bit numbers.
    fn inv(self, a: u64) -> u64 {
        debug_assert!(a != 0 && a < self.p);
        let (mut r0, mut r1) = (self.p as u32, a as u32);
        let (mut t0, mut t1) = (0i64, 1i64);
        while r1 > 1 {
            let q = r0 / r1;
            let r = r0 - q * r1;
            r0 = r1;
            r1 = r;
            let t = t0 - i64::from(q) * t1;
            t0 = t1;
            t1 = t;
        }
        if t1 < 0 {
            (t1 + self.p as i64) as u64
        } else {
            t1 as u64
        }
    }
}

#[cfg(test)]
mod tests {
    use super::*;

    #[test]
    fn primes_agree_with_trial_division() {
        let trial = |n: u64| n >= 3 && n % 2 == 1 && (3..).step_by(2).take_while(|d| d * d <= n).all(|d| n % d != 0);
        for n in (0..20_000).chain(2_147_483_000..=2_147_483_700) {
            assert_eq!(Small::new(n).is_some(), trial(n) && n <= Small::LARGEST, "{}", n);
        }
        // Strong pseudoprimes to base 2, the second also to base 3, and the squares of primes near the top.
        for n in [2047, 1_373_653, 25_326_001, 46_337 * 46_337, 46_327 * 46_337, u64::MAX, 1 << 63] {
            assert!(Small::new(n).is_none(), "{}", n);
        }
    }

    #[test]
    fn small_fields_agree_with_remainders() {
        for p in [3, 5, 7, 11, 13] {
            let f = Small::new(p).unwrap();
            for a in 0..p {
                assert_eq!(f.neg(a), (p - a) % p);
                for b in 0..p {
                    assert_eq!(f.add(a, b), (a + b) % p);
                    assert_eq!(f.sub(a, b), (a + p - b) % p);
                    assert_eq!(f.mul(a, b), a * b % p);
                }
                if a != 0 {
                    assert_eq!(f.mul(a, f.inv(a)), 1);
                }
            }
        }
    }

    #[test]
    fn large_numbers_reduce() {
        for p in [3, 65_537, Small::LARGEST] {
            let f = Small::new(p).unwrap();
            for x in [0, 1, p - 1, p, p + 1, 2 * p * p, u64::MAX / p * p - 1, u64::MAX / p * p, u64::MAX - 1, u64::MAX]
            {
                assert_eq!(f.reduce(x), x % p);
            }
            let (mut sum, mut wanted) = (0, 0);
            for _ in 0..1000 {
                sum = f.mac(sum, p - 1, p - 1);
                wanted = (wanted + (p - 1) * (p - 1) % p) % p;
            }
            assert_eq!(f.reduce(sum), wanted);
            for a in [1, 2, p / 2, p - 2, p - 1] {
                assert_eq!(f.mul(a, f.inv(a)), 1);
            }
        }
    }
}
