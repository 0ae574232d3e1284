//! Whole numbers modulo an odd number up to 2^61 - 1, by Montgomery's reduction.

use crate::field::Field;

/// Arithmetic modulo an odd `p`, which has to be prime for an inverse alone. The element for n is n·2^64 modulo p. A product of two is
/// below p·2^64/8, so sums of eight products are reduced once, from 128 bits.
#[derive(Clone, Copy, Debug)]
pub struct Large {
    p: u64,
    /// 1/p modulo 2^64.
    inverse: u64,
    /// 2^64 modulo p: the element for 1.
    one: u64,
    /// 2^128 modulo p.
    square: u64,
}

impl Large {
    /// The largest modulus, 2^61 - 1.
    pub const LARGEST: u64 = (1 << 61) - 1;

    /// Arithmetic modulo `p`, or `None` unless `p` is odd and from 3 to 2^61 - 1.
    pub fn new(p: u64) -> Option<Large> {
        if !(3..=Large::LARGEST).contains(&p) || p % 2 == 0 {
            return None;
        }
        // Newton's steps double the bits that are right: p is its own inverse modulo 8.
        let mut inverse = p;
        for _ in 0..5 {
            inverse = inverse.wrapping_mul(2u64.wrapping_sub(p.wrapping_mul(inverse)));
        }
        let power = |bits: u32| ((u128::MAX >> (128 - bits)) % p as u128 + 1) as u64 % p;
        Some(Large { p, inverse, one: power(64), square: power(128) })
    }
}

impl Field for Large {
    type Sum = u128;

    #[inline(always)]
    fn p(self) -> u64 {
        self.p
    }

    #[inline(always)]
    fn one(self) -> u64 {
        self.one
    }

    #[inline(always)]
    fn element(self, number: u64) -> u64 {
        self.mul(number, self.square)
    }

    #[inline(always)]
    fn number(self, element: u64) -> u64 {
        self.reduce(u128::from(element))
    }

    #[inline(always)]
    fn product(self, a: u64, b: u64) -> u128 {
        u128::from(a) * u128::from(b)
    }

    #[inline(always)]
    fn doubled(self, sum: u128) -> u128 {
        sum + sum
    }

    /// A sum below p·2^64 over 2^64: what is taken off makes its low word 0.
    #[inline(always)]
    fn reduce(self, sum: u128) -> u64 {
        let m = (sum as u64).wrapping_mul(self.inverse);
        self.sub((sum >> 64) as u64, (self.product(m, self.p) >> 64) as u64)
    }

    #[inline(always)]
    fn reduce_plus(self, sum: u128, a: u64) -> u64 {
        self.add(self.reduce(sum), a)
    }

    /// The sum stays below p·2^64.
    #[inline(always)]
    fn mac(self, sum: u128, a: u64, b: u64) -> u128 {
        let s = sum + self.product(a, b);
        s.min(s.wrapping_sub(u128::from(self.p) << 64))
    }

    /// By subtracting and halving: Kaliski's way, with all twos taken out at once. Where u and v come from, a·r = -u·2^k and a·s = v·2^k
    /// modulo p, or both with the other sign, and u·s + v·r = p; in the end u = v = 1.
    fn inv(self, a: u64) -> u64 {
        debug_assert!(a != 0 && a < self.p);
        let mut k = a.trailing_zeros();
        let (mut u, mut v) = (self.p, a >> k);
        let (mut r, mut s) = (0, 1);
        let mut turned = false;
        while u != v {
            let less = u < v;
            let (large, small) = if less { (v, u) } else { (u, v) };
            let (r_large, s_large) = if less { (s, r) } else { (r, s) };
            turned ^= less;
            let rest = large - small;
            let twos = rest.trailing_zeros();
            u = rest >> twos;
            v = small;
            r = r_large + s_large;
            s = s_large << twos;
            k += twos;
        }
        // a stood for n·2^64, and 1/n stands as 2^64/n: that is 2^128/a, and s is 2^k/a.
        let mut s = if turned { r } else { s };
        while k <= 64 {
            s = self.add(s, s);
            k += 1;
        }
        self.mul(self.mul(s, self.square), 1 << (128 - k))
    }
}

#[cfg(test)]
mod tests {
    use super::*;

    /// Odd numbers, primes or not, that are small, near a power of two, or have many twos in p - 1.
    const MODULI: [u64; 10] =
        [3, 5, 7, 9, 561, 65_537, 0x7fff_ffff, 27 * (1 << 56) + 1, 693_386_350_578_511_591, Large::LARGEST];

    /// Numbers below p, with those at the ends of the range.
    fn some(p: u64) -> Vec<u64> {
        let mut numbers = vec![0, 1, 2, p / 2, p / 2 + 1, p - 2, p - 1];
        numbers.extend((1..40u64).map(|i| i.wrapping_mul(0x9e37_79b9_7f4a_7c15) % p));
        numbers.into_iter().filter(|&x| x < p).collect()
    }

    #[test]
    fn agrees_with_remainders() {
        for p in MODULI {
            let k = Large::new(p).unwrap();
            let of = |a: u64, b: u64| (a as u128 * b as u128 % p as u128) as u64;
            assert_eq!(k.number(k.one()), 1);
            for a in some(p) {
                let x = k.element(a);
                assert!(x < p && k.number(x) == a);
                assert_eq!(k.number(k.neg(x)), (p - a) % p);
                for b in some(p) {
                    let y = k.element(b);
                    assert_eq!(k.number(k.mul(x, y)), of(a, b), "{} {} {}", p, a, b);
                    assert_eq!(k.number(k.add(x, y)), (a + b) % p);
                    assert_eq!(k.number(k.sub(x, y)), (a + p - b) % p);
                    let sum = k.doubled(k.product(x, y)) + k.product(x, x) + k.product(y, y) + k.product(x, y);
                    let wanted =
                        [of(a, b), of(a, b), of(a, b), of(a, a), of(b, b), b].iter().fold(0, |s, n| (s + n) % p);
                    assert_eq!(k.number(k.reduce_plus(sum, y)), wanted);
                }
            }
            let (mut sum, mut wanted) = (0, 0);
            for _ in 0..1000 {
                sum = k.mac(sum, p - 1, p - 1);
                wanted = (wanted + of(k.number(p - 1), k.number(p - 1))) % p;
            }
            assert_eq!(k.number(k.reduce(sum)), wanted);
        }
    }

    #[test]
    fn inverses_and_powers() {
        for p in MODULI {
            let k = Large::new(p).unwrap();
            if [9, 561].contains(&p) {
                continue;
            }
            for a in some(p).into_iter().filter(|&a| a != 0) {
                let x = k.element(a);
                assert_eq!(k.mul(x, k.inv(x)), k.one(), "{} {}", p, a);
                assert_eq!(k.pow(x, p - 2), k.inv(x), "{} {}", p, a);
            }
        }
    }

    #[test]
    fn the_range_of_the_modulus() {
        for p in [0, 1, 2, 4, 1 << 61, (1 << 61) + 1, (1 << 61) + 15, u64::MAX] {
            assert!(Large::new(p).is_none(), "{}", p);
        }
    }
}
