//! A witness that shows a number prime, whoever proposed it: a base, and the primes that one less is made up of.

use crate::field::{is_prime, Field};
use crate::large::Large;

/// The most primes that may be listed.
pub const MOST: usize = 15;

/// Whether base and listed primes show that the modulus is prime: the base has the order p - 1.
pub fn shows(k: Large, base: u64, primes: &[u64]) -> bool {
    let p = k.p();
    if base == 0 || base >= p || primes.windows(2).any(|pair| pair[0] >= pair[1]) {
        return false;
    }
    let mut rest = p - 1;
    for &q in primes {
        if !is_prime(q) || rest % q != 0 {
            return false;
        }
        while rest % q == 0 {
            rest /= q;
        }
    }
    let power = |exponent| k.pow(k.element(base), exponent);
    rest == 1 && power(p - 1) == k.one() && primes.iter().all(|q| power((p - 1) / q) != k.one())
}

#[cfg(test)]
mod tests {
    use super::*;

    fn is_prime(n: u64) -> bool {
        n > 1 && (2..).take_while(|d| d * d <= n).all(|d| n % d != 0)
    }

    fn shown(p: u64, base: u64, primes: &[u64]) -> bool {
        Large::new(p).map_or(false, |k| shows(k, base, primes))
    }

    /// The primes of n - 1 are the one list that could do. A composite number has no base, a prime as many as are prime to p - 1.
    #[test]
    fn every_base_of_every_odd_number_below_3000() {
        let common = |mut a: u64, mut b: u64| {
            while b != 0 {
                (a, b) = (b, a % b);
            }
            a
        };
        for n in (3..3000).step_by(2) {
            let primes: Vec<u64> = (2..n).filter(|&q| (n - 1) % q == 0 && is_prime(q)).collect();
            let good = (0..n + 2).filter(|&base| shown(n, base, &primes)).count();
            let wanted = if is_prime(n) { (1..n).filter(|&a| common(a, n - 1) == 1).count() } else { 0 };
            assert_eq!(good, wanted, "{}", n);
        }
    }

    const LARGEST: [u64; 12] = [2, 3, 5, 7, 11, 13, 31, 41, 61, 151, 331, 1321];

    #[test]
    fn large_primes() {
        assert!(shown(Large::LARGEST, 37, &LARGEST));
        assert!(shown(27 * (1 << 56) + 1, 5, &[2, 3]));
        let fifteen = [2, 3, 5, 7, 11, 13, 17, 19, 23, 29, 31, 37, 41, 43, 53];
        assert!(shown(693_386_350_578_511_591, 14, &fifteen));
        assert!(shown(0x7fff_ffff, 7, &[2, 3, 7, 11, 31, 151, 331]));
        // The largest prime that may be listed.
        assert!(shown(46 * 0x7fff_ffff + 1, 2, &[2, 23, 0x7fff_ffff]));
    }

    #[test]
    fn faults() {
        for base in [0, 1, 36, 37 * 37, 37 * 37 * 37, Large::LARGEST - 1, Large::LARGEST, Large::LARGEST + 37] {
            assert!(!shown(Large::LARGEST, base, &LARGEST), "{}", base);
        }
        for left_out in 0..LARGEST.len() {
            let mut primes = LARGEST.to_vec();
            primes.remove(left_out);
            assert!(!shown(Large::LARGEST, 37, &primes), "{}", left_out);
        }
        let lists: [&[u64]; 13] = [
            &[],
            &[2],
            &[3],
            &[3, 2],
            &[2, 2, 3],
            &[2, 3, 3],
            &[2, 3, 5],
            &[6],
            &[1, 2, 3],
            &[0, 2, 3],
            &[2, 3, 7],
            &[2, 3, 4],
            &[2, 3, u64::MAX],
        ];
        for primes in lists {
            assert!(!shown(7, 3, primes), "{:?}", primes);
        }
        assert!(shown(7, 3, &[2, 3]) && !shown(7, 10, &[2, 3]) && !shown(7, 6, &[2, 3]) && !shown(7, 2, &[2, 3]));
        // Composite numbers listed: 9, 2047, the square of 46,337.
        assert!(!shown(19, 2, &[2, 9]) && shown(19, 2, &[2, 3]));
        assert!(!shown(36_847, 3, &[2, 3, 2047]) && shown(36_847, 3, &[2, 3, 23, 89]));
        assert!(!shown(103_061_643_313, 5, &[2, 3, 46_337 * 46_337]) && shown(103_061_643_313, 5, &[2, 3, 46_337]));
        // Primes that have one above 2^31 in p - 1.
        assert!(!shown(64_424_509_771, 2, &[2, 3, 5, 2_147_483_659]));
        assert!(!shown(2_305_843_009_213_691_579, 2, &[2, 1_152_921_504_606_845_789]));
        for (p, primes) in [(341, [2, 5, 17]), (561, [2, 5, 7]), (1105, [2, 3, 23])] {
            assert!(!shown(p, 2, &primes));
        }
    }
}
