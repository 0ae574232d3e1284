//! The order of a divisor, shown by the primes it is made up of, whoever proposed them.

use crate::curve::{Curve, Divisor};
use crate::field::is_prime;

/// The most primes that may be listed.
pub const MOST: usize = 32;

/// A number of 32 bytes, in 8 words, the highest first.
#[derive(Clone, Copy, Debug, PartialEq, Eq)]
struct Number([u32; 8]);

impl Number {
    /// From big-endian bytes, at most 32.
    fn new(bytes: &[u8]) -> Number {
        let mut words = [0; 8];
        for (i, &byte) in bytes.iter().rev().enumerate() {
            words[7 - i / 4] |= u32::from(byte) << (8 * (i % 4));
        }
        Number(words)
    }

    fn bytes(self) -> Vec<u8> {
        self.0.iter().flat_map(|word| word.to_be_bytes()).collect()
    }

    /// Quotient and remainder.
    fn divided(self, by: u32) -> (Number, u32) {
        let mut rest = 0;
        let quotient = self.0.map(|word| {
            let whole = rest << 32 | u64::from(word);
            rest = whole % u64::from(by);
            (whole / u64::from(by)) as u32
        });
        (Number(quotient), rest as u32)
    }

    /// The quotient, where nothing remains.
    fn exactly(self, by: u32) -> Option<Number> {
        let (quotient, rest) = self.divided(by);
        Some(quotient).filter(|_| rest == 0)
    }
}

/// The numbers of a list, 4 bytes each, where all are primes below 2^31, rising, and there aren't too many.
fn read_primes(list: &[u8]) -> Option<Vec<u32>> {
    if list.len() % 4 != 0 || list.len() > 4 * MOST {
        return None;
    }
    let primes: Vec<u32> =
        list.chunks_exact(4).map(|chunk| u32::from_be_bytes(chunk.try_into().expect("chunks of 4"))).collect();
    let rising = primes.windows(2).all(|pair| pair[0] < pair[1]);
    Some(primes).filter(|primes| rising && primes.iter().all(|&q| is_prime(u64::from(q))))
}

/// Whether n, of at most 32 bytes, is the order of the divisor, and the list has just its primes.
pub fn is_order(curve: &Curve, a: &Divisor, n: &[u8], list: &[u8]) -> bool {
    let n = Number::new(n);
    let primes = match read_primes(list) {
        Some(primes) if n != Number::new(&[]) => primes,
        _ => return false,
    };
    let (mut rest, mut parts) = (n, Vec::new());
    for &q in &primes {
        match n.exactly(q) {
            Some(part) => parts.push(part),
            None => return false,
        }
        while let Some(quotient) = rest.exactly(q) {
            rest = quotient;
        }
    }
    let is_neutral = |m: Number| curve.multiple(a, &m.bytes()) == Divisor::NEUTRAL;
    rest == Number::new(&[1]) && is_neutral(n) && !parts.into_iter().any(is_neutral)
}

#[cfg(test)]
mod tests {
    use super::*;

    #[test]
    fn division() {
        let n = Number::new(&[0xff; 32]);
        assert_eq!(Number::new(&n.bytes()), n);
        // 2^256 - 1 = 3·5·17·257·641·65537·6700417·.., 2^256 is 2^8 modulo 2^31 - 1 and 2 modulo 7.
        let mut rest = n;
        for q in [3, 5, 17, 257, 641, 65_537, 6_700_417] {
            rest = rest.exactly(q).unwrap();
        }
        assert_eq!((n.divided(0x7fff_ffff).1, n.divided(7).1), (255, 1));
        assert_eq!((rest.exactly(3), n.exactly(7), n.exactly(u32::MAX).is_some()), (None, None, true));
        for (bytes, q, quotient, left) in [
            (&[1, 0, 0, 0, 0][..], 2, &[0x80, 0, 0, 0][..], 0),
            (&[1, 0, 0, 0, 0], 0x7fff_ffff, &[2], 2),
            (&[0, 0, 35], 4, &[8], 3),
            (&[], 5, &[], 0),
            (&[6], 7, &[0], 6),
        ] {
            assert_eq!(Number::new(bytes).divided(q), (Number::new(quotient), left));
        }
    }

    #[test]
    fn lists() {
        let list = |primes: &[u32]| primes.iter().flat_map(|q| q.to_be_bytes()).collect::<Vec<u8>>();
        for good in [&[][..], &[2], &[2, 5], &[0x7fff_ffff], &[3, 46_337, 2_147_483_629, 0x7fff_ffff]] {
            assert_eq!(read_primes(&list(good)), Some(good.to_vec()));
        }
        let bad: [&[u32]; 9] =
            [&[0], &[1], &[4], &[5, 2], &[2, 2], &[2, 9], &[46_337 * 46_337], &[1 << 31], &[0x8000_000b]];
        for bad in bad {
            assert_eq!(read_primes(&list(bad)), None, "{:?}", bad);
        }
        let many: Vec<u32> = (2..138).filter(|&q| is_prime(u64::from(q))).collect();
        assert_eq!((many.len(), read_primes(&list(&many))), (33, None));
        assert!(read_primes(&list(&many[..32])).is_some() && read_primes(&list(&many[1..])).is_some());
        assert!((1..8).filter(|n| n % 4 != 0).all(|n| read_primes(&list(&[2, 3])[..n]).is_none()));
    }
}
