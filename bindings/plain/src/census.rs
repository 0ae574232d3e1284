//! The divisors of a curve in order, where p is small enough to try every record.

use crate::curve::{Curve, Divisor};

/// The largest p of a training curve.
pub const LARGEST: u64 = 13;

/// The k-th pair of u and v with this weight, counted from 0 in the order of the record's bytes: u_0 weighs most, v_(w-1) least.
fn candidate(p: u64, weight: usize, mut k: u64) -> Divisor {
    let mut divisor = Divisor { weight, ..Divisor::NEUTRAL };
    let Divisor { u, v, .. } = &mut divisor;
    for number in v[..weight].iter_mut().rev().chain(u[..weight].iter_mut().rev()) {
        *number = k % p;
        k /= p;
    }
    divisor
}

/// Which of them a divisor is.
fn place(p: u64, numbers: &Divisor) -> u64 {
    let Divisor { weight, u, v } = numbers;
    u[..*weight].iter().chain(&v[..*weight]).fold(0, |k, number| k * p + number)
}

impl Curve {
    /// The divisor after this one, by weight and then by the bytes of its record; `None` where it is the last.
    pub fn next(&self, a: &Divisor) -> Option<Divisor> {
        let p = self.p();
        let start = place(p, &self.numbers(a)) + 1;
        (a.weight..=self.genus()).find_map(|weight| {
            let from = if weight == a.weight { start } else { 0 };
            (from..p.pow(2 * weight as u32)).find_map(|k| self.divisor(&candidate(p, weight, k)))
        })
    }
}

#[cfg(test)]
mod tests {
    use super::*;

    /// The candidates of a weight stand in the order of their numbers, u_0 first, and each knows its place.
    #[test]
    fn candidates_rise() {
        for (p, weight) in [3u64, 5, 7].into_iter().flat_map(|p| (0..4).map(move |weight| (p, weight))) {
            let all: Vec<Divisor> = (0..p.pow(2 * weight)).map(|k| candidate(p, weight as usize, k)).collect();
            assert!(all.windows(2).all(|pair| (pair[0].u, pair[0].v) < (pair[1].u, pair[1].v)));
            assert!(all.iter().enumerate().all(|(k, divisor)| place(p, divisor) == k as u64));
        }
    }
}
