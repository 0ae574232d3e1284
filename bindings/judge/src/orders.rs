//! Orders of divisors with their lists of primes: right ones, those that nearly do, and any bytes.

use crate::engine::Call;
use crate::inputs::{curve_record, divisor_record, simple, Rng, Sample, Witness};
use crate::judge::Judge;

/// An order and its list, as bytes.
#[derive(Clone, Debug)]
pub struct Shown {
    pub order: Vec<u8>,
    pub primes: Vec<u8>,
}

fn listed(primes: &[u64]) -> Vec<u8> {
    primes.iter().flat_map(|&q| (q as u32).to_be_bytes()).collect()
}

impl Shown {
    /// n with its primes, all below 2^32.
    pub fn right(n: u64) -> Shown {
        Shown { order: n.to_be_bytes().to_vec(), primes: listed(&simple::primes_of(n)) }
    }

    /// From a right order one that isn't, mostly by one fault alone.
    pub fn wrong(self, rng: &mut Rng) -> Shown {
        let n = self.order.iter().fold(0, |n, &byte| n << 8 | u64::from(byte));
        let mut primes = simple::primes_of(n);
        let at = rng.below(primes.len().max(1) as u64) as usize;
        let same = |primes: Vec<u64>| Shown { order: n.to_be_bytes().to_vec(), primes: listed(&primes) };
        match rng.below(14) {
            0 => Shown::right(n * *rng.pick(&[2, 3, 5, 7, 11])),
            1 if n > 1 => Shown::right(n / primes[at]),
            2 if n < 1 << 30 => Shown::right(n + 1 + rng.below(n)),
            3 if n > 1 => {
                primes.remove(at);
                same(primes)
            }
            4 => {
                primes.push(*rng.pick(&[61, 97, 65_537, 0x7fff_ffff]));
                same(primes)
            }
            5 if primes.len() > 1 => {
                primes.rotate_left(1);
                same(primes)
            }
            6 if n > 1 => {
                primes.insert(at, primes[at]);
                same(primes)
            }
            // Twice the number, or its square, or its product with the next: no prime, though it may divide n.
            7 if n > 1 && primes[at] < 1 << 15 => {
                primes[at] *= *rng.pick(&[2, primes[at], primes[(at + 1) % primes.len()]]);
                same(primes)
            }
            8 => {
                primes.insert(0, rng.below(2));
                same(primes)
            }
            9 => {
                primes.push(*rng.pick(&[1 << 31, 0x8000_000b, 0xffff_ffff]));
                same(primes)
            }
            10 => Shown { order: vec![0; rng.below(33) as usize], ..self },
            11 => {
                let more = 1 + rng.below(3) as usize;
                Shown { primes: [self.primes, rng.bytes(more)].concat(), ..self }
            }
            12 => same((2..170).filter(|&q| simple::primes_of(q) == [q]).take(32 + rng.below(3) as usize).collect()),
            _ => same(vec![0; 33]),
        }
    }

    pub fn put(&self, judge: &mut Judge, curve: &[u8], divisor: &[u8]) {
        judge.put(Call::CheckOrder { curve, divisor, order: &self.order, primes: &self.primes }, 0);
    }
}

/// A right order as it is, without leading zeros and with more of them, and wrong ones.
fn put_around(judge: &mut Judge, curve: &[u8], divisor: &[u8], n: u64, wrong: usize) {
    let right = Shown::right(n);
    right.put(judge, curve, divisor);
    let short = n.to_be_bytes()[n.leading_zeros() as usize / 8..].to_vec();
    let zeros = judge.rng.below(33 - short.len() as u64) as usize;
    for zeros in [0, zeros, 32 - short.len(), 33 - short.len()] {
        Shown { order: [vec![0; zeros], short.clone()].concat(), ..right.clone() }.put(judge, curve, divisor);
    }
    for _ in 0..wrong {
        let wrong = right.clone().wrong(&mut judge.rng);
        wrong.put(judge, curve, divisor);
    }
}

/// Divisors of the pool: around their orders where they can be counted out; any n with its primes, and any bytes, on every curve.
pub fn of_sample(judge: &mut Judge, sample: &Sample) {
    let curve = &sample.curve;
    put_around(judge, curve, &[0], 1, 10);
    for _ in 0..6 {
        let a = sample.any(&mut judge.rng).to_vec();
        if let Some(n) = sample.order(&a) {
            put_around(judge, curve, &a, n, 12);
        }
        let most = 1 << judge.rng.below(31);
        Shown::right(1 + judge.rng.below(most)).put(judge, curve, &a);
        let (order, list) = (judge.rng.below(36) as usize, judge.rng.below(140) as usize);
        let noise = Shown { order: judge.rng.bytes(order), primes: judge.rng.bytes(list) };
        noise.put(judge, curve, &a);
    }
}

/// Where p + 1 is made up of 15 primes, has 2^31 - 1 for one, or 2^31 + 11. All are -1 modulo 5 and 7.
const SUPERSINGULAR: [u64; 3] = [693_386_350_578_511_589, 300_647_710_579, 1_803_886_273_559];

/// y² = x^(2g+1) + 1: (x, 1) has order 2g + 1, (x + 1, 0) order 2 and their sum 4g + 2, modulo every p that the curve can have. Where p is -1
/// modulo 2g + 1, every order divides p + 1.
pub fn of_known(judge: &mut Judge, genus: usize, p: u64) {
    let f = [&[1][..], &vec![0; 2 * genus]].concat();
    let odd = 2 * genus as u64 + 1;
    let both = divisor_record(&[0, 1], &[1, 1]);
    for witness in [None, Some(Witness::of(p))] {
        let curve = curve_record(genus as u8, p, &f, witness.as_ref());
        if plain::check_curve(&curve).number == 0 {
            put_around(judge, &curve, &divisor_record(&[0], &[1]), odd, 3);
            put_around(judge, &curve, &divisor_record(&[1], &[0]), 2, 3);
            put_around(judge, &curve, &both, 2 * odd, 3);
        }
    }
    for p in SUPERSINGULAR {
        let curve = curve_record(genus as u8, p, &f, Some(&Witness::of(p)));
        let point = |x: u64| {
            let y = simple::root((simple::pow(x, odd, p) + 1) % p, p)?;
            Some(divisor_record(&[p - x], &[y]))
        };
        let a = (0..).find_map(|_| point(1 + judge.rng.below(p - 1))).expect("a point");
        let n = order_dividing(p + 1, &curve, &a);
        put_around(judge, &curve, &a, n, 2);
        // The largest prime of the order alone.
        let last = *simple::primes_of(n).last().expect("a point isn't neutral");
        let mut part = [0; 49];
        let length = plain::multiply(&curve, &a, &(n / last).to_be_bytes(), &mut part).length as usize;
        put_around(judge, &curve, &part[..length], last, 1);
    }
}

/// What is left of a multiple of the order.
fn order_dividing(multiple: u64, curve: &[u8], a: &[u8]) -> u64 {
    let neutral = |n: u64| plain::multiply(curve, a, &n.to_be_bytes(), &mut [0; 49]).number == 19;
    simple::primes_of(multiple).into_iter().fold(multiple, |mut n, q| {
        while n % q == 0 && neutral(n / q) {
            n /= q;
        }
        n
    })
}

#[cfg(test)]
mod tests {
    use super::*;
    use crate::engine::{Engine, Plain, Reply};

    /// The plain engine with another answer for some orders.
    struct Wrong<F: Fn(&[u8], &[u8], &[u8], &[u8]) -> Option<u64>>(F);

    impl<F: Fn(&[u8], &[u8], &[u8], &[u8]) -> Option<u64>> Engine for Wrong<F> {
        fn name(&self) -> &'static str {
            "wrong"
        }

        fn answer(&self, call: &Call, out: &mut [u8]) -> Reply {
            let mut reply = Plain.answer(call, out);
            if let Call::CheckOrder { curve, divisor, order, primes } = *call {
                reply.number =
                    self.0(curve, divisor, order, primes).filter(|_| reply.number == 27).unwrap_or(reply.number);
            }
            reply
        }
    }

    fn differences(first: &dyn Engine) -> (u64, u64) {
        let mut judge = Judge::new(first, &Plain, 1, true);
        for (genus, p) in [(2, 3), (3, 5), (2, 11), (3, 2_147_483_647), (2, (1 << 61) - 1)] {
            let sample = Sample::new(&mut judge.rng, genus, p);
            of_sample(&mut judge, &sample);
            of_known(&mut judge, genus, p);
        }
        (judge.tally.differences, judge.tally.orders)
    }

    fn numbers(primes: &[u8]) -> Vec<u64> {
        primes.chunks(4).map(|chunk| chunk.iter().fold(0, |n, &byte| n << 8 | u64::from(byte))).collect()
    }

    /// n, the list and whether the n-fold is neutral, where n and list are of a size that they could be right.
    fn plausible(curve: &[u8], a: &[u8], order: &[u8], primes: &[u8]) -> Option<(u64, Vec<u64>, bool)> {
        let n = order.iter().fold(0u128, |n, &byte| n << 8 | u128::from(byte)) as u64;
        let neutral = a == [0] || plain::multiply(curve, a, order, &mut [0; 49]).number == 19;
        Some((n, numbers(primes), neutral)).filter(|_| primes.len() % 4 == 0)
    }

    #[test]
    fn right_orders_are_accepted() {
        let (differences, orders) = differences(&Plain);
        assert!(differences == 0 && orders > 80, "{} {}", differences, orders);
    }

    /// Engines that leave out one thing that an order must keep.
    #[test]
    fn what_is_not_looked_at_shows() {
        type Slip = fn(&[u8], &[u8], &[u8], &[u8]) -> Option<u64>;
        let slips: [(&str, Slip); 8] = [
            ("the n/q-folds", |c, a, n, list| {
                let (n, primes, neutral) = plausible(c, a, n, list)?;
                Some(0).filter(|_| n > 0 && neutral && primes == simple::primes_of(n))
            }),
            ("the n-fold", |c, a, n, list| {
                let (n, primes, neutral) = plausible(c, a, n, list)?;
                Some(0).filter(|_| n > 0 && !neutral && primes == simple::primes_of(n))
            }),
            ("n = 0", |c, a, n, list| Some(0).filter(|_| plausible(c, a, n, list).map_or(false, |(n, ..)| n == 0))),
            ("rising order", |c, a, n, list| {
                let (n, mut primes, neutral) = plausible(c, a, n, list)?;
                let rising = primes.clone();
                primes.sort_unstable();
                Some(0).filter(|_| n > 0 && neutral && primes == simple::primes_of(n) && primes != rising)
            }),
            ("a prime twice", |c, a, n, list| {
                let (n, mut primes, neutral) = plausible(c, a, n, list)?;
                let all = primes.len();
                primes.dedup();
                Some(0).filter(|_| n > 0 && neutral && primes == simple::primes_of(n) && primes.len() < all)
            }),
            ("a composite number", |c, a, n, list| {
                let (n, primes, neutral) = plausible(c, a, n, list)?;
                let composite = |&q: &u64| q > 3 && simple::primes_of(q) != [q] && n % q == 0;
                Some(0).filter(|_| n > 0 && neutral && primes.iter().any(composite))
            }),
            ("a prime over 2^31", |c, a, n, list| {
                let (n, primes, neutral) = plausible(c, a, n, list)?;
                Some(0).filter(|_| n > 0 && neutral && primes == [0x8000_000b] && n == 0x8000_000b)
            }),
            ("bytes over", |_, _, n, list| Some(12).filter(|_| n.len() < 33 && list.len() % 4 != 0)),
        ];
        for (name, slip) in slips {
            assert!(differences(&Wrong(slip)).0 > 0, "{}", name);
        }
    }
}
