//! What the engines work on: the measured curves with 4,096 different divisors, and small random cases for the judge.

use crate::cantor::Ordinary;
use crate::field::{Field, Montgomery};
use crate::record::{self, Curve, Divisor};

/// A measured curve.
pub struct On {
    pub key: &'static str,
    pub name: &'static str,
    genus: u8,
    /// Whether f_2g is other than 0.
    top: bool,
    prime: Prime,
}

/// A prime of a record of version 1, or with its witness of version 2.
#[derive(Clone, Copy)]
struct Prime {
    p: u64,
    witness: Option<(u64, &'static [u64])>,
}

const P31: Prime = Prime { p: (1 << 31) - 1, witness: None };
const P61: Prime = Prime { p: (1 << 61) - 1, witness: Some((37, &[2, 3, 5, 7, 11, 13, 31, 41, 61, 151, 331, 1321])) };

pub const CURVES: &[On] = &[
    On { key: "2", name: "genus 2, 2^31 - 1", genus: 2, top: true, prime: P31 },
    On { key: "3", name: "genus 3, f_6 = 0, 2^31 - 1", genus: 3, top: false, prime: P31 },
    On { key: "3-f6", name: "genus 3, f_6 ≠ 0, 2^31 - 1", genus: 3, top: true, prime: P31 },
    On { key: "2-61", name: "genus 2, 2^61 - 1", genus: 2, top: true, prime: P61 },
    On { key: "3-61", name: "genus 3, f_6 = 0, 2^61 - 1", genus: 3, top: false, prime: P61 },
    On { key: "3-f6-61", name: "genus 3, f_6 ≠ 0, 2^61 - 1", genus: 3, top: true, prime: P61 },
];

/// The record of a curve.
fn curve_record(genus: u8, prime: Prime, f: &[u64]) -> Vec<u8> {
    let mut record = vec![b'H', b'J', b'C', 0, if prime.witness.is_some() { 2 } else { 1 }, genus];
    record.extend_from_slice(&prime.p.to_be_bytes());
    f.iter().for_each(|x| record.extend_from_slice(&x.to_be_bytes()));
    if let Some((base, primes)) = prime.witness {
        record.extend_from_slice(&base.to_be_bytes());
        record.push(primes.len() as u8);
        primes.iter().for_each(|x| record.extend_from_slice(&x.to_be_bytes()));
    }
    record
}

pub struct Input {
    pub curve: Vec<u8>,
    pub batch: Vec<u8>,
    pub scalar: [u8; 32],
    last: usize,
}

impl Input {
    /// The point (0, 2) of a curve with f_0 = 4, once, twice, up to 4,096 times: all but the first few have weight g.
    pub fn new(on: &On) -> Input {
        let p = u128::from(on.prime.p);
        let degree = 2 * u64::from(on.genus);
        let f: Vec<u64> = (0..=degree)
            .map(|i| match i {
                0 => 4,
                _ if i == degree && !on.top => 0,
                _ => (u128::from(i) * 1_234_567_891_234_567_891 % p) as u64,
            })
            .collect();
        let curve = curve_record(on.genus, on.prime, &f);
        let c = record::read_curve(&curve).expect("a good curve");
        let point = Divisor { weight: 1, u: [0; 3], v: [2, 0, 0] };
        let (mut batch, mut last, mut d) = (vec![], 0, point);
        for _ in 0..4096 {
            last = batch.len();
            batch.extend(record::write_divisor(&c, &d));
            d = <Ordinary as record::Engine>::add(&c, &d, &point);
        }
        let mut scalar = [0; 32];
        scalar.iter_mut().zip(0u8..).for_each(|(byte, i)| *byte = 0x80 | i.wrapping_mul(37));
        Input { curve, batch, scalar, last }
    }

    pub fn last_divisor(&self) -> &[u8] {
        &self.batch[self.last..]
    }
}

/// 4,096 different meters on the curve `3-61` that a search by hashes of u meets all in one chain, as the library's own search makes its chains
/// (crates/call_repeat/specs/Chains.antt): u_0 and u_1 are the same throughout, and u_2 is what brings the hash to one value in its upper bits.
pub fn one_chain(input: &Input) -> Vec<u8> {
    const TIMES: u32 = 1_013_904_223;
    let c = record::read_curve::<Montgomery>(&input.curve).expect("a good curve");
    let mut random = Random::new(3);
    let (u0, u1) = (random.below(c.field.p()), random.below(c.field.p()));
    let folded = |x: u64| (x as u32).wrapping_add((x >> 32) as u32);
    let before = folded(u0).wrapping_mul(TIMES).wrapping_add(folded(u1)).wrapping_mul(TIMES);
    // 1/TIMES modulo 2^32
    let inverse = (0..5).fold(TIMES, |x, _| x.wrapping_mul(2u32.wrapping_sub(TIMES.wrapping_mul(x))));
    let mut batch = vec![];
    while batch.len() < 4096 * 49 {
        let high = random.below(1 << 29);
        let hash = 7 << 20 | random.below(1 << 20) as u32;
        let low = hash.wrapping_mul(inverse).wrapping_sub(before).wrapping_sub(high as u32);
        let u2 = high << 32 | u64::from(low);
        if u2 < c.field.p() {
            let u = [u0, u1, u2].map(|x| c.field.enter(x));
            let good = root_of_f(&c, u).map(|v| record::write_divisor(&c, &Divisor { weight: 3, u, v }));
            batch.extend(good.into_iter().flatten());
        }
    }
    batch
}

/// v with v² = f modulo u, if this finds one: modulo an irreducible u there are p³ remainders, and a square has the root f^((p³ + 1)/4).
fn root_of_f(c: &Curve<Montgomery>, u: [u64; 3]) -> Option<[u64; 3]> {
    let k = c.field;
    let reduced = |mut t: [u64; 8]| {
        for i in (3..8).rev() {
            for j in 0..3 {
                t[i - 3 + j] = k.sub(t[i - 3 + j], k.mul(t[i], u[j]));
            }
        }
        [t[0], t[1], t[2]]
    };
    let times = |a: [u64; 3], b: [u64; 3]| {
        let mut t = [0; 8];
        for i in 0..3 {
            for j in 0..3 {
                t[i + j] = k.add(t[i + j], k.mul(a[i], b[j]));
            }
        }
        reduced(t)
    };
    let f = reduced(c.f);
    // p = 2^61 - 1, so (p³ + 1)/4 = 2^59·(2^122 - 3·2^61 + 3)
    let odd = (1u128 << 122) - (3 << 61) + 3;
    let mut v = [k.one(), 0, 0];
    for bit in (0..122).rev() {
        v = times(v, v);
        if odd >> bit & 1 == 1 {
            v = times(v, f);
        }
    }
    for _ in 0..59 {
        v = times(v, v);
    }
    Some(v).filter(|&v| times(v, v) == f)
}

/// Numbers that look random: splitmix64.
pub struct Random(u64);

impl Random {
    pub fn new(seed: u64) -> Self {
        Random(seed)
    }

    pub fn below(&mut self, n: u64) -> u64 {
        self.0 = self.0.wrapping_add(0x9e37_79b9_7f4a_7c15);
        let mut z = self.0;
        z = (z ^ (z >> 30)).wrapping_mul(0xbf58_476d_1ce4_e5b9);
        z = (z ^ (z >> 27)).wrapping_mul(0x94d0_49bb_1331_11eb);
        (z ^ (z >> 31)) % n
    }
}

/// A curve, a batch and a scalar. At small primes most sums are special; at large ones the divisors are sums of points of a curve laid
/// through them. One case in eight has a byte changed. The multiple is that of the batch as one divisor: a batch of one record.
pub fn case(random: &mut Random, case: u64) -> (Vec<u8>, Vec<u8>, Vec<u8>) {
    let prime = match case % 4 {
        0 => P61,
        1 => P31,
        _ => Prime { p: [3, 5, 7, 11, 13, 101, 65_521][random.below(7) as usize], witness: None },
    };
    let genus = 2 + random.below(2) as u8;
    let mut f: Vec<u64> = (0..=2 * genus).map(|_| random.below(prime.p)).collect();
    f[0] = 4 % prime.p;
    let mut curve = curve_record(genus, prime, &f);
    let mut batch = vec![];
    if let Ok(c) = record::read_curve(&curve) {
        let point = Divisor { weight: 1, u: [0; 3], v: [2 % prime.p, 0, 0] };
        let mut d = point;
        for _ in 0..random.below(if case % 3 == 0 { 2 } else { 9 }) {
            for _ in 0..random.below(12) {
                let twice = <Ordinary as record::Engine>::double(&c, &d);
                d = if random.below(2) == 0 { twice } else { <Ordinary as record::Engine>::add(&c, &twice, &point) };
            }
            batch.extend(record::write_divisor(&c, &d));
        }
    }
    if random.below(8) == 0 {
        let place = random.below(curve.len() as u64) as usize;
        curve[place] ^= 1 << random.below(8);
    }
    if random.below(8) == 0 && !batch.is_empty() {
        let place = random.below(batch.len() as u64) as usize;
        batch[place] ^= 1 << random.below(8);
    }
    let scalar = (0..random.below(34)).map(|_| random.below(256) as u8).collect();
    (curve, batch, scalar)
}
