//! Splits of every shape of u: on curves made for a divisor, of whole small curves, with outputs of every length, and any bytes.

use crate::engine::Call;
use crate::inputs::{curve_record, divisor_record, every_divisor, numbers_of, simple, Rng, Sample, Witness};
use crate::judge::Judge;
use std::fmt;

const ROOM: usize = 50;

/// How u falls apart modulo p.
#[derive(Clone, Copy, Debug, PartialEq, Eq, PartialOrd, Ord)]
pub struct Shape {
    pub weight: usize,
    /// Different roots in the field.
    pub roots: usize,
    /// Whether one of them is double or triple.
    pub repeated: bool,
}

impl Shape {
    /// Of a good record.
    pub fn of(divisor: &[u8], p: u64) -> Shape {
        let mut u = numbers_of(divisor).0;
        let weight = u.len();
        u.push(1);
        let derivative: Vec<u64> = (1..=weight).map(|i| simple::mul(i as u64 % p, u[i], p)).collect();
        Shape { weight, roots: simple::count_roots(&u, p), repeated: simple::share_factor(&u, &derivative, p) }
    }
}

impl fmt::Display for Shape {
    fn fmt(&self, f: &mut fmt::Formatter<'_>) -> fmt::Result {
        let words = match (self.weight, self.roots, self.repeated) {
            (0 | 1, ..) => return write!(f, "weight {}", self.weight),
            (_, 0, _) => "no root",
            (2, 1, _) => "a double root",
            (2, ..) => "two roots",
            (_, 1, true) => "a triple root",
            (_, 1, false) => "one root",
            (_, 2, _) => "a double root and another",
            _ => "three roots",
        };
        write!(f, "weight {}, {}", self.weight, words)
    }
}

/// A weight, and how often u has each of its roots.
const SHAPES: [(usize, &[usize]); 8] =
    [(2, &[1, 1]), (2, &[2]), (2, &[]), (3, &[1, 1, 1]), (3, &[1, 2]), (3, &[3]), (3, &[1]), (3, &[])];

/// u without its leading 1: its roots as often as is said, and nothing else that has one.
fn drawn(rng: &mut Rng, p: u64, weight: usize, often: &[usize]) -> Vec<u64> {
    let mut u = loop {
        let rest = weight - often.iter().sum::<usize>();
        let mut u: Vec<u64> = (0..rest).map(|_| rng.below(p)).collect();
        u.push(1);
        if simple::count_roots(&u, p) == 0 {
            break u;
        }
    };
    let mut roots: Vec<u64> = Vec::new();
    for &times in often {
        let root = loop {
            let root = match rng.below(5) {
                0 => 0,
                1 => p - 1,
                _ => rng.below(p),
            };
            if !roots.contains(&root) {
                break root;
            }
        };
        roots.push(root);
        u = (0..times).fold(u, |u, _| simple::product(&u, &[(p - root) % p, 1], p));
    }
    u.truncate(weight);
    u
}

/// A curve that has a divisor with this u, and the divisor: f = v² + u·w for some v and a monic w.
fn made_for(rng: &mut Rng, genus: usize, p: u64, u: &[u64]) -> Option<(Vec<u8>, Vec<u8>)> {
    let mut draw = |n: usize| -> Vec<u64> { (0..n).map(|_| rng.below(p)).collect() };
    let monic = |lower: &[u64]| [lower, &[1]].concat();
    for _ in 0..200 {
        let (v, w) = (draw(u.len()), monic(&draw(2 * genus + 1 - u.len())));
        let mut f = simple::product(&monic(u), &w, p);
        for (c, square) in f.iter_mut().zip(simple::product(&v, &v, p)) {
            *c = (*c + square) % p;
        }
        f.pop();
        let witness = Some(Witness::of(p)).filter(|_| p > 0x7fff_ffff || f[0] % 3 == 0);
        let curve = curve_record(genus as u8, p, &f, witness.as_ref());
        if plain::check_curve(&curve).number == 0 {
            return Some((curve, divisor_record(u, &v)));
        }
    }
    None
}

/// Puts a split, and counts the shape where the divisor was good.
pub fn put(judge: &mut Judge, curve: &[u8], divisor: &[u8], room: usize) {
    let number = judge.put(Call::Split { curve, divisor }, room);
    if [0, 13, 26].contains(&number) {
        let zero = divisor.len() > 17 && divisor[1..9] == [0; 8];
        let (all, with_zero) = judge.tally.splits.entry(Shape::of(divisor, p_of(curve))).or_default();
        *all += 1;
        *with_zero += u64::from(zero);
    }
}

/// The prime of a good curve record.
fn p_of(curve: &[u8]) -> u64 {
    curve[6..14].iter().fold(0, |p, &byte| p << 8 | u64::from(byte))
}

/// Every shape that the genus has, on curves made for it: the divisor with outputs round its length, its opposite, and what is left, split again.
pub fn of_shapes(judge: &mut Judge, genus: usize, p: u64) {
    for (weight, often) in SHAPES.into_iter().filter(|(weight, _)| *weight <= genus) {
        for _ in 0..3 {
            let u = drawn(&mut judge.rng, p, weight, often);
            let (curve, divisor) = match made_for(&mut judge.rng, genus, p, &u) {
                Some(made) => made,
                None => continue,
            };
            let any = judge.rng.below(80) as usize;
            for room in [16 * weight, 16 * weight + 1, 16 * weight + 2, 16 * weight + 3, 17, any] {
                put(judge, &curve, &divisor, room);
            }
            let mut out = [0; ROOM];
            let length = plain::opposite(&curve, &divisor, &mut out).length as usize;
            put(judge, &curve, &out[..length], ROOM);
            let length = plain::split(&curve, &divisor, &mut out).length as usize;
            if length > 0 {
                put(judge, &curve, &out[17..length], ROOM);
            }
        }
    }
}

/// The divisors of the pool, all of them where the curve is small, and records with a bit flipped.
pub fn of_sample(judge: &mut Judge, sample: &Sample) {
    let every = if sample.is_small() { every_divisor(sample) } else { Vec::new() };
    for divisor in sample.pool.iter().chain(&every) {
        put(judge, &sample.curve, divisor, ROOM);
    }
    for _ in 0..20 {
        let divisor = sample.any(&mut judge.rng).to_vec();
        let room = judge.rng.below(ROOM as u64 + 1) as usize;
        let flipped = judge.rng.flip(&divisor);
        put(judge, &sample.curve, &flipped, room);
    }
}

/// One divisor of each weight, that can be split where the pool has such, with outputs of every length to 60 bytes.
pub fn output_lengths(judge: &mut Judge, sample: &Sample) {
    for weight in 0..=sample.genus {
        let good = sample.pool.iter().filter(|record| usize::from(record[0]) == weight);
        let (mut splits, others): (Vec<_>, Vec<_>) = good.partition(|divisor| can_be_split(sample, divisor));
        splits.extend(others);
        for room in 0..=60 {
            if let Some(divisor) = splits.first() {
                put(judge, &sample.curve, divisor, room);
            }
        }
    }
}

pub fn can_be_split(sample: &Sample, divisor: &[u8]) -> bool {
    plain::split(&sample.curve, divisor, &mut [0; ROOM]).number == 0
}

#[cfg(test)]
mod tests {
    use super::*;
    use crate::engine::{Engine, Plain, Reply, Wrong};

    const FIELDS: [(usize, u64); 6] =
        [(2, 3), (3, 3), (3, 5), (2, 27 * (1 << 56) + 1), (3, 27 * (1 << 56) + 1), (3, (1 << 61) - 1)];

    fn judged<'e>(first: &'e dyn Engine, second: &'e dyn Engine) -> Judge<'e> {
        let mut judge = Judge::new(first, second, 1, true);
        for (genus, p) in FIELDS {
            let sample = Sample::new(&mut judge.rng, genus, p);
            of_sample(&mut judge, &sample);
            of_shapes(&mut judge, genus, p);
            output_lengths(&mut judge, &sample);
        }
        judge
    }

    /// Every shape is there, with the root 0 too, and 26 is given by the shape.
    #[test]
    fn every_shape_is_there() {
        let judge = judged(&Plain, &Plain);
        assert_eq!((judge.tally.differences, judge.tally.splits.len()), (0, 10));
        assert!(judge.tally.numbers[&13] > 100 && judge.tally.added_back > 500);
        for (shape, &(all, with_zero)) in &judge.tally.splits {
            assert!(
                all > 50 && (with_zero > 4 || shape.weight < 2 || shape.roots == 0),
                "{} {} {}",
                shape,
                all,
                with_zero
            );
        }
        let mut rng = Rng::new(3);
        for ((genus, p), (weight, often)) in FIELDS.into_iter().flat_map(|field| SHAPES.map(|shape| (field, shape))) {
            if weight <= genus {
                let u = drawn(&mut rng, p, weight, often);
                let (curve, divisor) = made_for(&mut rng, genus, p, &u).expect("a curve");
                let wanted = Shape { weight, roots: often.len(), repeated: often.iter().any(|&n| n > 1) };
                assert_eq!(Shape::of(&divisor, p), wanted);
                let number = plain::split(&curve, &divisor, &mut [0; ROOM]).number;
                assert_eq!(number, if often.is_empty() { 26 } else { 0 }, "{} {}", p, wanted);
            }
        }
    }

    /// Curve, divisor, output and reply to a wrong reply.
    type Slip = fn(&[u8], &[u8], &mut [u8], &mut Reply);

    fn wrong(slip: Slip) -> impl Engine {
        Wrong(move |call: &Call, out: &mut [u8], reply: &mut Reply| {
            if let Call::Split { curve, divisor } = *call {
                slip(curve, divisor, out, reply);
            }
        })
    }

    #[test]
    fn slips_show() {
        let slips: [(&str, Slip); 8] = [
            ("the larger u_0 first", |_, _, out, reply| {
                if reply.length == 34 {
                    out[..34].rotate_left(17);
                }
            }),
            ("a double root is no root", |curve, divisor, _, reply| {
                if reply.number == 13 && Shape::of(divisor, p_of(curve)).repeated {
                    *reply = Reply { number: 26, ..Reply::default() };
                }
            }),
            ("a double root once", |_, _, out, reply| {
                if reply.length == 34 && out[..17] == out[17..34] {
                    reply.length = 17;
                }
            }),
            ("13 before 26", |_, _, out, reply| {
                if reply.number == 26 && out.len() < 34 {
                    reply.number = 13;
                }
            }),
            ("a point is split", |_, divisor, _, reply| {
                if reply.number == 26 && divisor.len() == 17 {
                    reply.number = 13;
                }
            }),
            ("the rest's v is turned", |_, _, out, reply| {
                if reply.length == 50 {
                    out[49] ^= 1;
                }
            }),
            ("another root of three", |curve, divisor, out, reply| {
                // Whatever root the rest has stands first.
                let mut rest = [0; ROOM];
                if reply.length == 50 && plain::split(curve, &out[17..50], &mut rest).length == 34 {
                    let mut sum = [0; 49];
                    let length = plain::add(curve, &out[..17], &rest[17..34], &mut sum).length as usize;
                    assert_eq!(length, 33, "{:?}", divisor);
                    out[..17].copy_from_slice(&rest[..17]);
                    out[17..50].copy_from_slice(&sum[..33]);
                }
            }),
            ("a place", |_, _, _, reply| reply.place = u64::from(reply.number == 26)),
        ];
        for (name, slip) in slips {
            assert!(judged(&wrong(slip), &Plain).tally.differences > 0, "{}", name);
        }
        // What both do wrong shows where the parts don't add up.
        let turned: Slip = |_, _, out, reply| {
            if reply.length == 50 {
                out[49] ^= 1;
            }
        };
        assert!(judged(&wrong(turned), &wrong(turned)).tally.differences > 0);
    }
}
