//! Censuses: whole small curves from the neutral divisor to the last, steps from anywhere, and curves that are too large.

use crate::engine::Call;
use crate::inputs::{divisor_record, Sample};
use crate::judge::Judge;

const ROOM: usize = 49;

/// The primes of training curves.
const PRIMES: [u64; 5] = [3, 5, 7, 11, 13];

/// The largest of them.
pub const LARGEST: u64 = 13;

/// The first primes that are too large.
const TOO_LARGE: [u64; 3] = [17, 19, 23];

/// The divisor after one of a training curve, if there is one.
fn next(curve: &[u8], divisor: &[u8]) -> Option<Vec<u8>> {
    let mut out = [0; ROOM];
    let answer = plain::next_divisor(curve, divisor, &mut out);
    Some(out[..answer.length as usize].to_vec()).filter(|_| answer.number == 0)
}

/// The last divisor of a training curve, by a search from the highest record down.
pub fn last(sample: &Sample) -> Vec<u8> {
    let p = sample.p;
    let of_weight = |weight: usize| {
        let record = move |k: u64| {
            let numbers: Vec<u64> = (0..2 * weight as u32).rev().map(|i| k / p.pow(i) % p).collect();
            divisor_record(&numbers[..weight], &numbers[weight..])
        };
        (0..p.pow(2 * weight as u32)).rev().map(record).find(|a| plain::check_divisor(&sample.curve, a).number == 0)
    };
    (0..=sample.genus).rev().find_map(of_weight).expect("the neutral divisor is one")
}

/// Steps from a divisor on, up to a number of them, and gives how many there were before the last divisor was met.
fn walk(judge: &mut Judge, sample: &Sample, from: &[u8], most: usize) -> usize {
    let mut at = from.to_vec();
    for steps in 0..most {
        let room = if judge.rng.one_in(8) { judge.rng.below(ROOM as u64 + 4) as usize } else { ROOM };
        judge.put(Call::NextDivisor { curve: &sample.curve, divisor: &at }, room);
        at = match next(&sample.curve, &at) {
            Some(next) => next,
            None => return steps,
        };
    }
    most
}

/// Whole censuses at every prime in both genera, of so many curves each.
pub fn run(judge: &mut Judge, curves: u64) {
    for (genus, p) in PRIMES.into_iter().flat_map(|p| [(2, p), (3, p)]) {
        for _ in 0..curves {
            let sample = Sample::new(&mut judge.rng, genus, p);
            whole(judge, &sample);
        }
    }
}

/// Steps from the neutral divisor to the last, and counts them.
fn whole(judge: &mut Judge, sample: &Sample) {
    let divisors = 1 + walk(judge, sample, &[0], usize::MAX);
    let walks = judge.tally.walks.entry((sample.genus, sample.p)).or_default();
    walks.curves += 1;
    walks.of_version_2 += u64::from(sample.witness.is_some());
    walks.divisors += divisors as u64;
}

/// Every prime in turn: a whole census where the curve is small, and everywhere steps from divisors of the pool, from the last one and to it; then
/// a curve that is too large.
pub fn of_round(judge: &mut Judge, genus: usize, round: usize) {
    let sample = Sample::new(&mut judge.rng, genus, PRIMES[round % PRIMES.len()]);
    if sample.is_small() {
        whole(judge, &sample);
    }
    for _ in 0..12 {
        let divisor = sample.any(&mut judge.rng).to_vec();
        walk(judge, &sample, &divisor, 2);
    }
    let last = last(&sample);
    for room in 0..=ROOM + 3 {
        judge.put(Call::NextDivisor { curve: &sample.curve, divisor: &last }, room);
        let divisor = sample.any(&mut judge.rng).to_vec();
        judge.put(Call::NextDivisor { curve: &sample.curve, divisor: &divisor }, room);
    }
    let highest = sample.pool.iter().max().expect("a pool").clone();
    walk(judge, &sample, &highest, 12);
    of_sample(judge, &sample);
    let p = *judge.rng.pick(&TOO_LARGE);
    let larger = Sample::new(&mut judge.rng, genus, p);
    of_sample(judge, &larger);
}

/// Divisors of a pool as they are and with a bit flipped, and noise, on any curve.
pub fn of_sample(judge: &mut Judge, sample: &Sample) {
    for _ in 0..8 {
        let divisor = sample.any(&mut judge.rng).to_vec();
        let (flipped, length) = (judge.rng.flip(&divisor), judge.rng.below(52) as usize);
        for divisor in [divisor, flipped, judge.rng.bytes(length)] {
            let room = judge.rng.below(ROOM as u64 + 1) as usize;
            judge.put(Call::NextDivisor { curve: &sample.curve, divisor: &divisor }, room);
        }
    }
}

#[cfg(test)]
mod tests {
    use super::*;
    use crate::engine::{Engine, Plain, Reply, Wrong};
    use crate::inputs::{every_divisor, Rng};

    fn judged<'e>(first: &'e dyn Engine, second: &'e dyn Engine, rounds: usize) -> Judge<'e> {
        let mut judge = Judge::new(first, second, 1, true);
        for round in 0..rounds {
            for genus in [2, 3] {
                of_round(&mut judge, genus, round);
            }
        }
        judge
    }

    /// The steps meet every divisor that a brute search finds, in order, and the search from above finds the last of them.
    #[test]
    fn walks_are_whole() {
        for (genus, p) in [(2, 3), (2, 5), (2, 7), (2, 11), (3, 3), (3, 5)] {
            let sample = Sample::new(&mut Rng::new(p), genus, p);
            let mut all = every_divisor(&sample);
            all.sort();
            let walked: Vec<Vec<u8>> = std::iter::successors(Some(vec![0]), |at| next(&sample.curve, at)).collect();
            assert_eq!(walked, all);
            assert_eq!(all.last(), Some(&last(&sample)));
        }
    }

    #[test]
    fn every_answer_is_there() {
        let judge = judged(&Plain, &Plain, 10);
        assert_eq!((judge.tally.differences, judge.tally.walks.len()), (0, 6));
        for number in [0, 9, 10, 13, 24, 25] {
            assert!(judge.tally.numbers[&number] >= 100, "{} {:?}", number, judge.tally.numbers);
        }
        assert!(judge.tally.walks.values().all(|whole| whole.curves > 1 && whole.divisors > 2 * whole.curves));
        assert!(judge.tally.walks.values().any(|whole| whole.of_version_2 > 0));
    }

    /// Curve, divisor, output and reply to a wrong reply.
    type Slip = fn(&[u8], &[u8], &mut [u8], &mut Reply);

    fn wrong(slip: Slip) -> impl Engine {
        Wrong(move |call: &Call, out: &mut [u8], reply: &mut Reply| {
            if let Call::NextDivisor { curve, divisor } = *call {
                slip(curve, divisor, out, reply);
            }
        })
    }

    #[test]
    fn slips_show() {
        let slips: [(&str, Slip); 6] = [
            ("a divisor is left out", |curve, divisor, out, reply| {
                if reply.number == 0 && divisor == [0] {
                    let skipped = out[..reply.length as usize].to_vec();
                    let answer = plain::next_divisor(curve, &skipped, out);
                    (reply.number, reply.length) = (answer.number, answer.length);
                }
            }),
            ("13 before 24", |_, _, out, reply| {
                if reply.number == 24 && out.is_empty() {
                    reply.number = 13;
                }
            }),
            ("the divisor before 25", |_, divisor, _, reply| {
                if reply.number == 25 && divisor.first().map_or(false, |&weight| weight > 3) {
                    (reply.number, reply.place) = (9, 1);
                }
            }),
            ("p = 13 is too large", |curve, _, _, reply| {
                if curve[13] == 13 && curve[6..13] == [0; 7] && reply.number == 24 {
                    reply.number = 25;
                }
            }),
            ("the neutral divisor after the last", |_, _, out, reply| {
                if reply.number == 24 && !out.is_empty() {
                    out[0] = 0;
                    (reply.number, reply.length) = (0, 1);
                }
            }),
            ("a place", |_, _, _, reply| reply.place |= u64::from(reply.number == 24)),
        ];
        for (name, slip) in slips {
            assert!(judged(&wrong(slip), &Plain, 5).tally.differences > 0, "{}", name);
        }
    }
}
