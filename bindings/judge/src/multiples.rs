//! Multiples by both multiply calls, where the second engine meets special pairs, and at full size.

use crate::engine::Call;
use crate::inputs::{every_divisor, Sample};
use crate::judge::Judge;

const SMALL: [(usize, u64); 6] = [(2, 3), (2, 5), (2, 7), (2, 11), (3, 3), (3, 5)];
const CURVES: usize = 2;
const MOST_SCALAR: u16 = 300;
const LARGE: [u64; 2] = [2_147_483_647, (1 << 61) - 1];
const ROOM: usize = 49;

/// Every divisor of small curves by every scalar to 300; then `count` multiples by scalars of 32 bytes.
pub fn run(judge: &mut Judge, count: u64) {
    for (genus, p) in SMALL {
        let (before, mut divisors) = (judge.tally.twins, 0);
        for _ in 0..CURVES {
            let sample = Sample::new(&mut judge.rng, genus, p);
            for a in every_divisor(&sample) {
                divisors += 1;
                for n in 0..=MOST_SCALAR {
                    let a = &a;
                    judge.put(Call::Multiply { curve: &sample.curve, a, scalar: &n.to_be_bytes() }, ROOM);
                }
            }
        }
        let multiples = judge.tally.twins - before;
        println!("g {} p {}: {} curves, {} divisors, {} multiples", genus, p, CURVES, divisors, multiples);
    }
    let before = judge.tally.twins;
    for round in 0..count {
        let p = LARGE[round as usize / 8 % 2];
        let sample = Sample::new(&mut judge.rng, if round % 8 == 7 { 3 } else { 2 }, p);
        let a = sample.any(&mut judge.rng).to_vec();
        let mut scalar = judge.rng.bytes(32);
        // The largest of all; the largest with 256 signed digits, and the least with 257.
        match judge.rng.below(24) {
            0 => scalar.fill(0xff),
            1 => scalar.fill(0xaa),
            2 => scalar = [vec![0xaa; 31], vec![0xab]].concat(),
            _ => (),
        }
        judge.put(Call::Multiply { curve: &sample.curve, a: &a, scalar: &scalar }, ROOM);
    }
    println!("p {:?}: {} multiples by scalars of 32 bytes", LARGE, judge.tally.twins - before);
}

#[cfg(test)]
mod tests {
    use super::*;
    use crate::engine::{Engine, Plain, Reply};
    use crate::inputs::Rng;

    /// The plain engine, its second multiply call wrong where the scalar is 255.
    struct Wrong;

    impl Engine for Wrong {
        fn name(&self) -> &'static str {
            "wrong"
        }

        fn answer(&self, call: &Call, out: &mut [u8]) -> Reply {
            let mut reply = Plain.answer(call, out);
            if let Call::MultiplyInversionFree { scalar, .. } = call {
                reply.counts[1] += u64::from(scalar.ends_with(&[255]));
            }
            reply
        }
    }

    /// Also where both engines are wrong in the same way: the two calls differ.
    #[test]
    fn a_wrong_second_call_shows() {
        let engines: [(&dyn Engine, &dyn Engine, u64); 3] =
            [(&Plain, &Plain, 0), (&Wrong, &Plain, 2), (&Wrong, &Wrong, 2)];
        for (first, second, differences) in engines {
            let mut judge = Judge::new(first, second, 1, true);
            let sample = Sample::new(&mut Rng::new(1), 2, 7);
            for scalar in [[0, 3], [0, 255], [1, 255]] {
                let a = sample.pool.iter().find(|record| record.len() > 1).expect("a point");
                judge.put(Call::Multiply { curve: &sample.curve, a, scalar: &scalar }, ROOM);
            }
            assert_eq!((judge.tally.twins, judge.tally.differences), (3, differences));
        }
    }
}
