//! Times the proved library and the plain implementation in one program, on the same bytes.
//!
//!     bench [RUNS]                        medians of RUNS runs (15) of each work and engine, and their ratio
//!     bench count ENGINE WORK CURVE N     does a work N times and prints nothing, for a counter of instructions
//!
//! ENGINE is `proved` or `plain`, WORK is `total` (a batch of 4,096 records), `multiple` (a 256-bit scalar), `repeat` (the first repeat
//! among 4,096 different meters), `check` (the curve record alone), `record` (the check of one divisor), `add` (the last two records of the batch),
//! `scans` (the same two scanned, the first into a fresh total), `scan` (the last record into a lent total that has the one before, as a tablet does all
//! day) or `split` (a sum of as many points as the genus), CURVE is `2` for genus 2, `3` for genus 3 with f_6 = 0, or `3-f6` for genus 3 with another
//! f_6, p = 2,147,483,647 in records of version 1; `2-v2` and `3-v2` are the first two in records of version 2, with their witness, `2-61` and `3-61`
//! at p = 2^61 - 1. WORK `census` goes with CURVE `3-13` alone, genus 3 and p = 13: every divisor from the neutral one on, by a call each. Every call
//! checks its curve and its records, in both engines. A program that was built without the library times plain against plain. Exit 1 where the engines'
//! results differ, 2 on wrong arguments.

use std::process::exit;
use std::time::Instant;

const RECORDS: usize = 4096;

/// The pole of the scans.
const POLE: u32 = 40101;

/// Curve to number.
type Check = fn(&[u8]) -> u64;

/// Curve, batch or divisor, and output to number and length.
type Total = fn(&[u8], &[u8], &mut [u8]) -> (u64, u64);

/// Curve and two scans of one pole to the numbers of both, one of them being 0.
type Scans = fn(&[u8], &[u8], &[u8]) -> u64;

/// A divisor's weight, then u and v, three numbers each.
type Flat = [u64; 7];

/// Curve, the divisor of a total and a scan to number and the divisor of the total after it.
type Scan = fn(&[u8], Flat, &[u8]) -> (u64, Flat);

/// Curve and batch to number, first and second.
type Repeat = fn(&[u8], &[u8]) -> (u64, u64, u64);

/// Curve, divisor, scalar and output to number and length.
type Multiple = fn(&[u8], &[u8], &[u8], &mut [u8]) -> (u64, u64);

/// The calls that are timed.
struct Engine {
    name: &'static str,
    total: Total,
    multiple: Multiple,
    repeat: Repeat,
    check: Check,
    record: fn(&[u8], &[u8]) -> u64,
    add: Multiple,
    scans: Scans,
    scan: Scan,
    split: Total,
    next: Total,
}

const PLAIN: Engine = Engine {
    name: "plain",
    total: |curve, batch, out| {
        let answer = plain::total_batch(curve, batch, out);
        (answer.number, answer.length)
    },
    multiple: |curve, a, scalar, out| {
        let answer = plain::multiply(curve, a, scalar, out);
        (answer.number, answer.length)
    },
    repeat: |curve, batch| {
        let answer = plain::first_repeat(curve, batch);
        (answer.number, answer.first, answer.second)
    },
    check: |curve| plain::check_curve(curve).number,
    record: |curve, divisor| plain::check_divisor(curve, divisor).number,
    add: |curve, a, b, out| {
        let answer = plain::add(curve, a, b, out);
        (answer.number, answer.length)
    },
    scans: |curve, a, b| {
        let first = plain::scan(plain::fresh_total(POLE), curve, a);
        let second = plain::scan(first.total, curve, b);
        first.number + second.number
    },
    scan: |curve, held, scan| {
        let [weight, u0, u1, u2, v0, v1, v2] = held;
        let mut total = plain::Running { weight, u0, u1, u2, v0, v1, v2, count: 1, pole: POLE };
        let answer = plain::scan_lent(&mut total, curve, scan);
        (answer.number, [total.weight, total.u0, total.u1, total.u2, total.v0, total.v1, total.v2])
    },
    split: |curve, divisor, out| {
        let answer = plain::split(curve, divisor, out);
        (answer.number, answer.length)
    },
    next: |curve, divisor, out| {
        let answer = plain::next_divisor(curve, divisor, out);
        (answer.number, answer.length)
    },
};

#[cfg(feature = "proved")]
const PROVED: Engine = Engine {
    name: "proved",
    total: |curve, batch, out| {
        let answer = yubisorade::raw::total_batch(curve, batch, out);
        (answer.number, answer.length)
    },
    multiple: |curve, a, scalar, out| {
        let answer = yubisorade::raw::multiply(curve, a, scalar, out);
        (answer.number, answer.length)
    },
    repeat: |curve, batch| {
        let answer = yubisorade::raw::first_repeat(curve, batch);
        (answer.number, answer.first, answer.second)
    },
    check: |curve| yubisorade::raw::check_curve(curve).number,
    record: |curve, divisor| yubisorade::raw::check_divisor(curve, divisor).number,
    add: |curve, a, b, out| {
        let answer = yubisorade::raw::add(curve, a, b, out);
        (answer.number, answer.length)
    },
    scans: |curve, a, b| {
        let first = yubisorade::raw::scan(yubisorade::raw::fresh_total(POLE), curve, a);
        let second = yubisorade::raw::scan(first.total, curve, b);
        first.number + second.number
    },
    scan: |curve, held, scan| {
        let [weight, u0, u1, u2, v0, v1, v2] = held;
        let mut total = yubisorade::raw::YubiRunning { weight, u0, u1, u2, v0, v1, v2, count: 1, pole: POLE };
        let answer = yubisorade::raw::scan_lent(&mut total, curve, scan);
        (answer.number, [total.weight, total.u0, total.u1, total.u2, total.v0, total.v1, total.v2])
    },
    split: |curve, divisor, out| {
        let answer = yubisorade::raw::split(curve, divisor, out);
        (answer.number, answer.length)
    },
    next: |curve, divisor, out| {
        let answer = yubisorade::raw::next_divisor(curve, divisor, out);
        (answer.number, answer.length)
    },
};
#[cfg(not(feature = "proved"))]
const PROVED: Engine = Engine { name: "plain (no library)", ..PLAIN };

#[derive(Clone, Copy)]
enum Work {
    Total,
    Multiple,
    Repeat,
    Check,
    Record,
    Add,
    Scans,
    Scan,
    Split,
}

impl Work {
    const ALL: [Work; 9] = [
        Work::Total,
        Work::Multiple,
        Work::Repeat,
        Work::Check,
        Work::Record,
        Work::Add,
        Work::Scans,
        Work::Scan,
        Work::Split,
    ];

    fn name(self) -> &'static str {
        match self {
            Work::Total => "total",
            Work::Multiple => "multiple",
            Work::Repeat => "repeat",
            Work::Check => "check",
            Work::Record => "record",
            Work::Add => "add",
            Work::Scans => "scans",
            Work::Scan => "scan",
            Work::Split => "split",
        }
    }
}

/// The curves: their genus, and f_2g = 0 or not.
#[derive(Clone, Copy)]
struct On {
    key: &'static str,
    name: &'static str,
    genus: u8,
    f_2g: bool,
    modulo: &'static Modulus,
}

/// A prime, and with a record of version 2 the base and the primes that show it.
struct Modulus {
    p: u64,
    witness: Option<(u64, &'static [u64])>,
    /// The coefficients are multiples of this, far from 0.
    step: u64,
}

const P31: Modulus = Modulus { p: 2_147_483_647, witness: None, step: 1_234_567_891 };

const P61: Modulus = Modulus {
    p: 2_305_843_009_213_693_951,
    witness: Some((37, &[2, 3, 5, 7, 11, 13, 31, 41, 61, 151, 331, 1321])),
    step: 1_234_567_891_234_567_891,
};

/// The same prime by its witness.
const P31_SHOWN: Modulus = Modulus { witness: Some((7, &[2, 3, 7, 11, 31, 151, 331])), ..P31 };

const CURVES: [On; 7] = [
    On { key: "2", name: "genus 2", genus: 2, f_2g: true, modulo: &P31 },
    On { key: "3", name: "genus 3, f_6 = 0", genus: 3, f_2g: false, modulo: &P31 },
    On { key: "3-f6", name: "genus 3, f_6 ≠ 0", genus: 3, f_2g: true, modulo: &P31 },
    On { key: "2-v2", name: "genus 2, version 2", genus: 2, f_2g: true, modulo: &P31_SHOWN },
    On { key: "3-v2", name: "genus 3, f_6 = 0, version 2", genus: 3, f_2g: false, modulo: &P31_SHOWN },
    On { key: "2-61", name: "genus 2, 2^61 - 1", genus: 2, f_2g: true, modulo: &P61 },
    On { key: "3-61", name: "genus 3, f_6 = 0, 2^61 - 1", genus: 3, f_2g: false, modulo: &P61 },
];

/// The curve of the census: y² = x^7 + x + 2 modulo 13.
const TRAINING: [u64; 8] = [13, 2, 1, 0, 0, 0, 0, 0];

/// How many divisors it has.
const DIVISORS: u64 = 1358;

/// The steps of a whole census.
fn census(engine: &Engine) -> u64 {
    let numbers = TRAINING.iter().flat_map(|number| number.to_be_bytes());
    let curve: Vec<u8> = b"HJC\x00\x01\x03".iter().copied().chain(numbers).collect();
    let (mut at, mut out) = (vec![0], [0; 50]);
    for divisors in 1.. {
        match (engine.next)(&curve, &at, &mut out) {
            (0, length) => at = out[..length as usize].to_vec(),
            _ => return divisors,
        }
    }
    unreachable!("the divisors end")
}

/// A divisor record's numbers, 0 where it has fewer.
fn flat(record: &[u8]) -> Flat {
    let weight = usize::from(record[0]);
    let mut numbers = [weight as u64, 0, 0, 0, 0, 0, 0];
    for (i, bytes) in record[1..].chunks_exact(8).enumerate() {
        numbers[if i < weight { 1 + i } else { 4 + i - weight }] =
            u64::from_be_bytes(bytes.try_into().expect("eight bytes"));
    }
    numbers
}

/// A record as the pole's scan.
fn scan_of(record: &[u8]) -> Vec<u8> {
    [&POLE.to_be_bytes()[..], record].concat()
}

/// What both engines work on.
struct Input {
    genus: u8,
    curve: Vec<u8>,
    batch: Vec<u8>,
    scalar: [u8; 32],
    /// The sum of as many points as the genus, over different x.
    of_points: Vec<u8>,
    /// The last record but one as a total holds it, and the last as a scan.
    held: Flat,
    scan: Vec<u8>,
}

impl Input {
    /// A curve with every coefficient in use, but for f_2g where it is to be 0, and 4,096 different divisors, all but the first few
    /// of full weight.
    fn new(on: On) -> Input {
        let genus = on.genus;
        let Modulus { p, witness, step } = *on.modulo;
        let mut curve = vec![b'H', b'J', b'C', 0, if witness.is_some() { 2 } else { 1 }, genus];
        curve.extend_from_slice(&p.to_be_bytes());
        // f_0 = 4, so that (x, 2) is on the curve; the others are far from 0.
        let coefficient = |i: u64| match i {
            0 => 4,
            i if i == 2 * u64::from(genus) && !on.f_2g => 0,
            i => i * step % p,
        };
        let f: Vec<u64> = (0..=2 * u64::from(genus)).map(coefficient).collect();
        curve.extend(f.iter().flat_map(|c| c.to_be_bytes()));
        if let Some((base, primes)) = witness {
            curve.extend_from_slice(&base.to_be_bytes());
            curve.push(primes.len() as u8);
            curve.extend(primes.iter().flat_map(|q| q.to_be_bytes()));
        }
        let mut point = vec![1];
        point.extend_from_slice(&0u64.to_be_bytes());
        point.extend_from_slice(&2u64.to_be_bytes());

        let mut batch = Vec::new();
        let mut last = vec![0];
        for _ in 0..RECORDS {
            let mut out = [0; 49];
            let answer = plain::add(&curve, &last, &point, &mut out);
            assert_eq!(answer.number, 0, "the benchmark's curve was refused");
            last = out[..answer.length as usize].to_vec();
            batch.extend_from_slice(&last);
        }
        let mut scalar = [0; 32];
        for (i, byte) in scalar.iter_mut().enumerate() {
            *byte = 0x80 | (i as u8).wrapping_mul(37);
        }
        let of_points = sum_of_points(&curve, &f, on.modulo);
        let mut input = Input { genus, curve, batch, scalar, of_points, held: [0; 7], scan: Vec::new() };
        input.held = flat(input.before());
        input.scan = scan_of(input.divisor());
        input
    }

    /// The last record of the batch.
    fn divisor(&self) -> &[u8] {
        &self.batch[self.batch.len() - 1 - 16 * usize::from(self.genus)..]
    }

    /// The last record but one.
    fn before(&self) -> &[u8] {
        let length = 1 + 16 * usize::from(self.genus);
        &self.batch[self.batch.len() - 2 * length..][..length]
    }

    /// Does a work once and gives the record that it wrote, or the two places of a repeat.
    fn run(&self, engine: &Engine, work: Work) -> Vec<u8> {
        let mut out = [0; 56];
        let (number, length) = match work {
            Work::Total => (engine.total)(&self.curve, &self.batch, &mut out),
            Work::Multiple => (engine.multiple)(&self.curve, self.divisor(), &self.scalar, &mut out),
            Work::Repeat => {
                let (number, first, second) = (engine.repeat)(&self.curve, &self.batch);
                out[..8].copy_from_slice(&first.to_be_bytes());
                out[8..16].copy_from_slice(&second.to_be_bytes());
                (number, 16)
            }
            Work::Check => ((engine.check)(&self.curve), 0),
            Work::Record => ((engine.record)(&self.curve, self.divisor()), 0),
            Work::Add => (engine.add)(&self.curve, self.divisor(), self.before(), &mut out),
            Work::Scans => ((engine.scans)(&self.curve, &scan_of(self.before()), &scan_of(self.divisor())), 0),
            Work::Scan => {
                let (number, total) = (engine.scan)(&self.curve, self.held, &self.scan);
                for (bytes, number) in out.chunks_exact_mut(8).zip(total) {
                    bytes.copy_from_slice(&number.to_be_bytes());
                }
                (number, 56)
            }
            Work::Split => (engine.split)(&self.curve, &self.of_points, &mut out),
        };
        if number != 0 {
            eprintln!("{} {} was refused: {}", engine.name, work.name(), number);
            exit(1);
        }
        out[..length as usize].to_vec()
    }
}

/// The sum of points over different x, as many as the genus: p is 3 modulo 4, so that a power is y where there is one.
fn sum_of_points(curve: &[u8], f: &[u64], modulo: &Modulus) -> Vec<u8> {
    let Modulus { p, step, .. } = *modulo;
    let mul = |a: u64, b: u64| (u128::from(a) * u128::from(b) % u128::from(p)) as u64;
    let pow = |a: u64, n: u64| (0..64).rev().fold(1, |r, i| mul(mul(r, r), if n >> i & 1 == 1 { a } else { 1 }));
    let point = |i: u64| {
        let x = mul(i, step);
        let square = f.iter().rev().fold(1, |sum, c| (mul(sum, x) + c) % p);
        let record = [&[1][..], &(p - x).to_be_bytes(), &pow(square, (p + 1) / 4).to_be_bytes()].concat();
        Some(record).filter(|record| plain::check_divisor(curve, record).number == 0)
    };
    (1..).filter_map(point).take(f.len() / 2).fold(vec![0], |sum, point| {
        let mut out = [0; 49];
        let length = plain::add(curve, &sum, &point, &mut out).length as usize;
        out[..length].to_vec()
    })
}

fn usage() -> ! {
    eprintln!(
        "usage: bench [RUNS]\n       bench count proved|plain total|multiple|repeat|check|record|add|scans|scan|split 2|3|3-f6|2-v2|3-v2|2-61|3-61 N"
    );
    exit(2)
}

fn main() {
    let arguments: Vec<String> = std::env::args().skip(1).collect();
    let words: Vec<&str> = arguments.iter().map(|word| &word[..]).collect();
    match words[..] {
        [] => compare(15),
        [runs] => compare(runs.parse().ok().filter(|&runs| runs > 0).unwrap_or_else(|| usage())),
        ["count", engine, work, curve, n] => {
            let engine = match engine {
                "proved" => &PROVED,
                "plain" => &PLAIN,
                _ => usage(),
            };
            let n: u64 = n.parse().unwrap_or_else(|_| usage());
            if (work, curve) == ("census", "3-13") {
                assert!((0..n).all(|_| census(engine) == DIVISORS), "the census isn't whole");
                return;
            }
            let work = Work::ALL.iter().find(|known| known.name() == work).unwrap_or_else(|| usage());
            let on = CURVES.iter().find(|known| known.key == curve).unwrap_or_else(|| usage());
            let input = Input::new(*on);
            for _ in 0..n {
                input.run(engine, *work);
            }
        }
        _ => usage(),
    }
}

/// Runs the engines in turn, so that a slow moment of the machine hits both.
fn compare(runs: usize) {
    println!("p = {} where not said, medians of {} runs, the curve check included", P31.p, runs);
    for on in CURVES {
        let input = Input::new(on);
        for work in Work::ALL {
            let mut times = [Vec::new(), Vec::new()];
            for _ in 0..runs {
                let mut results = Vec::new();
                for (engine, times) in [&PROVED, &PLAIN].iter().zip(&mut times) {
                    let start = Instant::now();
                    results.push(input.run(engine, work));
                    times.push(start.elapsed().as_secs_f64() * 1e6);
                }
                if results[0] != results[1] {
                    eprintln!("{} {}: the engines' results differ", on.name, work.name());
                    exit(1);
                }
            }
            let [proved, plain] = times.map(median);
            println!(
                "{:27} {:8}  {} {:10.1} us   {} {:10.1} us   ratio {:.2}",
                on.name,
                work.name(),
                PROVED.name,
                proved,
                PLAIN.name,
                plain,
                proved / plain
            );
        }
    }
}

fn median(mut times: Vec<f64>) -> f64 {
    times.sort_by(|a, b| a.partial_cmp(b).expect("times are numbers"));
    times[times.len() / 2]
}
