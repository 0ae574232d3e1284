//! How the proved library stands beside Rust, on the total of a batch of 4,096 records and on a multiple by a scalar of 256 bits, curve check
//! and record checks included in all:
//!
//!     yardsticks judge [SEED [COUNT]]       random batches and multiples put to every engine; exit 1 where two differ
//!     yardsticks times [RUNS]               the least time of RUNS runs (5) of each engine and work, and the library's ratio to it
//!     yardsticks count ENGINE WORK CURVE N  does a work N times and prints nothing, for a counter of instructions
//!
//! WORK is `total` or `multiple`; of `proved` and `plain` also `repeat`, the first repeat among 4,096 different meters, and on the curve `3-61`
//! `chain`, the same of a hostile list: meters that share all but their last coefficient, which the library's search meets in one chain.
//!
//! The engines, weakest first. `ordinary` is what the ticket calls ordinary Rust: Cantor's sum on polynomials in vectors and products of 128
//! bits with `%`, as a programmer writes it from a textbook. `plain` is bindings/plain: the common case spelled out, over Montgomery's
//! products. `formulae` is the strongest: explicit formulae for any f, over Montgomery's products. `proved` is the library.

mod cantor;
mod field;
mod formulae;
mod inputs;
mod record;
mod three;
mod two;

use inputs::{Input, Random, CURVES};
use std::process::exit;
use std::time::Instant;

/// The record that a work comes to, or the number of its refusal.
type Outcome = Result<Vec<u8>, u64>;

/// A search for a repeat: number, first and second, of a curve and a batch.
type Search = fn(&[u8], &[u8]) -> (u64, u64, u64);

struct Engine {
    name: &'static str,
    /// Of a curve and a batch.
    total: fn(&[u8], &[u8]) -> Outcome,
    /// Of a curve, a divisor and a scalar.
    multiple: fn(&[u8], &[u8], &[u8]) -> Outcome,
    /// Where an engine has it.
    repeat: Option<Search>,
}

/// Room for any divisor record.
const ROOM: usize = 49;

fn outcome(number: u64, length: u64, out: &[u8]) -> Outcome {
    if number == 0 {
        Ok(out[..length as usize].to_vec())
    } else {
        Err(number)
    }
}

const ENGINES: &[Engine] = &[
    #[cfg(feature = "proved")]
    Engine {
        name: "proved",
        total: |curve, batch| {
            let mut out = [0; ROOM];
            let answer = yubisorade::raw::total_batch(curve, batch, &mut out);
            outcome(answer.number, answer.length, &out)
        },
        multiple: |curve, divisor, scalar| {
            let mut out = [0; ROOM];
            let answer = yubisorade::raw::multiply(curve, divisor, scalar, &mut out);
            outcome(answer.number, answer.length, &out)
        },
        repeat: Some(|curve, batch| {
            let answer = yubisorade::raw::first_repeat(curve, batch);
            (answer.number, answer.first, answer.second)
        }),
    },
    Engine {
        name: "formulae",
        total: record::total::<formulae::Formulae>,
        multiple: record::multiple::<formulae::Formulae>,
        repeat: None,
    },
    Engine {
        name: "plain",
        total: |curve, batch| {
            let mut out = [0; ROOM];
            let answer = plain::total_batch(curve, batch, &mut out);
            outcome(answer.number, answer.length, &out)
        },
        multiple: |curve, divisor, scalar| {
            let mut out = [0; ROOM];
            let answer = plain::multiply(curve, divisor, scalar, &mut out);
            outcome(answer.number, answer.length, &out)
        },
        repeat: Some(|curve, batch| {
            let answer = plain::first_repeat(curve, batch);
            (answer.number, answer.first, answer.second)
        }),
    },
    Engine {
        name: "ordinary",
        total: record::total::<cantor::Ordinary>,
        multiple: record::multiple::<cantor::Ordinary>,
        repeat: None,
    },
];

/// Every engine's outcome against the first engine's.
fn judge(seed: u64, count: u64) {
    let mut random = Random::new(seed);
    let mut refused = 0;
    for case in 0..count {
        let (curve, batch, scalar) = inputs::case(&mut random, case);
        let mut wants: Option<(Outcome, Outcome)> = None;
        for engine in ENGINES {
            let got = ((engine.total)(&curve, &batch), (engine.multiple)(&curve, &batch, &scalar));
            match &wants {
                None => {
                    refused += u64::from(got.0.is_err());
                    wants = Some(got);
                }
                Some(want) if *want == got => {}
                Some(want) => {
                    eprintln!("case {case} of seed {seed}: {} says {got:?}, {} {want:?}", engine.name, ENGINES[0].name);
                    eprintln!("curve {curve:?}\nbatch {batch:?}\nscalar {scalar:?}");
                    exit(1);
                }
            }
        }
    }
    println!("{count} batches and multiples, {refused} batches refused: {} engines answer the same", ENGINES.len());
}

fn run(engine: &Engine, work: &str, input: &Input) -> Outcome {
    match work {
        "total" => (engine.total)(&input.curve, &input.batch),
        "multiple" => (engine.multiple)(&input.curve, input.last_divisor(), &input.scalar),
        _ => usage(),
    }
}

/// A search that finds nothing, as it should among different meters.
fn search(engine: &Engine, curve: &[u8], batch: &[u8]) {
    let repeat = engine.repeat.unwrap_or_else(|| usage());
    let answer = repeat(curve, batch);
    if answer != (0, 0, 0) {
        eprintln!("{} says {answer:?} of different meters", engine.name);
        exit(1);
    }
}

/// The engines take turns, so that what else the machine does falls on all of them.
fn times(runs: usize) {
    for on in CURVES {
        let input = Input::new(on);
        for work in ["total", "multiple"] {
            let mut least = vec![f64::INFINITY; ENGINES.len()];
            let want = run(&ENGINES[0], work, &input);
            for _ in 0..runs {
                for (engine, least) in ENGINES.iter().zip(&mut least) {
                    let start = Instant::now();
                    let got = run(engine, work, &input);
                    *least = least.min(start.elapsed().as_secs_f64() * 1e3);
                    if got != want {
                        eprintln!("{} {work}: {} differs", on.name, engine.name);
                        exit(1);
                    }
                }
            }
            for (engine, time) in ENGINES.iter().zip(&least) {
                println!("{:28} {work:8} {:9} {time:10.3} ms  ratio {:.2}", on.name, engine.name, least[0] / time);
            }
        }
    }
}

fn count(engine: &str, work: &str, curve: &str, rounds: &str) {
    let engine = ENGINES.iter().find(|e| e.name == engine).unwrap_or_else(|| usage());
    let on = CURVES.iter().find(|on| on.key == curve).unwrap_or_else(|| usage());
    let mut input = Input::new(on);
    if work == "chain" {
        input.batch = inputs::one_chain(&input);
    }
    for _ in 0..rounds.parse().unwrap_or_else(|_| usage()) {
        match work {
            "repeat" | "chain" => search(engine, &input.curve, &input.batch),
            _ if run(engine, work, &input).is_err() => exit(1),
            _ => {}
        }
    }
}

fn usage() -> ! {
    eprintln!("usage: yardsticks judge [SEED [COUNT]] | times [RUNS] | count ENGINE WORK CURVE N");
    exit(2)
}

fn number(word: Option<&&str>, otherwise: u64) -> u64 {
    word.map_or(otherwise, |w| w.parse().unwrap_or_else(|_| usage()))
}

fn main() {
    let arguments: Vec<String> = std::env::args().skip(1).collect();
    let words: Vec<&str> = arguments.iter().map(String::as_str).collect();
    match words[..] {
        ["judge", ref rest @ ..] if rest.len() < 3 => judge(number(rest.first(), 1), number(rest.get(1), 2000)),
        ["times", ref rest @ ..] if rest.len() < 2 => times(number(rest.first(), 5) as usize),
        ["count", engine, work, curve, rounds] => count(engine, work, curve, rounds),
        _ => usage(),
    }
}
