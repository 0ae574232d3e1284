//! Every frame of crates/test_vectors through the types: what a separate implementation answers, a curve, a divisor or a total by
//! value answers too. tools/README.md says what a frame and its line are.

use std::collections::BTreeMap;
use std::fs;
use yubisorade::{raw, Curve, Divisor, PoleFile, Refusal, RunningTotal};

struct Frame<'d> {
    operation: u8,
    curve: &'d [u8],
    first: &'d [u8],
    second: &'d [u8],
    output: usize,
    last: &'d [u8],
}

/// What a call comes to: its own numbers, and what stands at the front of the output.
type Done = (Vec<u64>, Vec<u8>);

fn number(bytes: &[u8]) -> u64 {
    bytes.iter().fold(0, |number, &byte| number << 8 | u64::from(byte))
}

/// The frames of a file, a label with the frame behind it.
fn frames(mut data: &[u8]) -> Vec<(String, Frame<'_>)> {
    let mut found = Vec::new();
    let mut label = String::new();
    while !data.is_empty() {
        let (head, mut rest) = data.split_at(21);
        let length: Vec<usize> = head[1..].chunks(4).map(|four| number(four) as usize).collect();
        let mut take = |length| {
            let (taken, behind) = rest.split_at(length);
            rest = behind;
            taken
        };
        let (curve, first, second, last) = (take(length[0]), take(length[1]), take(length[2]), take(length[4]));
        data = rest;
        if head[0] == 0 {
            label = format!("{} ", std::str::from_utf8(curve).unwrap());
        } else {
            let frame = Frame { operation: head[0], curve, first, second, output: length[3], last };
            found.push((std::mem::take(&mut label), frame));
        }
    }
    found
}

/// The divisor record at a place of a call, read by itself: then it is at place 1.
fn read(curve: &Curve, record: &[u8], place: u64) -> Result<Divisor, (u64, u64)> {
    curve.divisor(record).map_err(|refusal| (refusal.number(), refusal.place() * place))
}

fn flat(total: &raw::YubiRunning) -> Vec<u64> {
    let raw::YubiRunning { weight, u0, u1, u2, v0, v1, v2, count, pole } = *total;
    vec![weight, u0, u1, u2, v0, v1, v2, count, u64::from(pole)]
}

fn total_of(bytes: &[u8]) -> raw::YubiRunning {
    let at = |place: usize| number(&bytes[8 * place..8 * place + 8]);
    let (weight, count, pole) = (at(0), at(7), number(&bytes[64..68]) as u32);
    raw::YubiRunning { weight, u0: at(1), u1: at(2), u2: at(3), v0: at(4), v1: at(5), v2: at(6), count, pole }
}

fn scanned(total: &mut RunningTotal, curve: &Curve, scan: &[u8]) -> Result<Done, Refusal> {
    total.scan(curve, scan)?;
    Ok((flat(&total.clone().into_raw()), vec![]))
}

/// A frame's call through the types: what it comes to, or number and place. `None` where they can't say it: a list of primes that
/// isn't whole.
fn answer(frame: &Frame<'_>) -> Option<Result<Done, (u64, u64)>> {
    let told = |refusal: Refusal| (refusal.number(), refusal.place());
    if frame.operation == 19 {
        let file = PoleFile::read(frame.first).map_err(told);
        return Some(file.map(|file| (vec![u64::from(file.pole)], [file.curve.record(), file.batch].concat())));
    }
    let curve = match Curve::read(frame.curve) {
        Ok(curve) => curve,
        Err(refusal) => return Some(Err(told(refusal))),
    };
    let record = |divisor: Divisor| (vec![], divisor.record().to_vec());
    let first = || read(&curve, frame.first, 1);
    let multiple = |call: fn(&Curve, &Divisor, &[u8]) -> Result<yubisorade::Multiple, Refusal>| {
        let multiple = call(&curve, &first()?, frame.second).map_err(told)?;
        Ok((vec![multiple.doublings, multiple.additions], multiple.divisor.record().to_vec()))
    };
    Some(match frame.operation {
        1 => Ok((vec![], vec![])),
        2 => first().map(|_| (vec![], vec![])),
        3 => Ok((vec![], curve.record().to_vec())),
        4 => first().map(record),
        5 => first().and_then(|a| curve.add(&a, &read(&curve, frame.second, 2)?).map_err(told)).map(record),
        6 => first().and_then(|a| curve.double(&a).map_err(told)).map(record),
        7 => first().and_then(|a| curve.opposite(&a).map_err(told)).map(record),
        8 => {
            let (one, other) = (multiple(Curve::multiply), multiple(Curve::multiply_inversion_free));
            assert_eq!(one, other);
            one
        }
        9 => curve.total(frame.first).map_err(told).map(|all| (vec![all.count], all.divisor.record().to_vec())),
        10 => {
            let found = curve.first_repeat(frame.first).map_err(told);
            found.map(|pair| (pair.map_or(vec![0, 0], |pair| vec![pair.first, pair.second]), vec![]))
        }
        11 => {
            let total = RunningTotal::from_raw(total_of(frame.last));
            total.and_then(|mut total| scanned(&mut total, &curve, frame.first)).map_err(told)
        }
        15 if frame.last.len() % 4 != 0 => return None,
        15 => {
            let primes: Vec<u32> = frame.last.chunks(4).map(|four| number(four) as u32).collect();
            first().and_then(|a| curve.check_order(&a, frame.second, &primes).map_err(told)).map(|()| (vec![], vec![]))
        }
        16 => {
            let parts = first().and_then(|a| curve.split(&a).map_err(told));
            parts.map(|(first, second)| (vec![], [first.record(), second.record()].concat()))
        }
        // 25 comes before the divisor is looked at.
        17 if curve.prime() > 13 => curve.next(&Divisor::NEUTRAL).map_err(told).map(record),
        17 => first().and_then(|a| curve.next(&a).map_err(told)).map(record),
        18 => {
            let file = PoleFile { pole: number(frame.last) as u32, curve, batch: frame.first };
            file.write().map_err(told).map(|bytes| (vec![], bytes))
        }
        other => panic!("operation {}", other),
    })
}

/// A line without its label: number, place, the call's own numbers, and the bytes that were written.
fn expected(operation: u8, line: &str) -> (u64, u64, Done) {
    let own = match operation {
        8 | 10 => 2,
        9 | 19 => 1,
        11 => 9,
        _ => 0,
    };
    let fields: Vec<&str> = line.split(' ').collect();
    let numbers: Vec<u64> = fields[..3 + own].iter().map(|field| field.parse().unwrap()).collect();
    let byte = |at: usize| u8::from_str_radix(&fields[3 + own][2 * at..2 * at + 2], 16).unwrap();
    (numbers[0], numbers[1], (numbers[3..].to_vec(), (0..numbers[2] as usize).map(byte).collect()))
}

#[test]
fn every_frame() {
    let folder = concat!(env!("CARGO_MANIFEST_DIR"), "/../../crates/test_vectors");
    let wanted = fs::read_to_string(format!("{}/stdout", folder)).unwrap();
    let mut lines = wanted.lines();
    // Of each operation how many were done, refused, and left out.
    let mut seen = BTreeMap::<u8, [usize; 3]>::new();
    for name in ["vectors", "corners"] {
        let files = ('a'..='z').map(|letter| format!("{}/data/{}.{}", folder, name, letter));
        for data in files.map_while(|path| fs::read(path).ok()) {
            for (label, frame) in frames(&data) {
                let line = lines.next().unwrap();
                let (number, place, done) = expected(frame.operation, line.strip_prefix(&label[..]).unwrap());
                let count = seen.entry(frame.operation).or_default();
                match answer(&frame) {
                    None => count[2] += 1,
                    // By value every result has room.
                    Some(Ok((_, bytes))) if number == 13 => {
                        assert!(bytes.len() > frame.output, "{}", line);
                        count[0] += 1;
                    }
                    Some(Ok(found)) => {
                        assert_eq!((0, 0, found), (number, place, done), "{}", line);
                        count[0] += 1;
                    }
                    Some(Err(found)) => {
                        assert_eq!(found, (number, place), "{}", line);
                        count[1] += 1;
                    }
                }
            }
        }
    }
    assert_eq!(lines.next(), None);
    assert_eq!(seen.len(), 16);
    for (operation, [done, refused, left_out]) in seen {
        println!("operation {}: {} done, {} refused, {} left out", operation, done, refused, left_out);
        assert!(done > 0 && refused > 0 && (left_out == 0 || operation == 15));
    }
}
