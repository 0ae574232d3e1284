//! A curve and its divisors by value. Expected values are the contract's: document 01's street corners, and what the tickets of
//! document 02 say; divisors of small curves are counted here by trying every one.

mod common;

use common::{curve, curve_a, curve_b, divisor, on, witnessed, BASE, OF_VERSION_2, PRIMES};
use std::collections::HashSet;
use yubisorade::{Curve, Divisor, Multiple, Refusal, Repeat, Total};

fn a() -> Curve {
    Curve::read(&curve_a()).unwrap()
}

fn b() -> Curve {
    Curve::read(&curve_b()).unwrap()
}

#[test]
fn curves_are_read() {
    let seventh = [5, 3, 0, 2, 0, 0, 1];
    for (record, version, genus, p) in [
        (curve_a(), 1, 2, 7),
        (curve_b(), 1, 3, 11),
        (witnessed(2, 7, &[1, 0, 0, 0, 0], 3, &[2, 3]), 2, 2, 7),
        (witnessed(3, OF_VERSION_2, &seventh, BASE, &PRIMES), 2, 3, OF_VERSION_2),
    ] {
        let read = Curve::read(&record).unwrap();
        assert_eq!((read.record(), read.as_ref()), (&record[..], &record[..]));
        assert_eq!((read.version(), read.genus(), read.prime()), (version, genus, p));
        let words = format!("Curve {{ version: {}, genus: {}, prime: {}, .. }}", version, genus, p);
        assert_eq!(format!("{:?}", read), words);
    }
    let read = Curve::read(&curve(3, 11, &seventh)).unwrap();
    assert!(read.f().eq(seventh));
    assert!(a().f().eq([1, 0, 0, 0, 0]));
    assert_eq!(a(), a().clone());
    assert_ne!(a(), Curve::read(&witnessed(2, 7, &[1, 0, 0, 0, 0], 3, &[2, 3])).unwrap());
}

/// Each of the curve's numbers, by document 01's corners where it has one.
#[test]
fn curves_are_refused() {
    let five = [1, 0, 0, 0, 0];
    let with = |at: usize, byte: u8| {
        let mut record = curve_a();
        record[at] = byte;
        Curve::read(&record)
    };
    assert_eq!(Curve::read(&[]), Err(Refusal::CurveLength));
    assert_eq!(Curve::read(&curve_a()[..53]), Err(Refusal::CurveLength));
    assert_eq!(with(0, b'h'), Err(Refusal::CurveMark));
    assert_eq!(with(4, 3), Err(Refusal::CurveVersion));
    assert_eq!(with(5, 4), Err(Refusal::Genus));
    for p in [1, 2, 9, 2_147_483_648] {
        assert_eq!(Curve::read(&curve(2, p, &five)), Err(Refusal::Prime));
    }
    for p in [3, 2_147_483_647] {
        assert_eq!(Curve::read(&curve(2, p, &five)).map(|curve| curve.prime()), Ok(p));
    }
    assert_eq!(Curve::read(&curve(2, 7, &[1, 0, 0, 0, 7])), Err(Refusal::CurveCoefficient));
    assert_eq!(Curve::read(&curve(2, 5, &five)), Err(Refusal::RepeatedFactor));
    assert_eq!(Curve::read(&curve(3, 7, &[1, 0, 0, 0, 0, 0, 0])), Err(Refusal::RepeatedFactor));
    assert!(Curve::read(&curve(3, 7, &[1, 6, 0, 0, 0, 0, 0])).is_ok());
    assert_eq!(Curve::read(&witnessed(2, 9, &five, 8, &[2])), Err(Refusal::Witness));
}

#[test]
fn divisors_are_read_and_shown() {
    let a = a();
    let read = |record: &[u8]| a.divisor(record);
    let both = on(&a, &[0, 6], &[1, 2]);
    assert_eq!((both.weight(), both.record()), (2, &divisor(&[0, 6], &[1, 2])[..]));
    assert!(both.u().eq([0, 6]) && both.v().eq([1, 2]));
    let words = "02 0000000000000000 0000000000000006 0000000000000001 0000000000000002";
    assert_eq!((both.to_string(), format!("{:?}", both)), (words.to_string(), format!("Divisor({})", words)));
    assert_eq!(read(&[0]), Ok(Divisor::NEUTRAL));
    assert_eq!((Divisor::NEUTRAL.to_string(), Divisor::default()), ("00".to_string(), Divisor::NEUTRAL));
    assert!(Divisor::NEUTRAL.is_neutral() && !both.is_neutral());

    assert_eq!(read(&[]), Err(Refusal::DivisorLength { place: 1 }));
    assert_eq!(read(&divisor(&[0], &[1])[..16]), Err(Refusal::DivisorLength { place: 1 }));
    assert_eq!(read(&divisor(&[0, 0, 0], &[1, 0, 0])), Err(Refusal::Weight { place: 1 }));
    assert_eq!(read(&divisor(&[7], &[0])), Err(Refusal::DivisorCoefficient { place: 1 }));
    assert!(read(&divisor(&[6], &[3])).is_ok());
    assert_eq!(read(&divisor(&[0], &[2])), Err(Refusal::NotOnCurve { place: 1 }));
}

/// Equal, ordered and hashed as their records are: a short record before a longer one, and 0 behind it doesn't count.
#[test]
fn divisors_are_compared_by_their_records() {
    let a = a();
    let point = on(&a, &[0], &[1]);
    let rising = [Divisor::NEUTRAL, point, on(&a, &[0], &[6]), on(&a, &[6], &[3]), on(&a, &[0, 0], &[1, 0])];
    assert!(rising.windows(2).all(|pair| pair[0] < pair[1]));
    assert_eq!(rising.iter().collect::<HashSet<_>>().len(), 5);
    let copy = point;
    assert_eq!(copy, point);
    assert_eq!(b().divisor(point.record()), Ok(point));
}

/// A1, A6, A8, A9, and the same from the other side.
#[test]
fn sums() {
    let a = a();
    let (x_1, x_6, x6_3) = (on(&a, &[0], &[1]), on(&a, &[0], &[6]), on(&a, &[6], &[3]));
    let both = on(&a, &[0, 6], &[1, 2]);
    for (one, other, sum) in [
        (x_1, x6_3, both),
        (x_1, x_6, Divisor::NEUTRAL),
        (both, x_6, x6_3),
        (both, x_1, on(&a, &[4, 4], &[0, 1])),
        (both, Divisor::NEUTRAL, both),
    ] {
        assert_eq!(a.add(&one, &other), Ok(sum));
        assert_eq!(a.add(&other, &one), Ok(sum));
    }
}

/// A2, A7 and B1; the opposite of document 02's (x, 1) is (x, 6).
#[test]
fn doubles_and_opposites() {
    let (a, b) = (a(), b());
    let x_1 = on(&a, &[0], &[1]);
    assert_eq!(a.double(&x_1), Ok(on(&a, &[0, 0], &[1, 0])));
    assert_eq!(a.double(&on(&a, &[1], &[0])), Ok(Divisor::NEUTRAL));
    assert_eq!(b.double(&on(&b, &[0, 0, 0], &[1, 0, 0])), Ok(on(&b, &[0], &[10])));
    assert_eq!(a.opposite(&x_1), Ok(on(&a, &[0], &[6])));
    assert_eq!(a.opposite(&Divisor::NEUTRAL), Ok(Divisor::NEUTRAL));
}

/// A divisor of another curve is refused by every call that takes one.
#[test]
fn divisors_of_another_curve() {
    let (a, b) = (a(), b());
    let (own, heavy, large) = (on(&a, &[0], &[1]), on(&b, &[0, 0, 0], &[1, 0, 0]), on(&b, &[0], &[10]));
    assert_eq!(a.add(&heavy, &own), Err(Refusal::Weight { place: 1 }));
    assert_eq!(a.add(&own, &heavy), Err(Refusal::Weight { place: 2 }));
    assert_eq!(a.same_meter(&own, &large), Err(Refusal::DivisorCoefficient { place: 2 }));
    let of_a = on(&a, &[6], &[3]);
    let first = Refusal::NotOnCurve { place: 1 };
    assert_eq!(b.double(&of_a), Err(first));
    assert_eq!(b.opposite(&of_a), Err(first));
    assert_eq!(b.multiply(&of_a, &[2]), Err(first));
    assert_eq!(b.multiply_inversion_free(&of_a, &[2]), Err(first));
    assert_eq!(b.check_order(&of_a, &[5], &[5]), Err(first));
    assert_eq!(b.split(&of_a), Err(first));
    assert_eq!(b.next(&of_a), Err(first));
}

#[test]
fn one_meter_by_either_sign() {
    let a = a();
    let (x_1, x_6, x6_3, own) = (on(&a, &[0], &[1]), on(&a, &[0], &[6]), on(&a, &[6], &[3]), on(&a, &[1], &[0]));
    for (one, other, same) in
        [(x_1, x_1, true), (x_1, x_6, true), (x_1, x6_3, false), (own, own, true), (own, x_1, false)]
    {
        assert_eq!(a.same_meter(&one, &other), Ok(same));
        assert_eq!(a.same_meter(&other, &one), Ok(same));
    }
}

/// A3 to A5, B2 and B3, with the counts of W-208: 2 is 10, 3 is 4 - 1, 4 is 100. No empty keys: W-207.
#[test]
fn multiples() {
    let (a, b) = (a(), b());
    let (on_a, on_b) = (on(&a, &[0], &[1]), on(&b, &[0], &[1]));
    for call in [Curve::multiply, Curve::multiply_inversion_free] {
        for (n, divisor, doublings, additions) in [
            (1, on_a, 0, 0),
            (2, on(&a, &[0, 0], &[1, 0]), 1, 0),
            (3, on(&a, &[0, 0], &[6, 0]), 2, 1),
            (4, on(&a, &[0], &[6]), 2, 0),
        ] {
            assert_eq!(call(&a, &on_a, &[n]), Ok(Multiple { divisor, doublings, additions }));
            assert_eq!(call(&a, &on_a, &[0, n]), Ok(Multiple { divisor, doublings, additions }));
        }
        let four = Multiple { divisor: on(&b, &[0, 0, 0], &[10, 0, 0]), doublings: 2, additions: 0 };
        assert_eq!(call(&b, &on_b, &[4]), Ok(four));
        for (curve, divisor, scalar) in [
            (&a, on_a, &[5][..]),
            (&b, on_b, &[7]),
            (&a, on_a, &[]),
            (&a, on_a, &[0; 32]),
            (&a, Divisor::NEUTRAL, &[1]),
        ] {
            assert_eq!(call(curve, &divisor, scalar), Err(Refusal::EmptyKey));
        }
        assert_eq!(call(&a, &on_a, &[0; 33]), Err(Refusal::ScalarLength));
    }
}

/// Case P, and the batch of W-205.
#[test]
fn batches() {
    let a = a();
    let (x_1, x_6, x6_3) = (divisor(&[0], &[1]), divisor(&[0], &[6]), divisor(&[6], &[3]));
    let case_p = [&x_1[..], &x6_3, &x_1].concat();
    let total = a.total(&case_p).unwrap();
    assert_eq!(total.count, 3);
    assert_eq!(total.divisor.to_string(), "02 0000000000000004 0000000000000004 0000000000000000 0000000000000001");
    assert_eq!(a.first_repeat(&case_p), Ok(Some(Repeat { first: 1, second: 3 })));
    assert_eq!(a.first_repeat(&case_p[..34]), Ok(None));
    let turned = [&x_1[..], &x_6].concat();
    assert_eq!(a.total(&turned), Ok(Total { divisor: Divisor::NEUTRAL, count: 2 }));
    assert_eq!(a.first_repeat(&turned), Ok(Some(Repeat { first: 1, second: 2 })));
    assert_eq!(a.total(&[]), Ok(Total { divisor: Divisor::NEUTRAL, count: 0 }));
    assert_eq!((a.check_batch(&case_p), a.check_batch(&[0; 4096])), (Ok(()), Ok(())));
    assert_eq!(a.total(&[0; 4096]), Ok(Total { divisor: Divisor::NEUTRAL, count: 4096 }));
    for (batch, refusal) in [
        (vec![0; 4097], Refusal::Full),
        ([&x_1[..], &x_1[..16]].concat(), Refusal::DivisorLength { place: 2 }),
        ([&x_1[..], &x_6, &[3]].concat(), Refusal::Weight { place: 3 }),
        ([&x_1[..], &divisor(&[0], &[2])].concat(), Refusal::NotOnCurve { place: 2 }),
    ] {
        assert_eq!(a.check_batch(&batch), Err(refusal));
        assert_eq!(a.total(&batch), Err(refusal));
        assert_eq!(a.first_repeat(&batch), Err(refusal));
    }
}

/// W-214: (x, 1) has order 5 on curve A; a list of any length is handed on as what it is.
#[test]
fn orders() {
    let (a, b) = (a(), b());
    let point = on(&a, &[0], &[1]);
    assert_eq!(a.check_order(&point, &[5], &[5]), Ok(()));
    assert_eq!(b.check_order(&on(&b, &[0], &[1]), &[7], &[7]), Ok(()));
    assert_eq!(a.check_order(&on(&a, &[1], &[0]), &[0, 2], &[2]), Ok(()));
    assert_eq!(a.check_order(&Divisor::NEUTRAL, &[1], &[]), Ok(()));
    for (order, primes) in [
        (&[10][..], &[2, 5][..]),
        (&[5], &[]),
        (&[], &[5]),
        (&[1], &[]),
        (&[5], &[5, 5]),
        (&[5], &[5, u32::MAX]),
        (&[5], &[5; 32]),
        (&[5], &[5; 33]),
        (&[5], &[5; 4097]),
    ] {
        assert_eq!(a.check_order(&point, order, primes), Err(Refusal::NotTheOrder), "{:?} {:?}", order, primes);
    }
    assert_eq!(a.check_order(&point, &[0; 33], &[5; 33]), Err(Refusal::ScalarLength));
}

/// W-213 on A1's and A2's sums and on B1's (x³, 1): the parts' sum is the whole.
#[test]
fn splits() {
    let (a, b) = (a(), b());
    for (curve, whole, first, second) in [
        (&a, on(&a, &[0, 6], &[1, 2]), on(&a, &[0], &[1]), on(&a, &[6], &[3])),
        (&a, on(&a, &[0, 0], &[1, 0]), on(&a, &[0], &[1]), on(&a, &[0], &[1])),
        (&b, on(&b, &[0, 0, 0], &[1, 0, 0]), on(&b, &[0], &[1]), on(&b, &[0, 0], &[1, 0])),
    ] {
        assert_eq!(curve.split(&whole), Ok((first, second)));
        assert_eq!(curve.add(&first, &second), Ok(whole));
    }
    // x² + 1 has no root modulo 7; neither the neutral divisor nor a point is split.
    for whole in [on(&a, &[1, 0], &[4, 1]), on(&a, &[0], &[1]), Divisor::NEUTRAL] {
        assert_eq!(a.split(&whole), Err(Refusal::NoRoot));
    }
}

/// Whether u divides f - v² modulo p; f and u are monic, and their leading 1 isn't among their coefficients.
fn divides(p: u64, u: &[u64], f: &[u64], v: &[u64]) -> bool {
    let mut rest = [f, &[1]].concat();
    for (i, x) in v.iter().enumerate() {
        for (j, y) in v.iter().enumerate() {
            rest[i + j] = (rest[i + j] + p * p - x * y) % p;
        }
    }
    for top in (u.len()..rest.len()).rev() {
        let c = rest[top];
        for (i, x) in u.iter().enumerate() {
            rest[top - u.len() + i] = (rest[top - u.len() + i] + p * p - c * x) % p;
        }
    }
    rest[..u.len()].iter().all(|&x| x == 0)
}

/// All valid divisors, weight by weight, in the order of their numbers and so of their bytes.
fn every(genus: u32, p: u64, f: &[u64]) -> Vec<Vec<u8>> {
    let mut found = Vec::new();
    for weight in 0..=genus {
        for code in 0..p.pow(2 * weight) {
            let numbers: Vec<u64> = (0..2 * weight).rev().map(|place| code / p.pow(place) % p).collect();
            let (u, v) = numbers.split_at(weight as usize);
            if divides(p, u, f, v) {
                found.push(divisor(u, v));
            }
        }
    }
    found
}

/// W-211: every divisor once and in order, by a brute search; after the last 24, above p = 13 25.
#[test]
fn censuses() {
    for (genus, p, f) in [(2, 7, &[1, 0, 0, 0, 0][..]), (3, 5, &[1, 2, 0, 0, 3, 0, 1]), (2, 13, &[1, 0, 0, 0, 0])] {
        let curve = Curve::read(&curve(genus, p, f)).unwrap();
        let wanted = every(genus.into(), p, f);
        let all: Vec<Divisor> = curve.census().unwrap().collect();
        assert!(all.iter().map(Divisor::record).eq(&wanted));
        let last = all[all.len() - 1];
        assert_eq!((curve.next(&all[0]), curve.next(&last)), (Ok(all[1]), Err(Refusal::LastDivisor)));
        let mut ended = curve.census().unwrap().skip(all.len());
        assert_eq!((ended.next(), ended.next()), (None, None));
    }
    let with_witness = Curve::read(&witnessed(2, 7, &[1, 0, 0, 0, 0], 3, &[2, 3])).unwrap();
    assert!(with_witness.census().unwrap().eq(a().census().unwrap()));
    let larger = Curve::read(&curve(2, 17, &[1, 0, 0, 0, 0])).unwrap();
    assert_eq!(larger.census().map(|_| ()), Err(Refusal::NotForTraining));
    assert_eq!(larger.next(&Divisor::NEUTRAL), Err(Refusal::NotForTraining));
}

/// Curves, divisors and refusals may go from thread to thread.
#[test]
fn threads() {
    let (a, x_1) = (a(), divisor(&[0], &[1]));
    let sum = std::thread::scope(|scope| scope.spawn(|| a.total(&[&x_1[..], &x_1].concat())).join().unwrap());
    assert_eq!(sum.map(|total| total.divisor), Ok(on(&a, &[0, 0], &[1, 0])));
}
