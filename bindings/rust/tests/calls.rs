//! The contract's examples, through the calls on bytes.

mod common;

use common::{curve, curve_a, curve_b, divisor, witnessed, BASE, OF_VERSION_2, PRIMES};
use yubisorade::calls::*;
use yubisorade::{raw, Refusal, Repeat, CURVE_ROOM, DIVISOR_ROOM, MOST_PRIMES, SCALAR_ROOM, SPLIT_ROOM};

/// Runs a call on a full-sized output and gives what it wrote.
fn written(call: impl Fn(&mut [u8]) -> Result<usize, Refusal>) -> Vec<u8> {
    let mut out = [0xee; CURVE_ROOM];
    let length = call(&mut out).unwrap();
    assert!(out[length..].iter().all(|&byte| byte == 0xee));
    out[..length].to_vec()
}

#[test]
fn sums() {
    let (c, a, b) = (curve_a(), divisor(&[0], &[1]), divisor(&[6], &[3]));
    assert_eq!(written(|out| add(&c, &a, &b, out)), divisor(&[0, 6], &[1, 2]));
    assert_eq!(written(|out| double(&c, &a, out)), divisor(&[0, 0], &[1, 0]));
    assert_eq!(written(|out| opposite(&c, &b, out)), divisor(&[6], &[4]));
    assert_eq!(written(|out| rewrite_divisor(&c, &b, out)), b);
    assert_eq!(written(|out| rewrite_curve(&c, out)), c);
    let c = curve_b();
    assert_eq!(written(|out| double(&c, &divisor(&[0, 0, 0], &[1, 0, 0]), out)), divisor(&[0], &[10]));
}

#[test]
fn multiples() {
    let (c, a) = (curve_a(), divisor(&[0], &[1]));
    for call in [multiply, multiply_inversion_free] {
        let mut out = [0; DIVISOR_ROOM];
        let four = call(&c, &a, &[4], &mut out);
        assert_eq!(four, Ok(Multiple { length: 17, doublings: 2, additions: 0 }));
        assert_eq!(out[..17], divisor(&[0], &[6])[..]);
        for scalar in [&[][..], &[0], &[5], &[255]] {
            assert_eq!(call(&c, &a, scalar, &mut []), Err(Refusal::EmptyKey));
        }
        assert_eq!(call(&c, &[0], &[4], &mut out), Err(Refusal::EmptyKey));
        assert_eq!(call(&c, &[0], &[0; SCALAR_ROOM + 1], &mut out), Err(Refusal::ScalarLength));
        // 3 = 4 - 1, and 254 = 256 - 2, which is -1 modulo 5.
        assert_eq!(call(&c, &a, &[3], &mut out), Ok(Multiple { length: 33, doublings: 2, additions: 1 }));
        assert_eq!(call(&c, &a, &[254], &mut out), Ok(Multiple { length: 17, doublings: 8, additions: 1 }));
        assert_eq!(call(&c, &a, &[0; SCALAR_ROOM + 1], &mut out), Err(Refusal::ScalarLength));
        assert_eq!(call(&c, &a, &[2], &mut out[..32]), Err(Refusal::OutputLength));
    }
}

/// Curves with a witness: rewritten with it, refused without, and sums on them.
#[test]
fn witnesses() {
    let (ones, seventh) = ([1, 0, 0, 0, 0], [1, 0, 0, 0, 0, 0, 0]);
    let (p, primes) = (OF_VERSION_2, PRIMES);
    let fifteen = [2, 3, 5, 7, 11, 13, 17, 19, 23, 29, 31, 37, 41, 43, 53];
    for c in [
        witnessed(2, 7, &ones, 3, &[2, 3]),
        witnessed(2, p, &ones, BASE, &primes),
        witnessed(3, p, &seventh, BASE, &primes),
        witnessed(3, 693_386_350_578_511_591, &seventh, 14, &fifteen),
    ] {
        assert_eq!(written(|out| rewrite_curve(&c, out)), c);
        assert_eq!(rewrite_curve(&c, &mut vec![0; c.len() - 1]), Err(Refusal::OutputLength));
        assert_eq!(check_curve(&c[..c.len() - 1]), Err(Refusal::CurveLength));
        // (x, 1) twice is (x², 1), and with its opposite it is neutral.
        let p = u64::from_be_bytes(c[6..14].try_into().unwrap());
        let (a, turned) = (divisor(&[0], &[1]), divisor(&[0], &[p - 1]));
        assert_eq!(written(|out| double(&c, &a, out)), divisor(&[0, 0], &[1, 0]));
        assert_eq!(written(|out| opposite(&c, &a, out)), turned);
        assert_eq!(written(|out| add(&c, &a, &turned, out)), [0]);
    }
    assert_eq!(check_curve(&witnessed(2, p, &ones, 36, &primes)), Err(Refusal::Witness));
    assert_eq!(check_curve(&witnessed(2, p, &ones, BASE, &primes[..11])), Err(Refusal::Witness));
    assert_eq!(check_curve(&witnessed(2, 9, &ones, 8, &[2])), Err(Refusal::Witness));
    assert_eq!(check_curve(&witnessed(2, 8, &ones, 3, &[2, 3])), Err(Refusal::Prime));
    assert_eq!(check_curve(&witnessed(2, p + 1, &ones, BASE, &primes)), Err(Refusal::Prime));
    assert_eq!(check_curve(&witnessed(2, 8, &ones, 3, &[])), Err(Refusal::Witness));
    assert_eq!(check_curve(&curve(2, p, &ones)), Err(Refusal::Prime));
}

/// W-214: (x, 1) has order 5 on curve A and 7 on curve B, (x + 1, 0) order 2, their sum 10.
#[test]
fn orders() {
    let listed = |primes: &[u32]| primes.iter().flat_map(|q| q.to_be_bytes()).collect::<Vec<u8>>();
    let (a, b) = (curve_a(), curve_b());
    let with_witness = witnessed(2, 7, &[1, 0, 0, 0, 0], 3, &[2, 3]);
    let (point, own, both) = (divisor(&[0], &[1]), divisor(&[1], &[0]), divisor(&[0, 1], &[1, 1]));
    for (c, divisor, n, primes) in [
        (&a, &point, &[5][..], &[5][..]),
        (&with_witness, &point, &[5], &[5]),
        (&b, &point, &[7], &[7]),
        (&a, &own, &[2], &[2]),
        (&a, &both, &[0, 0, 10], &[2, 5]),
        (&a, &vec![0], &[1], &[]),
    ] {
        let check = |n: &[u8], primes: &[u8]| check_order(c, divisor, n, primes);
        assert_eq!(check(n, &listed(primes)), Ok(()));
        let long = [&[0; SCALAR_ROOM][..], n].concat();
        assert_eq!(check(&long[long.len() - SCALAR_ROOM..], &listed(primes)), Ok(()));
        assert_eq!(check(&long, &listed(primes)), Err(Refusal::ScalarLength));
        for (m, wrong) in
            [(n, &[2, 3, 5, 7][..]), (&[], &[]), (&[0], primes), (&[30], &[2, 3, 5]), (&[210], &[2, 3, 5, 7])]
        {
            assert_eq!(check(m, &listed(wrong)), Err(Refusal::NotTheOrder), "{:?} {:?}", m, wrong);
        }
        assert_eq!(check(n, &[&listed(primes)[..], &[0]].concat()), Err(Refusal::NotTheOrder));
        assert_eq!(check(n, &listed(&[2; MOST_PRIMES + 1])), Err(Refusal::NotTheOrder));
    }
    assert_eq!(check_order(&a, &both, &[10], &listed(&[5, 2])), Err(Refusal::NotTheOrder));
    assert_eq!(check_order(&a, &both, &[10], &listed(&[10])), Err(Refusal::NotTheOrder));
    assert_eq!(check_order(&a, &point, &[1], &[]), Err(Refusal::NotTheOrder));
    assert_eq!(check_order(&a, &divisor(&[0], &[2]), &[0; 33], &[0]), Err(Refusal::NotOnCurve { place: 1 }));
    assert_eq!(check_order(&a[..53], &[], &[0; 33], &[0]), Err(Refusal::CurveLength));
}

/// W-213: parts in their order, equal ones, what can't be split, and every part adds up.
#[test]
fn splits() {
    let (p, primes) = (OF_VERSION_2, PRIMES);
    let (a, b) = (curve_a(), curve_b());
    let (a_61, b_61) =
        (witnessed(2, p, &[1, 0, 0, 0, 0], BASE, &primes), witnessed(3, p, &[1, 0, 0, 0, 0, 0, 0], BASE, &primes));
    for (c, whole, parts) in [
        // u_0 = 0 comes before all others, and so the root 0.
        (&a, divisor(&[0, 6], &[1, 2]), [divisor(&[0], &[1]), divisor(&[6], &[3])]),
        (&a, divisor(&[0, 0], &[1, 0]), [divisor(&[0], &[1]), divisor(&[0], &[1])]),
        (&a_61, divisor(&[0, 1], &[1, 1]), [divisor(&[0], &[1]), divisor(&[1], &[0])]),
        (&b, divisor(&[0, 1], &[1, 1]), [divisor(&[0], &[1]), divisor(&[1], &[0])]),
        // The triple root 0, and the largest root -1 before it.
        (&b, divisor(&[0, 0, 0], &[1, 0, 0]), [divisor(&[0], &[1]), divisor(&[0, 0], &[1, 0])]),
        (&b, divisor(&[0, 0, 1], &[1, 0, 10]), [divisor(&[1], &[0]), divisor(&[0, 0], &[1, 0])]),
        (&b_61, divisor(&[0, 0, 1], &[1, 0, p - 1]), [divisor(&[1], &[0]), divisor(&[0, 0], &[1, 0])]),
    ] {
        let [first, second] = &parts;
        assert_eq!(written(|out| split(c, &whole, out)), [&first[..], second].concat());
        assert_eq!(written(|out| add(c, first, second, out)), whole);
        let length = 2 + 16 * usize::from(whole[0]);
        assert_eq!(split(c, &whole, &mut vec![0; length]), Ok(length));
        assert_eq!(split(c, &whole, &mut vec![0; length - 1]), Err(Refusal::OutputLength));
    }
    // x² + 1 has no root modulo 7, and neither the neutral divisor nor a point is split.
    let rootless = divisor(&[1, 0], &[4, 1]);
    assert_eq!(check_divisor(&a, &rootless), Ok(()));
    for whole in [&rootless, &divisor(&[0], &[1]), &vec![0]] {
        for room in [0, 33, SPLIT_ROOM] {
            assert_eq!(split(&a, whole, &mut vec![0; room]), Err(Refusal::NoRoot));
        }
    }
    assert_eq!(split(&a, &divisor(&[0], &[2]), &mut []), Err(Refusal::NotOnCurve { place: 1 }));
    assert_eq!(split(&a[..53], &[], &mut []), Err(Refusal::CurveLength));
}

/// W-211: the next divisor's refusals in their order, and its room.
#[test]
fn next_divisors() {
    let (a, larger) = (curve_a(), curve(2, 17, &[1, 0, 0, 0, 0]));
    // (x, 1) is the first of weight 1: no v has v² = 1 below it, and u_0 = 0 is the least.
    assert_eq!(written(|out| next_divisor(&a, &[0], out)), divisor(&[0], &[1]));
    assert_eq!(next_divisor(&a, &[0], &mut [0; 16]), Err(Refusal::OutputLength));
    assert_eq!(next_divisor(&larger, &[], &mut []), Err(Refusal::NotForTraining));
    assert_eq!(next_divisor(&larger[..53], &[], &mut []), Err(Refusal::CurveLength));
    assert_eq!(next_divisor(&a, &[], &mut []), Err(Refusal::DivisorLength { place: 1 }));
    assert_eq!(next_divisor(&a, &divisor(&[0], &[2]), &mut []), Err(Refusal::NotOnCurve { place: 1 }));
}

#[test]
fn the_pole_of_the_contract() {
    let (c, a, b) = (curve_a(), divisor(&[0], &[1]), divisor(&[6], &[3]));
    let batch = [&a[..], &b, &a].concat();
    let mut out = [0; DIVISOR_ROOM];
    assert_eq!(total_batch(&c, &batch, &mut out), Ok(Total { length: 33, count: 3 }));
    assert_eq!(out[..33], divisor(&[4, 4], &[0, 1])[..]);
    assert_eq!(first_repeat(&c, &batch), Ok(Some(Repeat { first: 1, second: 3 })));
    assert_eq!(first_repeat(&c, &batch[..34]), Ok(None));
    // The sign turned: W-205.
    let turned = [&a[..], &divisor(&[0], &[6])].concat();
    assert_eq!(first_repeat(&c, &turned), Ok(Some(Repeat { first: 1, second: 2 })));
    assert_eq!(total_batch(&c, &turned, &mut [0; 1]), Ok(Total { length: 1, count: 2 }));
    let own = divisor(&[1], &[0]);
    assert_eq!(first_repeat(&c, &[&own[..], &a].concat()), Ok(None));
    assert_eq!(first_repeat(&c, &[&own[..], &own].concat()), Ok(Some(Repeat { first: 1, second: 2 })));
}

#[test]
fn refusals() {
    let (c, a, off) = (curve_a(), divisor(&[0], &[1]), divisor(&[0], &[2]));
    let mut out = [0xee; DIVISOR_ROOM];
    assert_eq!(check_curve(&c), Ok(()));
    assert_eq!(check_curve(&c[..53]), Err(Refusal::CurveLength));
    assert_eq!(check_curve(&curve(2, 9, &[1, 0, 0, 0, 0])), Err(Refusal::Prime));
    assert_eq!(check_curve(&curve(2, 7, &[1, 0, 0, 0, 7])), Err(Refusal::CurveCoefficient));
    assert_eq!(check_curve(&curve(2, 5, &[1, 0, 0, 0, 0])), Err(Refusal::RepeatedFactor));
    assert_eq!(check_divisor(&c, &a), Ok(()));
    assert_eq!(check_divisor(&c, &[]), Err(Refusal::DivisorLength { place: 1 }));
    assert_eq!(add(&c, &a, &off, &mut out), Err(Refusal::NotOnCurve { place: 2 }));
    assert_eq!(add(&c, &off, &[], &mut out), Err(Refusal::NotOnCurve { place: 1 }));
    let batch = [&a[..], &divisor(&[7], &[0])].concat();
    assert_eq!(total_batch(&c, &batch, &mut out), Err(Refusal::DivisorCoefficient { place: 2 }));
    assert_eq!(first_repeat(&c, &[0; 4097]), Err(Refusal::Full));
    assert_eq!(out, [0xee; DIVISOR_ROOM]);
}

/// There is no export that checks a batch alone: 13 comes last, and says that all before it passed.
#[test]
fn batches_checked() {
    let (c, a, off) = (curve_a(), divisor(&[0], &[1]), divisor(&[0], &[2]));
    for good in [vec![], a.clone(), [&a[..], &[0], &a].concat(), vec![0; 4096]] {
        assert_eq!(check_batch(&c, &good), Ok(()));
    }
    assert_eq!(check_batch(&c, &[0; 4097]), Err(Refusal::Full));
    assert_eq!(check_batch(&c, &[&a[..], &off].concat()), Err(Refusal::NotOnCurve { place: 2 }));
    assert_eq!(check_batch(&c, &[&a[..], &[0], &a[..16]].concat()), Err(Refusal::DivisorLength { place: 3 }));
    assert_eq!(check_batch(&c, &[&a[..], &[3]].concat()), Err(Refusal::Weight { place: 2 }));
    assert_eq!(check_batch(&c[..53], &[3]), Err(Refusal::CurveLength));
}

/// A scan by value and one into a lent total answer the same; pole files by bytes, with room and without.
#[test]
fn scans_and_pole_files() {
    let (c, a, b) = (curve_a(), divisor(&[0], &[1]), divisor(&[6], &[3]));
    let mut total = raw::fresh_total(7);
    assert_eq!(total, raw::YubiRunning { pole: 7, ..Default::default() });
    let taken = [&[0, 0, 0, 7][..], &a].concat();
    assert_eq!(raw::scan(total, &c, &taken).total, raw::YubiRunning { weight: 1, v0: 1, count: 1, ..total });
    assert_eq!(scan(&mut total, &c, &taken), Ok(()));
    assert_eq!(total, raw::YubiRunning { weight: 1, v0: 1, count: 1, pole: 7, ..Default::default() });
    let before = total;
    assert_eq!(scan(&mut total, &c, &[&[0, 0, 0, 8][..], &a].concat()), Err(Refusal::OtherPole));
    assert_eq!(scan(&mut total, &c[..53], &taken), Err(Refusal::CurveLength));
    assert_eq!(total, before);

    let batch = [&a[..], &b].concat();
    let file = [b"HJP\x00\x01\x00\x00\x00\x07", &c[..], &[0, 2], &batch].concat();
    assert_eq!(written(|out| write_pole_file(7, &c, &batch, out)), file);
    assert_eq!(write_pole_file(7, &c, &batch, &mut vec![0; file.len() - 1]), Err(Refusal::OutputLength));
    let mut out = vec![0xee; file.len()];
    assert_eq!(read_pole_file(&file, &mut out), Ok((7, file.len() - 11)));
    assert_eq!(out, [&c[..], &batch, &[0xee; 11]].concat());
    assert_eq!(read_pole_file(&file, &mut out[12..]), Err(Refusal::OutputLength));
    assert_eq!(read_pole_file(&file[..8], &mut out), Err(Refusal::PoleFileLength));
}
