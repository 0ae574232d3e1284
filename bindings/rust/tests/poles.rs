//! Running totals, lists and pole files. Expected values are the contract's, or of demo/two-poles, which a separate implementation
//! made.

mod common;

use common::{curve, curve_a, curve_b, divisor, on, witnessed, BASE, OF_VERSION_2, PRIMES};
use yubisorade::*;

fn a() -> Curve {
    Curve::read(&curve_a()).unwrap()
}

#[test]
fn running_totals_from_their_flat_form() {
    let (c, scan) = (a(), scan_of(u32::MAX, &divisor(&[0], &[1])));
    let flat = raw::YubiRunning { weight: 1, u0: 6, v0: 3, count: 4095, pole: u32::MAX, ..Default::default() };
    let mut total = RunningTotal::from_raw(flat).unwrap();
    assert_eq!(total.scan(&c, &scan), Ok(()));
    // A1.
    assert_eq!(total.divisor(), on(&c, &[0, 6], &[1, 2]));
    assert_eq!(total.scan(&c, &scan), Err(Refusal::Full));
    assert_eq!(total.count(), MOST_RECORDS);

    let mut off = RunningTotal::from_raw(raw::YubiRunning { v0: 2, ..flat }).unwrap();
    assert_eq!(off.scan(&c, &scan), Err(Refusal::RunningTotal));
    assert_eq!(off.into_raw(), raw::YubiRunning { v0: 2, ..flat });
    for bad in [
        raw::YubiRunning { weight: 4, ..flat },
        raw::YubiRunning { weight: u64::MAX, ..flat },
        raw::YubiRunning { weight: 0, ..flat },
        raw::YubiRunning { u1: 1, ..flat },
        raw::YubiRunning { v2: 1, ..flat },
    ] {
        assert_eq!(RunningTotal::from_raw(bad), Err(Refusal::RunningTotal));
        assert_eq!(
            raw::scan(bad, c.record(), &scan),
            raw::YubiScanned { number: 15, total: bad, ..Default::default() }
        );
    }
    let three = raw::YubiRunning { weight: 3, u0: 1, u1: 2, u2: 3, v0: 4, v1: 5, v2: 6, ..Default::default() };
    assert_eq!(RunningTotal::from_raw(three).unwrap().divisor().record(), divisor(&[1, 2, 3], &[4, 5, 6]));
    assert_eq!(RunningTotal::fresh(9).into_raw(), raw::YubiRunning { pole: 9, ..Default::default() });
}

/// W-209: scans for three poles; each total takes its own, is refused 20 for the others, and comes to the batch total of its own.
#[test]
fn mixed_scans() {
    let (c, x_1, x6_3) = (a(), divisor(&[0], &[1]), divisor(&[6], &[3]));
    let walk = [(7, &x_1), (0, &x6_3), (7, &x6_3), (u32::MAX, &x_1), (0, &x6_3), (7, &x_1)];
    for pole in [7, 0, u32::MAX, 8] {
        let mut total = RunningTotal::fresh(pole);
        let mut batch = Vec::new();
        for (of, record) in walk {
            let (before, scan) = (total.clone(), scan_of(of, record));
            let by_value = raw::scan(before.clone().into_raw(), c.record(), &scan);
            if of == pole {
                assert_eq!((total.scan(&c, &scan), by_value.number), (Ok(()), 0));
                batch.extend_from_slice(record);
            } else {
                assert_eq!((total.scan(&c, &scan), by_value.number), (Err(Refusal::OtherPole), 20));
                assert_eq!(total, before);
            }
            assert_eq!(by_value.total, total.clone().into_raw());
        }
        let wanted = c.total(&batch).unwrap();
        assert_eq!((total.pole(), total.count(), total.divisor()), (pole, wanted.count, wanted.divisor));
    }
    let mut total = RunningTotal::fresh(7);
    for short in 0..4 {
        assert_eq!(total.scan(&c, &[0, 0, 0, 7][..short]), Err(Refusal::DivisorLength { place: 1 }));
    }
    assert_eq!(total.scan(&c, &[0, 0, 0, 8]), Err(Refusal::OtherPole));
    assert_eq!(total.scan(&c, &[0, 0, 0, 7]), Err(Refusal::DivisorLength { place: 1 }));
}

/// New meters get their places, the same ones again are told by either sign, and what is refused or told changes nothing.
#[test]
fn a_list_tells_its_meters() {
    let c = a();
    let scan = |u: &[u64], v: &[u64]| scan_of(31, &divisor(u, v));
    let mut list = c.list(31);
    assert_eq!((list.curve(), list.total()), (&c, &RunningTotal::fresh(31)));
    for (place, u, v) in [(1, &[0][..], &[1][..]), (2, &[6], &[3]), (3, &[1], &[0]), (4, &[0, 6], &[1, 2])] {
        assert_eq!(list.scan(&scan(u, v)), Ok(Scanned::New { place }));
        assert_eq!(list.total().count(), place);
        // A1.
        assert!(place != 2 || list.total().divisor() == on(&c, &[0, 6], &[1, 2]));
    }
    let before = list.total().clone();
    for (first, u, v) in
        [(1, &[0][..], &[1][..]), (1, &[0], &[6]), (2, &[6], &[4]), (3, &[1], &[0]), (4, &[0, 6], &[6, 5])]
    {
        assert_eq!(list.scan(&scan(u, v)), Ok(Scanned::Again { first }));
    }
    for (bytes, refusal) in [
        (scan_of(32, &divisor(&[0, 0], &[1, 0])), Refusal::OtherPole),
        (scan(&[0], &[2]), Refusal::NotOnCurve { place: 1 }),
        (scan(&[7], &[0]), Refusal::DivisorCoefficient { place: 1 }),
        (scan(&[0, 0, 0], &[1, 0, 0]), Refusal::Weight { place: 1 }),
        (scan(&[0], &[1])[..20].to_vec(), Refusal::DivisorLength { place: 1 }),
        (vec![0, 0, 31], Refusal::DivisorLength { place: 1 }),
        (vec![], Refusal::DivisorLength { place: 1 }),
    ] {
        assert_eq!(list.scan(&bytes), Err(refusal));
    }
    assert_eq!(list.total(), &before);
    assert_eq!(list.scan(&scan_of(31, &[0])), Ok(Scanned::New { place: 5 }));
    assert_eq!(list.scan(&scan_of(31, &[0])), Ok(Scanned::Again { first: 5 }));
}

/// 4,096 meters fill a list; the next scan is refused, whatever meter it is.
#[test]
fn a_full_list() {
    const P: u64 = 10_007;
    let power = |x: u64, n: u32| (0..n).fold(1, |power, _| power * x % P);
    let c = Curve::read(&curve(2, P, &[1, 0, 0, 0, 0])).unwrap();
    let roots: Vec<Option<u64>> = {
        let mut roots = vec![None; P as usize];
        (0..=P / 2).for_each(|y| roots[(y * y % P) as usize] = Some(y));
        roots
    };
    // The points (x, y) of y² = x^5 + 1, as (X - x, y): one of each two with the same x.
    let mut points =
        (0..P).filter_map(|x| roots[((power(x, 5) + 1) % P) as usize].map(|y| divisor(&[(P - x) % P], &[y])));
    let mut list = c.list(0);
    let mut batch = Vec::new();
    for place in 1..=MOST_RECORDS {
        let point = points.next().expect("enough points");
        assert_eq!(list.scan(&scan_of(0, &point)), Ok(Scanned::New { place }));
        batch.extend_from_slice(&point);
    }
    assert_eq!(list.scan(&scan_of(0, &points.next().unwrap())), Err(Refusal::Full));
    assert_eq!(list.scan(&scan_of(0, &batch[..17])), Err(Refusal::Full));
    let total = c.total(&batch).unwrap();
    assert_eq!((list.total().count(), list.total().divisor()), (total.count, total.divisor));
    assert_eq!(c.first_repeat(&batch), Ok(None));
}

/// The street on two poles, as one walk and as two pole files: totals and counts are the separate implementation's.
#[test]
fn two_poles() {
    let folder = concat!(env!("CARGO_MANIFEST_DIR"), "/../../demo/two-poles/");
    let file = |name: &str| std::fs::read(format!("{}{}", folder, name)).unwrap();
    let c = Curve::read(&file("curve")).unwrap();
    let mut lists = [c.list(40_101), c.list(40_102)];
    let scans = file("scans");
    let mut rest = &scans[..];
    while let [high, low, behind @ ..] = rest {
        let (scan, more) = behind.split_at(usize::from(u16::from_be_bytes([*high, *low])));
        let answers: Vec<_> = lists.iter_mut().map(|list| list.scan(scan)).collect();
        assert!(answers.contains(&Err(Refusal::OtherPole)));
        assert!(answers.iter().any(|answer| matches!(answer, Ok(Scanned::New { .. }))));
        rest = more;
    }
    let mut shown = String::new();
    for list in &lists {
        let total = list.total();
        shown += &format!("pole {}\ncount {}\ntotal {}\n", total.pole(), total.count(), total.divisor());

        let bytes = file(&format!("pole-{}", total.pole()));
        let read = PoleFile::read(&bytes).unwrap();
        assert_eq!((read.pole, &read.curve, read.records().count() as u64), (total.pole(), &c, total.count()));
        assert_eq!(c.total(read.batch), Ok(Total { divisor: total.divisor(), count: total.count() }));
        assert_eq!(read.write().unwrap(), bytes);
    }
    assert_eq!(shown.as_bytes(), file("totals"));
}

/// A batch is parted by weights, whatever its bytes are, and nothing of it is lost.
#[test]
fn records_of_a_batch() {
    let (x_1, both) = (divisor(&[0], &[1]), divisor(&[0, 6], &[1, 2]));
    let batch = [&x_1[..], &[0], &both, &x_1].concat();
    assert!(records(&batch).eq([&x_1[..], &[0], &both, &x_1]));
    assert!(records(&batch[..60]).eq([&x_1[..], &[0], &both, &x_1[..9]]));
    assert!(records(&[255, 1, 2]).eq([[255, 1, 2]]));
    let mut none = records(&[]);
    assert_eq!((none.next(), none.next()), (None, None));
    let c = a();
    assert_eq!(c.divisor(records(&batch[..60]).last().unwrap()), Err(Refusal::DivisorLength { place: 1 }));
}

/// W-209: files of both genera and versions, written, read, cut and grown.
#[test]
fn pole_files() {
    let batch = [&divisor(&[0], &[1])[..], &divisor(&[1], &[0]), &[0], &divisor(&[0, 1], &[1, 1])].concat();
    let (ones, seventh) = ([1, 0, 0, 0, 0], [1, 0, 0, 0, 0, 0, 0]);
    for (pole, curve) in [
        (0, curve_a()),
        (31, curve_b()),
        (0x0102_0304, witnessed(2, 7, &ones, 3, &[2, 3])),
        (u32::MAX, witnessed(3, OF_VERSION_2, &seventh, BASE, &PRIMES)),
    ] {
        let head = [b"HJP\x00\x01", &pole.to_be_bytes()[..]].concat();
        for (count, end) in [(0, 0), (1, 17), (2, 34), (3, 35), (4, 68)] {
            let good = PoleFile { pole, curve: Curve::read(&curve).unwrap(), batch: &batch[..end] };
            let file = [&head[..], &curve, &[0, count], &batch[..end]].concat();
            assert_eq!(good.write().as_ref(), Ok(&file));
            assert_eq!(PoleFile::read(&file).as_ref(), Ok(&good));
            assert_eq!((good.length(), good.records().count()), (file.len(), usize::from(count)));
            let mut out = vec![0xee; file.len() + 1];
            assert_eq!(good.write_to(&mut out), Ok(file.len()));
            assert_eq!((&out[..file.len()], out[file.len()]), (&file[..], 0xee));
            assert_eq!(good.write_to(&mut out[2..]), Err(Refusal::OutputLength));
            for cut in 0..file.len() {
                let of_curve = (9..9 + curve.len()).contains(&cut);
                let wanted = if of_curve { Refusal::CurveLength } else { Refusal::PoleFileLength };
                assert_eq!(PoleFile::read(&file[..cut]), Err(wanted));
            }
            assert_eq!(PoleFile::read(&[&file[..], &[0]].concat()), Err(Refusal::PoleFileLength));
        }
    }
}

#[test]
fn pole_files_refused() {
    let (c, x_1, off) = (curve_a(), divisor(&[0], &[1]), divisor(&[0], &[2]));
    let file = |count: u16, records: &[&[u8]]| {
        [b"HJP\x00\x01\x00\x00\x00\x07", &c[..], &count.to_be_bytes(), &records.concat()].concat()
    };
    let refused = |file: &[u8]| PoleFile::read(file).unwrap_err();
    let good = file(2, &[&x_1, &x_1]);
    assert!(PoleFile::read(&good).is_ok());
    for (at, byte, refusal) in [
        (2, b'C', Refusal::PoleFileMark),
        (4, 2, Refusal::PoleFileVersion),
        (3, 1, Refusal::PoleFileVersion),
        (9, b'h', Refusal::CurveMark),
        (13, 3, Refusal::CurveVersion),
        (14, 4, Refusal::Genus),
        (22, 9, Refusal::Prime),
        (63, 0x10, Refusal::PoleFileLength),
    ] {
        let mut bad = good.clone();
        bad[at] = byte;
        assert_eq!(refused(&bad), refusal);
    }
    for (bad, refusal) in [
        (file(1, &[&x_1, &x_1]), Refusal::PoleFileLength),
        (file(3, &[&x_1, &x_1]), Refusal::PoleFileLength),
        (file(4097, &[&[0; 4097]]), Refusal::PoleFileLength),
        (file(2, &[&x_1, &[3]]), Refusal::Weight { place: 2 }),
        (file(2, &[&x_1, &divisor(&[7], &[0])]), Refusal::DivisorCoefficient { place: 2 }),
        (file(2, &[&off, &[3]]), Refusal::NotOnCurve { place: 1 }),
        (file(1, &[&x_1, &[3]]), Refusal::PoleFileLength),
    ] {
        assert_eq!(refused(&bad), refusal);
    }

    let write = |batch: &[u8]| PoleFile { pole: 7, curve: a(), batch }.write();
    assert_eq!(write(&[&x_1[..], &off].concat()), Err(Refusal::NotOnCurve { place: 2 }));
    assert_eq!(write(&x_1[..16]), Err(Refusal::DivisorLength { place: 1 }));
    assert_eq!(write(&[0; 4097]), Err(Refusal::Full));
    assert_eq!(write(&[0; 4096]).map(|file| PoleFile::read(&file).map(|pole| pole.batch.len())), Ok(Ok(4096)));
}
