//! Every example of the contract, and the laws of the group on curves small enough to list.

use super::*;

/// A curve record; `f` holds f_0 to f_2g.
fn curve(genus: u8, p: u64, f: &[u64]) -> Vec<u8> {
    let mut bytes = vec![b'H', b'J', b'C', 0, 1, genus];
    for number in std::iter::once(&p).chain(f) {
        bytes.extend_from_slice(&number.to_be_bytes());
    }
    bytes
}

/// A divisor record.
fn divisor(u: &[u64], v: &[u64]) -> Vec<u8> {
    let mut bytes = vec![u.len() as u8];
    for number in u.iter().chain(v) {
        bytes.extend_from_slice(&number.to_be_bytes());
    }
    bytes
}

fn curve_a() -> Vec<u8> {
    curve(2, 7, &[1, 0, 0, 0, 0])
}

fn curve_b() -> Vec<u8> {
    curve(3, 11, &[1, 0, 0, 0, 0, 0, 0])
}

fn neutral() -> Vec<u8> {
    vec![0]
}

fn sum(curve: &[u8], a: &[u8], b: &[u8]) -> Vec<u8> {
    let mut out = [0xaa; 60];
    let answer = add(curve, a, b, &mut out);
    assert_eq!((answer.number, answer.place), (0, 0));
    let length = answer.length as usize;
    assert!(out[length..].iter().all(|&x| x == 0xaa));
    out[..length].to_vec()
}

fn twice(curve: &[u8], a: &[u8]) -> Vec<u8> {
    let mut out = [0; 49];
    let answer = double(curve, a, &mut out);
    assert_eq!(answer.number, 0);
    out[..answer.length as usize].to_vec()
}

/// A neutral multiple is refused 19, and nothing else is.
fn times(curve: &[u8], a: &[u8], n: u64) -> Vec<u8> {
    let mut out = [0x55; 49];
    let answer = multiply(curve, a, &n.to_be_bytes(), &mut out);
    if answer.number == 19 {
        assert_eq!((answer, out), (Multiple { number: 19, ..Multiple::default() }, [0x55; 49]));
        return neutral();
    }
    assert_eq!(answer.number, 0);
    assert_ne!(out[0], 0);
    // There is a digit less than 3n has bits, and the nonzero ones stand where 3n and n differ.
    let (n, thrice) = (u128::from(n), 3 * u128::from(n));
    assert_eq!(answer.doublings, u64::from(128 - thrice.leading_zeros()).saturating_sub(2));
    assert_eq!(answer.additions, u64::from((thrice ^ n).count_ones()).saturating_sub(1));
    out[..answer.length as usize].to_vec()
}

#[test]
fn corners_of_curve_a() {
    let (c, d) = (curve_a(), divisor);
    let x1 = d(&[0], &[1]);
    assert_eq!(sum(&c, &x1, &d(&[6], &[3])), d(&[0, 6], &[1, 2])); // A1
    assert_eq!(twice(&c, &x1), d(&[0, 0], &[1, 0])); // A2
    assert_eq!(times(&c, &x1, 3), d(&[0, 0], &[6, 0])); // A3
    assert_eq!(times(&c, &x1, 4), d(&[0], &[6])); // A4
    assert_eq!(times(&c, &x1, 5), neutral()); // A5
    assert_eq!(sum(&c, &x1, &d(&[0], &[6])), neutral()); // A6
    assert_eq!(twice(&c, &d(&[1], &[0])), neutral()); // A7
    let pair = d(&[0, 6], &[1, 2]);
    assert_eq!(sum(&c, &pair, &d(&[0], &[6])), d(&[6], &[3])); // A8
    assert_eq!(sum(&c, &pair, &x1), d(&[4, 4], &[0, 1])); // A9
}

#[test]
fn corners_of_curve_b() {
    let (c, d) = (curve_b(), divisor);
    let x1 = d(&[0], &[1]);
    assert_eq!(twice(&c, &d(&[0, 0, 0], &[1, 0, 0])), d(&[0], &[10])); // B1
    assert_eq!(times(&c, &x1, 4), d(&[0, 0, 0], &[10, 0, 0])); // B2
    assert_eq!(times(&c, &x1, 7), neutral()); // B3
}

/// What a curve record is answered.
fn number(curve: &[u8]) -> u64 {
    let answer = check_curve(curve);
    assert_eq!((answer.place, answer.length), (0, 0));
    answer.number
}

#[test]
fn curves_refused_in_order() {
    let ones = [1, 0, 0, 0, 0];
    let seventh = [1, 0, 0, 0, 0, 0, 0];
    for p in [1, 2, 9, 2_147_483_648, 0, u64::MAX] {
        assert_eq!(number(&curve(2, p, &ones)), 5);
    }
    for p in [3, 2_147_483_647] {
        assert_eq!(number(&curve(2, p, &ones)), 0);
    }
    assert_eq!(number(&curve(2, 5, &ones)), 7);
    assert_eq!(number(&curve(3, 7, &seventh)), 7);
    assert_eq!(number(&curve(3, 7, &[1, 6, 0, 0, 0, 0, 0])), 0);
    // f_2g other than 0 and p = 7 in genus 3 are no reason to refuse.
    assert_eq!(number(&curve(3, 7, &[1, 6, 0, 0, 0, 0, 1])), 0);

    let good = curve_a();
    for n in 0..6 {
        assert_eq!(number(&[0xff; 6][..n]), 1);
        assert_eq!(number(&good[..n]), 1);
    }
    for n in 6..54 {
        assert_eq!(number(&good[..n]), 1);
    }
    assert_eq!(number(&curve(2, 7, &[1, 0, 0, 0, 0, 0, 0])), 1);
    assert_eq!(number(&curve(3, 7, &ones)), 1);

    // Each fault added to the next one wins over it: 2, 3, 4, 1, 5, 6, 7.
    let with = |at: usize, value: u8, mut bytes: Vec<u8>| {
        bytes[at] = value;
        bytes
    };
    let square = curve(2, 7, &[0, 0, 0, 0, 0]);
    assert_eq!(number(&square), 7);
    let large = curve(2, 7, &[0, 0, 0, 0, 7]);
    assert_eq!(number(&large), 6);
    let composite = curve(2, 9, &[0, 0, 0, 0, 9]);
    assert_eq!(number(&composite), 5);
    let mut long = composite;
    long.push(0);
    assert_eq!(number(&long), 1);
    let genus = with(5, 4, long);
    assert_eq!(number(&genus), 4);
    let version = with(3, 1, genus);
    assert_eq!(number(&version), 3);
    let mark = with(2, b'c', version);
    assert_eq!(number(&mark), 2);
    assert_eq!(number(&mark[..5]), 1);
}

/// The record in version 2: with a base, a count, and primes.
fn witnessed(genus: u8, p: u64, f: &[u64], base: u64, count: u8, primes: &[u64]) -> Vec<u8> {
    let mut bytes = curve(genus, p, f);
    bytes[4] = 2;
    bytes.extend_from_slice(&base.to_be_bytes());
    bytes.push(count);
    bytes.extend(primes.iter().flat_map(|q| q.to_be_bytes()));
    bytes
}

const P61: u64 = (1 << 61) - 1;
const PRIMES_OF_P61: [u64; 12] = [2, 3, 5, 7, 11, 13, 31, 41, 61, 151, 331, 1321];

fn largest(genus: u8, f: &[u64]) -> Vec<u8> {
    witnessed(genus, P61, f, 37, 12, &PRIMES_OF_P61)
}

#[test]
fn witnesses_refused_in_order() {
    let (ones, seventh) = ([1, 0, 0, 0, 0], [1, 0, 0, 0, 0, 0, 0]);
    assert_eq!(number(&witnessed(2, 3, &ones, 2, 1, &[2])), 0);
    assert_eq!(number(&witnessed(3, 5, &seventh, 2, 1, &[2])), 0);
    assert_eq!(number(&witnessed(2, 5, &ones, 2, 1, &[2])), 7);
    let good = witnessed(2, 7, &ones, 3, 2, &[2, 3]);
    for record in [good.clone(), largest(2, &ones), largest(3, &seventh)] {
        assert_eq!(number(&record), 0);
        let mut room = [0x55; 199];
        let length = record.len();
        assert_eq!(rewrite_curve(&record, &mut room), Answer { length: length as u64, ..Answer::default() });
        assert_eq!((&room[..length], room[length..].iter().all(|&byte| byte == 0x55)), (&record[..], true));
        assert_eq!(rewrite_curve(&record, &mut room[..length - 1]).number, 13);
        for cut in 6..length {
            assert_eq!(number(&record[..cut]), 1, "{}", cut);
        }
        assert_eq!(number(&[&record[..], &[0]].concat()), 1);
    }
    // Every bit of the count and of the primes counts.
    for bit in 8 * 62..8 * good.len() {
        let mut flipped = good.clone();
        flipped[bit / 8] ^= 1 << (bit % 8);
        assert!([1, 18].contains(&number(&flipped)), "{}", bit);
    }

    // Each fault added to the next one wins over it: 3, 4, 1 before k, 18 for k, 1, 5, 18, 6, 7.
    let zeros = [0; 5];
    assert_eq!(number(&witnessed(2, 7, &zeros, 3, 2, &[2, 3])), 7);
    assert_eq!(number(&witnessed(2, 7, &[7, 0, 0, 0, 0], 3, 2, &[2, 3])), 6);
    assert_eq!(number(&witnessed(2, 7, &[7, 0, 0, 0, 0], 2, 2, &[2, 3])), 18);
    assert_eq!(number(&witnessed(2, 9, &[9, 0, 0, 0, 0], 8, 1, &[2])), 18);
    for p in [0, 1, 2, 8, 1 << 61, (1 << 61) + 1, u64::MAX] {
        let faulty = |count| witnessed(2, p, &[u64::MAX; 5], 0, count, &[4, 4]);
        assert_eq!(number(&faulty(2)), 5, "{}", p);
        assert_eq!((number(&faulty(1)), number(&faulty(3))), (1, 1), "{}", p);
        for count in [0, 16, 255] {
            assert_eq!(number(&faulty(count)), 18, "{}", p);
            assert_eq!(number(&faulty(count)[..63]), 18, "{}", p);
            assert_eq!(number(&faulty(count)[..62]), 1, "{}", p);
        }
    }
    for (at, value, wanted) in [(3, 1, 3), (4, 3, 3), (5, 4, 4), (2, b'c', 2)] {
        let mut faulty = witnessed(2, 8, &zeros, 0, 16, &[4])[..62].to_vec();
        faulty[at] = value;
        assert_eq!(number(&faulty), wanted);
    }
    // Version 1 keeps its limit, and takes no witness.
    assert_eq!(number(&curve(2, P61, &ones)), 5);
    assert_eq!(number(&[&curve(2, 7, &ones)[..], &good[54..]].concat()), 1);
}

/// What a call answers is the same in both versions, where both take p.
#[test]
fn versions_agree() {
    for (p, base, primes) in [(7, 3, &[2, 3][..]), (11, 2, &[2, 5]), (2_147_483_647, 7, &[2, 3, 7, 11, 31, 151, 331])] {
        let f = [1, 0, 0, 0, 3];
        let (first, second) = (curve(2, p, &f), witnessed(2, p, &f, base, primes.len() as u8, primes));
        let point = divisor(&[0], &[1]);
        for n in 0..40 {
            assert_eq!(times(&first, &point, n), times(&second, &point, n));
        }
    }
}

#[test]
fn divisors_refused_in_order() {
    let c = curve_a();
    let answer = |bytes: &[u8]| {
        let answer = check_divisor(&c, bytes);
        assert_eq!(answer.length, 0);
        (answer.number, answer.place)
    };
    assert_eq!(answer(&divisor(&[0], &[2])), (11, 1));
    assert_eq!(answer(&divisor(&[6], &[3])), (0, 0));
    assert_eq!(answer(&divisor(&[7], &[3])), (10, 1));
    assert_eq!(answer(&divisor(&[0], &[7])), (10, 1));
    assert_eq!(answer(&[]), (8, 1));
    assert_eq!(answer(&[0]), (0, 0));
    assert_eq!(answer(&[0, 0]), (8, 1));
    assert_eq!(answer(&[1]), (8, 1));
    assert_eq!(answer(&[3]), (9, 1));
    assert_eq!(answer(&divisor(&[0, 0, 0], &[1, 0, 0])), (9, 1));
    // A wrong length wins over a number of p or more, and a bad curve over everything.
    let mut long = divisor(&[9], &[9]);
    long.push(0);
    assert_eq!(answer(&long), (8, 1));
    assert_eq!(check_divisor(&c[..10], &[]), Answer { number: 1, place: 0, length: 0 });
}

#[test]
fn add_looks_at_the_first_divisor_first() {
    let (c, good, off) = (curve_a(), divisor(&[0], &[1]), divisor(&[0], &[2]));
    let mut out = [0x55; 33];
    let mut answer = |a: &[u8], b: &[u8]| {
        let answer = add(&c, a, b, &mut out);
        assert_eq!(answer.length, 0);
        assert_eq!(out, [0x55; 33]);
        (answer.number, answer.place)
    };
    assert_eq!(answer(&off, &[]), (11, 1));
    assert_eq!(answer(&good, &[]), (8, 2));
    assert_eq!(answer(&good, &[9]), (9, 2));
    assert_eq!(answer(&good, &divisor(&[7], &[1])), (10, 2));
    assert_eq!(answer(&good, &off), (11, 2));
}

#[test]
fn scalars_and_outputs() {
    let (c, a) = (curve_a(), divisor(&[0], &[1]));
    let mut out = [0x55; 33];
    let refused = |number| Multiple { number, ..Multiple::default() };
    assert_eq!(multiply(&c, &a, &[0; 33], &mut out), refused(12));
    assert_eq!(multiply(&c, &a, &[0; 33], &mut []), refused(12));
    assert_eq!(multiply(&c, &a, &[2], &mut out[..32]), refused(13));
    assert_eq!(out, [0x55; 33]);
    // 2^256 - 1 is a multiple of 5, and 2^255 is 3 modulo 5.
    for scalar in [&[][..], &[0], &[0; 32], &[5], &[0xff; 32]] {
        for room in [0, 1, 33] {
            assert_eq!(multiply(&c, &a, scalar, &mut out[..room]), refused(19));
            assert_eq!(multiply(&c, &neutral(), scalar, &mut out[..room]), refused(19));
        }
    }
    assert_eq!(multiply(&c, &neutral(), &[3], &mut out), refused(19));
    assert_eq!(multiply(&c, &neutral(), &[3; 33], &mut out), refused(12));
    assert_eq!(out, [0x55; 33]);
    let top: Vec<u8> = std::iter::once(0x80).chain([0; 31]).collect();
    assert_eq!(multiply(&c, &a, &top, &mut out), Multiple { length: 33, doublings: 255, ..refused(0) });
    assert_eq!(out[..], divisor(&[0, 0], &[6, 0])[..]);
    // 2^256 - 2 is -1 modulo 5: its highest digit is the 257th.
    let near: Vec<u8> = std::iter::repeat(0xff).take(31).chain([0xfe]).collect();
    assert_eq!(multiply(&c, &a, &near, &mut out), Multiple { length: 17, doublings: 256, additions: 1, ..refused(0) });
    assert_eq!(multiply(&c, &a, &[0, 0, 2], &mut out), Multiple { length: 33, doublings: 1, ..refused(0) });
    assert_eq!(out[..], divisor(&[0, 0], &[1, 0])[..]);

    let mut room = [0x55; 70];
    assert_eq!(rewrite_curve(&c, &mut room[..53]).number, 13);
    assert_eq!(room, [0x55; 70]);
    assert_eq!(rewrite_curve(&c, &mut room), Answer { length: 54, ..Answer::default() });
    assert_eq!((&room[..54], &room[54..]), (&c[..], &[0x55; 16][..]));
    assert_eq!(rewrite_divisor(&c, &a, &mut room[..16]).number, 13);
    assert_eq!(rewrite_divisor(&c, &a, &mut room), Answer { length: 17, ..Answer::default() });
    assert_eq!(room[..17], a[..]);
}

/// Case P.
#[test]
fn the_pole_of_the_contract() {
    let (c, a) = (curve_a(), divisor(&[0], &[1]));
    let batch = [a.clone(), divisor(&[6], &[3]), a.clone()].concat();
    let mut out = [0; 33];
    assert_eq!(total_batch(&c, &batch, &mut out), Total { length: 33, count: 3, ..Total::default() });
    assert_eq!(out[..], divisor(&[4, 4], &[0, 1])[..]);
    assert_eq!(first_repeat(&c, &batch), Repeat { first: 1, second: 3, ..Repeat::default() });
    assert_eq!(first_repeat(&c, &batch[..34]), Repeat::default());

    let mut total = fresh_total(0x0102_0304);
    for (n, record) in batch.chunks(17).enumerate() {
        let for_pole = [&[1, 2, 3, 4], record].concat();
        let by_value = scan(total, &c, &for_pole);
        assert_eq!(scan_lent(&mut total, &c, &for_pole), Answer::default());
        assert_eq!(by_value, Scanned { total, ..Scanned::default() });
        assert_eq!(total.count, n as u64 + 1);
    }
    assert_eq!(total, Running { weight: 2, u0: 4, u1: 4, v1: 1, count: 3, pole: 0x0102_0304, ..Running::default() });
}

#[test]
fn batches_to_the_limit() {
    let (c, a) = (curve_a(), divisor(&[0], &[1]));
    let mut out = [0x55; 33];
    assert_eq!(total_batch(&c, &[], &mut out), Total { length: 1, ..Total::default() });
    assert_eq!(out[..2], [0, 0x55]);
    assert_eq!(first_repeat(&c, &[]), Repeat::default());
    assert_eq!(total_batch(&c, &[], &mut []).number, 13);

    let full = a.repeat(4096);
    // 4096 = 1 modulo 5.
    assert_eq!(total_batch(&c, &full, &mut out), Total { length: 17, count: 4096, ..Total::default() });
    assert_eq!(out[..17], a[..]);
    for tail in [&[9][..], &a, &[0]] {
        let over = [&full[..], tail].concat();
        assert_eq!(total_batch(&c, &over, &mut []), Total { number: 14, ..Total::default() });
        assert_eq!(first_repeat(&c, &over), Repeat { number: 14, ..Repeat::default() });
        let mut early = over.clone();
        early[17 * 4095] = 3;
        assert_eq!(total_batch(&c, &early, &mut out), Total { number: 9, place: 4096, ..Total::default() });
    }
    // A cut record is 8 at its own place, and the whole batch is checked before a repeat is looked for.
    assert_eq!(first_repeat(&c, &full[..17 * 3 + 16]), Repeat { number: 8, place: 4, ..Repeat::default() });
    // Neutral records repeat too; the least j wins, then the least i.
    assert_eq!(first_repeat(&c, &[0, 0, 0]), Repeat { first: 1, second: 2, ..Repeat::default() });
    let b = divisor(&[6], &[3]);
    let mixed = [&b[..], &a, &a, &b].concat();
    assert_eq!(first_repeat(&c, &mixed), Repeat { first: 2, second: 3, ..Repeat::default() });
}

/// A meter is the same with its sign turned.
#[test]
fn repeats_by_sign() {
    let (c, a, b, turned) = (curve_a(), divisor(&[0], &[1]), divisor(&[6], &[3]), divisor(&[0], &[6]));
    let repeat = |records: &[&[u8]]| {
        let Repeat { number, place, first, second, .. } = first_repeat(&c, &records.concat());
        assert_eq!((number, place), (0, 0));
        (first, second)
    };
    assert_eq!(repeat(&[&a, &turned]), (1, 2));
    assert_eq!(repeat(&[&b, &turned, &a, &b]), (2, 3));
    assert_eq!(repeat(&[&a, &b, &b, &turned]), (2, 3));
    // The same u alone doesn't make the same meter, nor does the same point in two weights.
    let (both, square, square_turned) =
        (divisor(&[0, 6], &[1, 2]), divisor(&[0, 0], &[1, 0]), divisor(&[0, 0], &[6, 0]));
    let other = divisor(&[0, 6], &[1, 3]); // (x² + 6x, 3x + 1): through (0, 1) and (1, 4)
    assert_eq!(repeat(&[&both, &other, &a, &b]), (0, 0));
    assert_eq!(repeat(&[&square, &a, &square_turned]), (1, 3));
    // (x + 1, 0) is its own opposite.
    let own = divisor(&[1], &[0]);
    assert_eq!(repeat(&[&own, &a, &[0]]), (0, 0));
    assert_eq!(repeat(&[&own, &a, &own]), (1, 3));
}

#[test]
fn running_totals_refused() {
    let c = curve_a();
    let for_pole = |record: &[u8]| [&[0, 1, 0, 9], record].concat();
    let a = for_pole(&divisor(&[0], &[1]));
    let good = Running { weight: 1, u0: 6, v0: 3, count: 7, pole: 0x10009, ..Running::default() };
    let number = |total: Running, curve: &[u8], record: &[u8]| {
        let answer = scan(total, curve, record);
        if answer.number != 0 {
            assert_eq!(answer.total, total);
        }
        let mut lent = total;
        let same = scan_lent(&mut lent, curve, record);
        assert_eq!(
            (answer.number, answer.place, answer.length, answer.total),
            (same.number, same.place, same.length, lent)
        );
        (answer.number, answer.place)
    };
    assert_eq!(number(good, &c, &a), (0, 0));
    let full = Running { count: 4096, ..good };
    let faults = [
        Running { weight: 3, ..good },
        Running { weight: 4, ..good },
        Running { weight: u64::MAX, ..good },
        Running { u0: 13, ..good },
        Running { v0: 10, ..good },
        Running { v0: 2, ..good },
        Running { u1: 1, ..good },
        Running { u2: 1, ..good },
        Running { v1: 7, ..good },
        Running { v2: 1, ..good },
        Running { weight: 0, ..good },
        Running { count: 4097, ..good },
        Running { count: u64::MAX, ..good },
    ];
    for fault in faults {
        assert_eq!(number(fault, &c, &[]), (15, 0), "{:?}", fault);
        assert_eq!(number(Running { count: fault.count.max(4096), ..fault }, &c, &[]), (15, 0), "{:?}", fault);
        assert_eq!(number(fault, &c[..53], &[]), (1, 0), "{:?}", fault);
    }
    assert_eq!(number(full, &c, &[]), (14, 0));
    assert_eq!(number(Running { count: 4095, ..good }, &c, &a), (0, 0));
    for short in 0..4 {
        assert_eq!((number(good, &c, &a[..short]), number(good, &c, &[0; 4][..short])), ((8, 1), (8, 1)));
        assert_eq!(number(full, &c, &a[..short]), (14, 0));
    }
    // Another pole, by every bit of its number, comes before any fault of the record and after a full total.
    for bit in 0..32 {
        let other = Running { pole: good.pole ^ 1 << bit, ..good };
        for scan in [&a[..], &a[..4], &for_pole(&[3]), &for_pole(&divisor(&[0], &[2]))] {
            assert_eq!(number(other, &c, scan), (20, 0));
        }
        assert_eq!(number(Running { count: 4096, ..other }, &c, &a), (14, 0));
        assert_eq!(number(Running { v0: 2, ..other }, &c, &a), (15, 0));
    }
    assert_eq!(number(good, &c, &a[..4]), (8, 1));
    assert_eq!(number(good, &c, &for_pole(&[0, 0])), (8, 1));
    assert_eq!(number(good, &c, &for_pole(&[3])), (9, 1));
    assert_eq!(number(good, &c, &for_pole(&divisor(&[7], &[0]))), (10, 1));
    assert_eq!(number(good, &c, &for_pole(&divisor(&[0], &[2]))), (11, 1));
}

/// A list for three poles: each total is the batch total of its own records, and 20 leaves it as it was.
#[test]
fn mixed_scans() {
    let c = curve_b();
    let (point, own) = (divisor(&[0], &[1]), divisor(&[1], &[0]));
    let list = [(1, &point), (2, &own), (1, &point), (0x8000_0001, &point), (2, &point), (1, &own), (2, &own)];
    for pole in [1, 2, 0x8000_0001, 3] {
        let (mut total, mut batch) = (fresh_total(pole), Vec::new());
        for (of, record) in list {
            let before = total;
            let number = scan_lent(&mut total, &c, &[&u32::to_be_bytes(of), &record[..]].concat()).number;
            assert_eq!(number, if of == pole { 0 } else { 20 });
            assert!(of == pole || total == before);
            batch.extend_from_slice(if of == pole { record } else { &[] });
        }
        let mut out = [0; 49];
        let answer = total_batch(&c, &batch, &mut out);
        let all: Vec<u64> = numbers(&out[..answer.length as usize]);
        assert_eq!((total.weight as usize, total.count, total.pole), (all.len() / 2, answer.count, pole));
        assert_eq!([total.u0, total.u1, total.u2][..all.len() / 2], all[..all.len() / 2]);
        assert_eq!([total.v0, total.v1, total.v2][..all.len() / 2], all[all.len() / 2..]);
    }
}

/// A file as the ticket lays it out.
fn pole_file(pole: u32, c: &[u8], count: u16, batch: &[u8]) -> Vec<u8> {
    [b"HJP\x00\x01", &pole.to_be_bytes()[..], c, &count.to_be_bytes(), batch].concat()
}

/// What reading a file answers, with what it wrote.
fn read_file(file: &[u8]) -> (Pole, Vec<u8>) {
    let mut out = vec![0x55; file.len() + 3];
    let answer = read_pole_file(file, &mut out);
    let length = answer.length as usize;
    assert!(out[length..].iter().all(|&byte| byte == 0x55));
    assert!(answer.number == 0 || (answer.length, answer.pole) == (0, 0));
    (answer, out[..length].to_vec())
}

/// Good files of both genera and versions: written and read back, cut at every byte, grown, and with outputs that are too short.
#[test]
fn pole_files() {
    let (a, own) = (divisor(&[0], &[1]), divisor(&[1], &[0]));
    let batches: [(u16, Vec<u8>); 4] = [
        (0, vec![]),
        (1, a.clone()),
        (3, [&a[..], &[0], &own].concat()),
        (4, [&own[..], &a, &divisor(&[0, 1], &[1, 1]), &[0]].concat()),
    ];
    let curves = [
        curve_a(),
        curve_b(),
        witnessed(2, 7, &[1, 0, 0, 0, 0], 3, 2, &[2, 3]),
        largest(2, &[1, 0, 0, 0, 0]),
        largest(3, &[1, 0, 0, 0, 0, 0, 0]),
    ];
    for ((c, (count, batch)), pole) in curves
        .iter()
        .flat_map(|c| batches.iter().map(move |batch| (c, batch)))
        .zip([0, 1, 0x0102_0304, u32::MAX].into_iter().cycle())
    {
        let file = pole_file(pole, c, *count, batch);
        let mut out = vec![0x55; file.len() + 5];
        let done = Answer { length: file.len() as u64, ..Answer::default() };
        assert_eq!(write_pole_file(pole, c, batch, &mut out), done);
        assert_eq!((&out[..file.len()], &out[file.len()..]), (&file[..], &[0x55; 5][..]));
        assert_eq!(write_pole_file(pole, c, batch, &mut vec![0; file.len()]), done);
        assert_eq!(write_pole_file(pole, c, batch, &mut vec![0; file.len() - 1]).number, 13);

        let both = [&c[..], batch].concat();
        assert_eq!(read_file(&file), (Pole { length: both.len() as u64, pole, ..Pole::default() }, both.clone()));
        assert_eq!(read_pole_file(&file, &mut vec![0; both.len() - 1]), Pole { number: 13, ..Pole::default() });
        for cut in 0..file.len() {
            let wanted = if (9..9 + c.len()).contains(&cut) { 1 } else { 23 };
            assert_eq!(read_file(&file[..cut]).0, Pole { number: wanted, ..Pole::default() }, "{} {}", cut, file.len());
        }
        for more in [&[0][..], &a, &[0; 100]] {
            assert_eq!(read_file(&[&file[..], more].concat()).0.number, 23);
        }
    }
}

#[test]
fn pole_files_refused_in_order() {
    let (c, a, off) = (curve_a(), divisor(&[0], &[1]), divisor(&[0], &[2]));
    let answer = |file: &[u8]| {
        let Pole { number, place, .. } = read_file(file).0;
        (number, place)
    };
    let with = |file: &[u8], at: usize, byte: u8| {
        let mut changed = file.to_vec();
        changed[at] = byte;
        changed
    };
    let batch = |records: &[&[u8]]| records.concat();
    assert_eq!(answer(&pole_file(7, &c, 2, &batch(&[&a, &a]))), (0, 0));
    // Each fault added to the one behind it wins: left over, the records' from last to first, the count, the curve's, 22, 21, under 9 bytes.
    let over = pole_file(7, &c, 2, &batch(&[&a, &a, &[9]]));
    assert_eq!(answer(&over), (23, 0));
    for (wanted, wrong) in
        [((11, 2), &off[..]), ((10, 2), &divisor(&[7], &[2])), ((9, 2), &[3]), ((23, 0), &a[..16]), ((23, 0), &[])]
    {
        let file = pole_file(7, &c, 2, &batch(&[&a, wrong]));
        assert_eq!(answer(&file), wanted);
        assert_eq!(answer(&pole_file(7, &c, 2, &batch(&[&off, wrong]))), (11, 1));
        // The bytes behind the last record that the count has are no record.
        assert_eq!(answer(&pole_file(7, &c, 1, &batch(&[&a, wrong]))).0, if wrong.is_empty() { 0 } else { 23 });
        for count in [4097, 0xffff] {
            assert_eq!(answer(&pole_file(7, &c, count, &batch(&[&off, wrong]))), (23, 0));
            let bad_curve = curve(2, 9, &[1, 0, 0, 0, 0]);
            assert_eq!(answer(&pole_file(7, &bad_curve, count, &batch(&[&off, wrong]))), (5, 0));
        }
    }
    let bad_curve = pole_file(7, &curve(2, 9, &[1, 0, 0, 0, 0]), 1, &off);
    for version in [[0, 0], [0, 2], [1, 1], [1, 0]] {
        let bad_version = with(&with(&bad_curve, 3, version[0]), 4, version[1]);
        assert_eq!(answer(&bad_version), (22, 0));
        for (at, byte) in [(0, b'h'), (1, b'P'), (2, b'C')] {
            let bad_mark = with(&bad_version, at, byte);
            assert_eq!(
                (answer(&bad_mark), answer(&bad_mark[..9]), answer(&bad_mark[..8])),
                ((21, 0), (21, 0), (23, 0))
            );
        }
    }
    // A curve's mark, version and genus; one of version 2 that ends before its count, has a wrong one, or is cut.
    for (at, byte, wanted) in [(9, b'J', 2), (13, 3, 3), (14, 1, 4), (14, 255, 4), (14, 3, 1)] {
        assert_eq!(answer(&with(&pole_file(7, &c, 0, &[]), at, byte)), (wanted, 0));
    }
    let second = pole_file(7, &witnessed(2, 7, &[1, 0, 0, 0, 0], 3, 2, &[2, 3]), 0, &[]);
    assert_eq!((answer(&with(&second, 9 + 62, 0)), answer(&with(&second, 9 + 62, 16))), ((18, 0), (18, 0)));
    assert_eq!((answer(&with(&second, 9 + 62, 3)), answer(&second[..9 + 62])), ((1, 0), (1, 0)));

    // The writer checks curve and batch as every call does, then the output.
    let mut out = [0x55; 300];
    let mut written = |c: &[u8], batch: &[u8], room: usize| {
        let Answer { number, place, length } = write_pole_file(7, c, batch, &mut out[..room]);
        assert!(number == 0 || length == 0 && out.iter().all(|&byte| byte == 0x55));
        (number, place)
    };
    assert_eq!((written(&c[..53], &off, 0), written(&c, &[&a[..], &off].concat(), 0)), ((1, 0), (11, 2)));
    assert_eq!((written(&c, &a[..16], 0), written(&c, &a, 0), written(&c, &a, 81)), ((8, 1), (13, 0), (13, 0)));
    assert_eq!((written(&c, &[0; 4097], 0), written(&c, &a, 82)), ((14, 0), (0, 0)));
}

/// 4,096 records are taken, and the count is theirs.
#[test]
fn full_pole_files() {
    let c = curve_a();
    let batch = divisor(&[0], &[1]).repeat(4096);
    let file = pole_file(9, &c, 4096, &batch);
    let mut out = vec![0; 200_914];
    assert_eq!(write_pole_file(9, &c, &batch, &mut out), Answer { length: file.len() as u64, ..Answer::default() });
    assert_eq!(out[..file.len()], file[..]);
    assert_eq!(read_file(&file).0, Pole { length: file.len() as u64 - 11, pole: 9, ..Pole::default() });
    assert_eq!(read_file(&pole_file(9, &c, 4097, &[&batch[..], &[0]].concat())).0.number, 23);
    assert_eq!(read_file(&pole_file(9, &c, 4096, &[&batch[..], &[0]].concat())).0.number, 23);
    assert_eq!(read_file(&pole_file(9, &c, 4095, &batch)).0.number, 23);
}

/// All divisors of a curve, as records.
fn every_divisor(c: &[u8], genus: u32, p: u64) -> Vec<Vec<u8>> {
    let mut found = Vec::new();
    for weight in 0..=genus {
        for mut index in 0..p.pow(2 * weight) {
            let mut numbers = Vec::new();
            for _ in 0..2 * weight {
                numbers.push(index % p);
                index /= p;
            }
            let (u, v) = numbers.split_at(weight as usize);
            let record = divisor(u, v);
            if check_divisor(c, &record).number == 0 {
                found.push(record);
            }
        }
    }
    found
}

#[test]
fn small_curves_are_groups() {
    let curves: [(u8, u64, &[u64]); 6] = [
        (2, 3, &[1, 0, 0, 0, 0]),
        (2, 3, &[1, 2, 0, 1, 2]),
        (2, 5, &[2, 1, 0, 0, 3]),
        (3, 3, &[1, 1, 0, 0, 0, 0, 0]),
        (3, 3, &[0, 2, 1, 0, 0, 1, 2]),
        (2, 7, &[1, 0, 0, 0, 0]),
    ];
    for (genus, p, f) in curves {
        let c = curve(genus, p, f);
        assert_eq!(check_curve(&c).number, 0, "{} {} {:?}", genus, p, f);
        let all = every_divisor(&c, u32::from(genus), p);
        let order = all.len() as u64;
        let index: HashMap<&[u8], usize> = all.iter().enumerate().map(|(i, a)| (&a[..], i)).collect();
        let table: Vec<Vec<usize>> =
            all.iter().map(|a| all.iter().map(|b| index[&sum(&c, a, b)[..]]).collect()).collect();
        for (i, a) in all.iter().enumerate() {
            assert_eq!(table[0][i], i);
            assert_eq!(all[table[i][i]], twice(&c, a));
            let mut out = [0; 49];
            let length = opposite(&c, a, &mut out).length as usize;
            assert_eq!(table[i][index[&out[..length]]], 0);
            assert_eq!(times(&c, a, order), neutral());
            assert_eq!(times(&c, a, order + 3), all[table[table[i][i]][i]]);
            for j in 0..all.len() {
                assert_eq!(table[i][j], table[j][i]);
                for k in 0..all.len() {
                    assert_eq!(table[table[i][j]][k], table[i][table[j][k]]);
                }
            }
        }
    }
}

/// A list of primes, 4 bytes each.
fn listed(primes: &[u32]) -> Vec<u8> {
    primes.iter().flat_map(|q| q.to_be_bytes()).collect()
}

fn primes_of(n: u32) -> Vec<u32> {
    (2..=n).filter(|q| n % q == 0 && (2..*q).all(|d| q % d != 0)).collect()
}

/// The order of every divisor of small curves, counted out: it is accepted with its primes, and no other number up to a bound is.
#[test]
fn orders_of_every_divisor() {
    let curves: [(u8, u64, Vec<u8>); 4] = [
        (2, 7, curve_a()),
        (2, 5, curve(2, 5, &[2, 1, 0, 0, 3])),
        (3, 3, curve(3, 3, &[0, 2, 1, 0, 0, 1, 2])),
        (2, 7, witnessed(2, 7, &[1, 0, 0, 0, 0], 3, 2, &[2, 3])),
    ];
    for (genus, p, c) in curves {
        for a in every_divisor(&c, u32::from(genus), p) {
            let (mut total, mut order) = (a.clone(), 1u32);
            while total != neutral() {
                total = sum(&c, &total, &a);
                order += 1;
            }
            for n in 0..3 * order + 2 {
                let wanted = Answer { number: if n == order { 0 } else { 27 }, ..Answer::default() };
                assert_eq!(check_order(&c, &a, &n.to_be_bytes(), &listed(&primes_of(n))), wanted, "{:?} {}", a, n);
            }
        }
    }
}

#[test]
fn orders_refused_in_order() {
    let (c, point, own) = (curve_a(), divisor(&[0], &[1]), divisor(&[1], &[0]));
    let both = sum(&c, &point, &own); // of order 10
    let number = |a: &[u8], n: &[u8], primes: &[u32]| {
        let answer = check_order(&c, a, n, &listed(primes));
        assert_eq!((answer.place, answer.length), (0, 0));
        answer.number
    };
    assert_eq!((number(&point, &[5], &[5]), number(&own, &[2], &[2]), number(&both, &[10], &[2, 5])), (0, 0, 0));
    assert_eq!(number(&both, &[&[0; 31][..], &[10]].concat(), &[2, 5]), 0);
    assert_eq!(number(&both, &[&[0; 32][..], &[10]].concat(), &[2, 5]), 12);
    assert_eq!(check_order(&c, &both, &[0; 33], &[0]).number, 12);
    assert_eq!((number(&neutral(), &[1], &[]), number(&point, &[1], &[]), number(&neutral(), &[5], &[5])), (0, 27, 27));
    for zero in [&[][..], &[0], &[0; 32]] {
        for a in [&point, &neutral()] {
            assert_eq!((number(a, zero, &[]), number(a, zero, &[5])), (27, 27));
        }
    }
    let lists: [&[u32]; 12] = [
        &[],
        &[2],
        &[5],
        &[5, 2],
        &[2, 2, 5],
        &[2, 5, 5],
        &[2, 3, 5],
        &[10],
        &[0, 2, 5],
        &[1, 2, 5],
        &[2, 5, 1 << 31],
        &[2, 5, u32::MAX],
    ];
    for primes in lists {
        assert_eq!(number(&both, &[10], primes), 27, "{:?}", primes);
    }
    for (n, primes) in [(5, &[5][..]), (2, &[2]), (20, &[2, 5]), (30, &[2, 3, 5]), (50, &[2, 5]), (1, &[])] {
        assert_eq!(number(&both, &[n], primes), 27, "{}", n);
    }
    for length in [1, 2, 3, 5, 6, 7, 9] {
        assert_eq!(check_order(&c, &both, &[10], &[&listed(&[2, 5])[..], &[0]].concat()[..length]).number, 27);
    }
    // The curve and the divisor come before all of that.
    assert_eq!(check_order(&c[..53], &[], &[0; 33], &[0]), Answer { number: 1, ..Answer::default() });
    for (wanted, wrong) in
        [(8, vec![]), (9, vec![3]), (8, vec![1]), (10, divisor(&[7], &[2])), (11, divisor(&[0], &[2]))]
    {
        for (n, primes) in [(&[0; 33][..], &[0][..]), (&[], &[]), (&[5], &[0, 0, 0, 5])] {
            assert_eq!(check_order(&c, &wrong, n, primes), Answer { number: wanted, place: 1, length: 0 });
        }
    }
}

/// x^(2g+1) + 1 modulo a p that is -1 modulo 2g + 1: every order divides p + 1, which is made up of 15 primes, or has 2^31 - 1 or 2^31 + 11.
#[test]
fn orders_of_large_divisors() {
    let fifteen = [2, 3, 5, 7, 11, 13, 17, 19, 23, 29, 31, 37, 41, 43, 53];
    let fields: [(u64, u64, &[u64], &[u32]); 3] = [
        (693_386_350_578_511_589, 2, &[2, 43_597, 330_103, 12_045_067], &fifteen),
        (300_647_710_579, 2, &[2, 3, 499, 100_416_737], &[2, 5, 7, 0x7fff_ffff]),
        (1_803_886_273_559, 13, &[2, 309_583, 2_913_413], &[2, 3, 5, 7, 0x8000_000b]),
    ];
    for (genus, (p, base, of_less, primes)) in [2, 3].into_iter().flat_map(|g| fields.map(|field| (g, field))) {
        let f: Vec<u64> = std::iter::once(1).chain(std::iter::repeat(0).take(2 * usize::from(genus))).collect();
        let c = witnessed(genus, p, &f, base, of_less.len() as u8, of_less);
        // Two points that are no multiples of (x, 1).
        let points: Vec<Vec<u8>> = (2..).filter_map(|x| point_over(&c, genus, p, x)).take(2).collect();
        let a = sum(&c, &points[0], &points[1]);
        let mut order = p + 1;
        for &q in primes {
            while order % u64::from(q) == 0 && times(&c, &a, order / u64::from(q)) == neutral() {
                order /= u64::from(q);
            }
        }
        let its: Vec<u32> = primes.iter().copied().filter(|&q| order % u64::from(q) == 0).collect();
        let number = |n: u64, primes: &[u32]| check_order(&c, &a, &n.to_be_bytes(), &listed(primes)).number;
        let last = *its.last().unwrap();
        assert_eq!(number(order, &its), if last < 1 << 31 { 0 } else { 27 }, "{} {}", p, order);
        assert!(order > 1 << 31 && last > 40);
        assert_eq!(
            (number(order, &its[..its.len() - 1]), number(order / u64::from(last), &its[..its.len() - 1])),
            (27, 27)
        );
        assert_eq!((number(2 * order, &its), number(order + 1, &its)), (27, 27));
    }
}

/// A point over x, where there is one and a power finds its y: p is 3 modulo 4, or 5 modulo 8 and luck has it.
fn point_over(c: &[u8], genus: u8, p: u64, x: u64) -> Option<Vec<u8>> {
    let mul = |a: u64, b: u64| (u128::from(a) * u128::from(b) % u128::from(p)) as u64;
    let pow = |a: u64, n: u64| (0..64).rev().fold(1, |r, i| mul(mul(r, r), if n >> i & 1 == 1 { a } else { 1 }));
    let root = if p % 4 == 3 { (p + 1) / 4 } else { (p + 3) / 8 };
    let y = pow((pow(x, 2 * u64::from(genus) + 1) + 1) % p, root);
    Some(divisor(&[p - x], &[y])).filter(|record| check_divisor(c, record).number == 0)
}

/// What a split answers, with an output that suffices: its two records, or nothing for 26.
fn parts(c: &[u8], a: &[u8]) -> Option<(Vec<u8>, Vec<u8>)> {
    let mut out = [0x55; 60];
    let answer = split(c, a, &mut out);
    let length = answer.length as usize;
    assert!(out[length..].iter().all(|&byte| byte == 0x55));
    if answer.number == 26 {
        assert_eq!(answer, Answer { number: 26, ..Answer::default() });
        return None;
    }
    assert_eq!((answer.number, answer.place, length), (0, 0, 2 + 16 * usize::from(a[0])));
    assert_eq!(split(c, a, &mut out[..length - 1]).number, 13);
    Some((out[..17].to_vec(), out[17..length].to_vec()))
}

/// The numbers of a record: u_0 to u_(w-1), then v_0 to v_(w-1).
fn numbers(record: &[u8]) -> Vec<u64> {
    record[1..].chunks_exact(8).map(|chunk| u64::from_be_bytes(chunk.try_into().unwrap())).collect()
}

/// Every divisor of small curves: the first part is at the root that the ticket names, found by trying all numbers; both parts are divisors and
/// their sum is the one that was split.
#[test]
fn splits_of_every_divisor() {
    let curves: [(u8, u64, Vec<u8>); 8] = [
        (2, 3, curve(2, 3, &[1, 2, 0, 1, 2])),
        (2, 5, curve(2, 5, &[2, 1, 0, 0, 3])),
        (2, 7, curve_a()),
        (2, 7, witnessed(2, 7, &[1, 0, 0, 0, 0], 3, 2, &[2, 3])),
        (2, 11, curve(2, 11, &[4, 0, 0, 7, 1])),
        (2, 13, curve(2, 13, &[3, 1, 0, 0, 0])),
        (3, 3, curve(3, 3, &[0, 2, 1, 0, 0, 1, 2])),
        (3, 5, curve(3, 5, &[1, 3, 0, 2, 0, 0, 4])),
    ];
    let mut shapes = HashMap::new();
    for (genus, p, c) in curves {
        for a in every_divisor(&c, u32::from(genus), p) {
            let (weight, all) = (usize::from(a[0]), numbers(&a));
            let value = |x: u64| all[..weight].iter().rev().fold(1, |sum, c| (sum * x + c) % p);
            let roots: Vec<u64> = (0..p).filter(|&x| value(x) == 0).collect();
            *shapes.entry((weight, roots.len())).or_insert(0) += 1;
            let root = match weight {
                2 => roots.iter().min_by_key(|&r| (p - r) % p),
                3 => roots.iter().max(),
                _ => None,
            };
            let y = |x: u64| all[weight..].iter().rev().fold(0, |sum, c| (sum * x + c) % p);
            let wanted = root.map(|&r| divisor(&[(p - r) % p], &[y(r)]));
            let found = parts(&c, &a);
            assert_eq!(found.as_ref().map(|(point, _)| point), wanted.as_ref(), "{} {:?}", p, all);
            if let Some((point, rest)) = found {
                assert_eq!(usize::from(rest[0]), weight - 1);
                assert_eq!(sum(&c, &point, &rest), a);
                // The smaller u_0 first; equal ones at a double root.
                assert!(weight != 2 || numbers(&point)[0] <= numbers(&rest)[0]);
                assert_eq!(weight == 2 && point == rest, weight == 2 && roots.len() == 1);
            }
        }
    }
    // Every number of roots with every weight.
    for (weight, roots) in [(0, 0), (1, 1), (2, 0), (2, 1), (2, 2), (3, 0), (3, 1), (3, 2), (3, 3)] {
        assert!(shapes[&(weight, roots)] > 2, "{} {}", weight, roots);
    }
}

#[test]
fn splits_refused_in_order() {
    let (c, point) = (curve_a(), divisor(&[0], &[1]));
    let number = |a: &[u8], room: usize| {
        let mut out = vec![0x55; room];
        let answer = split(&c, a, &mut out);
        assert_eq!(answer.length, if answer.number == 0 { 34 } else { 0 });
        assert!(answer.number == 0 || out.iter().all(|&byte| byte == 0x55));
        (answer.number, answer.place)
    };
    // (x² + 6x, 2x + 1) is (x, 1) and (x + 6, 3).
    let both = divisor(&[0, 6], &[1, 2]);
    assert_eq!(parts(&c, &both), Some((point.clone(), divisor(&[6], &[3]))));
    for room in 0..60 {
        assert_eq!(number(&both, room), if room < 34 { (13, 0) } else { (0, 0) });
    }
    // x² + 1 has no root modulo 7.
    let rootless: Vec<Vec<u8>> =
        every_divisor(&c, 2, 7).into_iter().filter(|a| a[0] == 2 && numbers(a)[..2] == [1, 0]).collect();
    assert!(!rootless.is_empty());
    for a in rootless.iter().chain([&neutral(), &point]) {
        assert_eq!((number(a, 0), number(a, 60)), ((26, 0), (26, 0)));
    }
    for (wanted, wrong) in
        [(8, vec![]), (9, vec![3]), (8, vec![2]), (10, divisor(&[7], &[2])), (11, divisor(&[0], &[2]))]
    {
        assert_eq!((number(&wrong, 0), number(&wrong, 60)), ((wanted, 1), (wanted, 1)));
    }
    assert_eq!(split(&c[..53], &[], &mut []), Answer { number: 1, ..Answer::default() });
}

/// Sums of points of the largest fields of both versions: of different, of two equal and of three equal ones.
#[test]
fn splits_of_large_divisors() {
    for (genus, p) in [(2, 0x7fff_ffff), (3, 0x7fff_ffff), (2, P61), (3, P61)] {
        let f: Vec<u64> = std::iter::once(1).chain(std::iter::repeat(0).take(2 * usize::from(genus))).collect();
        let c = if p == P61 { largest(genus, &f) } else { curve(genus, p, &f) };
        let points: Vec<Vec<u8>> = (1..).filter_map(|x| point_over(&c, genus, p, x)).take(3).collect();
        let [a, b, e] = [&points[0], &points[1], &points[2]];
        // The larger x has the smaller u_0, and (x, 1) the smallest of all.
        let zero = divisor(&[0], &[1]);
        for (first, second) in [(b, a), (e, a), (&zero, a), (a, a), (e, e), (&zero, &zero)] {
            assert_eq!(parts(&c, &sum(&c, first, second)), Some((first.clone(), second.clone())), "{} {}", genus, p);
        }
        if genus == 3 {
            for [first, second, third] in [[e, a, b], [e, a, a], [e, e, a], [a, &zero, &zero], [a, a, a]] {
                let rest = sum(&c, second, third);
                assert_eq!(parts(&c, &sum(&c, first, &rest)), Some((first.clone(), rest)), "{}", p);
            }
        }
    }
}

/// From the neutral divisor on, as long as there is a next one.
fn walked(c: &[u8]) -> Vec<Vec<u8>> {
    let mut found = vec![neutral()];
    loop {
        let mut out = [0x55; 49];
        let answer = next_divisor(c, &found[found.len() - 1], &mut out);
        assert!(out[answer.length as usize..].iter().all(|&byte| byte == 0x55));
        if answer.number == 24 {
            assert_eq!(answer, Answer { number: 24, ..Answer::default() });
            return found;
        }
        assert_eq!((answer.number, answer.place), (0, 0));
        found.push(out[..answer.length as usize].to_vec());
    }
}

/// The walk meets just the divisors that a search through all records finds, in the order of their bytes.
#[test]
fn censuses_of_small_curves() {
    let mut curves = vec![
        (2, 7, curve_a()),
        (2, 7, witnessed(2, 7, &[1, 0, 0, 0, 0], 3, 2, &[2, 3])),
        (3, 3, curve(3, 3, &[0, 2, 1, 0, 0, 1, 2])),
        (3, 5, curve(3, 5, &[1, 3, 0, 2, 0, 0, 4])),
        (3, 7, curve(3, 7, &[1, 6, 0, 0, 0, 0, 1])),
    ];
    for (p, seed) in [3, 5, 7, 11, 13].into_iter().flat_map(|p| (0..6).map(move |seed| (p, seed))) {
        let f: Vec<u64> = (0..5).map(|i| (seed * seed + 3 * seed * i + i * i * i + 2) % p).collect();
        curves.extend(Some((2, p, curve(2, p, &f))).filter(|(_, _, c)| check_curve(c).number == 0));
    }
    assert!(curves.len() > 20, "{}", curves.len());
    for (genus, p, c) in curves {
        let mut all = every_divisor(&c, genus, p);
        all.sort();
        assert_eq!(walked(&c), all);
    }
}

/// How many divisors a curve of genus 2 has goes by its points over the fields of p and of p² elements, n and m with the one at infinity:
/// (n² + m) / 2 - p.
#[test]
fn the_tally_goes_by_points() {
    for p in [3, 7, 11] {
        // i² = -1, since p is 3 modulo 4.
        let mul = |(a, b): (u64, u64), (c, d): (u64, u64)| ((a * c + (p - 1) * b % p * d) % p, (a * d + b * c) % p);
        let field: Vec<(u64, u64)> = (0..p * p).map(|k| (k / p, k % p)).collect();
        for f_1 in 0..p {
            let c = curve(2, p, &[1, f_1, 0, 0, 0]);
            if check_curve(&c).number != 0 {
                continue;
            }
            let f = |x: (u64, u64)| {
                let fifth = mul(mul(mul(x, x), mul(x, x)), x);
                ((fifth.0 + f_1 * x.0 + 1) % p, (fifth.1 + f_1 * x.1) % p)
            };
            let points = |of: &dyn Fn(&(u64, u64)) -> bool| {
                let field: Vec<(u64, u64)> = field.iter().copied().filter(|x| of(x)).collect();
                let over = |&x: &(u64, u64)| field.iter().filter(|&&y| mul(y, y) == f(x)).count() as u64;
                1 + field.iter().map(over).sum::<u64>()
            };
            let (n, m) = (points(&|x| x.1 == 0), points(&|_| true));
            assert_eq!(walked(&c).len() as u64, (n * n + m) / 2 - p, "{} {}", p, f_1);
        }
    }
}

/// Known tallies, the largest p in genus 3 among them.
#[test]
fn tallies() {
    assert_eq!(walked(&curve_a()).len(), 50);
    assert_eq!(walked(&curve_b()).len(), 1288);
    assert_eq!(walked(&curve(3, 13, &[2, 1, 0, 0, 0, 0, 0])).len(), 1358);
}

#[test]
fn censuses_refused_in_order() {
    let (c, larger) = (curve_a(), curve(2, 17, &[1, 0, 0, 0, 0]));
    let last = walked(&c).pop().unwrap();
    let number = |c: &[u8], a: &[u8], room: usize| {
        let mut out = vec![0x55; room];
        let Answer { number, place, length } = next_divisor(c, a, &mut out);
        assert!(out[length as usize..].iter().all(|&byte| byte == 0x55));
        (number, place)
    };
    assert_eq!((number(&c, &neutral(), 17), number(&c, &neutral(), 16)), ((0, 0), (13, 0)));
    assert_eq!((number(&c, &last, 49), number(&c, &last, 0)), ((24, 0), (24, 0)));
    let wrong = [(8, vec![]), (9, vec![3]), (8, vec![2]), (10, divisor(&[7], &[2])), (11, divisor(&[0], &[2]))];
    for (wanted, wrong) in wrong {
        assert_eq!((number(&c, &wrong, 0), number(&c, &wrong, 49)), ((wanted, 1), (wanted, 1)));
        assert_eq!((number(&larger, &wrong, 0), number(&larger, &wrong, 49)), ((25, 0), (25, 0)));
        assert_eq!(number(&c[..53], &wrong, 0), (1, 0));
    }
    for larger in [larger, curve_with_p(0x7fff_ffff), largest(2, &[1, 0, 0, 0, 0]), largest(3, &[1, 0, 0, 0, 0, 0, 0])]
    {
        assert_eq!((number(&larger, &neutral(), 49), number(&larger, &neutral(), 0)), ((25, 0), (25, 0)));
    }
    // A curve's own faults come first, p's among them.
    assert_eq!((number(&curve_with_p(15), &[], 0), number(&curve(2, 17, &[17, 0, 0, 0, 0]), &[], 0)), ((5, 0), (6, 0)));
    assert_eq!(number(&curve(2, 17, &[0; 5]), &[], 0), (7, 0));
}

fn curve_with_p(p: u64) -> Vec<u8> {
    curve(2, p, &[1, 0, 0, 0, 0])
}

/// In genus 3, composed degree 6 that takes two reductions, on the largest field of each version: (m + n)-fold is m-fold plus n-fold.
#[test]
fn multiples_add_up_on_the_largest_field() {
    for (genus, p) in [(2u8, 2_147_483_647), (3, 2_147_483_647), (2, P61), (3, P61)] {
        let mut f = vec![0; 2 * usize::from(genus) + 1];
        f[0] = 4;
        f[1] = p - 1;
        f[2 * usize::from(genus)] = 17;
        let c = if p == P61 { largest(genus, &f) } else { curve(genus, p, &f) };
        let point = divisor(&[0], &[2]);
        let mut last = neutral();
        for n in 0..200 {
            assert_eq!(times(&c, &point, n), last);
            assert_eq!(sum(&c, &times(&c, &point, 1000 * n), &last), times(&c, &point, 1001 * n));
            last = sum(&c, &last, &point);
        }
        assert_eq!(usize::from(last[0]), usize::from(genus));
    }
}
