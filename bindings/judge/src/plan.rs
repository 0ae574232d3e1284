//! What is put to the engines.

use crate::census;
use crate::engine::Call;
use crate::inputs::{curve_record, divisor_record, numbers_of, simple, Class, Rng, Sample, Witness};
use crate::judge::Judge;
use crate::orders::{self, Shown};
use crate::poles::{self, any_pole, scan_of};
use crate::splits;
use plain::Running;

/// 2^61 - 1 and the last two are version 2's own; p - 1 has 56 twos in the first of the two and 15 primes in the second.
pub const PRIMES: [u64; 9] =
    [3, (1 << 61) - 1, 5, 7, 11, 65_537, 2_147_483_647, 27 * (1 << 56) + 1, 693_386_350_578_511_591];

const MOST: usize = 4096;
const ROOM: usize = 49;
const CURVE_ROOM: usize = 199;
const SPLIT_ROOM: usize = 50;

/// Numbers that a curve can't have for p: out of range, even, or with factors.
const NO_PRIMES: [u64; 14] =
    [0, 1, 2, 4, 9, 15, 25, 561, 46_337 * 46_337, 2_147_483_645, 2_147_483_648, 2_147_483_659, 1 << 32, u64::MAX];

/// Even or out of range, also in version 2.
const OUT_OF_RANGE: [u64; 10] =
    [0, 1, 2, 4, 2_147_483_648, (1 << 61) - 2, 1 << 61, (1 << 61) + 1, (1 << 61) + 15, u64::MAX];

/// Runs rounds over both genera and all primes until `count` calls are made.
pub fn run(judge: &mut Judge, count: u64) {
    for round in 0.. {
        if judge.tally.calls >= count {
            break;
        }
        let genus = 2 + round % 2;
        let p = PRIMES[round / 2 % PRIMES.len()];
        for _ in 0..4 {
            let sample = Sample::new(&mut judge.rng, genus, p);
            sums(judge, &sample);
        }
        let sample = Sample::new(&mut judge.rng, genus, p);
        let pole = any_pole(&mut judge.rng);
        judge.put(Call::FreshTotal { pole }, 0);
        multiples(judge, &sample);
        orders::of_sample(judge, &sample);
        orders::of_known(judge, genus, p);
        splits::of_sample(judge, &sample);
        splits::of_shapes(judge, genus, p);
        splits::output_lengths(judge, &sample);
        census::of_round(judge, genus, round / 2);
        census::of_sample(judge, &sample);
        poles::of_sample(judge, &sample);
        small_batches(judge, &sample);
        large_batches(judge, &sample);
        output_lengths(judge, &sample);
        record_lengths(judge, &sample);
        flipped_bits(judge, &sample);
        curve_faults(judge, &sample);
        witnesses(judge, genus);
        neighbouring_faults(judge, &sample);
        mixed_faults(judge, &sample);
        running_totals(judge, &sample);
    }
}

/// Pairs from the pool: sums, doubles, opposites, rewrites.
fn sums(judge: &mut Judge, sample: &Sample) {
    let curve = &sample.curve;
    for _ in 0..175 {
        let a = sample.any(&mut judge.rng);
        let b = match judge.rng.below(10) {
            0 => a.to_vec(),
            1 => sample.opposite(a),
            _ => sample.any(&mut judge.rng).to_vec(),
        };
        judge.count_pair(sample.genus, sample.p, sample.f_2g_is_set(), sample.pair(a, &b));
        judge.put(Call::Add { curve, a, b: &b }, ROOM);
        judge.put(Call::Double { curve, a }, ROOM);
        judge.put(Call::Opposite { curve, a: &b }, ROOM);
        judge.put(Call::Add { curve, a: &sample.sum(a, &b), b: &b }, ROOM);
    }
    for divisor in &sample.pool {
        judge.put(Call::CheckDivisor { curve, divisor }, 0);
        judge.put(Call::RewriteDivisor { curve, divisor }, ROOM);
    }
    judge.put(Call::CheckCurve { curve }, 0);
    judge.put(Call::RewriteCurve { curve }, CURVE_ROOM);
}

/// Where most pairs of some kind or other are special.
const SMALL_PRIMES: [u64; 5] = [3, 5, 7, 11, 13];

/// Sums and doubles at small primes, of both genera, with f_2g = 0 and not, until `count` are made; half of them are of the main
/// case of a formula, half are special. A third are doubles.
pub fn sums_by_class(judge: &mut Judge, count: u64) {
    for round in 0.. {
        if judge.tally.calls >= count {
            break;
        }
        let (genus, set) = (2 + round % 2, round / 2 % 2 == 1);
        let p = SMALL_PRIMES[round / 4 % SMALL_PRIMES.len()];
        let sample = Sample::with_f_2g(&mut judge.rng, genus, p, set);
        for n in 0..60 {
            let (a, b, class) = pair_by_class(&mut judge.rng, &sample, n % 2 == 1, n % 3 == 0);
            let curve = &sample.curve;
            let call = b.as_ref().map_or(Call::Double { curve, a: &a }, |b| Call::Add { curve, a: &a, b });
            judge.put(call, ROOM);
            *judge.tally.classes.entry((genus, set, b.is_none(), class)).or_default() += 1;
        }
    }
}

/// Two records, or one to be doubled: special or not as asked, where the curve has such.
fn pair_by_class(rng: &mut Rng, sample: &Sample, special: bool, double: bool) -> (Vec<u8>, Option<Vec<u8>>, Class) {
    for tries in 0.. {
        let mut a = sample.any(rng).to_vec();
        let mut b = sample.any(rng).to_vec();
        match rng.below(6) {
            // What both have in common.
            0 | 1 => {
                let c = sample.any(rng);
                let turned = sample.opposite(c);
                a = sample.sum(&a, c);
                b = sample.sum(&b, if rng.one_in(2) { c } else { &turned });
            }
            2 if special => b = a.clone(),
            3 if special => b = sample.opposite(&a),
            _ => {}
        }
        let b = if double { None } else { Some(b) };
        let class = sample.class(&a, b.as_deref());
        // Small weights are so frequent that they are left out mostly.
        let wanted = if special { class != Class::Main } else { class == Class::Main };
        if tries == 200 || wanted && (class != Class::Light || rng.one_in(8)) {
            return (a, b, class);
        }
    }
    unreachable!("the tries end")
}

/// A scalar: random of any length, or one with few bits, many bits or leading zeros.
fn scalar(rng: &mut Rng) -> Vec<u8> {
    let length = rng.below(33) as usize;
    let mut bytes = rng.bytes(length);
    match rng.below(8) {
        0 => bytes.fill(0),
        1 => bytes.fill(0xff),
        2 | 3 => {
            let zeros = rng.below(length as u64 + 1) as usize;
            bytes[..zeros].fill(0);
        }
        4 if length > 0 => {
            bytes.fill(0);
            bytes[rng.below(length as u64) as usize] = 1 << rng.below(8);
        }
        _ => {}
    }
    bytes
}

fn multiples(judge: &mut Judge, sample: &Sample) {
    let curve = &sample.curve;
    for n in 0..=16 {
        let a = sample.any(&mut judge.rng);
        judge.put(Call::Multiply { curve, a, scalar: &[n] }, ROOM);
    }
    for length in 0..=36 {
        let a = sample.any(&mut judge.rng);
        let scalar = judge.rng.bytes(length);
        judge.put(Call::Multiply { curve, a, scalar: &scalar }, ROOM);
    }
    for _ in 0..60 {
        let (a, scalar) = (sample.any(&mut judge.rng), scalar(&mut judge.rng));
        judge.put(Call::Multiply { curve, a, scalar: &scalar }, ROOM);
    }
}

/// Batches of up to 40 records: whole, cut, faulty; their totals, their repeats, and the same records scanned one by one for several poles.
fn small_batches(judge: &mut Judge, sample: &Sample) {
    let curve = &sample.curve;
    for _ in 0..20 {
        let size = judge.rng.below(41) as usize;
        let mut records: Vec<Vec<u8>> = (0..size).map(|_| sample.any(&mut judge.rng).to_vec()).collect();
        poles::mixed_scans(judge, curve, &records);
        put_batch(judge, curve, &records.concat(), ROOM);
        put_repeats(judge, sample, &records);
        if size > 0 {
            let whole = records.concat();
            let cut = judge.rng.below(whole.len() as u64) as usize;
            put_batch(judge, curve, &whole[..cut], ROOM);
            let at = judge.rng.below(size as u64) as usize;
            let faults = some_faults(&mut judge.rng, DIVISOR_FAULTS);
            records[at] = faulty_divisor(&mut judge.rng, sample, faults);
            let room = judge.rng.below(ROOM as u64 + 1) as usize;
            put_batch(judge, curve, &records.concat(), room);
        }
    }
}

/// The records with one of them again, one with its sign turned, or both, at drawn places.
fn put_repeats(judge: &mut Judge, sample: &Sample, records: &[Vec<u8>]) {
    if records.is_empty() {
        return;
    }
    for kind in 1..4 {
        // Few records, so that what is put in is often the first repeat.
        let kept = 1 + judge.rng.below(records.len().min(5) as u64) as usize;
        let mut batch = records[..kept].to_vec();
        for turned in [1, 2] {
            if kind & turned != 0 {
                let one = batch[judge.rng.below(batch.len() as u64) as usize].clone();
                let at = judge.rng.below(batch.len() as u64 + 1) as usize;
                batch.insert(at, if turned == 2 { sample.opposite(&one) } else { one });
            }
        }
        judge.put(Call::FirstRepeat { curve: &sample.curve, batch: &batch.concat() }, 0);
    }
}

fn put_batch(judge: &mut Judge, curve: &[u8], batch: &[u8], room: usize) {
    judge.put(Call::TotalBatch { curve, batch }, room);
    judge.put(Call::FirstRepeat { curve, batch }, 0);
}

/// Batches at the limit: 0, 1, 4,095, 4,096 and 4,097 records, a byte too many, a fault at the end, repeats far apart.
fn large_batches(judge: &mut Judge, sample: &Sample) {
    let curve = &sample.curve;
    // A walk on a large field doesn't come back; on a small one it repeats soon.
    let (step, mut at) = (sample.any(&mut judge.rng).to_vec(), sample.any(&mut judge.rng).to_vec());
    let mut walk = Vec::with_capacity(MOST + 1);
    for _ in 0..=MOST {
        at = sample.sum(&at, &step);
        walk.push(at.clone());
    }
    for size in [0, 1, MOST - 1, MOST, MOST + 1] {
        put_batch(judge, curve, &walk[..size].concat(), ROOM);
    }
    poles::full_files(judge, sample, &walk);
    let mut full = walk[..MOST].concat();
    judge.put(Call::TotalBatch { curve, batch: &full }, 0);
    for last in [0, 1, 9, 255] {
        full.push(last);
        let room = judge.rng.below(2) as usize * ROOM;
        judge.put(Call::TotalBatch { curve, batch: &full }, room);
        full.pop();
    }
    judge.put(Call::FirstRepeat { curve, batch: &[&full[..], &[0]].concat() }, 0);
    // Neutral records only, and records of every weight.
    for size in [MOST - 1, MOST, MOST + 1] {
        put_batch(judge, curve, &vec![0; size], ROOM);
    }
    let mixed: Vec<Vec<u8>> = (0..MOST).map(|_| sample.any(&mut judge.rng).to_vec()).collect();
    judge.put(Call::TotalBatch { curve, batch: &mixed.concat() }, ROOM);
    // A fault at the last place, with and without a record too many.
    for size in [MOST, MOST + 1] {
        let faults = 1 << judge.rng.below(DIVISOR_FAULTS as u64);
        let mut records = walk[..size].to_vec();
        records[MOST - 1] = faulty_divisor(&mut judge.rng, sample, faults);
        judge.put(Call::TotalBatch { curve, batch: &records.concat() }, ROOM);
    }
    // One repeat, anywhere, as it was or with its sign turned.
    for n in 0..4 {
        let second = 1 + judge.rng.below(MOST as u64 - 1) as usize;
        let first = judge.rng.below(second as u64) as usize;
        let mut records = walk[..MOST].to_vec();
        records[second] = if n < 2 { records[first].clone() } else { sample.opposite(&records[first]) };
        judge.put(Call::FirstRepeat { curve, batch: &records.concat() }, 0);
    }
}

/// Every call that writes, with outputs from 0 to 80 bytes; the rewritten curve to 204.
fn output_lengths(judge: &mut Judge, sample: &Sample) {
    let curve = &sample.curve;
    for room in 81..=CURVE_ROOM + 5 {
        judge.put(Call::RewriteCurve { curve }, room);
    }
    for room in 0..=80 {
        let (a, b) = (sample.any(&mut judge.rng), sample.any(&mut judge.rng));
        let scalar = scalar(&mut judge.rng);
        judge.put(Call::RewriteCurve { curve }, room);
        judge.put(Call::RewriteDivisor { curve, divisor: a }, room);
        judge.put(Call::Add { curve, a, b }, room);
        judge.put(Call::Double { curve, a }, room);
        judge.put(Call::Opposite { curve, a }, room);
        judge.put(Call::Multiply { curve, a, scalar: &scalar }, room);
        judge.put(Call::TotalBatch { curve, batch: &[a, b].concat() }, room);
    }
}

/// Records of every length from 0 to 80 bytes: good ones cut or extended, and noise behind a good head; curves to 204.
fn record_lengths(judge: &mut Judge, sample: &Sample) {
    for length in 81..=CURVE_ROOM + 5 {
        let noise = judge.rng.bytes(length);
        let curve: Vec<u8> = sample.curve.iter().chain(&noise).take(length).cloned().collect();
        judge.put(Call::CheckCurve { curve: &curve }, 0);
        judge.put(Call::RewriteCurve { curve: &curve }, CURVE_ROOM);
    }
    for length in 0..=80 {
        let noise = judge.rng.bytes(80);
        let fitted = |good: &[u8]| -> Vec<u8> { good.iter().chain(&noise).take(length).cloned().collect() };
        let curve = fitted(&sample.curve);
        judge.put(Call::CheckCurve { curve: &curve }, 0);
        judge.put(Call::RewriteCurve { curve: &curve }, CURVE_ROOM);
        judge.put(Call::CheckCurve { curve: &noise[..length] }, 0);
        let head = fitted(&sample.curve[..6]);
        judge.put(Call::CheckCurve { curve: &head }, 0);

        let curve = &sample.curve;
        let good = sample.any(&mut judge.rng);
        let divisor = fitted(good);
        judge.put(Call::CheckDivisor { curve, divisor: &divisor }, 0);
        judge.put(Call::Add { curve, a: good, b: &divisor }, ROOM);
        splits::put(judge, curve, &divisor, SPLIT_ROOM);
        judge.put(Call::TotalBatch { curve, batch: &divisor }, ROOM);
        judge.put(Call::Scan { total: Running::default(), curve, scan: &scan_of(0, &divisor) }, 0);
        judge.put(Call::Scan { total: Running::default(), curve, scan: &noise[..length] }, 0);
        judge.put(Call::CheckDivisor { curve, divisor: &noise[..length] }, 0);
        let weight = [judge.rng.below(4) as u8];
        judge.put(Call::CheckDivisor { curve, divisor: &fitted(&weight) }, 0);
    }
}

/// One bit of a record flipped.
fn flipped_bits(judge: &mut Judge, sample: &Sample) {
    let good = &sample.curve;
    for _ in 0..60 {
        let (a, b) = (sample.any(&mut judge.rng), sample.any(&mut judge.rng));
        let curve = judge.rng.flip(good);
        judge.put(Call::CheckCurve { curve: &curve }, 0);
        // Under a changed curve the divisors are mostly off it.
        judge.put(Call::Add { curve: &curve, a, b }, ROOM);
        let a = judge.rng.flip(a);
        judge.put(Call::CheckDivisor { curve: good, divisor: &a }, 0);
        judge.put(Call::Add { curve: good, a: b, b: &a }, ROOM);
        judge.put(Call::Double { curve: good, a: &a }, ROOM);
        splits::put(judge, &curve, b, SPLIT_ROOM);
    }
}

/// Faults of a curve record in the order they are looked for. Version 1 doesn't have the three that are version 2's own.
const CURVE_FAULTS: u32 = 11;
const SHORT: u32 = 0;
const MARK: u32 = 1;
const VERSION: u32 = 2;
const GENUS: u32 = 3;
const NO_COUNT: u32 = 4; // version 2: ends before k
const COUNT: u32 = 5; // version 2: k isn't 1 to 15
const LENGTH: u32 = 6;
const PRIME: u32 = 7;
const WITNESS: u32 = 8; // version 2
const COEFFICIENT: u32 = 9;
const REPEATED: u32 = 10;

/// Which of them a curve's record can have.
fn curve_fault_kinds(sample: &Sample) -> Vec<u32> {
    let own = [NO_COUNT, COUNT, WITNESS];
    (0..CURVE_FAULTS).filter(|fault| sample.witness.is_some() || !own.contains(fault)).collect()
}

/// The curve with the faults of a mask, bit 0 the first that a call looks for.
fn faulty_curve(rng: &mut Rng, sample: &Sample, faults: u32) -> Vec<u8> {
    let has = |fault: u32| faults >> fault & 1 == 1;
    let (mut p, mut f, mut witness) = (sample.p, sample.f.clone(), sample.witness.clone());
    if has(REPEATED) {
        f = if rng.one_in(3) { vec![0; f.len()] } else { sample.with_double_root(rng) };
    }
    if has(COEFFICIENT) {
        let at = rng.below(f.len() as u64) as usize;
        f[at] = *rng.pick(&[p, p + 1, 1 << 31, 1 << 32, u64::MAX]);
    }
    if let (Some(witness), true) = (&mut witness, has(WITNESS)) {
        p = faulty_witness(rng, p, witness);
    }
    if has(PRIME) {
        p = if witness.is_some() { *rng.pick(&OUT_OF_RANGE) } else { *rng.pick(&NO_PRIMES) };
    }
    let mut curve = curve_record(sample.genus as u8, p, &f, witness.as_ref());
    let count_at = 14 + 8 * f.len() + 8;
    if has(LENGTH) {
        let least = if witness.is_some() { count_at + 1 } else { 6 };
        match rng.below(4) {
            0 => curve.push(0),
            1 => curve.extend_from_slice(&[0; 16]),
            2 => curve.truncate(curve.len() - 1),
            _ => curve.truncate(least + rng.below((curve.len() - least) as u64) as usize),
        }
    }
    if let (Some(_), true) = (&witness, has(COUNT)) {
        curve[count_at] = *rng.pick(&[0, 16, 17, 128, 255]);
    }
    if let (Some(_), true) = (&witness, has(NO_COUNT)) {
        curve.truncate(6 + rng.below(count_at as u64 - 5) as usize);
    }
    if has(GENUS) {
        curve[5] = *rng.pick(&[0, 1, 4, 5, 130, 255]);
    }
    if has(VERSION) {
        let version = *rng.pick(&[[0, 0], [0, 3], [1, 0], [1, 1], [1, 2], [255, 255]]);
        curve[3..5].copy_from_slice(&version);
    }
    if has(MARK) {
        curve[rng.below(3) as usize] ^= 1 << rng.below(8);
    }
    if has(SHORT) {
        curve.truncate(rng.below(6) as usize);
    }
    curve
}

/// Makes a witness of p wrong, mostly by one fault alone, or puts a composite number in the place of p: answers p.
fn faulty_witness(rng: &mut Rng, p: u64, witness: &mut Witness) -> u64 {
    let Witness { base, primes } = witness;
    let at = rng.below(primes.len() as u64) as usize;
    match rng.below(9) {
        0 => *base = *rng.pick(&[0, 1, p - 1, p, p + *base, u64::MAX]),
        // Its order is less by a prime.
        1 => *base = simple::pow(*base, primes[at], p),
        2 if primes.len() > 1 => {
            primes.remove(at);
        }
        3 if primes.len() > 1 => primes.rotate_left(1),
        4 if primes.len() < 15 => primes.insert(at, primes[at]),
        // Twice the number, or its square, or its product with the next: no prime, though it may divide p - 1.
        5 => primes[at] *= *rng.pick(&[2, primes[at], primes[(at + 1) % primes.len()]]),
        6 if primes.len() < 15 => primes.push(*rng.pick(&[1_009, 65_539, 2_147_483_659, 1 << 31, p, u64::MAX])),
        7 if primes.len() < 15 => primes.insert(0, *rng.pick(&[0, 1])),
        _ => {
            let &(n, a, ref listed) = rng.pick(&LIARS);
            *base = a;
            *primes = listed.to_vec();
            return n;
        }
    }
    p
}

/// Composite numbers with a base that Fermat's test lets through, and the primes of one less.
const LIARS: [(u64, u64, [u64; 3]); 5] =
    [(341, 2, [2, 5, 17]), (561, 2, [2, 5, 7]), (1_105, 2, [2, 3, 23]), (91, 3, [2, 3, 5]), (2_465, 2, [2, 7, 11])];

/// Faults of a divisor record in the order they are looked for.
const DIVISOR_FAULTS: u32 = 5;

/// A divisor with the faults of a mask, bit 0 the first that a call looks for: empty, weight, length, coefficient, not on
/// the curve.
fn faulty_divisor(rng: &mut Rng, sample: &Sample, faults: u32) -> Vec<u8> {
    let has = |fault: u32| faults >> fault & 1 == 1;
    let mut divisor = sample.any(rng).to_vec();
    if has(4) || has(3) {
        // These need a coefficient.
        divisor = sample.pool.iter().rev().find(|record| record.len() > 1).unwrap_or(&divisor).clone();
    }
    if has(4) && divisor.len() > 1 {
        let (u, mut v) = numbers_of(&divisor);
        v[0] = (v[0] + 1) % sample.p;
        divisor = divisor_record(&u, &v);
    }
    if has(3) && divisor.len() > 1 {
        let at = 1 + 8 * rng.below((divisor.len() as u64 - 1) / 8) as usize;
        let large = *rng.pick(&[sample.p, sample.p + 1, 1 << 31, 1 << 32, u64::MAX]);
        divisor[at..at + 8].copy_from_slice(&large.to_be_bytes());
    }
    if has(2) {
        if rng.one_in(2) || divisor.len() == 1 {
            divisor.push(0);
        } else {
            divisor.truncate(1 + rng.below(divisor.len() as u64 - 1) as usize);
        }
    }
    if has(1) {
        divisor[0] = *rng.pick(&[sample.genus as u8 + 1, 4, 16, 255]);
    }
    if has(0) {
        divisor.clear();
    }
    divisor
}

/// No fault, one, two neighbours, or any.
fn some_faults(rng: &mut Rng, kinds: u32) -> u32 {
    match rng.below(10) {
        0..=2 => 0,
        3..=6 => 1 << rng.below(kinds as u64),
        7 | 8 => 3 << rng.below(kinds as u64 - 1),
        _ => rng.below(1 << kinds) as u32,
    }
}

/// All sets of faults of a curve record; of version 2 those of up to two, and one in eight of the others.
fn curve_faults(judge: &mut Judge, sample: &Sample) {
    let kinds = curve_fault_kinds(sample);
    for set in 0..1u32 << kinds.len() {
        if sample.witness.is_some() && set.count_ones() > 2 && !judge.rng.one_in(8) {
            continue;
        }
        let faults = kinds.iter().enumerate().fold(0, |faults, (k, fault)| faults | (set >> k & 1) << fault);
        let curve = faulty_curve(&mut judge.rng, sample, faults);
        judge.put(Call::CheckCurve { curve: &curve }, 0);
        if set % 8 == 0 {
            judge.put(Call::RewriteCurve { curve: &curve }, CURVE_ROOM);
        }
    }
}

/// Numbers of every size for p, prime or not, in version 2, with a base that does where there is a small one, or any.
fn witnesses(judge: &mut Judge, genus: usize) {
    let f = [&[1][..], &vec![0; 2 * genus]].concat();
    for _ in 0..80 {
        let (p, drawn) = Witness::drawn(&mut judge.rng);
        let good = drawn.clone().with_a_good_base(p).filter(|_| !judge.rng.one_in(3));
        let witness = good.unwrap_or_else(|| Witness { base: 1 + judge.rng.below(p - 1), ..drawn });
        let curve = curve_record(genus as u8, p, &f, Some(&witness));
        judge.put(Call::CheckCurve { curve: &curve }, 0);
        judge.put(Call::RewriteCurve { curve: &curve }, CURVE_ROOM);
        judge.put(Call::Multiply { curve: &curve, a: &divisor_record(&[0], &[1]), scalar: &[0xa7, 0x3c] }, ROOM);
    }
}

/// What a call can be refused for, as masks of faults.
#[derive(Clone, Copy, Default)]
struct Faults {
    curve: u32,
    total: u32,
    full: bool,
    short: bool,
    pole: bool,
    a: u32,
    b: u32,
    scalar: bool,
    key: bool,
    order: bool,
    root: bool,
    too_large: bool,
    last: bool,
    head: u32,
    count: bool,
    over: bool,
    room: bool,
}

impl Faults {
    /// The faults of two sets.
    fn and(self, other: Faults) -> Faults {
        Faults {
            curve: self.curve | other.curve,
            total: self.total | other.total,
            full: self.full | other.full,
            short: self.short | other.short,
            pole: self.pole | other.pole,
            head: self.head | other.head,
            count: self.count | other.count,
            over: self.over | other.over,
            a: self.a | other.a,
            b: self.b | other.b,
            scalar: self.scalar | other.scalar,
            key: self.key | other.key,
            order: self.order | other.order,
            root: self.root | other.root,
            too_large: self.too_large | other.too_large,
            last: self.last | other.last,
            room: self.room | other.room,
        }
    }
}

/// Puts a call with these faults.
type Put = fn(&mut Judge, &Sample, Faults);

/// The refusals of add, multiply, an order's check, split, census, total, scan and pole files, in their order: each alone, with its neighbour, and
/// with all that follow.
fn neighbouring_faults(judge: &mut Judge, sample: &Sample) {
    let none = Faults::default();
    let curve: Vec<Faults> = curve_fault_kinds(sample).into_iter().map(|k| Faults { curve: 1 << k, ..none }).collect();
    let a: Vec<Faults> = (0..DIVISOR_FAULTS).map(|k| Faults { a: 1 << k, ..none }).collect();
    let b: Vec<Faults> = (0..DIVISOR_FAULTS).map(|k| Faults { b: 1 << k, ..none }).collect();
    let scalar = vec![Faults { scalar: true, ..none }];
    let key = vec![Faults { key: true, ..none }];
    let order = vec![Faults { order: true, ..none }];
    let root = vec![Faults { root: true, ..none }];
    let too_large = vec![Faults { too_large: true, ..none }];
    let last = vec![Faults { last: true, ..none }];
    let room = vec![Faults { room: true, ..none }];
    let totals: Vec<Faults> = (0..TOTAL_FAULTS).map(|k| Faults { total: 1 << k, ..none }).collect();
    let full = vec![Faults { full: true, ..none }];
    let pole = vec![Faults { short: true, ..none }, Faults { pole: true, ..none }];
    let head: Vec<Faults> = (0..HEAD_FAULTS).map(|k| Faults { head: 1 << k, ..none }).collect();
    let count = vec![Faults { count: true, ..none }];
    let over = vec![Faults { over: true, ..none }];

    let orders: [(Put, Vec<Faults>); 9] = [
        (put_add, [&curve[..], &a, &b, &room].concat()),
        (put_multiply, [&curve[..], &a, &scalar, &key, &room].concat()),
        (put_order, [&curve[..], &a, &scalar, &order].concat()),
        (put_split, [&curve[..], &a, &root, &room].concat()),
        (put_next, [&curve[..], &too_large, &a, &last, &room].concat()),
        (put_total, [&curve[..], &a, &b, &room].concat()),
        (put_scan, [&curve[..], &totals, &full, &pole, &a].concat()),
        (put_written, [&curve[..], &a, &b, &room].concat()),
        (put_read, [&head[..], &curve, &count, &a, &b, &over, &room].concat()),
    ];
    for (put, order) in orders {
        for (k, &fault) in order.iter().enumerate() {
            put(judge, sample, fault);
            let rest = &order[k + 1..];
            if let Some(&next) = rest.first() {
                put(judge, sample, fault.and(next));
            }
            put(judge, sample, rest.iter().fold(fault, |all, &next| all.and(next)));
        }
    }
}

fn put_add(judge: &mut Judge, sample: &Sample, faults: Faults) {
    let curve = faulty_curve(&mut judge.rng, sample, faults.curve);
    let a = faulty_divisor(&mut judge.rng, sample, faults.a);
    let b = faulty_divisor(&mut judge.rng, sample, faults.b);
    judge.put(Call::Add { curve: &curve, a: &a, b: &b }, if faults.room { 0 } else { ROOM });
}

fn put_multiply(judge: &mut Judge, sample: &Sample, faults: Faults) {
    let curve = faulty_curve(&mut judge.rng, sample, faults.curve);
    let mut a = faulty_divisor(&mut judge.rng, sample, faults.a);
    let length = if faults.scalar { 33 + judge.rng.below(4) } else { judge.rng.below(33) };
    let mut scalar = judge.rng.bytes(length as usize);
    if faults.key && faults.a == 0 && judge.rng.one_in(2) {
        a = vec![0];
    } else if faults.key {
        scalar.fill(0);
    }
    judge.put(Call::Multiply { curve: &curve, a: &a, scalar: &scalar }, if faults.room { 0 } else { ROOM });
}

fn put_order(judge: &mut Judge, sample: &Sample, faults: Faults) {
    let curve = faulty_curve(&mut judge.rng, sample, faults.curve);
    // Where the order isn't known, the neutral divisor has one that is.
    let good = sample.any(&mut judge.rng).to_vec();
    let (good, n) = sample.order(&good).map_or((vec![0], 1), |n| (good, n));
    let divisor = if faults.a == 0 { good } else { faulty_divisor(&mut judge.rng, sample, faults.a) };
    let mut shown = Shown::right(n);
    if faults.order {
        shown = shown.wrong(&mut judge.rng);
    }
    if faults.scalar {
        let zeros = 33 + judge.rng.below(4) as usize - shown.order.len();
        shown.order.splice(..0, vec![0; zeros]);
    }
    shown.put(judge, &curve, &divisor);
}

fn put_split(judge: &mut Judge, sample: &Sample, faults: Faults) {
    let curve = faulty_curve(&mut judge.rng, sample, faults.curve);
    let (splits, others): (Vec<&Vec<u8>>, Vec<_>) = sample.pool.iter().partition(|a| splits::can_be_split(sample, a));
    // A small curve may have no divisor with a root.
    let from = if faults.root || splits.is_empty() { &others } else { &splits };
    let mut divisor = judge.rng.pick(from).to_vec();
    if faults.a != 0 {
        divisor = faulty_divisor(&mut judge.rng, sample, faults.a);
    }
    splits::put(judge, &curve, &divisor, if faults.room { 33 } else { SPLIT_ROOM });
}

fn put_next(judge: &mut Judge, sample: &Sample, faults: Faults) {
    // A larger curve of the same genus; one that is too large anyhow stays.
    let larger = Sample::new(&mut judge.rng, sample.genus, 17);
    let on = if faults.too_large && sample.p <= census::LARGEST { &larger } else { sample };
    let curve = faulty_curve(&mut judge.rng, on, faults.curve);
    let mut divisor = sample.any(&mut judge.rng).to_vec();
    if faults.a != 0 {
        divisor = faulty_divisor(&mut judge.rng, sample, faults.a);
    } else if faults.last && sample.p <= census::LARGEST {
        divisor = census::last(sample);
    }
    judge.put(Call::NextDivisor { curve: &curve, divisor: &divisor }, if faults.room { 0 } else { ROOM });
}

fn put_total(judge: &mut Judge, sample: &Sample, faults: Faults) {
    let curve = faulty_curve(&mut judge.rng, sample, faults.curve);
    let good = sample.any(&mut judge.rng).to_vec();
    let a = faulty_divisor(&mut judge.rng, sample, faults.a);
    let b = faulty_divisor(&mut judge.rng, sample, faults.b);
    put_batch(judge, &curve, &[good, a, b].concat(), if faults.room { 0 } else { ROOM });
}

fn put_scan(judge: &mut Judge, sample: &Sample, faults: Faults) {
    let curve = faulty_curve(&mut judge.rng, sample, faults.curve);
    let record = faulty_divisor(&mut judge.rng, sample, faults.a);
    let mut total = faulty_total(&mut judge.rng, sample, faults.total);
    if faults.full && total.count <= MOST as u64 {
        total.count = MOST as u64;
    }
    let mut scan = scan_of(total.pole, &record);
    if faults.pole {
        scan[judge.rng.below(4) as usize] ^= 1 << judge.rng.below(8);
    }
    if faults.short {
        scan.truncate(judge.rng.below(4) as usize);
    }
    poles::put_scan(judge, total, &curve, &scan);
}

fn put_written(judge: &mut Judge, sample: &Sample, faults: Faults) {
    let curve = faulty_curve(&mut judge.rng, sample, faults.curve);
    let a = faulty_divisor(&mut judge.rng, sample, faults.a);
    let b = faulty_divisor(&mut judge.rng, sample, faults.b);
    let (pole, batch) = (any_pole(&mut judge.rng), [a, b].concat());
    let room = 11 + curve.len() + batch.len();
    judge.put(Call::WritePoleFile { pole, curve: &curve, batch: &batch }, if faults.room { room - 1 } else { room });
}

/// Kinds of fault of a pole file's head, in the order they are looked for: under 9 bytes, the mark, the version.
const HEAD_FAULTS: u32 = 3;

fn put_read(judge: &mut Judge, sample: &Sample, faults: Faults) {
    let has = |fault: u32| faults.head >> fault & 1 == 1;
    let curve = faulty_curve(&mut judge.rng, sample, faults.curve);
    let a = faulty_divisor(&mut judge.rng, sample, faults.a);
    let mut records = [a, faulty_divisor(&mut judge.rng, sample, faults.b)].concat();
    if faults.over {
        records.push(judge.rng.below(5) as u8);
    }
    let count = if faults.count { *judge.rng.pick(&[4097, 4098, 0x2000, 0xffff]) } else { 2 };
    let mut file = poles::file_of(any_pole(&mut judge.rng), &curve, count, &records);
    if has(2) {
        let version = *judge.rng.pick(&[[0, 0], [0, 2], [1, 0], [1, 1], [255, 255]]);
        file[3..5].copy_from_slice(&version);
    }
    if has(1) {
        file[judge.rng.below(3) as usize] ^= 1 << judge.rng.below(8);
    }
    if has(0) {
        file.truncate(judge.rng.below(9) as usize);
    }
    let room = if faults.room { curve.len() } else { file.len() };
    judge.put(Call::ReadPoleFile { file: &file }, room);
}

/// Any faults at all, in any call.
fn mixed_faults(judge: &mut Judge, sample: &Sample) {
    for _ in 0..100 {
        let rng = &mut judge.rng;
        let faults = Faults {
            curve: if rng.one_in(4) { some_faults(rng, CURVE_FAULTS) } else { 0 },
            total: if rng.one_in(3) { some_faults(rng, TOTAL_FAULTS) } else { 0 },
            full: rng.one_in(5),
            short: rng.one_in(8),
            pole: rng.one_in(4),
            head: if rng.one_in(5) { some_faults(rng, HEAD_FAULTS) } else { 0 },
            count: rng.one_in(6),
            over: rng.one_in(4),
            a: some_faults(rng, DIVISOR_FAULTS),
            b: some_faults(rng, DIVISOR_FAULTS),
            scalar: rng.one_in(4),
            key: rng.one_in(4),
            order: rng.one_in(2),
            root: rng.one_in(2),
            too_large: rng.one_in(3),
            last: rng.one_in(3),
            room: rng.one_in(4),
        };
        let puts: [Put; 9] =
            [put_add, put_multiply, put_order, put_split, put_next, put_total, put_scan, put_written, put_read];
        let put = *rng.pick(&puts);
        put(judge, sample, faults);
    }
}

/// A flat running total of a pole that holds a divisor of the pool.
fn total_of(pole: u32, record: &[u8], count: u64) -> Running {
    let (u, v) = numbers_of(record);
    let at = |numbers: &[u64], i: usize| numbers.get(i).copied().unwrap_or(0);
    Running {
        weight: u.len() as u64,
        u0: at(&u, 0),
        u1: at(&u, 1),
        u2: at(&u, 2),
        v0: at(&v, 0),
        v1: at(&v, 1),
        v2: at(&v, 2),
        count,
        pole,
    }
}

/// Kinds of fault of a running total.
const TOTAL_FAULTS: u32 = 9;

/// The coefficients of a total, u first.
fn coefficients(total: &mut Running) -> [&mut u64; 6] {
    [&mut total.u0, &mut total.u1, &mut total.u2, &mut total.v0, &mut total.v1, &mut total.v2]
}

/// A total with the faults of a mask: not on the curve; a used number of p or more, small or large; an unused number;
/// weight one more, one less, above 3, or huge; a count over 4,096.
fn faulty_total(rng: &mut Rng, sample: &Sample, faults: u32) -> Running {
    let has = |fault: u32| faults >> fault & 1 == 1;
    let record = sample.any(rng).to_vec();
    let mut total = total_of(any_pole(rng), &record, rng.below(MOST as u64));
    let weight = total.weight as usize;
    if has(0) {
        total.v0 = (total.v0 + 1) % sample.p;
    }
    for (fault, large) in [(1, sample.p), (2, u64::MAX)] {
        if has(fault) && weight > 0 {
            let at = rng.below(weight as u64) as usize + 3 * rng.below(2) as usize;
            *coefficients(&mut total)[at] = large;
        }
    }
    if has(3) && weight < 3 {
        let at = weight + rng.below(3 - weight as u64) as usize + 3 * rng.below(2) as usize;
        *coefficients(&mut total)[at] = 1 + rng.below(sample.p + 1);
    }
    if has(4) {
        total.weight += 1;
    }
    if has(5) {
        total.weight = total.weight.saturating_sub(1);
    }
    if has(6) {
        total.weight = 4 + rng.below(3);
    }
    if has(7) {
        total.weight = *rng.pick(&[256, 1 << 32, (1 << 32) + 1, u64::MAX]);
    }
    if has(8) {
        total.count = *rng.pick(&[4097, 4098, 1 << 32, (1 << 32) + 1, u64::MAX]);
    }
    total
}

/// Running totals: good ones at every count that matters, every fault with every count, totals of another curve.
fn running_totals(judge: &mut Judge, sample: &Sample) {
    let curve = &sample.curve;
    for count in [0, 1, 4094, 4095, 4096, 4097, u64::MAX] {
        for _ in 0..4 {
            let pole = any_pole(&mut judge.rng);
            let scan = scan_of(pole, sample.any(&mut judge.rng));
            let total = total_of(pole, sample.any(&mut judge.rng), count);
            poles::put_scan(judge, total, curve, &scan);
            let other = Running { pole: any_pole(&mut judge.rng), ..total };
            poles::put_scan(judge, other, curve, &scan);
        }
        for fault in 0..TOTAL_FAULTS {
            let total = Running { count, ..faulty_total(&mut judge.rng, sample, 1 << fault) };
            let scan = scan_of(total.pole, sample.any(&mut judge.rng));
            judge.put(Call::Scan { total, curve, scan: &scan }, 0);
            judge.put(Call::ScanLent { total, curve, scan: &[] }, 0);
        }
    }
    // A total that was kept under a curve of the other genus, or of the same one with another f.
    for genus in [2, 3] {
        let other = Sample::new(&mut judge.rng, genus, sample.p);
        for _ in 0..5 {
            let total = total_of(any_pole(&mut judge.rng), other.any(&mut judge.rng), 3);
            let scan = scan_of(total.pole, sample.any(&mut judge.rng));
            poles::put_scan(judge, total, curve, &scan);
        }
    }
}

#[cfg(test)]
mod tests {
    use super::*;
    use crate::engine::{Plain, Reply, Wrong};
    use crate::judge::Tally;

    fn differences(wrong: impl Fn(&Call, &mut [u8], &mut Reply)) -> u64 {
        let wrong = Wrong(wrong);
        let mut judge = Judge::new(&wrong, &Plain, 1, true);
        run(&mut judge, 24_000);
        assert!(judge.tally.census.contains_key(&(2, PRIMES[1])), "no sums of version 2 yet");
        judge.tally.differences
    }

    #[test]
    fn plain_agrees_with_itself() {
        let mut judge = Judge::new(&Plain, &Plain, 2, true);
        run(&mut judge, 185_000);
        assert_eq!(judge.tally.differences, 0);
        for number in (0..=15).chain(18..=27) {
            assert!(judge.tally.numbers[&number] >= 20, "{} {:?}", number, judge.tally.numbers);
        }
        assert_eq!(judge.tally.census.len(), 2 * PRIMES.len());
        for (key, census) in &judge.tally.census {
            let rare = [census.shared_root, census.opposite, census.below_genus, census.zero_y, census.f_2g];
            assert!(rare.iter().all(|&n| n >= 20), "{:?} {:?}", key, census);
        }
    }

    /// Every class of both genera is there, half of the pairs are special, and a slip on one class alone shows.
    #[test]
    fn sums_by_class_have_them_all() {
        let mut judge = Judge::new(&Plain, &Plain, 1, true);
        sums_by_class(&mut judge, 20_000);
        let Tally { calls, differences, classes, .. } = &judge.tally;
        assert_eq!(*differences, 0);
        let special: u64 = classes.iter().filter(|(key, _)| key.3 != Class::Main).map(|(_, n)| n).sum();
        assert!(special * 2 >= *calls, "{} of {}", special, calls);
        for (genus, set, double) in (0..8).map(|n| (2 + n % 2, n / 2 % 2 == 1, n / 4 == 1)) {
            let shared = (1..=genus).map(Class::Shared);
            for class in [Class::Main, Class::Light, Class::Low].into_iter().chain(shared) {
                let found = classes.get(&(genus, set, double, class)).copied().unwrap_or(0);
                assert!(found >= 8, "{} {} {} {:?}: {}", genus, set, double, class, found);
            }
        }
        let low = Wrong(|c: &Call, out: &mut [u8], r: &mut Reply| {
            if let Call::Add { a, b, .. } = c {
                if a.len() == 49 && b.len() == 49 && r.length == 17 {
                    out[16] ^= 1;
                }
            }
        });
        let mut judge = Judge::new(&low, &Plain, 1, true);
        sums_by_class(&mut judge, 2_000);
        assert!(judge.tally.differences > 0);
    }

    #[test]
    fn an_engine_that_does_nothing_else_wrong_shows_no_difference() {
        assert_eq!(differences(|_, _, _| ()), 0);
    }

    fn records_of(mut batch: &[u8]) -> Vec<&[u8]> {
        let mut records = Vec::new();
        while let Some(&weight) = batch.first() {
            let (record, rest) = batch.split_at(1 + 16 * usize::from(weight));
            records.push(record);
            batch = rest;
        }
        records
    }

    #[test]
    fn wrong_answers_show() {
        assert!(differences(|_, _, r| r.place += u64::from(r.number == 11)) > 0);
        assert!(differences(|_, _, r| r.number = if r.number == 19 { 13 } else { r.number }) > 0);
        assert!(differences(|_, _, r| r.counts[1] += u64::from(r.counts[1] > 80)) > 0);
        assert!(differences(|_, _, r| r.number = if r.number == 6 { 5 } else { r.number }) > 0);
        assert!(differences(|_, _, r| r.total.count += u64::from(r.total.count == 4096)) > 0);
        assert!(
            differences(|c, _, r| {
                if matches!(c, Call::FirstRepeat { .. }) && r.counts[1] > 2 {
                    r.counts.swap(0, 1);
                }
            }) > 0
        );
        // A repeat by sign that isn't found, as before W-205.
        assert!(
            differences(|c, _, r| {
                if let (Call::FirstRepeat { batch, .. }, true) = (c, r.counts[1] > 0) {
                    let records = records_of(batch);
                    if records[r.counts[0] as usize - 1] != records[r.counts[1] as usize - 1] {
                        r.counts = [0; 2];
                    }
                }
            }) > 0
        );
    }

    /// The version of a call's curve, 0 where it has none.
    fn version_of(call: &Call) -> u8 {
        use Call::*;
        match call {
            CheckCurve { curve } | RewriteCurve { curve } | Add { curve, .. } => curve.get(4).copied().unwrap_or(0),
            _ => 0,
        }
    }

    #[test]
    fn slips_of_version_2_show() {
        // 5 for 18, 18 for 5, 18 for a wrong length.
        assert!(differences(|_, _, r| r.number = if r.number == 18 { 5 } else { r.number }) > 0);
        for number in [1, 5] {
            assert!(
                differences(|c, _, r| {
                    if version_of(c) == 2 && r.number == number {
                        r.number = 18;
                    }
                }) > 0
            );
        }
        // A witness that isn't looked at: 0 for 18 in a check.
        assert!(
            differences(|c, _, r| {
                if matches!(c, Call::CheckCurve { .. }) && r.number == 18 {
                    r.number = 0;
                }
            }) > 0
        );
        // Rewritten without its last prime.
        assert!(
            differences(|c, out, r| {
                if matches!(c, Call::RewriteCurve { .. }) && version_of(c) == 2 && r.number == 0 {
                    out[r.length as usize - 1] ^= 1;
                }
            }) > 0
        );
        // A sum that is wrong above 2^31 alone.
        assert!(
            differences(|c, out, r| {
                if let Call::Add { curve, .. } = c {
                    if version_of(c) == 2 && r.length > 1 && curve[6..10] != [0; 4] {
                        out[1] ^= 1;
                    }
                }
            }) > 0
        );
    }

    /// Of the numbers drawn for p many are taken, many aren't, and all sizes are there.
    #[test]
    fn drawn_witnesses_are_of_both_kinds() {
        let mut rng = Rng::new(1);
        let (mut taken, mut large, mut most) = (0, 0, 0);
        for _ in 0..400 {
            let (p, witness) = Witness::drawn(&mut rng);
            assert!(p % 2 == 1 && (3..1 << 61).contains(&p));
            most = most.max(witness.primes.len());
            if let Some(good) = witness.with_a_good_base(p) {
                let curve = curve_record(2, p, &[1, 0, 0, 0, 0], Some(&good));
                assert!([0, 7].contains(&plain::check_curve(&curve).number), "{} {:?}", p, good);
                taken += 1;
                large += u32::from(p > 1 << 31);
            }
        }
        assert!(taken > 100 && taken < 300 && large > 20 && most > 10, "{} {} {}", taken, large, most);
    }

    #[test]
    fn wrong_bytes_show() {
        // A byte behind the result.
        assert!(
            differences(|_, out, r| {
                if r.length == 33 && out.len() > 33 {
                    out[33] ^= 1;
                }
            }) > 0
        );
        // An output changed before a refusal.
        assert!(
            differences(|_, out, r| {
                if r.number == 13 && !out.is_empty() {
                    out[0] ^= 1;
                }
            }) > 0
        );
        // The last byte of the result.
        assert!(
            differences(|c, out, r| {
                if matches!(c, Call::Double { .. }) && r.length > 1 {
                    out[r.length as usize - 1] ^= 1;
                }
            }) > 0
        );
    }

    /// Both engines wrong in the same way: the rules for every answer still see it.
    #[test]
    fn shared_faults_show() {
        let wrong = Wrong(|_: &Call, _: &mut [u8], r: &mut Reply| r.length += u64::from(r.number == 13));
        let mut judge = Judge::new(&wrong, &wrong, 1, true);
        run(&mut judge, 10_000);
        assert!(judge.tally.differences > 0);
    }

    /// A sum that is wrong only where the two divisors share a root: the slip of a coprime formula.
    #[test]
    fn slips_on_special_pairs_show() {
        assert!(
            differences(|c, out, r| {
                if let Call::Add { a, b, .. } = c {
                    if r.length > 1 && a.len() > 1 && a.len() == b.len() && a[..9] == b[..9] && a != b {
                        out[1] ^= 0x80;
                    }
                }
            }) > 0
        );
    }
}
