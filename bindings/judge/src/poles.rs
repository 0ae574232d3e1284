//! Poles: lists of scans for several of them, and pole files that are good, cut, grown, or changed anywhere.

use crate::engine::Call;
use crate::inputs::{Rng, Sample};
use crate::judge::Judge;
use plain::Running;

/// The bytes of a scan.
pub fn scan_of(pole: u32, record: &[u8]) -> Vec<u8> {
    [&pole.to_be_bytes(), record].concat()
}

/// A pole's number: any, or one whose bytes tell their order, or that differs from another in one bit.
pub fn any_pole(rng: &mut Rng) -> u32 {
    let any = rng.next() as u32;
    *rng.pick(&[0, 1, 0x100, 0x0001_0000, 0x0102_0304, 0x7fff_ffff, 0x8000_0000, u32::MAX, any])
}

/// Puts a scan into a total, by value and lent.
pub fn put_scan(judge: &mut Judge, total: Running, curve: &[u8], scan: &[u8]) {
    judge.put(Call::Scan { total, curve, scan }, 0);
    judge.put(Call::ScanLent { total, curve, scan }, 0);
}

/// A list of records, each for one of up to three poles, scanned into the totals of all of them.
pub fn mixed_scans(judge: &mut Judge, curve: &[u8], records: &[Vec<u8>]) {
    let poles: Vec<u32> = (0..1 + judge.rng.below(3)).map(|_| any_pole(&mut judge.rng)).collect();
    let mut totals: Vec<Running> = poles.iter().map(|&pole| plain::fresh_total(pole)).collect();
    for record in records {
        let scan = scan_of(*judge.rng.pick(&poles), record);
        for total in &mut totals {
            put_scan(judge, *total, curve, &scan);
            plain::scan_lent(total, curve, &scan);
        }
    }
}

/// A file as its parts say, right or not.
pub fn file_of(pole: u32, curve: &[u8], count: u16, records: &[u8]) -> Vec<u8> {
    [b"HJP\x00\x01", &pole.to_be_bytes()[..], curve, &count.to_be_bytes(), records].concat()
}

/// Where a good curve record ends, whatever follows it.
pub fn curve_end(bytes: &[u8]) -> usize {
    let coefficients = 14 + 8 * (2 * usize::from(bytes[5]) + 1);
    if bytes[4] == 1 {
        coefficients
    } else {
        coefficients + 9 + 8 * usize::from(bytes[coefficients + 8])
    }
}

/// A file of the sample's curve and some records of its pool.
fn some_file(rng: &mut Rng, sample: &Sample, most: u64) -> (u32, u16, Vec<u8>) {
    let (pole, count) = (any_pole(rng), rng.below(most + 1));
    let records: Vec<&[u8]> = (0..count).map(|_| sample.any(rng)).collect();
    (pole, count as u16, records.concat())
}

/// Writes a good file and reads it, with outputs round its length, and with counts that are wrong.
pub fn of_sample(judge: &mut Judge, sample: &Sample) {
    let curve = &sample.curve;
    for _ in 0..8 {
        let (pole, count, batch) = some_file(&mut judge.rng, sample, 9);
        let file = file_of(pole, curve, count, &batch);
        let any = judge.rng.below(file.len() as u64) as usize;
        for room in [any, file.len() - 1, file.len(), file.len() + 7] {
            judge.put(Call::WritePoleFile { pole, curve, batch: &batch }, room);
        }
        for room in [any, file.len() - 12, file.len() - 11, file.len()] {
            judge.put(Call::ReadPoleFile { file: &file }, room);
        }
        let wrong = *judge.rng.pick(&[0, count.wrapping_sub(1), count + 1, 256, 4096, 4097, 0x1000 + count, 0xffff]);
        judge.put(Call::ReadPoleFile { file: &file_of(pole, curve, wrong, &batch) }, file.len());
        for _ in 0..4 {
            let flipped = judge.rng.flip(&file);
            judge.put(Call::ReadPoleFile { file: &flipped }, file.len());
        }
    }
    cut_and_grown(judge, sample);
}

/// A file cut at every byte, in its head, its curve, its count and its records; grown by bytes and by records; and bytes of every length.
fn cut_and_grown(judge: &mut Judge, sample: &Sample) {
    let (pole, count, batch) = some_file(&mut judge.rng, sample, 3);
    let file = file_of(pole, &sample.curve, count, &batch);
    for cut in 0..file.len() {
        judge.put(Call::ReadPoleFile { file: &file[..cut] }, file.len());
    }
    for more in [vec![0], vec![1], vec![255], sample.any(&mut judge.rng).to_vec(), judge.rng.bytes(40)] {
        judge.put(Call::ReadPoleFile { file: &[&file[..], &more].concat() }, file.len() + more.len());
    }
    for length in 0..=80 {
        let noise = judge.rng.bytes(length);
        judge.put(Call::ReadPoleFile { file: &noise }, length);
        let behind_head = [&file[..9], &noise].concat();
        judge.put(Call::ReadPoleFile { file: &behind_head }, behind_head.len());
    }
}

/// As many records as a file may have, one more, and a fault in the last.
pub fn full_files(judge: &mut Judge, sample: &Sample, records: &[Vec<u8>]) {
    let (curve, pole) = (&sample.curve, any_pole(&mut judge.rng));
    let mut last = records[..4096].to_vec();
    last[4095] = vec![1];
    for (count, batch) in [(4096, records[..4096].concat()), (4097, records[..4097].concat()), (4096, last.concat())] {
        judge.put(Call::WritePoleFile { pole, curve, batch: &batch }, 11 + curve.len() + batch.len());
        let file = file_of(pole, curve, count, &batch);
        judge.put(Call::ReadPoleFile { file: &file }, file.len());
        let short = file_of(pole, curve, count - 1, &batch);
        judge.put(Call::ReadPoleFile { file: &short }, short.len());
    }
}

#[cfg(test)]
mod tests {
    use super::*;
    use crate::engine::{Engine, Plain, Reply, Wrong};

    fn judged<'e>(first: &'e dyn Engine, second: &'e dyn Engine) -> Judge<'e> {
        let mut judge = Judge::new(first, second, 1, true);
        for (genus, p) in [(2, 3), (3, 5), (2, 11), (3, 2_147_483_647), (2, (1 << 61) - 1)] {
            let sample = Sample::new(&mut judge.rng, genus, p);
            of_sample(&mut judge, &sample);
            mixed_scans(&mut judge, &sample.curve, &sample.pool);
            full_files(&mut judge, &sample, &vec![sample.pool[1 % sample.pool.len()].clone(); 4097]);
        }
        judge
    }

    #[test]
    fn every_answer_is_there() {
        let tally = judged(&Plain, &Plain).tally;
        assert_eq!(tally.differences, 0);
        assert!(tally.files_written > 50 && tally.files_read > 50, "{} {}", tally.files_written, tally.files_read);
        for number in [1, 2, 13, 14, 20, 21, 23] {
            assert!(tally.numbers[&number] > 2, "{} {:?}", number, tally.numbers);
        }
    }

    /// Where a curve ends, by the records of samples of both versions.
    #[test]
    fn curves_end_where_they_end() {
        let mut rng = Rng::new(5);
        for (genus, p) in [(2, 7), (3, 7), (2, 7), (3, 7), (2, 11), (3, (1 << 61) - 1), (2, 27 * (1 << 56) + 1)] {
            let sample = Sample::new(&mut rng, genus, p);
            assert_eq!(curve_end(&[&sample.curve[..], &[0; 200]].concat()), sample.curve.len());
        }
    }

    #[test]
    fn slips_show() {
        type Slip = fn(&Call, &mut [u8], &mut Reply);
        let slips: [(&str, Slip); 9] = [
            ("another pole is taken", |call, _, reply| {
                if let (Call::Scan { total, curve, scan }, 20) = (call, reply.number) {
                    let mut own = *total;
                    let for_own = [&total.pole.to_be_bytes(), &scan[4..]].concat();
                    reply.number = plain::scan_lent(&mut own, curve, &for_own).number;
                    reply.total = own;
                }
            }),
            ("20 has a place", |_, _, reply| reply.place |= u64::from(reply.number == 20)),
            ("the pole is lost", |call, _, reply| {
                if matches!(call, Call::ScanLent { .. }) && reply.number == 0 {
                    reply.total.pole = 0;
                }
            }),
            ("a cut record is 8", |call, _, reply| {
                if matches!(call, Call::ReadPoleFile { .. }) && reply.number == 23 {
                    (reply.number, reply.place) = (8, 1);
                }
            }),
            ("the version isn't looked at", |_, _, reply| {
                if reply.number == 22 {
                    reply.number = 23;
                }
            }),
            ("bytes left over are taken", |call, out, reply| {
                if let (Call::ReadPoleFile { file }, 23) = (call, reply.number) {
                    let less = plain::read_pole_file(&file[..file.len() - file.len().min(1)], out);
                    (reply.number, reply.length, reply.counts[0]) = (less.number, less.length, u64::from(less.pole));
                }
            }),
            ("4,097 records are taken", |call, _, reply| {
                if matches!(call, Call::WritePoleFile { .. }) && reply.number == 14 {
                    reply.number = 13;
                }
            }),
            ("the pole isn't answered", |call, _, reply| {
                if matches!(call, Call::ReadPoleFile { .. }) {
                    reply.counts[0] = 0;
                }
            }),
            ("the count before the curve", |call, _, reply| {
                if matches!(call, Call::ReadPoleFile { .. }) && (1..8).contains(&reply.number) {
                    reply.number = 23;
                }
            }),
        ];
        for (name, slip) in slips {
            assert!(judged(&Wrong(slip), &Plain).tally.differences > 0, "{}", name);
        }
        // What both do wrong shows where one call undoes the other.
        let turned: Slip = |call, out, reply| {
            if matches!(call, Call::WritePoleFile { .. }) && reply.number == 0 {
                out[8] ^= 1;
            }
        };
        assert!(judged(&Wrong(turned), &Wrong(turned)).tally.differences > 0);
    }
}
