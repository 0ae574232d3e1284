//! Puts calls to two engines and compares what they do.

use crate::engine::{Call, Engine, Reply};
use crate::inputs::{Class, Pair, Rng};
use crate::laws::broken_law;
use crate::splits::Shape;
use std::collections::BTreeMap;

/// Differences that are printed in full; the rest are only counted.
const SHOWN: u64 = 10;

/// How often calls are reported while they run.
const STEP: u64 = 20_000;

/// Which pairs of divisors were added on the curves of one genus and prime.
#[derive(Clone, Copy, Debug, Default, PartialEq, Eq)]
pub struct Census {
    pub sums: u64,
    pub shared_root: u64,
    pub opposite: u64,
    pub zero_y: u64,
    pub below_genus: u64,
    pub f_2g: u64,
}

/// Censuses from the neutral divisor to the last.
#[derive(Clone, Copy, Debug, Default, PartialEq, Eq)]
pub struct Walks {
    pub curves: u64,
    pub of_version_2: u64,
    pub divisors: u64,
}

/// What was counted.
#[derive(Debug, Default)]
pub struct Tally {
    pub calls: u64,
    /// Calls that wrote a divisor of weight 1 or more, or moved a running total to one.
    pub not_neutral: u64,
    pub differences: u64,
    /// Multiples made by both calls on the same bytes.
    pub twins: u64,
    /// Orders that were accepted.
    pub orders: u64,
    /// Splits of good divisors by the shape of u, and how many of them had the root 0.
    pub splits: BTreeMap<Shape, (u64, u64)>,
    /// Splits that were done, and whose parts each engine was asked to add.
    pub added_back: u64,
    /// Censuses of whole curves, by genus and prime.
    pub walks: BTreeMap<(usize, u64), Walks>,
    /// Steps of a census that were done, those of whole curves among them.
    pub steps: u64,
    /// Pole files that were written, and read back by each engine; and those that were read, and written again.
    pub files_written: u64,
    pub files_read: u64,
    /// Calls by the number answered.
    pub numbers: BTreeMap<u64, u64>,
    pub census: BTreeMap<(usize, u64), Census>,
    /// Sums and doubles of [`crate::plan::sums_by_class`]: by genus, whether f_2g isn't 0, whether it is a double, and class.
    pub classes: BTreeMap<(usize, bool, bool, Class), u64>,
}

impl Tally {
    /// Counts what a call was answered.
    fn count(&mut self, call: &Call, reply: &Reply) {
        *self.numbers.entry(reply.number).or_default() += 1;
        if reply.number != 0 {
            return;
        }
        match call {
            Call::CheckOrder { .. } => self.orders += 1,
            Call::Split { .. } => self.added_back += 1,
            Call::NextDivisor { .. } => self.steps += 1,
            Call::WritePoleFile { .. } => self.files_written += 1,
            Call::ReadPoleFile { .. } => self.files_read += 1,
            _ => (),
        }
        let not_neutral = match call {
            Call::RewriteCurve { .. } | Call::WritePoleFile { .. } | Call::ReadPoleFile { .. } => false,
            Call::Scan { .. } | Call::ScanLent { .. } => reply.total.weight > 0,
            _ => reply.length > 1,
        };
        self.not_neutral += u64::from(not_neutral);
    }
}

pub struct Judge<'e> {
    engines: [&'e dyn Engine; 2],
    pub rng: Rng,
    pub tally: Tally,
    quiet: bool,
}

/// An engine's reply, with its output and the guard bytes on both sides of it.
#[derive(PartialEq)]
struct Outcome {
    reply: Reply,
    buffer: Vec<u8>,
}

impl<'e> Judge<'e> {
    pub fn new(first: &'e dyn Engine, second: &'e dyn Engine, seed: u64, quiet: bool) -> Judge<'e> {
        Judge { engines: [first, second], rng: Rng::new(seed), tally: Tally::default(), quiet }
    }

    /// Puts a call to both engines, with an output of `room` bytes, and gives the second engine's number. A multiple is made by
    /// both of its calls, on the same bytes, and they must answer the same.
    pub fn put(&mut self, call: Call, room: usize) -> u64 {
        let room = if call.has_output() { room } else { 0 };
        // The output starts anywhere and is filled with bytes that no engine can guess.
        let guard = 16 + self.rng.below(16) as usize;
        let before: Vec<u8> = (0..guard + room + 32).map(|_| self.rng.next() as u8).collect();
        let first = self.compare(&call, &before, guard, room, None);
        let number = first[1].reply.number;
        if let Some(twin) = call.twin() {
            self.tally.twins += 1;
            self.compare(&twin, &before, guard, room, Some(first));
        }
        number
    }

    /// Both engines' outcomes, compared with each other and with those of the call's twin.
    fn compare(
        &mut self,
        call: &Call,
        before: &[u8],
        guard: usize,
        room: usize,
        twins: Option<[Outcome; 2]>,
    ) -> [Outcome; 2] {
        let outcomes = self.engines.map(|engine| {
            let mut buffer = before.to_vec();
            let reply = engine.answer(call, &mut buffer[guard..guard + room]);
            Outcome { reply, buffer }
        });

        self.tally.calls += 1;
        let faults = self.faults(call, &outcomes, before, guard, room, twins);
        if !faults.is_empty() {
            self.tally.differences += 1;
            if self.tally.differences <= SHOWN && !self.quiet {
                println!("DIFFERENCE at call {}: {}", self.tally.calls, faults.join("; "));
                println!("  call, output of {} bytes: {}", room, shown(call));
                for (outcome, engine) in outcomes.iter().zip(self.engines) {
                    println!("  {}: {:?}", engine.name(), outcome.reply);
                    println!("    output {}", hex(&outcome.buffer[guard..guard + room]));
                }
            }
        }
        self.tally.count(call, &outcomes[1].reply);
        if self.tally.calls % STEP == 0 && !self.quiet {
            println!("{} calls, {} differences", self.tally.calls, self.tally.differences);
        }
        outcomes
    }

    /// What is wrong with the outcomes of a call: of each alone, between the two, and with those of its twin.
    fn faults(
        &self,
        call: &Call,
        outcomes: &[Outcome; 2],
        before: &[u8],
        guard: usize,
        room: usize,
        twins: Option<[Outcome; 2]>,
    ) -> Vec<String> {
        let mut faults = Vec::new();
        for (k, engine) in self.engines.into_iter().enumerate() {
            let Outcome { reply, buffer } = &outcomes[k];
            let broken = broken_rule(call, &outcomes[k], before, guard, room)
                .or_else(|| broken_law(engine, call, reply, &buffer[guard..guard + reply.length as usize]));
            faults.extend(broken.map(|fault| format!("{}: {}", engine.name(), fault)));
            if twins.as_ref().map_or(false, |twins| outcomes[k] != twins[k]) {
                faults.push(format!("{}: the two multiply calls differ", engine.name()));
            }
        }
        let [first, second] = outcomes;
        if first.reply != second.reply {
            faults.push("the answers differ".to_string());
        }
        if first.buffer != second.buffer {
            faults.push("the outputs differ".to_string());
        }
        faults
    }

    /// Counts a pair of divisors that is about to be added.
    pub fn count_pair(&mut self, genus: usize, p: u64, f_2g: bool, pair: Pair) {
        let census = self.tally.census.entry((genus, p)).or_default();
        census.sums += 1;
        census.shared_root += u64::from(pair.shared_root);
        census.opposite += u64::from(pair.opposite);
        census.zero_y += u64::from(pair.zero_y);
        census.below_genus += u64::from(pair.below_genus);
        census.f_2g += u64::from(f_2g);
    }
}

/// What the contract says of every answer, whatever the sum: the first rule that an outcome breaks.
fn broken_rule(call: &Call, outcome: &Outcome, before: &[u8], guard: usize, room: usize) -> Option<&'static str> {
    let Outcome { reply, buffer } = outcome;
    let end = guard + room;
    let written = reply.length as usize;
    if buffer[..guard] != before[..guard] || buffer[end..] != before[end..] {
        return Some("bytes outside the output changed");
    }
    if written > room {
        return Some("more bytes written than there is room");
    }
    if buffer[guard + written..end] != before[guard + written..end] {
        return Some("bytes behind the result changed");
    }
    let multiply = matches!(call, Call::Multiply { .. } | Call::MultiplyInversionFree { .. });
    let own: &[u64] = match call {
        Call::Multiply { .. } | Call::MultiplyInversionFree { .. } => &[19],
        Call::NextDivisor { .. } => &[24, 25],
        Call::Split { .. } => &[26],
        Call::CheckOrder { .. } => &[27],
        Call::Scan { .. } | Call::ScanLent { .. } => &[20],
        Call::ReadPoleFile { .. } => &[21, 22, 23],
        _ => &[],
    };
    // A file that ends early is 23, and a count that is too large.
    let not_own = matches!(call, Call::ReadPoleFile { .. }) && matches!(reply.number, 8 | 14);
    if not_own || !matches!(reply.number, 0..=15 | 18) && !own.contains(&reply.number) {
        return Some("a number that isn't in the call's table");
    }
    if multiply && written == 1 {
        return Some("an empty key");
    }
    if matches!(call, Call::NextDivisor { .. }) && written == 1 {
        return Some("the neutral divisor after another");
    }
    if reply.number == 0 {
        if reply.place != 0 {
            return Some("a place without a fault");
        }
        if call.has_output() == (written == 0) {
            return Some("a length that the call can't have");
        }
        return None;
    }
    if reply.length != 0 || reply.counts != [0; 2] {
        return Some("a length or a count with a refusal");
    }
    if (8..=11).contains(&reply.number) == (reply.place == 0) {
        return Some("a place that the number can't have");
    }
    if reply.total != call.total_before() {
        return Some("a running total changed by a refusal");
    }
    None
}

fn hex(bytes: &[u8]) -> String {
    bytes.iter().map(|byte| format!("{:02x}", byte)).collect()
}

/// A call with its bytes in hexadecimal, so that it can be repeated.
fn shown(call: &Call) -> String {
    match *call {
        Call::CheckCurve { curve } => format!("check_curve {}", hex(curve)),
        Call::CheckDivisor { curve, divisor } => format!("check_divisor {} {}", hex(curve), hex(divisor)),
        Call::RewriteCurve { curve } => format!("rewrite_curve {}", hex(curve)),
        Call::RewriteDivisor { curve, divisor } => format!("rewrite_divisor {} {}", hex(curve), hex(divisor)),
        Call::Add { curve, a, b } => format!("add {} {} {}", hex(curve), hex(a), hex(b)),
        Call::Double { curve, a } => format!("double {} {}", hex(curve), hex(a)),
        Call::Opposite { curve, a } => format!("opposite {} {}", hex(curve), hex(a)),
        Call::Split { curve, divisor } => format!("split {} {}", hex(curve), hex(divisor)),
        Call::Multiply { curve, a, scalar } => format!("multiply {} {} {}", hex(curve), hex(a), hex(scalar)),
        Call::MultiplyInversionFree { curve, a, scalar } => {
            format!("multiply_inversion_free {} {} {}", hex(curve), hex(a), hex(scalar))
        }
        Call::CheckOrder { curve, divisor, order, primes } => {
            format!("check_order {} {} {} {}", hex(curve), hex(divisor), hex(order), hex(primes))
        }
        Call::NextDivisor { curve, divisor } => format!("next_divisor {} {}", hex(curve), hex(divisor)),
        Call::TotalBatch { curve, batch } => format!("total_batch {} {}", hex(curve), hex(batch)),
        Call::FirstRepeat { curve, batch } => format!("first_repeat {} {}", hex(curve), hex(batch)),
        Call::FreshTotal { pole } => format!("fresh_total {}", pole),
        Call::Scan { total, curve, scan } => format!("scan {:?} {} {}", total, hex(curve), hex(scan)),
        Call::ScanLent { total, curve, scan } => format!("scan_lent {:?} {} {}", total, hex(curve), hex(scan)),
        Call::WritePoleFile { pole, curve, batch } => {
            format!("write_pole_file {} {} {}", pole, hex(curve), hex(batch))
        }
        Call::ReadPoleFile { file } => format!("read_pole_file {}", hex(file)),
    }
}
