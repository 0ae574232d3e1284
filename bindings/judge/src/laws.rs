//! Where one call undoes another: what is done is undone by the same engine, and must come to what was given.

use crate::engine::{Call, Engine, Reply};
use crate::poles::curve_end;

/// The first law that a done call breaks: `written` is what it wrote.
pub fn broken_law(engine: &dyn Engine, call: &Call, reply: &Reply, written: &[u8]) -> Option<&'static str> {
    match *call {
        _ if reply.number != 0 => None,
        Call::Split { curve, divisor } => split_then_add(engine, curve, divisor, written),
        Call::WritePoleFile { pole, curve, batch } => {
            let mut out = vec![0; written.len()];
            let read = engine.answer(&Call::ReadPoleFile { file: written }, &mut out);
            let same = out[..read.length as usize] == [curve, batch].concat() && read.counts[0] == u64::from(pole);
            Some("the file reads as something else").filter(|_| !same)
        }
        Call::ReadPoleFile { file } => {
            let (curve, batch) = written.split_at(curve_end(written));
            let mut out = vec![0; file.len()];
            let wrote = engine.answer(&Call::WritePoleFile { pole: reply.counts[0] as u32, curve, batch }, &mut out);
            Some("written again it is another file").filter(|_| out[..wrote.length as usize] != *file)
        }
        _ => None,
    }
}

/// The two records of a split, one behind the other, add up to the divisor.
fn split_then_add(engine: &dyn Engine, curve: &[u8], divisor: &[u8], written: &[u8]) -> Option<&'static str> {
    if written.len() != divisor.len() + 1 {
        return Some("a length that the split can't have");
    }
    let (a, b) = written.split_at(17);
    let mut sum = [0; 49];
    let length = engine.answer(&Call::Add { curve, a, b }, &mut sum).length as usize;
    Some("the parts don't add up").filter(|_| sum[..length] != *divisor)
}
