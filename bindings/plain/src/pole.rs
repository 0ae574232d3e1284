//! Pole files: a head with the pole's number, a curve record, a count, and so many divisor records.

use crate::record::{read_curve, read_first, Refused};
use crate::{checked_batch, MOST_RECORDS};

const MARK: &[u8] = b"HJP";
const VERSION: [u8; 2] = [0, 1];
/// Mark, version and pole.
const HEAD: usize = 9;

/// What a good file holds.
pub struct Contents<'a> {
    pub pole: u32,
    pub curve: &'a [u8],
    pub records: &'a [u8],
}

/// Where the curve record ends that bytes begin with; all of them where they don't say.
fn curve_end(bytes: &[u8]) -> usize {
    let genus = usize::from(bytes.get(5).copied().unwrap_or(0));
    let first = 22 + 16 * genus;
    let end = match bytes.get(3..5) {
        Some([0, 1]) => first,
        // A base of 8 bytes stands before the count of primes.
        _ => bytes.get(first + 8).map_or(bytes.len(), |&count| first + 9 + 8 * usize::from(count)),
    };
    end.min(bytes.len())
}

/// Reads a whole file.
pub fn read(file: &[u8]) -> Result<Contents<'_>, Refused> {
    if file.len() < HEAD {
        return Err(Refused::new(23));
    }
    let (head, rest) = file.split_at(HEAD);
    if &head[..3] != MARK {
        return Err(Refused::new(21));
    }
    if head[3..5] != VERSION {
        return Err(Refused::new(22));
    }
    let (curve, rest) = rest.split_at(curve_end(rest));
    let on = read_curve(curve)?;
    let count = match rest {
        [high, low, ..] => u64::from(u16::from_be_bytes([*high, *low])),
        _ => return Err(Refused::new(23)),
    };
    if count > MOST_RECORDS {
        return Err(Refused::new(23));
    }
    let records = &rest[2..];
    let mut left = records;
    for place in 1..=count {
        let cut = |refused: Refused| if refused.number == 8 { Refused::new(23) } else { refused };
        left = read_first(&on, left, place).map_err(cut)?.1;
    }
    if !left.is_empty() {
        return Err(Refused::new(23));
    }
    let pole = u32::from_be_bytes(head[5..].try_into().expect("4 bytes"));
    Ok(Contents { pole, curve, records })
}

/// The file of a pole, a curve record and a batch, where both are good.
pub fn write(pole: u32, curve: &[u8], batch: &[u8]) -> Result<Vec<u8>, Refused> {
    let count = checked_batch(curve, batch)? as u16;
    Ok([MARK, &VERSION, &pole.to_be_bytes(), curve, &count.to_be_bytes(), batch].concat())
}
