//! A running total.

use crate::{calls, raw, Curve, Divisor, Refusal};

/// The total of a pole's meters that are scanned one by one: a divisor, a count and the pole's number.
///
/// A scan is the number of its pole in 4 bytes and a divisor record. After each scan the total is the batch total of the
/// pole's own records taken so far, whatever was scanned for other poles, as long as the curve stays the same. `List` keeps
/// curve and total together, and tells a meter that was scanned before.
///
/// It isn't `Copy`: a copy would be a second list that misses what the first one takes.
///
/// ```compile_fail
/// let total = yubisorade::RunningTotal::fresh(31);
/// let moved = total;
/// assert_eq!(total, moved);
/// ```
///
/// ```
/// # fn main() -> Result<(), yubisorade::Refusal> {
/// # let mut curve = b"HJC\x00\x01\x02".to_vec();
/// # for number in [7u64, 1, 0, 0, 0, 0] {
/// #     curve.extend_from_slice(&number.to_be_bytes());
/// # }
/// # let curve = yubisorade::Curve::read(&curve)?;
/// # let mut meter = vec![1];
/// # for number in [0u64, 1] {
/// #     meter.extend_from_slice(&number.to_be_bytes());
/// # }
/// use yubisorade::{Refusal, RunningTotal};
/// let mut total = RunningTotal::fresh(31);
/// total.scan(&curve, &[&[0, 0, 0, 31][..], &meter].concat())?;
/// assert_eq!(total.divisor().record(), meter);
///
/// // A refused scan changes nothing.
/// assert_eq!(total.scan(&curve, &[&[0, 0, 0, 32][..], &meter].concat()), Err(Refusal::OtherPole));
/// assert_eq!(total.scan(&curve, b"\x00\x00\x00\x1f\x03"), Err(Refusal::Weight { place: 1 }));
/// assert_eq!((total.pole(), total.count(), total.divisor().record()), (31, 1, &meter[..]));
/// # Ok(())
/// # }
/// ```
#[derive(Clone, Debug, PartialEq, Eq)]
#[must_use]
pub struct RunningTotal(raw::YubiRunning);

impl RunningTotal {
    /// A pole's total of no scan: neutral, with count 0.
    pub fn fresh(pole: u32) -> RunningTotal {
        RunningTotal(raw::fresh_total(pole))
    }

    /// Adds a scan's divisor to the total, and 1 to its count.
    ///
    /// # Errors
    /// 15 where the total is another curve's; 14 where it holds 4,096 already; 8 where the scan has under 4 bytes; 20,
    /// [`Refusal::OtherPole`], where it is for another pole; 8 to 11 for its record, with place 1. The total stays as it was.
    pub fn scan(&mut self, curve: &Curve, scan: &[u8]) -> Result<(), Refusal> {
        calls::scan(&mut self.0, curve.record(), scan)
    }

    /// The pole's number.
    #[must_use]
    pub fn pole(&self) -> u32 {
        self.0.pole
    }

    /// Scans taken so far.
    #[must_use]
    pub fn count(&self) -> u64 {
        self.0.count
    }

    /// The total's divisor.
    pub fn divisor(&self) -> Divisor {
        let raw::YubiRunning { weight, u0, u1, u2, v0, v1, v2, .. } = self.0;
        let weight = weight.min(3) as u8;
        let used = usize::from(weight);
        Divisor::made(weight, [u0, u1, u2].into_iter().take(used).chain([v0, v1, v2].into_iter().take(used)))
    }

    /// The flat form, for keeping.
    pub fn into_raw(self) -> raw::YubiRunning {
        self.0
    }

    /// A total from its flat form. What depends on the curve is checked by each scan.
    ///
    /// # Errors
    /// 15, [`Refusal::RunningTotal`], where no curve has such a total: its weight is above 3, or an unused coefficient isn't 0.
    pub fn from_raw(total: raw::YubiRunning) -> Result<RunningTotal, Refusal> {
        let raw::YubiRunning { weight, u0, u1, u2, v0, v1, v2, .. } = total;
        let mut unused = (1..).zip([u0 | v0, u1 | v1, u2 | v2]).filter(|&(place, _)| place > weight);
        if weight > 3 || unused.any(|(_, numbers)| numbers != 0) {
            Err(Refusal::RunningTotal)
        } else {
            Ok(RunningTotal(total))
        }
    }
}
