//! A pole's list, scan by scan.

use crate::{Curve, Divisor, Refusal, RunningTotal};
use alloc::collections::BTreeMap;
use alloc::vec::Vec;

/// A pole's list as a crew scans it: bound to its curve and its pole, it says of each scan whether the meter is new.
///
/// ```
/// # fn main() -> Result<(), yubisorade::Refusal> {
/// # let mut curve = b"HJC\x00\x01\x02".to_vec();
/// # for number in [7u64, 1, 0, 0, 0, 0] {
/// #     curve.extend_from_slice(&number.to_be_bytes());
/// # }
/// # let curve = yubisorade::Curve::read(&curve)?;
/// # let record = |u: u64, v: u64| [&[1][..], &u.to_be_bytes(), &v.to_be_bytes()].concat();
/// use yubisorade::{scan_of, Refusal, Scanned};
/// let mut list = curve.list(31);
/// assert_eq!(list.scan(&scan_of(31, &record(0, 1))), Ok(Scanned::New { place: 1 }));
/// assert_eq!(list.scan(&scan_of(31, &record(6, 3))), Ok(Scanned::New { place: 2 }));
/// // The first meter once more, its sign turned by a restart.
/// assert_eq!(list.scan(&scan_of(31, &record(0, 6))), Ok(Scanned::Again { first: 1 }));
/// assert_eq!(list.scan(&scan_of(32, &record(1, 0))), Err(Refusal::OtherPole));
/// assert_eq!(list.total().count(), 2);
/// # Ok(())
/// # }
/// ```
#[derive(Clone, Debug)]
#[must_use]
pub struct List<'c> {
    curve: &'c Curve,
    total: RunningTotal,
    /// The places of the meters, by the smaller one of a meter's two divisors.
    places: BTreeMap<Divisor, u64>,
}

/// What a [`List`] says of a scan that isn't refused.
#[derive(Clone, Copy, Debug, PartialEq, Eq)]
#[must_use]
pub enum Scanned {
    /// A meter that the list didn't have: it has been added.
    New {
        /// Its place in the list, from 1.
        place: u64,
    },
    /// A meter that the list has already, with its divisor or the opposite one: nothing has been added.
    Again {
        /// The place at which it was new.
        first: u64,
    },
}

impl Curve {
    /// A pole's list with no meter yet.
    pub fn list(&self, pole: u32) -> List<'_> {
        List { curve: self, total: RunningTotal::fresh(pole), places: BTreeMap::new() }
    }
}

impl<'c> List<'c> {
    /// Takes a scan, the number of its pole in 4 bytes and a divisor record: a new meter is added to the total and gets the
    /// next place, one that the list has is told with its place and not added again.
    ///
    /// # Errors
    /// 14 where the list has 4,096 meters; 8 where the scan has under 4 bytes; 20, [`Refusal::OtherPole`], where it is for
    /// another pole; 8 to 11 for its record, with place 1. The list stays as it was.
    pub fn scan(&mut self, scan: &[u8]) -> Result<Scanned, Refusal> {
        let mut after = self.total.clone();
        after.scan(self.curve, scan)?;
        let meter = Divisor::of(scan.get(4..).unwrap_or_default());
        let smaller = meter.min(self.curve.opposite(&meter)?);
        if let Some(&first) = self.places.get(&smaller) {
            return Ok(Scanned::Again { first });
        }
        let place = after.count();
        self.places.insert(smaller, place);
        self.total = after;
        Ok(Scanned::New { place })
    }

    /// The curve that the list is bound to.
    pub fn curve(&self) -> &'c Curve {
        self.curve
    }

    /// The running total of the list's meters, with their count and the pole's number.
    pub fn total(&self) -> &RunningTotal {
        &self.total
    }
}

/// The bytes of a scan: the pole's number, then the record.
#[must_use]
pub fn scan_of(pole: u32, record: &[u8]) -> Vec<u8> {
    [&pole.to_be_bytes(), record].concat()
}
