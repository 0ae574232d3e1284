//! The records of a batch, and the pole file.

use crate::{calls, Curve, Refusal};

/// The divisor records of a batch, first to last, as their weights part it. Any bytes may be handed in, and nothing is
/// checked: [`Curve::check_batch`] does that. A last record that is cut comes as far as it goes, so that every call refuses
/// it.
///
/// ```
/// # let record = |u: u64, v: u64| [&[1][..], &u.to_be_bytes(), &v.to_be_bytes()].concat();
/// let (meter, other) = (record(0, 1), record(6, 3));
/// let batch = [&meter[..], &[0], &other].concat();
/// assert!(yubisorade::records(&batch).eq([&meter[..], &[0], &other]));
/// ```
pub fn records(batch: &[u8]) -> Records<'_> {
    Records { rest: batch }
}

/// The iterator of [`records`].
#[derive(Clone, Debug)]
#[must_use]
pub struct Records<'b> {
    rest: &'b [u8],
}

impl<'b> Iterator for Records<'b> {
    type Item = &'b [u8];

    fn next(&mut self) -> Option<&'b [u8]> {
        let &weight = self.rest.first()?;
        let (record, behind) = self.rest.split_at(self.rest.len().min(1 + 16 * usize::from(weight)));
        self.rest = behind;
        Some(record)
    }
}

impl core::iter::FusedIterator for Records<'_> {}

/// The meters of one pole: its number, a curve, and 0 to 4,096 divisor records, one behind the other.
///
/// As a file it is `HJP`, version 1 in 2 bytes, the number in 4, the curve record, in 2 bytes how many records follow, and
/// these. What was read lends its batch from the file's bytes.
///
/// ```
/// # fn main() -> Result<(), yubisorade::Refusal> {
/// # let mut curve = b"HJC\x00\x01\x02".to_vec();
/// # for number in [7u64, 1, 0, 0, 0, 0] {
/// #     curve.extend_from_slice(&number.to_be_bytes());
/// # }
/// # let curve = yubisorade::Curve::read(&curve)?;
/// # let record = |u: u64, v: u64| [&[1][..], &u.to_be_bytes(), &v.to_be_bytes()].concat();
/// use yubisorade::{PoleFile, Refusal};
/// let batch = [record(0, 1), vec![0], record(6, 3)].concat();
/// let pole = PoleFile { pole: 31, curve, batch: &batch };
/// let file = pole.write()?;
/// let read = PoleFile::read(&file)?;
/// assert_eq!(read, pole);
/// assert!(read.records().eq([&record(0, 1)[..], &[0], &record(6, 3)]));
/// assert_eq!(PoleFile::read(&file[..file.len() - 1]), Err(Refusal::PoleFileLength));
/// # Ok(())
/// # }
/// ```
#[derive(Clone, Debug, PartialEq, Eq)]
#[must_use]
pub struct PoleFile<'f> {
    /// The pole's number.
    pub pole: u32,
    /// The curve of its meters.
    pub curve: Curve,
    /// Their records.
    pub batch: &'f [u8],
}

impl<'f> PoleFile<'f> {
    /// Reads a file, all of it checked.
    ///
    /// # Errors
    /// 21 and 22 for mark and version; the curve's, 1 where it is cut short; 9 to 11 at the place of the first record at fault;
    /// 23, [`Refusal::PoleFileLength`], where the file has fewer or more bytes than it says, or a count over 4,096.
    pub fn read(file: &'f [u8]) -> Result<PoleFile<'f>, Refusal> {
        // The reader's last refusal is 13: lent no output, it gives a file that is good just that, and no other file.
        match calls::read_pole_file(file, &mut []) {
            Ok(_) | Err(Refusal::OutputLength) => {}
            Err(refusal) => return Err(refusal),
        }
        let (head, rest) = file.split_at(9);
        let (curve, rest) = rest.split_at(curve_length(rest));
        let pole = head[5..].iter().fold(0, |number, &byte| number << 8 | u32::from(byte));
        Ok(PoleFile { pole, curve: Curve::read(curve)?, batch: &rest[2..] })
    }

    /// How many bytes the file has: 11 more than curve record and batch.
    #[must_use]
    pub fn length(&self) -> usize {
        9 + self.curve.record().len() + 2 + self.batch.len()
    }

    /// Checks the batch, writes the file's bytes to the front of `out` and gives their number.
    ///
    /// # Errors
    /// 8 to 11 at the place of the first record at fault; 14 where the batch goes on after 4,096; 13 where `out` has less than
    /// [`length`](PoleFile::length) bytes.
    pub fn write_to(&self, out: &mut [u8]) -> Result<usize, Refusal> {
        calls::write_pole_file(self.pole, self.curve.record(), self.batch, out)
    }

    /// Checks the batch and gives the file's bytes.
    ///
    /// # Errors
    /// 8 to 11 at the place of the first record at fault; 14 where the batch goes on after 4,096.
    #[cfg(feature = "alloc")]
    pub fn write(&self) -> Result<alloc::vec::Vec<u8>, Refusal> {
        let mut file = alloc::vec![0; self.length()];
        self.write_to(&mut file)?;
        Ok(file)
    }

    /// The divisor records, first to last.
    pub fn records(&self) -> Records<'f> {
        records(self.batch)
    }
}

/// Where a good curve record ends that other bytes follow: by its version, g, and the count of its witness.
fn curve_length(bytes: &[u8]) -> usize {
    let first = 22 + 16 * usize::from(bytes[5]);
    match bytes[4] {
        1 => first,
        _ => first + 9 + 8 * usize::from(bytes[first + 8]),
    }
}
