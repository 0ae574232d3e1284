//! Proved arithmetic of divisors on hyperelliptic curves, for the keys of electricity meters.
//!
//! This crate is the Rust side of the static library `libtablet.a`, each call of which is proved to answer what its contract
//! says, on any bytes. The build looks for it in the folder that the variable `YUBI_LIB_DIR` names, an absolute path, or else
//! in the repository's `target/staticlib`, where `bash tools/library.sh` writes it.
//!
//! A [`Curve`] is read from its record; on it divisors are read, added, multiplied, totalled and split, by value. A
//! `List` is a pole's list as a crew scans it. What isn't done is a [`Refusal`], with the number and place that every
//! tablet shows, and what the crew should do. Which refusal comes first where several would fit stands in
//! `include/yubisorade.h`.
//!
//! ```
//! # fn main() -> Result<(), yubisorade::Refusal> {
//! use yubisorade::{Curve, Refusal, Repeat};
//! // Genus 2, p = 7, f = x^5 + 1: case P, the curve and three meters of the contract.
//! let mut record = b"HJC\x00\x01\x02".to_vec();
//! for number in [7u64, 1, 0, 0, 0, 0] {
//!     record.extend_from_slice(&number.to_be_bytes());
//! }
//! let curve = Curve::read(&record)?;
//! let mut batch = Vec::new();
//! for (u, v) in [(0u64, 1u64), (6, 3), (0, 1)] {
//!     batch.push(1);
//!     batch.extend_from_slice(&u.to_be_bytes());
//!     batch.extend_from_slice(&v.to_be_bytes());
//! }
//! let total = curve.total(&batch)?;
//! assert_eq!(total.count, 3);
//! assert_eq!(curve.first_repeat(&batch)?, Some(Repeat { first: 1, second: 3 }));
//! assert_eq!(
//!     total.divisor.to_string(),
//!     "02 0000000000000004 0000000000000004 0000000000000000 0000000000000001"
//! );
//! // A record that is cut says which, and what to do.
//! let refusal = curve.total(&batch[..40]).unwrap_err();
//! assert_eq!(refusal, Refusal::DivisorLength { place: 3 });
//! assert_eq!(refusal.advice(), "scan that meter again: the record is cut, or too long");
//! # Ok(())
//! # }
//! ```
//!
//! # Records
//!
//! Each field with its bytes, in their order; all numbers are big-endian.
//!
//! | record | fields | bytes in all |
//! |---|---|---|
//! | curve, version 1 | `HJC` (3), the version 1 (2), g (1), p (8), `f_0` to `f_2g` (8 each) | 54 for g = 2, 70 for g = 3 |
//! | curve, version 2 | `HJC` (3), the version 2 (2), g (1), p (8), `f_0` to `f_2g` (8 each), a (8), k (1), k primes (8 each) | 63 + 8k, 79 + 8k |
//! | divisor | the weight w (1), `u_0` to `u_(w-1)` (8 each), `v_0` to `v_(w-1)` (8 each) | 1 + 16w |
//! | batch | divisors, one behind the other | |
//! | scan | the number of a pole (4), a divisor | 5 + 16w |
//! | scalar, order | one unsigned number; leading zeros are allowed, no bytes mean 0 | 0 to 32 |
//! | pole file | `HJP` (3), the version 1 (2), the number of a pole (4), a curve, how many divisors follow (2), a batch | 11 more than curve and batch |
//!
//! - **Curve.** y² = f(x), g is 2 or 3, f is monic of degree 2g + 1 without a repeated factor; its leading 1 isn't stored. p is an
//!   odd prime, up to 2^31 - 1 in version 1 and up to 2^61 - 1 in version 2.
//! - **Witness**, in version 2: the base a from 1 to p - 1 and the 1 to 15 primes of p - 1, rising, all below 2^31. a^(p-1) is 1
//!   modulo p and no a^((p-1)/q) is, q a listed prime; so p is prime, whoever proposed it. In version 1 every call divides p
//!   by trial instead.
//! - **Divisor.** u is monic of degree w, at most g; its leading 1 isn't stored. v has a smaller degree, and u divides f - v².
//!   The single byte 0 is the neutral divisor. A good record has one form: two divisors of a curve are equal exactly where their
//!   bytes are.
//! - **Batch.** 0 to 4,096 divisors. Two are the same meter where they are equal or opposite.
//!
//! # Three floors
//!
//! The types here stand above [`calls`], the library's calls on bytes with outputs that the caller lends, and these above
//! [`raw`], the calls as C has them: numbers, places and lengths. All `unsafe` code is in [`raw`].
//!
//! # Features
//!
//! The crate is `no_std`. `alloc` brings `List`, `scan_of` and `PoleFile::write`; `std`, on where nothing is said, brings
//! that and `std::error::Error` for [`Refusal`]. No call of the library allocates.
//!
//! Calls keep no state and may run on any number of threads at once; what stack they take stands in the header. Nothing is
//! constant time: how long a call takes depends on its records and on the scalar.

#![no_std]
#![deny(unsafe_code)]
#![warn(missing_docs)]

#[cfg(feature = "alloc")]
extern crate alloc;
#[cfg(any(feature = "std", test))]
extern crate std;

pub mod calls;
mod curve;
mod divisor;
#[cfg(feature = "alloc")]
mod list;
mod pole;
#[allow(unsafe_code)]
pub mod raw;
mod refusal;
mod total;

pub use curve::{Census, Curve, Multiple, Repeat, Total};
pub use divisor::Divisor;
#[cfg(feature = "alloc")]
pub use list::{scan_of, List, Scanned};
pub use pole::{records, PoleFile, Records};
pub use refusal::Refusal;
pub use total::RunningTotal;

/// Bytes that hold any divisor record.
pub const DIVISOR_ROOM: usize = 49;

/// Bytes that hold any curve record, of version 1 or 2.
pub const CURVE_ROOM: usize = 199;

/// Bytes that hold the two records of any split.
pub const SPLIT_ROOM: usize = 50;

/// Bytes that hold any pole file.
pub const POLE_FILE_ROOM: usize = 200_914;

/// Bytes of the longest scalar or order.
pub const SCALAR_ROOM: usize = 32;

/// The largest p of a training curve.
pub const LARGEST_TRAINING: u64 = 13;

/// The most primes of an order.
pub const MOST_PRIMES: usize = 32;

/// The most records of a batch, and the largest count of a running total.
pub const MOST_RECORDS: u64 = 4096;

/// The example of the crate's README.md.
#[cfg(all(doctest, feature = "std"))]
#[doc = include_str!("../README.md")]
struct Readme;
