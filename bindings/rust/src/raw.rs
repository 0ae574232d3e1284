//! The calls as the library answers them: numbers, places, lengths.
//!
//! The structs and names are those of `include/yubisorade.h`, and a test holds them to it. No call asks anything of the
//! bytes lent to it, so the functions here, which pass slices on, are safe. All `unsafe` of the crate stands here. Most
//! programs want the types of the crate's root.

/// What most calls answer.
#[repr(C)]
#[derive(Clone, Copy, Debug, Default, PartialEq, Eq)]
#[must_use]
pub struct YubiAnswer {
    /// 0 for done, otherwise the number of the refusal.
    pub number: u64,
    /// Which divisor is at fault, from 1, for 8 to 11; otherwise 0.
    pub place: u64,
    /// Bytes written to the front of the output.
    pub length: u64,
}

/// What [`multiply`] and [`multiply_inversion_free`] answer.
#[repr(C)]
#[derive(Clone, Copy, Debug, Default, PartialEq, Eq)]
#[must_use]
pub struct YubiMultiple {
    /// 0 for done, otherwise the number of the refusal.
    pub number: u64,
    /// Which divisor is at fault, from 1, for 8 to 11; otherwise 0.
    pub place: u64,
    /// Bytes written to the front of the output.
    pub length: u64,
    /// The scalar's signed digits less 1; 0 for scalar 0.
    pub doublings: u64,
    /// Its nonzero signed digits less 1; 0 for scalar 0.
    pub additions: u64,
}

/// What [`total_batch`] answers.
#[repr(C)]
#[derive(Clone, Copy, Debug, Default, PartialEq, Eq)]
#[must_use]
pub struct YubiTotal {
    /// 0 for done, otherwise the number of the refusal.
    pub number: u64,
    /// Which divisor is at fault, from 1, for 8 to 11; otherwise 0.
    pub place: u64,
    /// Bytes written to the front of the output.
    pub length: u64,
    /// Records summed.
    pub count: u64,
}

/// What [`first_repeat`] answers.
#[repr(C)]
#[derive(Clone, Copy, Debug, Default, PartialEq, Eq)]
#[must_use]
pub struct YubiRepeat {
    /// 0 for done, otherwise the number of the refusal.
    pub number: u64,
    /// Which divisor is at fault, from 1, for 8 to 11; otherwise 0.
    pub place: u64,
    /// Always 0: no output is written.
    pub length: u64,
    /// Place of the earlier of the two, from 1; 0 for none.
    pub first: u64,
    /// Place of the later one; 0 for none.
    pub second: u64,
}

/// A running total: a divisor, a count and a pole. Coefficients that the weight doesn't use are 0.
#[repr(C)]
#[derive(Clone, Copy, Debug, Default, PartialEq, Eq)]
#[must_use]
pub struct YubiRunning {
    /// The divisor's weight, 0 to 3.
    pub weight: u64,
    /// `u_0`, or 0 where the weight has none.
    pub u0: u64,
    /// `u_1`, or 0 where the weight has none.
    pub u1: u64,
    /// `u_2`, or 0 where the weight has none.
    pub u2: u64,
    /// `v_0`, or 0 where the weight has none.
    pub v0: u64,
    /// `v_1`, or 0 where the weight has none.
    pub v1: u64,
    /// `v_2`, or 0 where the weight has none.
    pub v2: u64,
    /// Scans taken.
    pub count: u64,
    /// The only pole whose scans it takes.
    pub pole: u32,
}

/// What [`scan`] answers.
#[repr(C)]
#[derive(Clone, Copy, Debug, Default, PartialEq, Eq)]
#[must_use]
pub struct YubiScanned {
    /// 0 for done, otherwise the number of the refusal.
    pub number: u64,
    /// Which divisor is at fault, from 1, for 8 to 11; otherwise 0.
    pub place: u64,
    /// Always 0: no output is written.
    pub length: u64,
    /// The total after the scan; as it was given on a refusal.
    pub total: YubiRunning,
}

/// What [`read_pole_file`] answers.
#[repr(C)]
#[derive(Clone, Copy, Debug, Default, PartialEq, Eq)]
#[must_use]
pub struct YubiPole {
    /// 0 for done, otherwise the number of the refusal.
    pub number: u64,
    /// Which divisor is at fault, from 1, for 8 to 11; otherwise 0.
    pub place: u64,
    /// Bytes written to the front of the output.
    pub length: u64,
    /// The pole's number; 0 on a refusal.
    pub pole: u32,
}

#[link(name = "tablet", kind = "static")]
extern "C" {
    fn yubi_check_curve(curve: *const u8, curve_length: usize) -> YubiAnswer;
    fn yubi_check_divisor(
        curve: *const u8,
        curve_length: usize,
        divisor: *const u8,
        divisor_length: usize,
    ) -> YubiAnswer;
    fn yubi_rewrite_curve(curve: *const u8, curve_length: usize, out: *mut u8, out_length: usize) -> YubiAnswer;
    fn yubi_rewrite_divisor(
        curve: *const u8,
        curve_length: usize,
        divisor: *const u8,
        divisor_length: usize,
        out: *mut u8,
        out_length: usize,
    ) -> YubiAnswer;
    fn yubi_add(
        curve: *const u8,
        curve_length: usize,
        a: *const u8,
        a_length: usize,
        b: *const u8,
        b_length: usize,
        out: *mut u8,
        out_length: usize,
    ) -> YubiAnswer;
    fn yubi_double(
        curve: *const u8,
        curve_length: usize,
        a: *const u8,
        a_length: usize,
        out: *mut u8,
        out_length: usize,
    ) -> YubiAnswer;
    fn yubi_opposite(
        curve: *const u8,
        curve_length: usize,
        a: *const u8,
        a_length: usize,
        out: *mut u8,
        out_length: usize,
    ) -> YubiAnswer;
    fn yubi_split(
        curve: *const u8,
        curve_length: usize,
        divisor: *const u8,
        divisor_length: usize,
        out: *mut u8,
        out_length: usize,
    ) -> YubiAnswer;
    fn yubi_multiply(
        curve: *const u8,
        curve_length: usize,
        a: *const u8,
        a_length: usize,
        scalar: *const u8,
        scalar_length: usize,
        out: *mut u8,
        out_length: usize,
    ) -> YubiMultiple;
    fn yubi_multiply_inversion_free(
        curve: *const u8,
        curve_length: usize,
        a: *const u8,
        a_length: usize,
        scalar: *const u8,
        scalar_length: usize,
        out: *mut u8,
        out_length: usize,
    ) -> YubiMultiple;
    fn yubi_check_order(
        curve: *const u8,
        curve_length: usize,
        divisor: *const u8,
        divisor_length: usize,
        order: *const u8,
        order_length: usize,
        primes: *const u8,
        primes_length: usize,
    ) -> YubiAnswer;
    fn yubi_next_divisor(
        curve: *const u8,
        curve_length: usize,
        divisor: *const u8,
        divisor_length: usize,
        out: *mut u8,
        out_length: usize,
    ) -> YubiAnswer;
    fn yubi_total_batch(
        curve: *const u8,
        curve_length: usize,
        batch: *const u8,
        batch_length: usize,
        out: *mut u8,
        out_length: usize,
    ) -> YubiTotal;
    fn yubi_first_repeat(curve: *const u8, curve_length: usize, batch: *const u8, batch_length: usize) -> YubiRepeat;
    fn yubi_fresh_total(pole: u32) -> YubiRunning;
    fn yubi_scan(
        total: YubiRunning,
        curve: *const u8,
        curve_length: usize,
        scan: *const u8,
        scan_length: usize,
    ) -> YubiScanned;
    fn yubi_scan_lent(
        total: *mut YubiRunning,
        curve: *const u8,
        curve_length: usize,
        scan: *const u8,
        scan_length: usize,
    ) -> YubiAnswer;
    fn yubi_write_pole_file(
        pole: u32,
        curve: *const u8,
        curve_length: usize,
        batch: *const u8,
        batch_length: usize,
        out: *mut u8,
        out_length: usize,
    ) -> YubiAnswer;
    fn yubi_read_pole_file(file: *const u8, file_length: usize, out: *mut u8, out_length: usize) -> YubiPole;
}

// SAFETY, of every call below: the library reads its inputs and writes its output within the lengths given, keeps no
// pointer, and has no condition on what the bytes hold. A slice's pointer is never null, an output or a lent total is
// borrowed mutably and so overlaps no input, and the structs are laid out as the header's.

/// Checks a curve record.
pub fn check_curve(curve: &[u8]) -> YubiAnswer {
    unsafe { yubi_check_curve(curve.as_ptr(), curve.len()) }
}

/// Checks a divisor record on a curve.
pub fn check_divisor(curve: &[u8], divisor: &[u8]) -> YubiAnswer {
    unsafe { yubi_check_divisor(curve.as_ptr(), curve.len(), divisor.as_ptr(), divisor.len()) }
}

/// Writes a checked curve record to `out`.
pub fn rewrite_curve(curve: &[u8], out: &mut [u8]) -> YubiAnswer {
    unsafe { yubi_rewrite_curve(curve.as_ptr(), curve.len(), out.as_mut_ptr(), out.len()) }
}

/// Writes a checked divisor record to `out`.
pub fn rewrite_divisor(curve: &[u8], divisor: &[u8], out: &mut [u8]) -> YubiAnswer {
    unsafe {
        yubi_rewrite_divisor(curve.as_ptr(), curve.len(), divisor.as_ptr(), divisor.len(), out.as_mut_ptr(), out.len())
    }
}

/// Writes a + b to `out`.
pub fn add(curve: &[u8], a: &[u8], b: &[u8], out: &mut [u8]) -> YubiAnswer {
    unsafe {
        yubi_add(curve.as_ptr(), curve.len(), a.as_ptr(), a.len(), b.as_ptr(), b.len(), out.as_mut_ptr(), out.len())
    }
}

/// Writes a + a to `out`.
pub fn double(curve: &[u8], a: &[u8], out: &mut [u8]) -> YubiAnswer {
    unsafe { yubi_double(curve.as_ptr(), curve.len(), a.as_ptr(), a.len(), out.as_mut_ptr(), out.len()) }
}

/// Writes -a to `out`.
pub fn opposite(curve: &[u8], a: &[u8], out: &mut [u8]) -> YubiAnswer {
    unsafe { yubi_opposite(curve.as_ptr(), curve.len(), a.as_ptr(), a.len(), out.as_mut_ptr(), out.len()) }
}

/// Writes the two parts of a divisor to `out`.
pub fn split(curve: &[u8], divisor: &[u8], out: &mut [u8]) -> YubiAnswer {
    unsafe { yubi_split(curve.as_ptr(), curve.len(), divisor.as_ptr(), divisor.len(), out.as_mut_ptr(), out.len()) }
}

/// Writes the scalar-fold sum of a to `out`.
pub fn multiply(curve: &[u8], a: &[u8], scalar: &[u8], out: &mut [u8]) -> YubiMultiple {
    unsafe {
        yubi_multiply(
            curve.as_ptr(),
            curve.len(),
            a.as_ptr(),
            a.len(),
            scalar.as_ptr(),
            scalar.len(),
            out.as_mut_ptr(),
            out.len(),
        )
    }
}

/// The same by inversion-free coordinates.
pub fn multiply_inversion_free(curve: &[u8], a: &[u8], scalar: &[u8], out: &mut [u8]) -> YubiMultiple {
    unsafe {
        yubi_multiply_inversion_free(
            curve.as_ptr(),
            curve.len(),
            a.as_ptr(),
            a.len(),
            scalar.as_ptr(),
            scalar.len(),
            out.as_mut_ptr(),
            out.len(),
        )
    }
}

/// Checks the order of a divisor by the list of its primes.
pub fn check_order(curve: &[u8], divisor: &[u8], order: &[u8], primes: &[u8]) -> YubiAnswer {
    unsafe {
        yubi_check_order(
            curve.as_ptr(),
            curve.len(),
            divisor.as_ptr(),
            divisor.len(),
            order.as_ptr(),
            order.len(),
            primes.as_ptr(),
            primes.len(),
        )
    }
}

/// Writes the next divisor of a training curve to `out`.
pub fn next_divisor(curve: &[u8], divisor: &[u8], out: &mut [u8]) -> YubiAnswer {
    unsafe {
        yubi_next_divisor(curve.as_ptr(), curve.len(), divisor.as_ptr(), divisor.len(), out.as_mut_ptr(), out.len())
    }
}

/// Writes the sum of a batch to `out`.
pub fn total_batch(curve: &[u8], batch: &[u8], out: &mut [u8]) -> YubiTotal {
    unsafe { yubi_total_batch(curve.as_ptr(), curve.len(), batch.as_ptr(), batch.len(), out.as_mut_ptr(), out.len()) }
}

/// Finds the first two divisors of a batch that are equal or opposite.
pub fn first_repeat(curve: &[u8], batch: &[u8]) -> YubiRepeat {
    unsafe { yubi_first_repeat(curve.as_ptr(), curve.len(), batch.as_ptr(), batch.len()) }
}

/// A pole's running total that has taken no scan.
pub fn fresh_total(pole: u32) -> YubiRunning {
    unsafe { yubi_fresh_total(pole) }
}

/// Adds a scan to a running total, by value.
pub fn scan(total: YubiRunning, curve: &[u8], scan: &[u8]) -> YubiScanned {
    unsafe { yubi_scan(total, curve.as_ptr(), curve.len(), scan.as_ptr(), scan.len()) }
}

/// Adds a scan to a running total, in place; a refused scan leaves it as it was.
pub fn scan_lent(total: &mut YubiRunning, curve: &[u8], scan: &[u8]) -> YubiAnswer {
    unsafe { yubi_scan_lent(total, curve.as_ptr(), curve.len(), scan.as_ptr(), scan.len()) }
}

/// Writes a pole file to `out`.
pub fn write_pole_file(pole: u32, curve: &[u8], batch: &[u8], out: &mut [u8]) -> YubiAnswer {
    unsafe {
        yubi_write_pole_file(
            pole,
            curve.as_ptr(),
            curve.len(),
            batch.as_ptr(),
            batch.len(),
            out.as_mut_ptr(),
            out.len(),
        )
    }
}

/// Writes a pole file's curve record to `out`, and its divisor records behind it.
pub fn read_pole_file(file: &[u8], out: &mut [u8]) -> YubiPole {
    unsafe { yubi_read_pole_file(file.as_ptr(), file.len(), out.as_mut_ptr(), out.len()) }
}
