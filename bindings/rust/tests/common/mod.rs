//! Records for the tests, made of numbers, and the contract's curves.

#![allow(dead_code)]

use yubisorade::{Curve, Divisor};

/// 2^61 - 1, with a witness that it is prime.
pub const OF_VERSION_2: u64 = (1 << 61) - 1;
pub const BASE: u64 = 37;
pub const PRIMES: [u64; 12] = [2, 3, 5, 7, 11, 13, 31, 41, 61, 151, 331, 1321];

fn eights<'a>(numbers: impl IntoIterator<Item = &'a u64>) -> Vec<u8> {
    numbers.into_iter().flat_map(|number| number.to_be_bytes()).collect()
}

pub fn curve(genus: u8, p: u64, f: &[u64]) -> Vec<u8> {
    [&[b'H', b'J', b'C', 0, 1, genus], &eights([&p])[..], &eights(f)].concat()
}

/// The record in version 2, with a base and primes.
pub fn witnessed(genus: u8, p: u64, f: &[u64], base: u64, primes: &[u64]) -> Vec<u8> {
    let mut bytes = curve(genus, p, f);
    bytes[4] = 2;
    bytes.extend(eights([&base]));
    bytes.push(primes.len() as u8);
    bytes.extend(eights(primes));
    bytes
}

pub fn divisor(u: &[u64], v: &[u64]) -> Vec<u8> {
    [&[u.len() as u8][..], &eights(u), &eights(v)].concat()
}

/// g = 2, p = 7, f = x^5 + 1.
pub fn curve_a() -> Vec<u8> {
    curve(2, 7, &[1, 0, 0, 0, 0])
}

/// g = 3, p = 11, f = x^7 + 1.
pub fn curve_b() -> Vec<u8> {
    curve(3, 11, &[1, 0, 0, 0, 0, 0, 0])
}

/// A divisor that is read on a curve, (x, 1) as `on(&c, &[0], &[1])`.
pub fn on(curve: &Curve, u: &[u64], v: &[u64]) -> Divisor {
    curve.divisor(&divisor(u, v)).unwrap()
}
