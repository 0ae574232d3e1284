//! Ordinary Rust: Cantor's sum on polynomials in vectors, as a programmer writes it from a textbook.

use crate::field::{Field, Remainder};
use crate::record::{Curve, Divisor, Engine, NEUTRAL};

/// The constant first, no zero last.
type Poly = Vec<u64>;

fn trim(mut a: Poly) -> Poly {
    while a.last() == Some(&0) {
        a.pop();
    }
    a
}

fn coefficient(a: &[u64], i: usize) -> u64 {
    a.get(i).copied().unwrap_or(0)
}

fn add<F: Field>(k: F, a: &[u64], b: &[u64]) -> Poly {
    trim((0..a.len().max(b.len())).map(|i| k.add(coefficient(a, i), coefficient(b, i))).collect())
}

fn sub<F: Field>(k: F, a: &[u64], b: &[u64]) -> Poly {
    trim((0..a.len().max(b.len())).map(|i| k.sub(coefficient(a, i), coefficient(b, i))).collect())
}

fn mul<F: Field>(k: F, a: &[u64], b: &[u64]) -> Poly {
    if a.is_empty() || b.is_empty() {
        return vec![];
    }
    let mut c = vec![0; a.len() + b.len() - 1];
    for (i, &x) in a.iter().enumerate() {
        for (j, &y) in b.iter().enumerate() {
            c[i + j] = k.add(c[i + j], k.mul(x, y));
        }
    }
    c
}

fn scale<F: Field>(k: F, a: &[u64], x: u64) -> Poly {
    a.iter().map(|&y| k.mul(x, y)).collect()
}

/// The quotient of a by b, and the rest.
fn divide<F: Field>(k: F, a: &[u64], b: &[u64]) -> (Poly, Poly) {
    if a.len() < b.len() {
        return (vec![], a.to_vec());
    }
    let lead = b[b.len() - 1];
    let inverse = if lead == k.one() { lead } else { k.invert(lead) };
    let mut rest = a.to_vec();
    let mut quotient = vec![0; a.len() - b.len() + 1];
    for t in (0..quotient.len()).rev() {
        let x = k.mul(rest[t + b.len() - 1], inverse);
        quotient[t] = x;
        for (j, &y) in b.iter().enumerate() {
            rest[t + j] = k.sub(rest[t + j], k.mul(x, y));
        }
    }
    (trim(quotient), trim(rest))
}

/// The monic greatest common divisor d of a and b, and s, t with s·a + t·b = d.
fn gcd<F: Field>(k: F, a: &[u64], b: &[u64]) -> (Poly, Poly, Poly) {
    let (mut r0, mut r1) = (a.to_vec(), b.to_vec());
    let (mut s0, mut s1) = (vec![k.one()], vec![]);
    let (mut t0, mut t1) = (vec![], vec![k.one()]);
    while !r1.is_empty() {
        let (q, r) = divide(k, &r0, &r1);
        let s = sub(k, &s0, &mul(k, &q, &s1));
        let t = sub(k, &t0, &mul(k, &q, &t1));
        (r0, r1, s0, s1, t0, t1) = (r1, r, s1, s, t1, t);
    }
    let inverse = k.invert(r0[r0.len() - 1]);
    (scale(k, &r0, inverse), scale(k, &s0, inverse), scale(k, &t0, inverse))
}

pub fn square_free<F: Field>(k: F, f: &[u64]) -> bool {
    let mut number = 0;
    let mut derivative = vec![];
    for &x in &f[1..] {
        number = k.add(number, k.one());
        derivative.push(k.mul(number, x));
    }
    gcd(k, f, &trim(derivative)).0.len() == 1
}

fn polynomials<F: Field>(c: &Curve<F>, d: &Divisor) -> (Poly, Poly) {
    let mut u = d.u[..d.weight].to_vec();
    u.push(c.field.one());
    (u, trim(d.v[..d.weight].to_vec()))
}

/// Cantor's sum: composition, then reduction down to the genus.
pub fn sum<F: Field>(c: &Curve<F>, a: &Divisor, b: &Divisor) -> Divisor {
    let k = c.field;
    let f = &c.f[..2 * c.genus + 2];
    let ((u1, v1), (u2, v2)) = (polynomials(c, a), polynomials(c, b));
    let (d1, e1, e2) = gcd(k, &u1, &u2);
    let (d, c1, s3) = gcd(k, &d1, &add(k, &v1, &v2));
    let (s1, s2) = (mul(k, &c1, &e1), mul(k, &c1, &e2));
    let mut u = divide(k, &mul(k, &u1, &u2), &mul(k, &d, &d)).0;
    let first = mul(k, &s1, &mul(k, &u1, &v2));
    let second = mul(k, &s2, &mul(k, &u2, &v1));
    let third = mul(k, &s3, &add(k, &mul(k, &v1, &v2), f));
    let all = add(k, &add(k, &first, &second), &third);
    let mut v = divide(k, &divide(k, &all, &d).0, &u).1;
    while u.len() - 1 > c.genus {
        u = divide(k, &sub(k, f, &mul(k, &v, &v)), &u).0;
        u = scale(k, &u, k.invert(u[u.len() - 1]));
        v = divide(k, &sub(k, &[], &v), &u).1;
    }
    let mut r = Divisor { weight: u.len() - 1, ..NEUTRAL };
    r.u[..r.weight].copy_from_slice(&u[..r.weight]);
    r.v[..v.len()].copy_from_slice(&v);
    r
}

pub fn divides<F: Field>(c: &Curve<F>, a: &Divisor) -> bool {
    let (u, v) = polynomials(c, a);
    divide(c.field, &sub(c.field, &c.f[..2 * c.genus + 2], &mul(c.field, &v, &v)), &u).1.is_empty()
}

/// Cantor's sum over products of 128 bits and their remainder.
pub struct Ordinary;

impl Engine for Ordinary {
    type F = Remainder;

    fn add(c: &Curve<Remainder>, a: &Divisor, b: &Divisor) -> Divisor {
        sum(c, a, b)
    }

    fn double(c: &Curve<Remainder>, a: &Divisor) -> Divisor {
        sum(c, a, a)
    }

    fn contains(c: &Curve<Remainder>, a: &Divisor) -> bool {
        divides(c, a)
    }
}
