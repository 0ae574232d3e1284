//! Genus 2 by formula: sums and doubles of weight 2, and which divisors of weight 2 stand on the curve.

use crate::field::Montgomery;
use crate::formulae::{Quadratic, Residue};

/// From s'/r on, the same for a sum and a double: b is the divisor that v is taken from, z the difference of the two u_1 (0 in a double),
/// a the other divisor.
#[inline(always)]
fn close(
    a: Quadratic,
    b: Quadratic,
    z: Residue,
    r: Residue,
    s: [Residue; 2],
    f4: Residue,
    m: Montgomery,
) -> Option<Quadratic> {
    let i = r.mul(s[1], m).inverse(m)?;
    let by_r = r.mul(i, m);
    let lead = s[1].square(m).mul(i, m);
    let w = r.mul(by_r, m);
    let w2 = w.square(m);
    let s0 = s[0].mul(by_r, m);
    // l = u_b·(x + s0)
    let l2 = b.u1.add(s0, m);
    let l1 = b.u1.mul(s0, m).add(b.u0, m);
    let l0 = b.u0.mul(s0, m);
    let first = s0.sub(a.u1, m).mul(s0.sub(z, m), m).sub(a.u0, m).add(l1, m);
    let second = b.v1.twice(m).mul(w, m);
    let third = b.u1.twice(m).add(z, m).sub(f4, m).mul(w2, m);
    let u0 = first.add(second, m).add(third, m);
    let u1 = s0.twice(m).sub(z, m).sub(w2, m);
    let t = l2.sub(u1, m);
    let v1 = u1.mul(t, m).add(u0, m).sub(l1, m).mul(lead, m).sub(b.v1, m);
    let v0 = u0.mul(t, m).sub(l0, m).mul(lead, m).sub(b.v0, m);
    Some(Quadratic { u0, u1, v0, v1 })
}

pub fn add(a: Quadratic, b: Quadratic, f: &[Residue; 8], m: Montgomery) -> Option<Quadratic> {
    let z1 = a.u1.sub(b.u1, m);
    let z2 = b.u0.sub(a.u0, m);
    let z3 = a.u1.mul(z1, m).add(z2, m);
    let r = z2.mul(z3, m).add(z1.square(m).mul(a.u0, m), m);
    // s' = (v_a - v_b)·(r/u_b) modulo u_a
    let w0 = a.v0.sub(b.v0, m);
    let w1 = a.v1.sub(b.v1, m);
    let low = z3.mul(w0, m);
    let high = z1.mul(w1, m);
    let crossed = z3.add(z1, m).mul(w0.add(w1, m), m).sub(low, m).sub(high, m);
    let s1 = crossed.sub(high.mul(a.u1, m), m);
    let s0 = low.sub(a.u0.mul(high, m), m);
    close(a, b, z1, r, [s0, s1], f[4], m)
}

pub fn double(a: Quadratic, f: &[Residue; 8], m: Montgomery) -> Option<Quadratic> {
    let v1 = a.v1.twice(m);
    let v0 = a.v0.twice(m);
    let square_v = a.v1.square(m);
    let square_u = a.u1.square(m);
    // r, and r/(2v) modulo u
    let i0 = v0.sub(a.u1.mul(v1, m), m);
    let i1 = v1.neg(m);
    let r = a.u0.mul(square_v.twice(m).twice(m), m).add(v0.mul(i0, m), m);
    // k = (f - v²)/u modulo u
    let e3 = f[3].add(square_u, m);
    let e4 = a.u0.twice(m);
    let fu = f[4].mul(a.u1, m);
    let k1 = square_u.sub(fu, m).twice(m).add(e3, m).sub(e4, m);
    let inner = e4.twice(m).sub(e3, m).add(fu, m);
    let k0 = a.u1.mul(inner, m).add(f[2], m).sub(square_v, m).sub(f[4].mul(a.u0, m).twice(m), m);
    // s' = k·(r/(2v)) modulo u
    let low = k0.mul(i0, m);
    let high = k1.mul(i1, m);
    let crossed = i0.add(i1, m).mul(k0.add(k1, m), m).sub(low, m).sub(high, m);
    let s1 = crossed.sub(high.mul(a.u1, m), m);
    let s0 = low.sub(a.u0.mul(high, m), m);
    close(a, a, Residue(0), r, [s0, s1], f[4], m)
}

/// Whether u divides f - v²: the quotient from the top, then the rest.
pub fn contains(a: Quadratic, f: &[Residue; 8], m: Montgomery) -> bool {
    let q2 = f[4].sub(a.u1, m);
    let q1 = f[3].sub(a.u0, m).sub(q2.mul(a.u1, m), m);
    let q0 = f[2].sub(a.v1.square(m), m).sub(q2.mul(a.u0, m), m).sub(q1.mul(a.u1, m), m);
    let r1 = f[1].sub(a.v0.mul(a.v1, m).twice(m), m).sub(q1.mul(a.u0, m), m).sub(q0.mul(a.u1, m), m);
    r1.is_zero() && f[0].sub(a.v0.square(m), m).sub(q0.mul(a.u0, m), m).is_zero()
}
