//! Genus 3 by formula, with any f_6: sums and doubles of weight 3, and which divisors of weight 3 stand on the curve.

use crate::field::Montgomery;
use crate::formulae::{Cubic, Residue};

/// z = u_a·(x² + s1·x + s0) without its leading 1, the constant first.
#[inline(always)]
fn raised(a: Cubic, s0: Residue, s1: Residue, m: Montgomery) -> [Residue; 5] {
    let even = a.u0.add(a.u2, m);
    let c1 = even.add(a.u1, m).mul(s0.add(s1, m), m);
    let c2 = even.sub(a.u1, m).mul(s0.sub(s1, m), m);
    let c3 = a.u2.mul(s1, m);
    let z0 = a.u0.mul(s0, m);
    [
        z0,
        c1.sub(c2, m).half(m).sub(c3, m),
        c1.add(c2, m).half(m).sub(z0, m).add(a.u0, m),
        a.u1.add(s0, m).add(c3, m),
        a.u2.add(s1, m),
    ]
}

/// From the first quotient n (degree 4, monic) to the sum: v modulo n, then the second quotient.
#[inline(always)]
fn finish(a: Cubic, w: Residue, z: [Residue; 5], n: [Residue; 4], f: &[Residue; 8], m: Montgomery) -> Cubic {
    let t = n[3].sub(z[4], m);
    let y0 = w.mul(t.mul(n[0], m).add(z[0], m), m).add(a.v0, m);
    let y1 = w.mul(t.mul(n[1], m).add(z[1], m).sub(n[0], m), m).add(a.v1, m);
    let y2 = w.mul(t.mul(n[2], m).add(z[2], m).sub(n[1], m), m).add(a.v2, m);
    let y3 = w.mul(t.mul(n[3], m).add(z[3], m).sub(n[2], m), m);
    let e = y3.twice(m);
    let u2 = f[6].sub(n[3].add(y3.square(m), m), m);
    let u1 = f[5].sub(n[2].add(u2.mul(n[3], m), m).add(e.mul(y2, m), m), m);
    let last = n[1].add(y2.square(m), m).add(u2.mul(n[2], m), m).add(u1.mul(n[3], m), m).add(e.mul(y1, m), m);
    let u0 = f[4].sub(last, m);
    Cubic { u0, u1, u2, v0: y0.sub(u0.mul(y3, m), m), v1: y1.sub(u1.mul(y3, m), m), v2: y2.sub(u2.mul(y3, m), m) }
}

pub fn add(a: Cubic, b: Cubic, f: &[Residue; 8], m: Montgomery) -> Option<Cubic> {
    // r, the resultant of the two u, and i = r/u_a modulo u_b
    let t1 = a.u1.mul(b.u0, m).sub(a.u0.mul(b.u1, m), m);
    let t2 = a.u2.mul(b.u0, m).sub(a.u0.mul(b.u2, m), m);
    let t3 = b.u0.sub(a.u0, m);
    let t4 = b.u1.sub(a.u1, m);
    let t5 = b.u2.sub(a.u2, m);
    let t6 = t4.square(m);
    let t7 = t3.mul(t4, m);
    let t8 = a.u2.mul(b.u1, m).sub(a.u1.mul(b.u2, m), m).add(t3, m);
    let t9 = t3.square(m).sub(t1.mul(t5, m), m);
    let t10 = t2.mul(t5, m).sub(t7, m);
    let r = t8.mul(t9, m).add(t2.mul(t10.sub(t7, m), m), m).add(t1.mul(t6, m), m);
    let i2 = t5.mul(t8, m).sub(t6, m);
    let i1 = b.u2.mul(i2, m).sub(t10, m);
    let i0 = b.u1.mul(i2, m).sub(b.u2.mul(t10, m).add(t9, m), m);
    // s' = -(v_a - v_b)·i modulo u_b
    let (d0, d1, d2) = (a.v0.sub(b.v0, m), a.v1.sub(b.v1, m), a.v2.sub(b.v2, m));
    let e0 = d0.mul(i0, m);
    let e1 = d1.mul(i1, m);
    let e2 = d2.mul(i2, m);
    let e3 = b.u2.mul(e2, m);
    let e4 = e1.add(e2, m).add(e3, m).sub(d1.add(d2, m).mul(i1.add(i2, m), m), m);
    let even = b.u0.add(b.u2, m);
    let g1 = even.add(b.u1, m).mul(e4.sub(e2, m), m);
    let g2 = even.sub(b.u1, m).mul(e4.add(e2, m), m);
    let p0 = b.u0.mul(e4, m).add(e0, m).neg(m);
    let p2 = e2.sub(p0.add(e1, m).add(d0.add(d2, m).mul(i0.add(i2, m), m), m).add(g1.add(g2, m).half(m), m), m);
    let p1 = e1.add(e0, m).add(g2.sub(g1, m).half(m), m).sub(e3.add(d0.add(d1, m).mul(i0.add(i1, m), m), m), m);
    // one inverse for both divisions
    let i = r.mul(p2, m).inverse(m)?;
    let by_r = r.mul(i, m);
    let w = i.mul(p2.square(m), m);
    let wi = r.mul(by_r, m);
    let (s0, s1) = (by_r.mul(p0, m), by_r.mul(p1, m));
    let z = raised(a, s0, s1, m);
    // n = (f - (v_a + w·z)²)/(u_a·u_b) over its leading coefficient
    let n3 = z[4].add(s1, m).sub(b.u2, m);
    let k5 = s1.mul(z[4], m).sub(b.u2.mul(n3, m), m);
    let n2 = z[3].add(s0, m).add(k5, m).sub(b.u1, m);
    let k2 = b.u2.add(b.u1, m).mul(n3.add(n2, m), m);
    let k4 = s0.mul(z[3], m).sub(b.u1.mul(n2, m), m);
    let both = s0.add(s1, m).mul(z[4].add(z[3], m), m);
    let n1 =
        z[2].add(both, m).add(wi.mul(a.v2.twice(m).sub(wi, m), m), m).sub(k5.add(k2, m).add(k4, m).add(b.u0, m), m);
    let q = a.v1.add(s1.mul(a.v2, m), m).twice(m).add(wi.mul(a.u2.sub(f[6], m), m), m);
    let taken = b.u2.mul(n1, m).add(b.u0.mul(n3, m), m);
    let n0 = z[1].add(k4, m).add(s1.mul(z[2], m), m).add(wi.mul(q, m), m).sub(taken, m);
    Some(finish(a, w, z, [n0, n1, n2, n3], f, m))
}

pub fn double(a: Cubic, f: &[Residue; 8], m: Montgomery) -> Option<Cubic> {
    // r, the resultant of u and v, and i = r/v modulo u
    let t1 = a.u1.mul(a.v0, m).sub(a.u0.mul(a.v1, m), m);
    let t2 = a.u2.mul(a.v0, m).sub(a.u0.mul(a.v2, m), m);
    let t3 = a.v1.square(m);
    let t4 = a.v1.mul(a.v0, m);
    let t5 = a.v0.add(a.u2.mul(a.v1, m), m).sub(a.u1.mul(a.v2, m), m);
    let t6 = a.v0.square(m).sub(a.v2.mul(t1, m), m);
    let t7 = a.v2.mul(t2, m).sub(t4, m);
    let r = t5.mul(t6, m).add(t2.mul(t7.sub(t4, m), m), m).add(t1.mul(t3, m), m);
    let i2 = t3.sub(a.v2.mul(t5, m), m);
    let i1 = a.u2.mul(i2, m).add(t7, m);
    let i0 = a.u1.mul(i2, m).add(a.u2.mul(t7, m), m).add(t6, m);
    // k = (f - v²)/u modulo u
    let two0 = a.u0.twice(m);
    let two1 = a.u1.twice(m);
    let square = a.u2.square(m);
    let fu = a.u2.mul(f[6], m);
    let x4 = f[4].sub(two0.add(a.v2.square(m), m), m);
    let x5 = f[5].add(square, m).sub(two1, m).sub(fu, m);
    let k2 = x5.add(square.twice(m), m).sub(fu, m);
    let k1 = a.u2.mul(two1.sub(x5, m), m).add(x4, m).sub(two1.mul(f[6], m), m);
    let outer = f[3].add(square.mul(x5.sub(a.u1, m), m), m).add(a.u2.mul(two0.sub(x4, m), m), m);
    let inner = a.u1.mul(a.u1.sub(f[5], m).add(fu.twice(m), m), m);
    let k0 = outer.add(inner, m).sub(a.v2.twice(m).mul(a.v1, m).add(two0.mul(f[6], m), m), m);
    // s' = k·i modulo u
    let e1 = i1.mul(k1, m);
    let e0 = i0.mul(k0, m);
    let e2 = i2.mul(k2, m);
    let e3 = a.u2.mul(e2, m);
    let e4 = i2.add(i1, m).mul(k2.add(k1, m), m).sub(e1.add(e2, m).add(e3, m), m);
    let e5 = a.u0.mul(e4, m);
    let even = a.u0.add(a.u2, m);
    let g1 = even.add(a.u1, m).mul(e2.add(e4, m), m);
    let g2 = even.sub(a.u1, m).mul(e4.sub(e2, m), m);
    let p2 =
        e1.add(e5, m).add(i2.add(i0, m).mul(k2.add(k0, m), m), m).sub(e0.add(e2, m).add(g1.add(g2, m).half(m), m), m);
    let p1 = e3.add(i0.add(i1, m).mul(k1.add(k0, m), m), m).add(g2.sub(g1, m).half(m), m).sub(e1.add(e0, m), m);
    let p0 = e0.sub(e5, m);
    let r2 = r.twice(m);
    let i = r2.mul(p2, m).inverse(m)?;
    let by_r = r2.mul(i, m);
    let w = i.mul(p2.square(m), m);
    let wi = r2.mul(by_r, m);
    let (s0, s1) = (by_r.mul(p0, m), by_r.mul(p1, m));
    let z = raised(a, s0, s1, m);
    let n3 = s1.twice(m);
    let n2 = s1.square(m).add(s0.twice(m), m);
    let n1 = n3.mul(s0, m).add(wi.mul(a.v2.twice(m).sub(wi, m), m), m);
    let q = s1.sub(a.u2, m).mul(a.v2, m).add(a.v1, m).twice(m).add(wi.mul(a.u2.twice(m).sub(f[6], m), m), m);
    let n0 = s0.square(m).add(wi.mul(q, m), m);
    Some(finish(a, w, z, [n0, n1, n2, n3], f, m))
}

/// Whether u divides f - v²: the quotient from the top, then the rest.
pub fn contains(a: Cubic, f: &[Residue; 8], m: Montgomery) -> bool {
    let q3 = f[6].sub(a.u2, m);
    let q2 = f[5].sub(a.u1, m).sub(q3.mul(a.u2, m), m);
    let q1 = f[4].sub(a.v2.square(m), m).sub(a.u0, m).sub(q3.mul(a.u1, m), m).sub(q2.mul(a.u2, m), m);
    let middle = f[3].sub(a.v1.mul(a.v2, m).twice(m), m);
    let q0 = middle.sub(q3.mul(a.u0, m), m).sub(q2.mul(a.u1, m), m).sub(q1.mul(a.u2, m), m);
    let low = f[2].sub(a.v0.mul(a.v2, m).twice(m).add(a.v1.square(m), m), m);
    if !low.sub(q2.mul(a.u0, m), m).sub(q1.mul(a.u1, m), m).sub(q0.mul(a.u2, m), m).is_zero() {
        return false;
    }
    let r1 = f[1].sub(a.v0.mul(a.v1, m).twice(m), m).sub(q1.mul(a.u0, m), m).sub(q0.mul(a.u1, m), m);
    r1.is_zero() && f[0].sub(a.v0.square(m), m).sub(q0.mul(a.u0, m), m).is_zero()
}
