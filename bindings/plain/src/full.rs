//! The common case, fast: divisors of full weight that share nothing, on arrays whose bounds the compiler knows.
//!
//! The steps are Cantor's, with one inversion for all. Whatever is special (a shared root, a point with y = 0, a degree
//! that drops on the way) gives `None`, and the general code does it.
//!
//! A field's sums have room for four products, so they are reduced once, at the end.

use crate::curve::{Divisor, Over};
use crate::field::Field;

/// The G lower coefficients of u, or v; the rest is 0.
type Short = [u64; 3];

impl<K: Field> Over<K> {
    /// Whether x^G + u divides f - v².
    pub fn full_is_valid<const G: usize>(&self, u: &Short, v: &Short) -> bool {
        let mut rest = self.f_less_square_of::<G>(v);
        divide_by::<G, 8>(self.field(), &mut rest, 2 * G + 2, u);
        rest[..G].iter().all(|&x| x == 0)
    }

    /// The sum of two divisors of weight G.
    pub fn add_full<const G: usize>(&self, a: &Divisor, b: &Divisor) -> Option<Divisor> {
        let k = self.field();
        let (mut r, mut d) = ([0; 3], [0; 3]);
        for i in 0..G {
            // u1 modulo u2, and v2 - v1.
            r[i] = k.sub(a.u[i], b.u[i]);
            d[i] = k.sub(b.v[i], a.v[i]);
        }
        let (t, c) = inverse_by::<G>(k, &r, &b.u);
        let step = product::<G>(k, &d, &t, &b.u);
        self.composed_full::<G>(a, &b.u, &step, c)
    }

    /// Twice a divisor of weight G.
    pub fn double_full<const G: usize>(&self, a: &Divisor) -> Option<Divisor> {
        let k = self.field();
        let mut slope = self.f_less_square_of::<G>(&a.v);
        // (f - v²)/u, of degree G + 1, modulo u.
        divide_by::<G, 8>(k, &mut slope, 2 * G + 2, &a.u);
        slope.copy_within(G.., 0);
        divide_by::<G, 8>(k, &mut slope, G + 2, &a.u);
        let (t, c) = inverse_by::<G>(k, &a.v.map(|x| k.add(x, x)), &a.u);
        let step = product::<G>(k, &[slope[0], slope[1], if G == 3 { slope[2] } else { 0 }], &t, &a.u);
        self.composed_full::<G>(a, &a.u, &step, c)
    }

    /// f - v², for v of degree below G.
    fn f_less_square_of<const G: usize>(&self, v: &Short) -> [u64; 8] {
        let k = self.field();
        let mut square = [K::Sum::default(); 8];
        for i in 0..G {
            for j in 0..G {
                square[i + j] += k.product(v[i], v[j]);
            }
        }
        let mut n = [0; 8];
        for (i, n) in n[..2 * G + 2].iter_mut().enumerate() {
            *n = k.sub(self.f(i), k.reduce(square[i]));
        }
        n
    }

    /// The reduced form of the composition u = u1·u2, v = v1 + u1·step/c.
    fn composed_full<const G: usize>(&self, a: &Divisor, u2: &Short, step: &Short, c: u64) -> Option<Divisor> {
        let k = self.field();
        let lead = step[G - 1];
        if c == 0 || lead == 0 {
            return None;
        }
        // One inversion gives 1/c and c/lead, the inverse of v's leading coefficient.
        let inverse = k.inv(k.mul(c, lead));
        let by_c = k.mul(inverse, lead);
        let by_lead = k.mul(inverse, k.mul(c, c));
        let step = step.map(|x| k.mul(x, by_c));

        let mut sums = [(K::Sum::default(), K::Sum::default()); 6];
        for i in 0..G {
            for j in 0..G {
                sums[i + j].0 += k.product(a.u[i], u2[j]);
                sums[i + j].1 += k.product(a.u[i], step[j]);
            }
        }
        let (mut u, mut v) = ([0; 6], [0; 6]);
        for i in 0..G {
            u[i] = k.reduce(sums[i].0);
            v[i] = k.reduce_plus(sums[i].1, a.v[i]);
            u[i + G] = k.reduce_plus(sums[i + G].0, k.add(a.u[i], u2[i]));
            v[i + G] = k.reduce_plus(sums[i + G].1, step[i]);
        }

        // The top of f - v², degrees 2G to 4G - 2, divided by its leading coefficient -lead(v)².
        let scale = k.neg(k.mul(by_lead, by_lead));
        let mut top = [0; 5];
        for (i, top) in top[..2 * G - 1].iter_mut().enumerate() {
            let degree = i + 2 * G;
            let mut crossed = K::Sum::default();
            let mut low = degree + 1 - 2 * G;
            while 2 * low < degree {
                crossed += k.product(v[low], v[degree - low]);
                low += 1;
            }
            let mut square = k.doubled(crossed);
            if degree % 2 == 0 {
                square += k.product(v[degree / 2], v[degree / 2]);
            }
            let f = if degree < 2 * G + 2 { self.f(degree) } else { 0 };
            *top = k.mul(k.sub(f, k.reduce(square)), scale);
        }
        // Its quotient by u, which is monic of degree 2G - 2.
        let mut next = [0; 4];
        for i in (0..2 * G - 2).rev() {
            let mut sum = K::Sum::default();
            for j in i + 1..2 * G - 2 {
                sum += k.product(next[j], u[2 * G + i - j]);
            }
            next[i] = k.sub(top[i], k.reduce_plus(sum, u[i + 2]));
        }
        let mut v = v.map(|x| k.neg(x));
        if G == 2 {
            let u = [next[0], next[1], 0];
            divide_by::<2, 6>(k, &mut v, 4, &u);
            return Some(Divisor { weight: 2, u, v: [v[0], v[1], 0] });
        }
        let [_, u1, u2, u3] = next;
        divide_by_quartic(k, &mut v, &next);

        // Genus 3 goes on: (f - v²)/u with v of degree 3 and u of degree 4 is monic of degree 3.
        let w2 = k.sub(k.sub(self.f(6), k.mul(v[3], v[3])), u3);
        let crossed = k.doubled(k.product(v[2], v[3]));
        let w1 = k.sub(self.f(5), k.reduce_plus(crossed + k.product(w2, u3), u2));
        let crossed = k.doubled(k.product(v[1], v[3])) + k.product(v[2], v[2]);
        let w0 = k.sub(self.f(4), k.reduce_plus(crossed + k.product(w1, u3) + k.product(w2, u2), u1));
        let u = [w0, w1, w2];
        let mut v = [k.neg(v[0]), k.neg(v[1]), k.neg(v[2]), k.neg(v[3])];
        divide_by::<3, 4>(k, &mut v, 4, &u);
        Some(Divisor { weight: 3, u, v: [v[0], v[1], v[2]] })
    }
}

/// Divides the polynomial with the first `len` coefficients of `a` by x^G + u: the remainder stands in the first G, the
/// quotient behind it.
#[inline(always)]
fn divide_by<const G: usize, const N: usize>(k: impl Field, a: &mut [u64; N], len: usize, u: &Short) {
    let minus = u.map(|x| k.neg(x));
    for i in (0..len - 1).rev() {
        // What the quotient's coefficients above take off.
        let mut sum = Default::default();
        for j in 0..G {
            if j <= i && i + G - j < len {
                sum += k.product(a[i + G - j], minus[j]);
            }
        }
        a[i] = k.reduce_plus(sum, a[i]);
    }
}

/// The remainder of a polynomial of degree 5 by x^4 + u.
#[inline(always)]
fn divide_by_quartic<K: Field>(k: K, a: &mut [u64; 6], u: &[u64; 4]) {
    let minus = u.map(|x| k.neg(x));
    a[4] = k.reduce_plus(k.product(a[5], minus[3]), a[4]);
    for i in 0..4 {
        let mut sum = k.product(a[4], minus[i]);
        if i > 0 {
            sum += k.product(a[5], minus[i - 1]);
        }
        a[i] = k.reduce_plus(sum, a[i]);
    }
}

/// a·b modulo x^G + u.
#[inline(always)]
fn product<const G: usize>(k: impl Field, a: &Short, b: &Short, u: &Short) -> Short {
    let mut c = [Default::default(); 5];
    for i in 0..G {
        for j in 0..G {
            c[i + j] += k.product(a[i], b[j]);
        }
    }
    let mut c = c.map(|x| k.reduce(x));
    divide_by::<G, 5>(k, &mut c, 2 * G - 1, u);
    [c[0], c[1], if G == 3 { c[2] } else { 0 }]
}

/// t and c with r·t = c modulo x^G + u, by the adjugate of the matrix of "times r"; c is 0 where they share a factor.
#[inline(always)]
fn inverse_by<const G: usize>(k: impl Field, r: &Short, u: &Short) -> (Short, u64) {
    let times_x = |r: &Short| {
        let minus = k.neg(r[G - 1]);
        let mut s = [k.mul(minus, u[0]), 0, 0];
        for i in 1..G {
            s[i] = k.reduce_plus(k.product(minus, u[i]), r[i - 1]);
        }
        s
    };
    let r1 = times_x(r);
    if G == 2 {
        let t = [r1[1], k.neg(r[1]), 0];
        return (t, k.reduce(k.product(r[0], t[0]) + k.product(r1[0], t[1])));
    }
    let r2 = times_x(&r1);
    let minor = |a: &Short, b: &Short| k.sub(k.mul(a[1], b[2]), k.mul(b[1], a[2]));
    let t = [minor(&r1, &r2), minor(&r2, r), minor(r, &r1)];
    (t, k.reduce(k.product(r[0], t[0]) + k.product(r1[0], t[1]) + k.product(r2[0], t[2])))
}
