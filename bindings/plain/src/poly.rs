//! Polynomials of small degree over a [`Field`].

use crate::field::Field;

/// Room for degree 11. The largest is f - v² where v has degree 5: degree 10.
const ROOM: usize = 12;

/// A polynomial, constant term first. `c[len - 1]` isn't 0, and everything from `c[len]` on is.
#[derive(Clone, Copy, Debug, PartialEq, Eq)]
pub struct Poly {
    c: [u64; ROOM],
    len: usize,
}

impl Poly {
    pub const ZERO: Poly = Poly { c: [0; ROOM], len: 0 };

    pub fn one(k: impl Field) -> Poly {
        Poly::monic(k, &[])
    }

    /// The polynomial with these coefficients, constant first.
    pub fn new(coefficients: &[u64]) -> Poly {
        let mut c = [0; ROOM];
        c[..coefficients.len()].copy_from_slice(coefficients);
        Poly::trimmed(c, coefficients.len())
    }

    /// x^n with these lower coefficients, n of them.
    pub fn monic(k: impl Field, lower: &[u64]) -> Poly {
        let mut c = [0; ROOM];
        c[..lower.len()].copy_from_slice(lower);
        c[lower.len()] = k.one();
        Poly { c, len: lower.len() + 1 }
    }

    #[inline]
    fn trimmed(c: [u64; ROOM], mut len: usize) -> Poly {
        while len > 0 && c[len - 1] == 0 {
            len -= 1;
        }
        Poly { c, len }
    }

    /// The degree plus 1; 0 for the zero polynomial.
    pub fn len(&self) -> usize {
        self.len
    }

    pub fn is_zero(&self) -> bool {
        self.len == 0
    }

    pub fn coefficients(&self) -> &[u64] {
        &self.c[..self.len]
    }

    /// The coefficient of x^i, 0 past the degree.
    pub fn at(&self, i: usize) -> u64 {
        self.c[i]
    }

    fn lead(&self) -> u64 {
        self.c[self.len - 1]
    }

    pub fn add(&self, k: impl Field, b: &Poly) -> Poly {
        let (mut c, len) = (self.c, self.len.max(b.len));
        for (x, &y) in c.iter_mut().zip(b.coefficients()) {
            *x = k.add(*x, y);
        }
        Poly::trimmed(c, len)
    }

    pub fn sub(&self, k: impl Field, b: &Poly) -> Poly {
        let (mut c, len) = (self.c, self.len.max(b.len));
        for (x, &y) in c.iter_mut().zip(b.coefficients()) {
            *x = k.sub(*x, y);
        }
        Poly::trimmed(c, len)
    }

    pub fn neg(&self, k: impl Field) -> Poly {
        Poly::ZERO.sub(k, self)
    }

    pub fn scale(&self, k: impl Field, by: u64) -> Poly {
        let mut c = self.c;
        for x in &mut c[..self.len] {
            *x = k.mul(*x, by);
        }
        Poly::trimmed(c, self.len)
    }

    pub fn mul(&self, k: impl Field, b: &Poly) -> Poly {
        if self.is_zero() || b.is_zero() {
            return Poly::ZERO;
        }
        let len = self.len + b.len - 1;
        let mut sums = [Default::default(); ROOM];
        for (i, &x) in self.coefficients().iter().enumerate() {
            for (sum, &y) in sums[i..].iter_mut().zip(b.coefficients()) {
                *sum = k.mac(*sum, x, y);
            }
        }
        Poly { c: sums.map(|sum| k.reduce(sum)), len }
    }

    /// The quotient by a monic polynomial.
    pub fn div(&self, k: impl Field, m: &Poly) -> Poly {
        debug_assert!(m.lead() == k.one());
        let d = m.len - 1;
        let len = self.len.saturating_sub(d);
        let mut q = [0; ROOM];
        for i in (0..len).rev() {
            // x^(i + d) of self is q_i + q_(i+1) m_(d-1) + q_(i+2) m_(d-2) + ..
            let mut sum = Default::default();
            for (&x, &y) in q[i + 1..len].iter().zip(m.c[..d].iter().rev()) {
                sum = k.mac(sum, x, y);
            }
            q[i] = k.sub(self.c[i + d], k.reduce(sum));
        }
        Poly::trimmed(q, len)
    }

    /// The remainder by a monic polynomial.
    pub fn rem(&self, k: impl Field, m: &Poly) -> Poly {
        if self.len < m.len {
            return *self;
        }
        let q = self.div(k, m);
        let d = m.len - 1;
        let mut c = [0; ROOM];
        for (i, x) in c[..d].iter_mut().enumerate() {
            let mut sum = Default::default();
            for (&x, &y) in q.c[..=i].iter().zip(m.c[..=i].iter().rev()) {
                sum = k.mac(sum, x, y);
            }
            *x = k.sub(self.c[i], k.reduce(sum));
        }
        Poly::trimmed(c, d)
    }

    /// Divided by its leading coefficient.
    pub fn made_monic(&self, k: impl Field) -> Poly {
        if self.lead() == k.one() {
            *self
        } else {
            self.scale(k, k.inv(self.lead()))
        }
    }

    pub fn derivative(&self, k: impl Field) -> Poly {
        let mut c = [0; ROOM];
        for i in 1..self.len {
            c[i - 1] = k.mul(k.element(i as u64 % k.p()), self.c[i]);
        }
        Poly::trimmed(c, self.len.saturating_sub(1))
    }

    /// The monic greatest common divisor d of self and b, not both zero, with s and t: d = s·self + t·b.
    pub fn gcd(&self, k: impl Field, b: &Poly) -> (Poly, Poly, Poly) {
        let (mut r0, mut s0, mut t0) = (*self, Poly::one(k), Poly::ZERO);
        let (mut r1, mut s1, mut t1) = (*b, Poly::ZERO, Poly::one(k));
        while !r1.is_zero() {
            let scale = k.inv(r1.lead());
            r1 = r1.scale(k, scale);
            s1 = s1.scale(k, scale);
            t1 = t1.scale(k, scale);
            let q = r0.div(k, &r1);
            let (r, s, t) = (r0.rem(k, &r1), s0.sub(k, &q.mul(k, &s1)), t0.sub(k, &q.mul(k, &t1)));
            r0 = std::mem::replace(&mut r1, r);
            s0 = std::mem::replace(&mut s1, s);
            t0 = std::mem::replace(&mut t1, t);
        }
        let scale = k.inv(r0.lead());
        (r0.scale(k, scale), s0.scale(k, scale), t0.scale(k, scale))
    }
}

#[cfg(test)]
mod tests {
    use super::*;
    use crate::field::Small;

    /// All polynomials of degree below n over the field.
    fn all(k: Small, n: u32) -> impl Iterator<Item = Poly> {
        (0..k.p().pow(n)).map(move |mut x| {
            let mut c = Vec::new();
            for _ in 0..n {
                c.push(x % k.p());
                x /= k.p();
            }
            Poly::new(&c)
        })
    }

    #[test]
    fn division_gives_back_its_dividend() {
        let k = Small::new(3).unwrap();
        for a in all(k, 5) {
            for lower in all(k, 3) {
                for d in lower.len()..=3 {
                    let m = Poly::monic(k, &lower.c[..d]);
                    let (q, r) = (a.div(k, &m), a.rem(k, &m));
                    assert!(r.len() <= d);
                    assert_eq!(q.mul(k, &m).add(k, &r), a);
                }
            }
        }
    }

    #[test]
    fn gcd_divides_and_is_a_combination() {
        let k = Small::new(3).unwrap();
        for a in all(k, 4) {
            for b in all(k, 3) {
                if a.is_zero() && b.is_zero() {
                    continue;
                }
                let (d, s, t) = a.gcd(k, &b);
                assert_eq!(d.lead(), 1);
                assert!(a.rem(k, &d).is_zero() && b.rem(k, &d).is_zero());
                assert_eq!(s.mul(k, &a).add(k, &t.mul(k, &b)), d);
            }
        }
    }

    #[test]
    fn derivative_in_characteristic_p() {
        let k = Small::new(3).unwrap();
        assert_eq!(Poly::new(&[1, 2, 2, 1]).derivative(k), Poly::new(&[2, 1]));
        assert!(Poly::ZERO.derivative(k).is_zero());
    }
}
