//! The strongest plain Rust: divisors of weight g by the explicit formulae, over Montgomery's products of 128 bits. Whatever a formula does
//! not answer (a smaller weight, a common root, a vanishing leading coefficient) goes to Cantor's sum.

use crate::cantor;
use crate::field::{Field, Montgomery};
use crate::record::{Curve, Divisor, Engine};
use crate::{three, two};

/// An element of the field, with its arithmetic as methods: formulae are chains of them.
#[derive(Clone, Copy)]
pub struct Residue(pub u64);

impl Residue {
    #[inline(always)]
    pub fn add(self, other: Residue, m: Montgomery) -> Residue {
        Residue(m.add(self.0, other.0))
    }

    #[inline(always)]
    pub fn sub(self, other: Residue, m: Montgomery) -> Residue {
        Residue(m.sub(self.0, other.0))
    }

    #[inline(always)]
    pub fn mul(self, other: Residue, m: Montgomery) -> Residue {
        Residue(m.mul(self.0, other.0))
    }

    #[inline(always)]
    pub fn square(self, m: Montgomery) -> Residue {
        Residue(m.mul(self.0, self.0))
    }

    #[inline(always)]
    pub fn neg(self, m: Montgomery) -> Residue {
        Residue(m.neg(self.0))
    }

    #[inline(always)]
    pub fn twice(self, m: Montgomery) -> Residue {
        Residue(m.add(self.0, self.0))
    }

    #[inline(always)]
    pub fn half(self, m: Montgomery) -> Residue {
        Residue(m.half(self.0))
    }

    #[inline(always)]
    pub fn is_zero(self) -> bool {
        self.0 == 0
    }

    /// 1/self, unless self is 0.
    #[inline(always)]
    pub fn inverse(self, m: Montgomery) -> Option<Residue> {
        if self.is_zero() {
            None
        } else {
            Some(Residue(m.invert(self.0)))
        }
    }
}

/// A divisor of weight 2: u = x² + u1·x + u0, v = v1·x + v0.
#[derive(Clone, Copy)]
pub struct Quadratic {
    pub u0: Residue,
    pub u1: Residue,
    pub v0: Residue,
    pub v1: Residue,
}

/// A divisor of weight 3.
#[derive(Clone, Copy)]
pub struct Cubic {
    pub u0: Residue,
    pub u1: Residue,
    pub u2: Residue,
    pub v0: Residue,
    pub v1: Residue,
    pub v2: Residue,
}

fn quadratic(d: &Divisor) -> Quadratic {
    let ([u0, u1, _], [v0, v1, _]) = (d.u.map(Residue), d.v.map(Residue));
    Quadratic { u0, u1, v0, v1 }
}

fn from_quadratic(d: Quadratic) -> Divisor {
    Divisor { weight: 2, u: [d.u0.0, d.u1.0, 0], v: [d.v0.0, d.v1.0, 0] }
}

fn cubic(d: &Divisor) -> Cubic {
    let ([u0, u1, u2], [v0, v1, v2]) = (d.u.map(Residue), d.v.map(Residue));
    Cubic { u0, u1, u2, v0, v1, v2 }
}

fn from_cubic(d: Cubic) -> Divisor {
    Divisor { weight: 3, u: [d.u0.0, d.u1.0, d.u2.0], v: [d.v0.0, d.v1.0, d.v2.0] }
}

pub struct Formulae;

impl Engine for Formulae {
    type F = Montgomery;

    fn add(c: &Curve<Montgomery>, a: &Divisor, b: &Divisor) -> Divisor {
        let f = c.f.map(Residue);
        match (c.genus, a.weight, b.weight) {
            (_, 0, _) => Some(*b),
            (_, _, 0) => Some(*a),
            (2, 2, 2) => two::add(quadratic(a), quadratic(b), &f, c.field).map(from_quadratic),
            (3, 3, 3) => three::add(cubic(a), cubic(b), &f, c.field).map(from_cubic),
            _ => None,
        }
        .unwrap_or_else(|| cantor::sum(c, a, b))
    }

    fn double(c: &Curve<Montgomery>, a: &Divisor) -> Divisor {
        let f = c.f.map(Residue);
        match (c.genus, a.weight) {
            (_, 0) => Some(*a),
            (2, 2) => two::double(quadratic(a), &f, c.field).map(from_quadratic),
            (3, 3) => three::double(cubic(a), &f, c.field).map(from_cubic),
            _ => None,
        }
        .unwrap_or_else(|| cantor::sum(c, a, a))
    }

    fn contains(c: &Curve<Montgomery>, a: &Divisor) -> bool {
        let f = c.f.map(Residue);
        match (c.genus, a.weight) {
            (2, 2) => two::contains(quadratic(a), &f, c.field),
            (3, 3) => three::contains(cubic(a), &f, c.field),
            _ => cantor::divides(c, a),
        }
    }
}
