//! The field of p elements, p odd and at most 2^61 - 1, twice: as a programmer writes it down, and by Montgomery's products.

/// A field's arithmetic. Elements are numbers below p in a form of the field's own.
pub trait Field: Copy {
    fn new(p: u64) -> Self;
    fn p(self) -> u64;
    fn one(self) -> u64;
    /// A number below p as an element, and back.
    fn enter(self, x: u64) -> u64;
    fn leave(self, x: u64) -> u64;
    fn mul(self, a: u64, b: u64) -> u64;
    /// Of an element other than 0.
    fn invert(self, a: u64) -> u64;

    #[inline(always)]
    fn add(self, a: u64, b: u64) -> u64 {
        let s = a + b;
        s.min(s.wrapping_sub(self.p()))
    }

    #[inline(always)]
    fn sub(self, a: u64, b: u64) -> u64 {
        let d = a.wrapping_sub(b);
        d.min(d.wrapping_add(self.p()))
    }

    #[inline(always)]
    fn neg(self, a: u64) -> u64 {
        if a == 0 {
            0
        } else {
            self.p() - a
        }
    }

    #[inline(always)]
    fn half(self, a: u64) -> u64 {
        if a & 1 == 1 {
            (a + self.p()) >> 1
        } else {
            a >> 1
        }
    }

    fn power(self, base: u64, mut exponent: u64) -> u64 {
        let (mut result, mut square) = (self.one(), base);
        while exponent != 0 {
            if exponent & 1 == 1 {
                result = self.mul(result, square);
            }
            square = self.mul(square, square);
            exponent >>= 1;
        }
        result
    }
}

/// 1/a modulo p by Euclid, on numbers of 64 bits.
#[inline(always)]
fn euclid(p: u64, a: u64) -> u64 {
    let (mut r0, mut r1) = (p, a);
    let (mut t0, mut t1) = (0i64, 1i64);
    while r1 > 1 {
        let q = r0 / r1;
        (r0, r1) = (r1, r0 - q * r1);
        (t0, t1) = (t1, t0 - q as i64 * t1);
    }
    if t1 < 0 {
        (t1 + p as i64) as u64
    } else {
        t1 as u64
    }
}

/// Products of 128 bits and their remainder.
#[derive(Clone, Copy)]
pub struct Remainder {
    p: u64,
}

impl Field for Remainder {
    fn new(p: u64) -> Self {
        Remainder { p }
    }

    #[inline(always)]
    fn p(self) -> u64 {
        self.p
    }

    fn one(self) -> u64 {
        1
    }

    fn enter(self, x: u64) -> u64 {
        x
    }

    fn leave(self, x: u64) -> u64 {
        x
    }

    #[inline(always)]
    fn mul(self, a: u64, b: u64) -> u64 {
        (u128::from(a) * u128::from(b) % u128::from(self.p)) as u64
    }

    fn invert(self, a: u64) -> u64 {
        euclid(self.p, a)
    }
}

/// x is held as x·R, R = 2^64.
#[derive(Clone, Copy)]
pub struct Montgomery {
    p: u64,
    /// 1/p modulo R.
    inverse: u64,
    one: u64,
    r2: u64,
    r3: u64,
}

impl Montgomery {
    #[inline(always)]
    fn reduce(self, t: u128) -> u64 {
        let m = (t as u64).wrapping_mul(self.inverse);
        let k = ((u128::from(m) * u128::from(self.p)) >> 64) as u64;
        let (d, below) = ((t >> 64) as u64).overflowing_sub(k);
        if below {
            d.wrapping_add(self.p)
        } else {
            d
        }
    }
}

impl Field for Montgomery {
    fn new(p: u64) -> Self {
        let mut inverse = p;
        for _ in 0..5 {
            inverse = inverse.wrapping_mul(2u64.wrapping_sub(p.wrapping_mul(inverse)));
        }
        let times = |a: u64, b: u64| (u128::from(a) * u128::from(b) % u128::from(p)) as u64;
        let one = ((1u128 << 64) % u128::from(p)) as u64;
        let r2 = times(one, one);
        Montgomery { p, inverse, one, r2, r3: times(one, r2) }
    }

    #[inline(always)]
    fn p(self) -> u64 {
        self.p
    }

    #[inline(always)]
    fn one(self) -> u64 {
        self.one
    }

    #[inline(always)]
    fn enter(self, x: u64) -> u64 {
        self.mul(x, self.r2)
    }

    #[inline(always)]
    fn leave(self, x: u64) -> u64 {
        self.reduce(u128::from(x))
    }

    #[inline(always)]
    fn mul(self, a: u64, b: u64) -> u64 {
        self.reduce(u128::from(a) * u128::from(b))
    }

    fn invert(self, a: u64) -> u64 {
        self.mul(euclid(self.p, a), self.r3)
    }
}
