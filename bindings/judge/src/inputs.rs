//! Seeded curves and divisors, the special ones well represented.

/// A small seeded generator (splitmix64).
pub struct Rng(u64);

impl Rng {
    pub fn new(seed: u64) -> Rng {
        Rng(seed)
    }

    pub fn next(&mut self) -> u64 {
        self.0 = self.0.wrapping_add(0x9e37_79b9_7f4a_7c15);
        let mut z = self.0;
        z = (z ^ (z >> 30)).wrapping_mul(0xbf58_476d_1ce4_e5b9);
        z = (z ^ (z >> 27)).wrapping_mul(0x94d0_49bb_1331_11eb);
        z ^ (z >> 31)
    }

    /// A number below n.
    pub fn below(&mut self, n: u64) -> u64 {
        ((self.next() as u128 * n as u128) >> 64) as u64
    }

    pub fn one_in(&mut self, n: u64) -> bool {
        self.below(n) == 0
    }

    pub fn pick<'a, T>(&mut self, from: &'a [T]) -> &'a T {
        &from[self.below(from.len() as u64) as usize]
    }

    pub fn bytes(&mut self, n: usize) -> Vec<u8> {
        (0..n).map(|_| self.next() as u8).collect()
    }

    /// A record, not empty, with one bit flipped.
    pub fn flip(&mut self, record: &[u8]) -> Vec<u8> {
        let mut changed = record.to_vec();
        let at = self.below(8 * record.len() as u64);
        changed[at as usize / 8] ^= 1 << (at % 8);
        changed
    }
}

/// Numbers modulo p, and polynomials as lists from the constant term up: as simple as can be, for making inputs only.
pub mod simple {
    pub fn mul(a: u64, b: u64, p: u64) -> u64 {
        (a as u128 * b as u128 % p as u128) as u64
    }

    pub fn pow(mut a: u64, mut n: u64, p: u64) -> u64 {
        let mut r = 1 % p;
        while n > 0 {
            if n & 1 == 1 {
                r = mul(r, a, p);
            }
            a = mul(a, a, p);
            n >>= 1;
        }
        r
    }

    /// A square root of a modulo an odd prime, by Tonelli and Shanks, if there is one.
    pub fn root(a: u64, p: u64) -> Option<u64> {
        if a == 0 {
            return Some(0);
        }
        if pow(a, (p - 1) / 2, p) != 1 {
            return None;
        }
        let twos = (p - 1).trailing_zeros();
        let odd = (p - 1) >> twos;
        let other = (2..p).find(|&z| pow(z, (p - 1) / 2, p) == p - 1)?;
        let (mut m, mut c) = (twos, pow(other, odd, p));
        let (mut t, mut r) = (pow(a, odd, p), pow(a, (odd + 1) / 2, p));
        while t != 1 {
            let mut square = t;
            let mut i = 0;
            while square != 1 {
                square = mul(square, square, p);
                i += 1;
            }
            let b = pow(c, 1 << (m - i - 1), p);
            m = i;
            c = mul(b, b, p);
            t = mul(t, c, p);
            r = mul(r, b, p);
        }
        Some(r)
    }

    /// The primes of a number that has at most one large one, rising.
    pub fn primes_of(n: u64) -> Vec<u64> {
        let (mut rest, mut primes) = (n, Vec::new());
        for q in 2.. {
            if q * q > rest {
                break;
            }
            if rest % q == 0 {
                primes.push(q);
            }
            while rest % q == 0 {
                rest /= q;
            }
        }
        if rest > 1 {
            primes.push(rest);
        }
        primes
    }

    pub fn value(f: &[u64], x: u64, p: u64) -> u64 {
        f.iter().rev().fold(0, |sum, &c| (mul(sum, x, p) + c) % p)
    }

    /// The product of two polynomials that aren't empty lists.
    pub fn product(a: &[u64], b: &[u64], p: u64) -> Vec<u64> {
        let mut c = vec![0; a.len() + b.len() - 1];
        for (i, &x) in a.iter().enumerate() {
            for (sum, &y) in c[i..].iter_mut().zip(b) {
                *sum = (*sum + mul(x, y, p)) % p;
            }
        }
        c
    }

    /// How many different roots a monic polynomial has in the field: the degree of its gcd with x^p - x.
    pub fn count_roots(u: &[u64], p: u64) -> usize {
        let degree = u.len() - 1;
        let reduced = |mut c: Vec<u64>| {
            while c.len() > degree {
                let top = c.pop().expect("a coefficient");
                let shift = c.len() - degree;
                for (i, &x) in u[..degree].iter().enumerate() {
                    c[i + shift] = (c[i + shift] + p - mul(top, x, p)) % p;
                }
            }
            c
        };
        if degree == 0 {
            return 0;
        }
        let mut power = vec![1];
        for i in (0..64).rev() {
            power = reduced(product(&power, &power, p));
            if p >> i & 1 == 1 {
                power = reduced(product(&power, &[0, 1], p));
            }
        }
        power.resize(degree.max(2), 0);
        power[1] = (power[1] + p - 1) % p;
        common_degree(u, &power, p)
    }

    /// The degree of the gcd of two polynomials, not both zero.
    pub fn common_degree(a: &[u64], b: &[u64], p: u64) -> usize {
        let trim = |v: &mut Vec<u64>| {
            while v.last() == Some(&0) {
                v.pop();
            }
        };
        let (mut a, mut b) = (a.to_vec(), b.to_vec());
        trim(&mut a);
        trim(&mut b);
        while !b.is_empty() {
            let inverse = pow(b[b.len() - 1], p - 2, p);
            while a.len() >= b.len() {
                let by = mul(a[a.len() - 1], inverse, p);
                let shift = a.len() - b.len();
                for (i, &c) in b.iter().enumerate() {
                    a[i + shift] = (a[i + shift] + p - mul(by, c, p)) % p;
                }
                trim(&mut a);
            }
            std::mem::swap(&mut a, &mut b);
        }
        a.len() - 1
    }

    /// Whether they share a factor of degree 1 or more.
    pub fn share_factor(a: &[u64], b: &[u64], p: u64) -> bool {
        common_degree(a, b, p) > 0
    }
}

/// What shows p prime in a record of version 2: a base, and the primes of p - 1.
#[derive(Clone, Debug)]
pub struct Witness {
    pub base: u64,
    pub primes: Vec<u64>,
}

impl Witness {
    /// The least base that does; p is an odd prime, and p - 1 has at most one prime that is large.
    pub fn of(p: u64) -> Witness {
        Witness { base: 2, primes: simple::primes_of(p - 1) }.with_a_good_base(p).expect("a prime has one")
    }

    /// The same primes with the least base that shows p prime, if it is below 300.
    pub fn with_a_good_base(self, p: u64) -> Option<Witness> {
        let power = |a, q| simple::pow(a, (p - 1) / q, p);
        let shows = |&a: &u64| power(a, 1) == 1 && self.primes.iter().all(|&q| power(a, q) != 1);
        (2..p.min(300)).find(shows).map(|base| Witness { base, ..self })
    }

    /// An odd number of any size up to 2^61 - 1, the primes of one less, and 2 for a base. Numbers that Fermat's test lets through are well
    /// represented.
    pub fn drawn(rng: &mut Rng) -> (u64, Witness) {
        loop {
            let most = 1 << (3 + rng.below(59));
            let (mut less, mut primes) = (2, vec![2]);
            while primes.len() < 15 {
                let q = *rng.pick(&[2, 2, 3, 5, 7, 11, 13, 17, 19, 23, 29, 31, 37, 41, 43, 47, 331, 1321, 65_537]);
                if less >= most / q {
                    break;
                }
                less *= q;
                primes.push(q);
            }
            primes.sort_unstable();
            primes.dedup();
            if rng.one_in(3) || simple::pow(2, less, less + 1) == 1 {
                return (less + 1, Witness { base: 2, primes });
            }
        }
    }
}

/// A curve record: of version 1, or with a witness of version 2.
pub fn curve_record(genus: u8, p: u64, f: &[u64], witness: Option<&Witness>) -> Vec<u8> {
    let mut bytes = vec![b'H', b'J', b'C', 0, if witness.is_some() { 2 } else { 1 }, genus];
    for number in std::iter::once(&p).chain(f) {
        bytes.extend_from_slice(&number.to_be_bytes());
    }
    if let Some(Witness { base, primes }) = witness {
        bytes.extend_from_slice(&base.to_be_bytes());
        bytes.push(primes.len() as u8);
        bytes.extend(primes.iter().flat_map(|q| q.to_be_bytes()));
    }
    bytes
}

pub fn divisor_record(u: &[u64], v: &[u64]) -> Vec<u8> {
    let mut bytes = vec![u.len() as u8];
    for number in u.iter().chain(v) {
        bytes.extend_from_slice(&number.to_be_bytes());
    }
    bytes
}

/// The numbers of a good divisor record: u without its leading 1, and v.
pub fn numbers_of(record: &[u8]) -> (Vec<u64>, Vec<u64>) {
    let numbers: Vec<u64> =
        record[1..].chunks_exact(8).map(|chunk| chunk.iter().fold(0, |n, &byte| n << 8 | u64::from(byte))).collect();
    let (u, v) = numbers.split_at(numbers.len() / 2);
    (u.to_vec(), v.to_vec())
}

/// What is special about two divisors that are added.
#[derive(Clone, Copy, Debug, PartialEq, Eq)]
pub struct Pair {
    pub shared_root: bool,
    pub opposite: bool,
    pub zero_y: bool,
    pub below_genus: bool,
}

/// What an explicit formula meets in a sum, f_2g aside: its main case, or why it must go another way.
#[derive(Clone, Copy, Debug, PartialEq, Eq, PartialOrd, Ord)]
pub enum Class {
    Main,
    /// A weight below g.
    Light,
    /// u1 and u2 share a factor of this degree; of a double, u and v.
    Shared(usize),
    /// None of these, and a result of weight below g: the slope s has a lower degree than g - 1.
    Low,
}

/// A curve, and divisors on it.
pub struct Sample {
    pub genus: usize,
    pub p: u64,
    pub f: Vec<u64>,
    /// In a record of version 2.
    pub witness: Option<Witness>,
    pub curve: Vec<u8>,
    /// Good divisor records: the neutral one first, then points, points with y = 0, opposites, sums and multiples.
    pub pool: Vec<Vec<u8>>,
}

/// Where a prime is this small, all divisors of weight 2 are looked at.
const SMALL: u64 = 13;

/// The largest prime of version 1.
const VERSION_1: u64 = 2_147_483_647;

impl Sample {
    /// A curve of this genus and prime with its pool; f_2g = 0 one time in three. Its record is of version 2 where version 1 doesn't have the
    /// prime, and one time in three where it does.
    pub fn new(rng: &mut Rng, genus: usize, p: u64) -> Sample {
        Sample::drawn(rng, genus, p, |rng, f_2g| if rng.one_in(3) { 0 } else { f_2g })
    }

    /// The same, f_2g = 0 or not as asked.
    pub fn with_f_2g(rng: &mut Rng, genus: usize, p: u64, set: bool) -> Sample {
        Sample::drawn(rng, genus, p, |rng, _| if set { 1 + rng.below(p - 1) } else { 0 })
    }

    fn drawn(rng: &mut Rng, genus: usize, p: u64, f_2g: impl Fn(&mut Rng, u64) -> u64) -> Sample {
        loop {
            let mut f: Vec<u64> = (0..=2 * genus).map(|_| rng.below(p)).collect();
            f[2 * genus] = f_2g(rng, f[2 * genus]);
            // On most curves f_0 moves so that some x is a root: a point with y = 0.
            let zero = rng.below(p);
            if !rng.one_in(4) {
                f[0] = (f[0] + p - monic_value(&f, zero, p)) % p;
            }
            let witness = if p > VERSION_1 || rng.one_in(3) { Some(Witness::of(p)) } else { None };
            let curve = curve_record(genus as u8, p, &f, witness.as_ref());
            if plain::check_curve(&curve).number == 0 {
                let mut sample = Sample { genus, p, f, witness, curve, pool: vec![vec![0]] };
                sample.fill(rng, zero);
                return sample;
            }
        }
    }

    fn fill(&mut self, rng: &mut Rng, zero: u64) {
        let p = self.p;
        let mut candidates = vec![zero];
        if p <= SMALL {
            candidates.extend((0..p).filter(|&x| x != zero));
        } else {
            candidates.extend((0..24).map(|_| rng.below(p)));
        }
        for x in candidates {
            if let Some(y) = simple::root(monic_value(&self.f, x, p), p) {
                let y = if rng.one_in(2) { y } else { (p - y) % p };
                self.pool.push(divisor_record(&[(p - x) % p], &[y]));
            }
        }
        self.pool.truncate(8);
        if p <= SMALL {
            for _ in 0..200 {
                let n: Vec<u64> = (0..4).map(|_| rng.below(p)).collect();
                let record = divisor_record(&n[..2], &n[2..]);
                if self.pool.len() < 16 && plain::check_divisor(&self.curve, &record).number == 0 {
                    self.pool.push(record);
                }
            }
        }
        for _ in 0..8 {
            let a = self.any(rng).to_vec();
            self.pool.push(self.opposite(&a));
        }
        for _ in 0..24 {
            let (a, b) = (self.any(rng).to_vec(), self.any(rng).to_vec());
            self.pool.push(self.sum(&a, &b));
        }
        for _ in 0..8 {
            let (a, scalar) = (self.any(rng).to_vec(), rng.next().to_be_bytes());
            let multiple = written(|out| plain::multiply(&self.curve, &a, &scalar, out).length);
            // A neutral one is refused, and goes in all the same.
            self.pool.push(if multiple.is_empty() { vec![0] } else { multiple });
        }
    }

    /// One of the pool.
    pub fn any<'a>(&'a self, rng: &mut Rng) -> &'a [u8] {
        rng.pick::<Vec<u8>>(&self.pool)
    }

    /// The order of a good record, counted out by sums, where the curve is small enough for that.
    pub fn order(&self, a: &[u8]) -> Option<u64> {
        let (mut total, mut order) = (a.to_vec(), 1);
        while self.p <= SMALL && total.len() > 1 {
            total = self.sum(&total, a);
            order += 1;
        }
        Some(order).filter(|_| self.p <= SMALL)
    }

    /// The plain sum of two good records.
    pub fn sum(&self, a: &[u8], b: &[u8]) -> Vec<u8> {
        written(|out| plain::add(&self.curve, a, b, out).length)
    }

    pub fn opposite(&self, a: &[u8]) -> Vec<u8> {
        written(|out| plain::opposite(&self.curve, a, out).length)
    }

    /// An f with a double root: its coefficients without the leading 1.
    pub fn with_double_root(&self, rng: &mut Rng) -> Vec<u64> {
        let (p, r) = (self.p, rng.below(self.p));
        // (x - r)² times something monic of degree 2g - 1, one factor after the other.
        let mut f: Vec<u64> = (0..2 * self.genus - 1).map(|_| rng.below(p)).collect();
        f.push(1);
        for _ in 0..2 {
            f.insert(0, 0);
            for i in 0..f.len() - 1 {
                f[i] = (f[i] + p - simple::mul(r, f[i + 1], p)) % p;
            }
        }
        f.truncate(2 * self.genus + 1);
        f
    }

    /// Whether all records up to the genus's weight can be tried.
    pub fn is_small(&self) -> bool {
        self.p.checked_pow(2 * self.genus as u32).map_or(false, |records| records < 20_000)
    }

    pub fn f_2g_is_set(&self) -> bool {
        self.f[2 * self.genus] != 0
    }

    /// What is special about a pair of good records.
    pub fn pair(&self, a: &[u8], b: &[u8]) -> Pair {
        let ((mut u1, v1), (mut u2, v2)) = (numbers_of(a), numbers_of(b));
        let opposite = u1 == u2 && !u1.is_empty() && v1.iter().zip(&v2).all(|(x, y)| (x + y) % self.p == 0);
        u1.push(1);
        u2.push(1);
        Pair {
            shared_root: simple::share_factor(&u1, &u2, self.p),
            opposite,
            zero_y: simple::share_factor(&u1, &v1, self.p) || simple::share_factor(&u2, &v2, self.p),
            below_genus: u1.len() <= self.genus || u2.len() <= self.genus,
        }
    }
}

impl Sample {
    /// What a formula meets in the sum of two good records, or in a double where the second is left out.
    pub fn class(&self, a: &[u8], b: Option<&[u8]>) -> Class {
        let ((mut u1, v1), (mut u2, _)) = (numbers_of(a), numbers_of(b.unwrap_or(a)));
        if u1.len() < self.genus || u2.len() < self.genus {
            return Class::Light;
        }
        u1.push(1);
        u2.push(1);
        let common = simple::common_degree(&u1, if b.is_some() { &u2 } else { &v1 }, self.p);
        if common > 0 {
            Class::Shared(common)
        } else if usize::from(self.sum(a, b.unwrap_or(a))[0]) < self.genus {
            Class::Low
        } else {
            Class::Main
        }
    }
}

/// f(x) with f's leading 1.
fn monic_value(f: &[u64], x: u64, p: u64) -> u64 {
    (simple::value(f, x, p) + simple::pow(x, f.len() as u64, p)) % p
}

/// What a call writes to an output that always suffices.
fn written(call: impl FnOnce(&mut [u8]) -> u64) -> Vec<u8> {
    let mut out = [0; 49];
    let length = call(&mut out) as usize;
    out[..length].to_vec()
}

/// The neutral divisor, then all of each weight: a brute search.
pub fn every_divisor(sample: &Sample) -> Vec<Vec<u8>> {
    let p = sample.p;
    let mut found = Vec::new();
    for weight in 0..=sample.genus {
        for k in 0..p.pow(2 * weight as u32) {
            let numbers: Vec<u64> = (0..2 * weight as u32).map(|i| k / p.pow(i) % p).collect();
            let record = divisor_record(&numbers[..weight], &numbers[weight..]);
            if plain::check_divisor(&sample.curve, &record).number == 0 {
                found.push(record);
            }
        }
    }
    found
}

#[cfg(test)]
mod tests {
    use super::*;

    /// y² = x^5 + 1 modulo 7 has 50 divisors.
    #[test]
    fn every_divisor_is_found() {
        let (f, curve) = (vec![1, 0, 0, 0, 0], curve_record(2, 7, &[1, 0, 0, 0, 0], None));
        let sample = Sample { genus: 2, p: 7, f, witness: None, curve, pool: Vec::new() };
        let found = every_divisor(&sample);
        assert_eq!((found.len(), &found[0]), (50, &vec![0]));
    }

    /// Every polynomial of degree 1 to 3 over small fields.
    #[test]
    fn roots_are_counted() {
        for (p, degree) in [3u64, 5, 7].into_iter().flat_map(|p| (1..4).map(move |degree| (p, degree))) {
            for k in 0..p.pow(degree) {
                let mut u: Vec<u64> = (0..degree).map(|i| k / p.pow(i) % p).collect();
                u.push(1);
                let wanted = (0..p).filter(|&x| simple::value(&u, x, p) == 0).count();
                assert_eq!(simple::count_roots(&u, p), wanted, "{} {:?}", p, u);
            }
        }
    }
}
