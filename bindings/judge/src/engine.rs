//! One call as data, and the engines that answer it.

use plain::Running;

/// A call with the bytes lent to it. The output is lent beside it.
#[derive(Clone, Copy, Debug)]
pub enum Call<'a> {
    CheckCurve { curve: &'a [u8] },
    CheckDivisor { curve: &'a [u8], divisor: &'a [u8] },
    RewriteCurve { curve: &'a [u8] },
    RewriteDivisor { curve: &'a [u8], divisor: &'a [u8] },
    Add { curve: &'a [u8], a: &'a [u8], b: &'a [u8] },
    Double { curve: &'a [u8], a: &'a [u8] },
    Opposite { curve: &'a [u8], a: &'a [u8] },
    Split { curve: &'a [u8], divisor: &'a [u8] },
    Multiply { curve: &'a [u8], a: &'a [u8], scalar: &'a [u8] },
    MultiplyInversionFree { curve: &'a [u8], a: &'a [u8], scalar: &'a [u8] },
    CheckOrder { curve: &'a [u8], divisor: &'a [u8], order: &'a [u8], primes: &'a [u8] },
    NextDivisor { curve: &'a [u8], divisor: &'a [u8] },
    TotalBatch { curve: &'a [u8], batch: &'a [u8] },
    FirstRepeat { curve: &'a [u8], batch: &'a [u8] },
    FreshTotal { pole: u32 },
    Scan { total: Running, curve: &'a [u8], scan: &'a [u8] },
    ScanLent { total: Running, curve: &'a [u8], scan: &'a [u8] },
    WritePoleFile { pole: u32, curve: &'a [u8], batch: &'a [u8] },
    ReadPoleFile { file: &'a [u8] },
}

/// What came back.
#[derive(Clone, Copy, Debug, Default, PartialEq, Eq)]
pub struct Reply {
    /// Number, place and length; zeros for a fresh total, which has none.
    pub number: u64,
    pub place: u64,
    pub length: u64,
    /// The other numbers of the answer in their order: doublings and additions, the count, first and second, or the pole.
    pub counts: [u64; 2],
    /// The running total as it stands after the call.
    pub total: Running,
}

impl Call<'_> {
    /// Whether the call writes to an output.
    pub fn has_output(&self) -> bool {
        use Call::*;
        !matches!(
            self,
            CheckCurve { .. }
                | CheckDivisor { .. }
                | CheckOrder { .. }
                | FirstRepeat { .. }
                | FreshTotal { .. }
                | Scan { .. }
                | ScanLent { .. }
        )
    }

    /// The call that must answer the same on the same bytes, where there is one.
    pub fn twin(&self) -> Option<Self> {
        match *self {
            Call::Multiply { curve, a, scalar } => Some(Call::MultiplyInversionFree { curve, a, scalar }),
            _ => None,
        }
    }

    /// The running total that went in; a fresh one where there is none.
    pub fn total_before(&self) -> Running {
        match *self {
            Call::Scan { total, .. } | Call::ScanLent { total, .. } => total,
            _ => Running::default(),
        }
    }
}

/// Something that answers calls.
pub trait Engine {
    fn name(&self) -> &'static str;
    fn answer(&self, call: &Call, out: &mut [u8]) -> Reply;
}

/// The common part of an answer, with its counts where it has some.
macro_rules! reply {
    ($answer:expr) => {
        reply!($answer, [])
    };
    ($answer:expr, [$($count:ident),*]) => {{
        let answer = $answer;
        let mut counts = [0; 2];
        for (to, from) in counts.iter_mut().zip(&[$(u64::from(answer.$count)),*] as &[u64]) {
            *to = *from;
        }
        Reply { number: answer.number, place: answer.place, length: answer.length, counts, total: Running::default() }
    }};
}

/// Answers a call through a module that has all of them; `$flat` and `$back` turn its running total into [`Running`] and
/// back.
macro_rules! answer_through {
    ($calls:path, $call:expr, $out:expr, $flat:expr, $back:expr) => {{
        use $calls as calls;
        match *$call {
            Call::CheckCurve { curve } => reply!(calls::check_curve(curve)),
            Call::CheckDivisor { curve, divisor } => reply!(calls::check_divisor(curve, divisor)),
            Call::RewriteCurve { curve } => reply!(calls::rewrite_curve(curve, $out)),
            Call::RewriteDivisor { curve, divisor } => reply!(calls::rewrite_divisor(curve, divisor, $out)),
            Call::Add { curve, a, b } => reply!(calls::add(curve, a, b, $out)),
            Call::Double { curve, a } => reply!(calls::double(curve, a, $out)),
            Call::Opposite { curve, a } => reply!(calls::opposite(curve, a, $out)),
            Call::Split { curve, divisor } => reply!(calls::split(curve, divisor, $out)),
            Call::Multiply { curve, a, scalar } => {
                reply!(calls::multiply(curve, a, scalar, $out), [doublings, additions])
            }
            Call::MultiplyInversionFree { curve, a, scalar } => {
                reply!(calls::multiply_inversion_free(curve, a, scalar, $out), [doublings, additions])
            }
            Call::CheckOrder { curve, divisor, order, primes } => {
                reply!(calls::check_order(curve, divisor, order, primes))
            }
            Call::NextDivisor { curve, divisor } => reply!(calls::next_divisor(curve, divisor, $out)),
            Call::TotalBatch { curve, batch } => reply!(calls::total_batch(curve, batch, $out), [count]),
            Call::FirstRepeat { curve, batch } => reply!(calls::first_repeat(curve, batch), [first, second]),
            Call::FreshTotal { pole } => Reply { total: $flat(calls::fresh_total(pole)), ..Reply::default() },
            Call::Scan { total, curve, scan } => {
                let answer = calls::scan($back(total), curve, scan);
                Reply { total: $flat(answer.total), ..reply!(answer) }
            }
            Call::ScanLent { total, curve, scan } => {
                let mut lent = $back(total);
                let answer = calls::scan_lent(&mut lent, curve, scan);
                Reply { total: $flat(lent), ..reply!(answer) }
            }
            Call::WritePoleFile { pole, curve, batch } => reply!(calls::write_pole_file(pole, curve, batch, $out)),
            Call::ReadPoleFile { file } => reply!(calls::read_pole_file(file, $out), [pole]),
        }
    }};
}

/// The plain implementation.
pub struct Plain;

impl Engine for Plain {
    fn name(&self) -> &'static str {
        "plain"
    }

    fn answer(&self, call: &Call, out: &mut [u8]) -> Reply {
        let same = |total: Running| total;
        answer_through!(plain, call, out, same, same)
    }
}

/// The proved library.
#[cfg(feature = "proved")]
pub struct Proved;

#[cfg(feature = "proved")]
impl Engine for Proved {
    fn name(&self) -> &'static str {
        "proved"
    }

    fn answer(&self, call: &Call, out: &mut [u8]) -> Reply {
        use yubisorade::raw::YubiRunning;
        let flat = |t: YubiRunning| {
            let YubiRunning { weight, u0, u1, u2, v0, v1, v2, count, pole } = t;
            Running { weight, u0, u1, u2, v0, v1, v2, count, pole }
        };
        let back = |t: Running| {
            let Running { weight, u0, u1, u2, v0, v1, v2, count, pole } = t;
            YubiRunning { weight, u0, u1, u2, v0, v1, v2, count, pole }
        };
        answer_through!(yubisorade::raw, call, out, flat, back)
    }
}

/// The plain engine with something wrong, for trying the judge.
#[cfg(test)]
pub struct Wrong<F: Fn(&Call, &mut [u8], &mut Reply)>(pub F);

#[cfg(test)]
impl<F: Fn(&Call, &mut [u8], &mut Reply)> Engine for Wrong<F> {
    fn name(&self) -> &'static str {
        "wrong"
    }

    fn answer(&self, call: &Call, out: &mut [u8]) -> Reply {
        let mut reply = Plain.answer(call, out);
        (self.0)(call, out, &mut reply);
        reply
    }
}
