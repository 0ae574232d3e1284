//! Why a call was refused.

use core::fmt;

/// From rows of number, name, cause and advice, a row a refusal: the enum, and what each of its cases says.
macro_rules! refusals {
    ($($number:literal $name:ident $({ $place:ident })? $cause:literal $advice:literal)*) => {
        /// A refusal: its number, the place of the divisor at fault where one is, and words for the log and for the crew.
        ///
        /// Number, cause and advice are those of `include/numbers.txt`, and a test holds them to it. More numbers may come:
        /// a number that this crate doesn't know is [`Refusal::Other`].
        #[derive(Clone, Copy, Debug, PartialEq, Eq, Hash)]
        #[non_exhaustive]
        pub enum Refusal {
            $(
                #[doc = concat!(stringify!($number), ": ", $cause, ".")]
                $name $({
                    /// Which divisor record is at fault, from 1.
                    $place: u64
                })?,
            )*
            /// A number that isn't in this crate's table, with its place: the library is newer than the crate.
            Other {
                /// The number answered.
                number: u64,
                /// The place answered.
                place: u64,
            },
        }

        impl Refusal {
            /// What a number and a place say: nothing for 0.
            pub(crate) fn check(number: u64, place: u64) -> Result<(), Refusal> {
                match number {
                    0 => Ok(()),
                    $($number => Err(Refusal::$name $({ $place: place })?),)*
                    _ => Err(Refusal::Other { number, place }),
                }
            }

            /// The number, as in `include/numbers.txt`.
            #[must_use]
            pub const fn number(self) -> u64 {
                match self {
                    $(Refusal::$name $({ $place: _ })? => $number,)*
                    Refusal::Other { number, .. } => number,
                }
            }

            /// When the number is given, in the table's words.
            #[must_use]
            pub const fn words(self) -> &'static str {
                match self {
                    $(Refusal::$name $({ $place: _ })? => $cause,)*
                    Refusal::Other { .. } => "a number that this version doesn't know",
                }
            }

            /// What a crew should do, in the table's words.
            ///
            /// ```
            /// let refusal = yubisorade::Curve::read(b"JPEG\x00\x10").unwrap_err();
            /// assert_eq!(refusal.advice(), "load the right file: this one isn't a curve");
            /// ```
            #[must_use]
            pub const fn advice(self) -> &'static str {
                match self {
                    $(Refusal::$name $({ $place: _ })? => $advice,)*
                    Refusal::Other { .. } => "ask the office for a newer tablet, and report the number",
                }
            }
        }
    };
}

refusals! {
    1 CurveLength
        "the curve record is shorter than 6 bytes, or isn't 54 or 70 bytes as its g says; in version 2, ends before k, or isn't \
         63 + 8k or 79 + 8k bytes"
        "load the curve file again: it is cut, or something was added to it"
    2 CurveMark
        "the mark isn't HJC"
        "load the right file: this one isn't a curve"
    3 CurveVersion
        "the version isn't 1 or 2"
        "ask for a curve in version 1 or 2, or for a newer tablet"
    4 Genus
        "g isn't 2 or 3"
        "report the curve to the office: wrong genus"
    5 Prime
        "p isn't an odd prime from 3 to 2147483647; in version 2, p is even, below 3 or above 2^61 - 1"
        "report the curve to the office: wrong prime"
    6 CurveCoefficient
        "some f_i is p or more"
        "report the curve to the office: damaged or wrongly made"
    7 RepeatedFactor
        "f has a repeated factor"
        "report the curve to the office: unfit for meters"
    8 DivisorLength { place }
        "a divisor record is empty, or not 1 + 16w bytes (in a batch: fewer bytes remain); a scan has under 4 bytes"
        "scan that meter again: the record is cut, or too long"
    9 Weight { place }
        "the weight w is above g"
        "check that meter and curve belong together; scan again"
    10 DivisorCoefficient { place }
        "some u_i or v_i is p or more"
        "check that meter and curve belong together; scan again"
    11 NotOnCurve { place }
        "u doesn't divide f - v^2"
        "scan again; if it stays, the meter isn't on this curve: leave it out and report it"
    12 ScalarLength
        "the scalar or the order has more than 32 bytes"
        "mend the caller: a scalar or an order has at most 256 bits"
    13 OutputLength
        "the output is shorter than the result"
        "mend the caller: lend as many bytes as the longest result has"
    14 Full
        "a batch goes on after 4096 good records, or a running total already holds 4096"
        "close this list and begin a new one"
    15 RunningTotal
        "a running total's divisor has a number of p or more, or isn't valid on this curve, or its count is over 4096 (here \
         also: weight above g, or an unused coefficient that isn't 0)"
        "begin the list again with a fresh total: this one is damaged, or the curve was changed under it"
    18 Witness
        "in version 2: k isn't 1 to 15, or the witness doesn't show p prime, whatever p is"
        "don't use the curve: p isn't shown to be prime. Load the curve file again; if it stays, ask the office for a curve \
         with a right witness"
    19 EmptyKey
        "in yubi_multiply and yubi_multiply_inversion_free: the divisor given or its multiple is neutral"
        "don't commission the meter: its key would be empty. Ask the office for a new key"
    20 OtherPole
        "in a scan: it is for another pole than the total"
        "scan it again for its own pole: the total stays as it was"
    21 PoleFileMark
        "in a pole file: the mark isn't HJP"
        "load the right file: this one isn't a pole's"
    22 PoleFileVersion
        "in a pole file: the version isn't 1"
        "ask for a pole file in version 1, or for a newer tablet"
    23 PoleFileLength
        "in a pole file: it is shorter than 9 bytes, ends before the count or before the last record that the count says, goes \
         on behind that one, or the count is over 4096"
        "load the pole file again: it is cut, or something was added to it"
    24 LastDivisor
        "in yubi_next_divisor: the divisor given is the last"
        "go on: the census is complete"
    25 NotForTraining
        "in yubi_next_divisor: p is above 13"
        "take a training curve, with p of 13 or less"
    26 NoRoot
        "in yubi_split: the divisor's weight is below 2, or u has no root modulo p"
        "keep that divisor whole: it can't be split, and nothing is wrong with the meter"
    27 NotTheOrder
        "in yubi_check_order: the order isn't shown to be the divisor's: it is 0, or not made up of powers of just the listed \
         primes, or its multiple isn't neutral, or that of a q-th of it is, q listed; or the list isn't whole, too long, not \
         rising, or has a number that is no prime below 2^31 or doesn't divide the order"
        "don't rely on that order. Load order and list again; if it stays, ask the office for the key's order"
}

impl Refusal {
    /// The place of the divisor at fault, from 1, or 0 where no divisor record is.
    #[must_use]
    pub const fn place(self) -> u64 {
        match self {
            Refusal::DivisorLength { place }
            | Refusal::Weight { place }
            | Refusal::DivisorCoefficient { place }
            | Refusal::NotOnCurve { place }
            | Refusal::Other { place, .. } => place,
            _ => 0,
        }
    }
}

/// The program's line `refused NUMBER PLACE`, then the cause.
impl fmt::Display for Refusal {
    fn fmt(&self, f: &mut fmt::Formatter<'_>) -> fmt::Result {
        write!(f, "refused {} {}: {}", self.number(), self.place(), self.words())
    }
}

#[cfg(feature = "std")]
impl std::error::Error for Refusal {}

#[cfg(test)]
mod tests {
    use super::*;
    use std::format;
    use std::string::String;
    use std::vec::Vec;

    const TABLE: &str = include_str!("../../../include/numbers.txt");

    /// The table's rows that a call can answer: number, name, cause, advice. 0 is done, 16 and 17 are the programs'.
    fn rows() -> Vec<(u64, &'static str, &'static str, &'static str)> {
        TABLE
            .lines()
            .filter(|line| !line.starts_with('#'))
            .map(|line| line.split('|').collect::<Vec<_>>())
            .map(|cells| (cells[0].parse().expect("a number"), cells[1], cells[2], cells[3]))
            .filter(|(number, ..)| ![0, 16, 17].contains(number))
            .collect()
    }

    /// `NOT_ON_CURVE` as `NotOnCurve`.
    fn in_rust(name: &str) -> String {
        let words = name.split('_').map(|word| format!("{}{}", &word[..1], word[1..].to_lowercase()));
        words.collect()
    }

    #[test]
    fn every_row_of_the_table_is_a_refusal() {
        let numbers: Vec<u64> = rows().iter().map(|row| row.0).collect();
        assert_eq!(numbers, (1..=15).chain(18..=27).collect::<Vec<_>>());
        for (number, name, cause, advice) in rows() {
            let place = if (8..=11).contains(&number) { 7 } else { 0 };
            let refusal = Refusal::check(number, place).unwrap_err();
            let shown = format!("{:?}", refusal);
            assert_eq!(shown.split(' ').next(), Some(&in_rust(name)[..]));
            assert_eq!((refusal.number(), refusal.place()), (number, place));
            assert_eq!((refusal.words(), refusal.advice()), (cause, advice));
            assert_eq!(format!("{}", refusal), format!("refused {} {}: {}", number, place, cause));
        }
    }

    #[test]
    fn done_is_no_refusal_and_a_number_that_is_unknown_is_another() {
        assert_eq!(Refusal::check(0, 0), Ok(()));
        for number in [16, 17, 28, u64::MAX] {
            let refusal = Refusal::check(number, 3).unwrap_err();
            assert_eq!(refusal, Refusal::Other { number, place: 3 });
            assert_eq!((refusal.number(), refusal.place()), (number, 3));
            assert!(format!("{}", refusal).starts_with(&format!("refused {} 3: ", number)));
            assert!(!refusal.advice().is_empty());
        }
    }

    #[test]
    #[cfg(feature = "std")]
    fn a_refusal_is_an_error() {
        let error: std::boxed::Box<dyn std::error::Error> = Refusal::Genus.into();
        assert_eq!(format!("{}", error), "refused 4 0: g isn't 2 or 3");
    }
}
