use core::error::Error;
use core::fmt;

/// Why a call has no answer. Where several apply, the first in this order is given. K: 1, 2, 3, 11, 12, 4, 6, 7, 8. I: 1, 2, 3, 11, 12, 5, 8.
/// Log-gamma: 2, 10, 8. A sweep: 13, 9, 1, 2, 3, 11, 12. A page: 15 alone.
///
/// [`words`](Refusal::words) says what was met and [`remedy`](Refusal::remedy) what to do about it, as docs/refusals.txt of the repository has them and the
/// C header and the shift's scripts say them.
///
/// ```
/// use lichenoar::{k, Complex, Refusal, Scaling};
///
/// let refusal = k(0.0, Complex::ZERO, Scaling::Unscaled).unwrap_err();
/// assert_eq!(refusal, Refusal::Zero);
/// assert_eq!(refusal.number(), 4);
/// assert_eq!(refusal.words(), "K of 0 is infinite");
/// assert_eq!(refusal.remedy(), "ask at an argument other than 0");
/// assert_eq!(refusal.to_string(), "refusal 4: K of 0 is infinite");
/// ```
///
/// It is an error as others are, and small: it can be copied, compared, and be the key of a map.
///
/// ```
/// use lichenoar::{log_gamma, Refusal};
/// use std::collections::HashMap;
///
/// fn sum(xs: &[f64]) -> Result<f64, Box<dyn std::error::Error>> {
///     let mut sum = 0.0;
///     for &x in xs {
///         sum += log_gamma(x)?;
///     }
///     Ok(sum)
/// }
/// assert_eq!(sum(&[1.0, 2.0]).unwrap(), 0.0);
/// assert_eq!(sum(&[1.0, -2.0]).unwrap_err().to_string(), "refusal 10: log-gamma of 0 or less");
///
/// let mut met: HashMap<Refusal, u32> = HashMap::new();
/// for x in [0.0, -1.0, f64::NAN] {
///     *met.entry(log_gamma(x).unwrap_err()).or_default() += 1;
/// }
/// assert_eq!((met[&Refusal::NotPositive], met[&Refusal::NotFinite]), (2, 1));
/// ```
#[derive(Debug, Clone, Copy, PartialEq, Eq, Hash)]
#[non_exhaustive]
pub enum Refusal {
    /// 1: the slice holds no entry, or more than 512; or the frames of a sweep are to ask for none, or for more than 512. Never of a single value.
    Length,
    /// 2: an argument is infinite or not a number; of a sweep, the order or a part of an end, but the last end has no part in a sweep of one step.
    NotFinite,
    /// 3: the order is not from 0 to 1,000, whatever the argument is.
    Order,
    /// 4: K of 0.
    Zero,
    /// 5: I, and `|z|²/4` is above the order plus the number of entries: too large for the power series.
    Series,
    /// 6: K, and the search for the start of the backward steps found none. No input is known that gets it.
    Start,
    /// 7: unscaled K with a real part above 664.87, and the climb out of underflow found no two neighbouring orders on scale.
    Climb,
    /// 8: a finished value is not finite.
    Overflow,
    /// 9: a line that is no frame, or no request of a sweep; a kind or a scaling that no frame has. The programs give it, and the sweep's function in C;
    /// never a function of this crate, in which kinds and scalings are types.
    Malformed,
    /// 10: log-gamma of 0 or less.
    NotPositive,
    /// 11: the order is inside its limits, and the real part, or that of an end of a sweep, is below 0. -0 is not.
    Sign,
    /// 12: the order is inside its limits, no real part is below 0, and a part is above 32,768 in magnitude.
    Size,
    /// 13: a sweep of no step, or of more than 4,096.
    Steps,
    /// 15: a line more for a page that holds 4,294,967,295 lines, or two pages joined that hold more together.
    Full,
    /// A number that this version of the crate does not know, from a newer archive.
    Other(u32),
}

impl Refusal {
    /// The refusal with this number; none for 0, which is an answer's.
    ///
    /// ```
    /// use lichenoar::Refusal;
    ///
    /// assert_eq!(Refusal::from_number(5), Some(Refusal::Series));
    /// assert_eq!(Refusal::from_number(0), None);
    /// assert_eq!(Refusal::from_number(200).unwrap().to_string(), "refusal 200: not known here");
    /// ```
    #[must_use]
    pub const fn from_number(number: u32) -> Option<Refusal> {
        Some(match number {
            0 => return None,
            1 => Refusal::Length,
            2 => Refusal::NotFinite,
            3 => Refusal::Order,
            4 => Refusal::Zero,
            5 => Refusal::Series,
            6 => Refusal::Start,
            7 => Refusal::Climb,
            8 => Refusal::Overflow,
            9 => Refusal::Malformed,
            10 => Refusal::NotPositive,
            11 => Refusal::Sign,
            12 => Refusal::Size,
            13 => Refusal::Steps,
            15 => Refusal::Full,
            other => Refusal::Other(other),
        })
    }

    /// The number, as C programs and frames have it.
    #[must_use]
    pub const fn number(self) -> u32 {
        match self {
            Refusal::Length => 1,
            Refusal::NotFinite => 2,
            Refusal::Order => 3,
            Refusal::Zero => 4,
            Refusal::Series => 5,
            Refusal::Start => 6,
            Refusal::Climb => 7,
            Refusal::Overflow => 8,
            Refusal::Malformed => 9,
            Refusal::NotPositive => 10,
            Refusal::Sign => 11,
            Refusal::Size => 12,
            Refusal::Steps => 13,
            Refusal::Full => 15,
            Refusal::Other(number) => number,
        }
    }

    /// What was met, in words. `Display` puts the number before them.
    #[must_use]
    pub const fn words(self) -> &'static str {
        match self {
            Refusal::Length => "the number of orders is 0 or above 512, or the number of cells is odd",
            Refusal::NotFinite => "an argument is infinite or not a number",
            Refusal::Order => "the order is not from 0 to 1,000",
            Refusal::Zero => "K of 0 is infinite",
            Refusal::Series => "the argument is too large for the power series of I",
            Refusal::Start => "the search for the start of the backward steps found none",
            Refusal::Climb => "the climb out of underflow found no two neighbouring orders on scale",
            Refusal::Overflow => "a finished value is not finite",
            Refusal::Malformed => "no frame or request: a wrong length, digit, kind or scaling",
            Refusal::NotPositive => "log-gamma of 0 or less",
            Refusal::Sign => "a real part is below 0",
            Refusal::Size => "a part is above 32,768 in magnitude",
            Refusal::Steps => "a sweep of no steps or of more than 4,096",
            Refusal::Full => "a page would hold more than 4,294,967,295 lines",
            Refusal::Other(_) => "not known here",
        }
    }

    /// What to do about it, in words.
    ///
    /// ```
    /// use lichenoar::{k_into, Complex, Scaling};
    ///
    /// let z = Complex::from(800.0);
    /// let mut out = [Complex::ZERO; 2];
    /// let refusal = k_into(z, 1.0, Scaling::Unscaled, &mut out).unwrap_err();
    /// assert_eq!(refusal.remedy(), "ask scaled");
    /// assert!(k_into(z, 1.0, Scaling::Scaled, &mut out).is_ok());
    /// ```
    #[must_use]
    pub const fn remedy(self) -> &'static str {
        match self {
            Refusal::Length => "ask for 1 to 512 orders; where cells are lent, two for each",
            Refusal::NotFinite => "look at where the argument came from; no setting answers it",
            Refusal::Order => "ask for a first order from 0 to 1,000",
            Refusal::Zero => "ask at an argument other than 0",
            Refusal::Series => "ask for modulus^2/4 - order orders or more and use the first rows; it helps to a modulus of 37",
            Refusal::Start => "no input is known that gets it; please report the frame",
            Refusal::Climb => "ask scaled",
            Refusal::Overflow => "ask plain if it was asked scaled; else for fewer or lower orders, or farther from 0; for log-gamma below 2.55e305",
            Refusal::Malformed => "write 56 upper-case hexadecimal digits, 92 for a sweep, kind 01 or 02, scaling 00 or 01; take carriage returns away",
            Refusal::NotPositive => "ask above 0",
            Refusal::Sign => "ask at real parts of 0 or more; -0 counts as 0",
            Refusal::Size => "ask at parts from -32,768 to 32,768",
            Refusal::Steps => "ask for 1 to 4,096 steps",
            Refusal::Full => "begin another page; the full one stands as it was",
            Refusal::Other(_) => "look it up in the list of the archive's version",
        }
    }
}

impl fmt::Display for Refusal {
    fn fmt(&self, f: &mut fmt::Formatter<'_>) -> fmt::Result {
        write!(f, "refusal {}: {}", self.number(), self.words())
    }
}

impl Error for Refusal {}
