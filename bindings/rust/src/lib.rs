//! The modified Bessel functions K and I of a complex argument, and log-gamma, on `f64`.
//!
//! The numbers come from libcapi.a, the archive of Lichenoar, whose functions are proved equal to their written definitions. Every input is answered, or
//! refused by one number ([`Refusal`]); the bits are the same on every processor. Nothing is allocated, and nothing is kept between calls.
//!
//! [`k`] and [`i`] give one value. [`k_into`] and [`i_into`] fill a slice with consecutive orders v, v+1, .., one an entry, and count their steps. Domain:
//! orders from 0 to 1,000, slices of 1 to 512 entries, real parts from 0 to 32,768, imaginary parts from -32,768 to 32,768. A [`Sweep`] writes the frames that
//! ask at evenly spaced points, for the frame program; a [`Page`] counts the answer lines that the frame program gives.
//!
//! ```
//! use lichenoar::{k, k_into, Complex, Scaling};
//!
//! // K of order 0 at 1 + 0.5i
//! let z = Complex::new(1.0, 0.5);
//! assert_eq!(k(0.0, z, Scaling::Unscaled)?, Complex::new(0.30781894297405604, -0.26016003994899667));
//!
//! // K of orders 0 and 1
//! let mut out = [Complex::ZERO; 2];
//! let answer = k_into(z, 0.0, Scaling::Unscaled, &mut out)?;
//! assert_eq!(out[0], Complex::new(0.30781894297405604, -0.26016003994899667));
//! assert_eq!(out[1], Complex::new(0.376324475427518, -0.40185493852129706));
//! assert_eq!((answer.zeros, answer.longest_sum, answer.rungs, answer.backward), (0, 13, 0, 0));
//! assert!(answer.is_whole());
//! # Ok::<(), lichenoar::Refusal>(())
//! ```
//!
//! **On a refusal** every entry of the slice holds the fixed not-a-number (bits 7FF8000000000000) in both parts: no entry is left from before the call.
//! A sweep that is refused writes nothing, and a page that is full stays as it was.
#![no_std]
#![warn(missing_docs)]

mod complex;
pub mod elementary;
mod page;
mod raw;
mod refusal;
mod sweep;

pub use complex::Complex;
pub use page::Page;
pub use refusal::Refusal;
pub use sweep::{Frame, Frames, Kind, Sweep, SweepError};

/// Whether the exponential growth or decay is taken out of the values.
#[derive(Debug, Clone, Copy, PartialEq, Eq, Hash)]
#[repr(i32)]
pub enum Scaling {
    /// The values themselves.
    Unscaled = 1,
    /// K times e^z, I times e^-re z.
    Scaled = 2,
}

/// What comes back beside the values: how many entries are zero, how many are unfinished, and how many steps were taken. Later versions may add fields.
#[derive(Debug, Clone, Copy, PartialEq, Eq, Hash)]
#[non_exhaustive]
pub struct Answer {
    /// Entries set to zero because they underflow. K: the first ones. I: negative where such an entry stopped the steps, and its magnitude is then the
    /// number of zeros set; see [`i_into`].
    pub zeros: i32,
    /// Entries that hold the fixed not-a-number because I's steps stopped above them. They come first, so that `out[unfinished..]` is what was finished.
    /// Always 0 for K.
    pub unfinished: usize,
    /// Terms of the longest sum: at most 18 for K, 19 for I.
    pub longest_sum: u32,
    /// Steps of recurrence from one order to the next. For K they are r + n - 2, r being the order rounded and n the number of entries; 0 for r = 0 and n = 1.
    pub rungs: u32,
    /// Backward steps of K's seeds: at most 256. Always 0 for I.
    pub backward: u32,
}

impl Answer {
    /// Whether every entry is finished, that is a value or the zero of one that underflows: `unfinished` is 0.
    ///
    /// K's answers are all whole. An I whose `zeros` is not negative is. Where it is negative, the steps stopped at an entry that was set to zero, and the
    /// answer is whole if and only if that entry is the first: nothing was left below it.
    ///
    /// ```
    /// use lichenoar::{i_into, Complex, Scaling};
    ///
    /// // orders 368 to 372 at 38.5: all underflow, and the steps, which go down, stop at 370; for 368 and 369 nothing was worked out
    /// let mut out = [Complex::ZERO; 5];
    /// let answer = i_into(Complex::from(38.5), 368.0, Scaling::Unscaled, &mut out)?;
    /// assert_eq!((answer.zeros, answer.unfinished), (-3, 2));
    /// assert!(!answer.is_whole());
    /// assert!(out[..2].iter().all(|w| w.re.is_nan() && w.im.is_nan()));
    /// assert_eq!(out[2..], [Complex::ZERO; 3]);
    ///
    /// // order 370 alone: the steps stop at the first entry, and there is none below it
    /// let answer = i_into(Complex::from(38.5), 370.0, Scaling::Unscaled, &mut out[..1])?;
    /// assert_eq!(answer.zeros, -1);
    /// assert!(answer.is_whole());
    /// # Ok::<(), lichenoar::Refusal>(())
    /// ```
    #[must_use]
    pub const fn is_whole(&self) -> bool {
        self.unfinished == 0
    }
}

/// How many entries I left unfinished. It stopped above them, so that they come first; both their parts are not-a-numbers, and those of a finished
/// entry are finite, or the call would have been refused by 8.
fn unfinished(zeros: i32, out: &[Complex]) -> usize {
    if zeros < 0 {
        out.iter().take_while(|w| w.re.is_nan()).count()
    } else {
        0
    }
}

fn into(function: raw::Bessel, z: Complex, order: f64, scaling: Scaling, out: &mut [Complex]) -> Result<Answer, Refusal> {
    let mut record = raw::Answer::default();
    // A slice of Complex is at most isize::MAX bytes long, so that twice its length is no overflow.
    let length = 2 * out.len();
    // Safety: `record` has the archive's layout (raw.rs), and the slice is `length` cells of f64 one after the other, lent for the call alone and
    // written within their bounds, whatever the length: for each length that it does not take the function refuses by 1.
    unsafe { function(&mut record, u8::from(scaling == Scaling::Scaled), order, z.re, z.im, out.as_mut_ptr().cast::<f64>(), length) };
    match Refusal::from_number(record.number) {
        Some(refusal) => Err(refusal),
        None => Ok(Answer {
            zeros: record.zeros,
            unfinished: unfinished(record.zeros, out),
            longest_sum: record.longest_sum,
            rungs: record.rungs,
            backward: record.backward,
        }),
    }
}

fn single(function: raw::Bessel, order: f64, z: Complex, scaling: Scaling) -> Result<Complex, Refusal> {
    let mut out = [Complex::ZERO];
    into(function, z, order, scaling, &mut out)?;
    Ok(out[0])
}

/// K of one order at `z`: the modified Bessel function of the second kind. Scaled, the value is times e^z.
///
/// It is the entry of [`k_into`] with a slice of one, bit for bit. A value that underflows is [`Complex::ZERO`]; K itself is nowhere zero in the domain.
/// The order comes before `z`, as in K_v(z), and its type is another, so that a call with the two changed over does not compile.
///
/// # Errors
/// Those of [`k_into`], but [`Refusal::Length`] never.
///
/// ```
/// use lichenoar::{k, Complex, Refusal, Scaling};
///
/// let z = Complex::new(1.5, -0.75);
/// assert_eq!(k(0.25, z, Scaling::Scaled), Ok(Complex::new(0.9065919966458136, 0.1977141925446418)));
/// assert_eq!(k(0.0, Complex::from(800.0), Scaling::Unscaled), Ok(Complex::ZERO));
/// assert_eq!(k(0.0, Complex::ZERO, Scaling::Unscaled), Err(Refusal::Zero));
/// // the order is looked at first, then the sign of the real part, then the size of the parts
/// let left = Complex::new(-40_000.0, 0.0);
/// assert_eq!(k(1000.5, left, Scaling::Scaled), Err(Refusal::Order));
/// assert_eq!(k(0.25, left, Scaling::Scaled), Err(Refusal::Sign));
/// assert_eq!(k(0.25, Complex::new(40_000.0, 0.0), Scaling::Scaled), Err(Refusal::Size));
/// ```
///
/// ```compile_fail,E0308
/// # use lichenoar::{k, Complex, Scaling};
/// let _ = k(Complex::new(1.5, -0.75), 0.25, Scaling::Scaled);
/// ```
pub fn k(order: f64, z: Complex, scaling: Scaling) -> Result<Complex, Refusal> {
    single(raw::lichenoar_k, order, z, scaling)
}

/// I of one order at `z`: the modified Bessel function of the first kind, by its power series. Scaled, the value is times e^-re z.
///
/// It is the entry of [`i_into`] with a slice of one, bit for bit, and always finished. A value that underflows is [`Complex::ZERO`].
///
/// # Errors
/// Those of [`i_into`], but [`Refusal::Length`] never. [`Refusal::Series`] is given as soon as `|z|²/4` is above the order plus one; [`i_into`] with more
/// entries reaches farther, and its first entry is the value.
///
/// ```
/// use lichenoar::{i, i_into, Complex, Refusal, Scaling};
///
/// assert_eq!(i(0.0, Complex::from(2.0), Scaling::Unscaled), Ok(Complex::from(2.279585302336067)));
///
/// let z = Complex::from(4.0);
/// assert_eq!(i(0.0, z, Scaling::Unscaled), Err(Refusal::Series));
/// let mut out = [Complex::ZERO; 4];
/// assert!(i_into(z, 0.0, Scaling::Unscaled, &mut out)?.is_whole());
/// assert_eq!(out[0].re, 11.30192195213633);
/// # Ok::<(), Refusal>(())
/// ```
pub fn i(order: f64, z: Complex, scaling: Scaling) -> Result<Complex, Refusal> {
    single(raw::lichenoar_i, order, z, scaling)
}

/// Fills the slice with K of the orders `order`, `order + 1`, .. at `z`: the modified Bessel function of the second kind.
///
/// Scaled, every value is times e^z. Unscaled values of a large real part underflow: these entries are zero, come first, and `zeros` counts them.
///
/// # Errors
/// [`Refusal::Length`], [`NotFinite`](Refusal::NotFinite), [`Order`](Refusal::Order), [`Sign`](Refusal::Sign), [`Size`](Refusal::Size),
/// [`Zero`](Refusal::Zero), [`Start`](Refusal::Start), [`Climb`](Refusal::Climb) or [`Overflow`](Refusal::Overflow), the first that applies. Every entry of
/// the slice is then the fixed not-a-number in both parts.
///
/// ```
/// use lichenoar::{k_into, Complex, Refusal, Scaling};
///
/// let z = Complex::from(800.0);
/// let mut out = [Complex::ZERO; 2];
/// // e^-800 is below every f64: two zeros, and the count says so
/// assert_eq!(k_into(z, 0.0, Scaling::Unscaled, &mut out)?.zeros, 2);
/// // scaled, the values are there
/// assert_eq!(k_into(z, 0.0, Scaling::Scaled, &mut out)?.zeros, 0);
/// assert_eq!(out[0].re, 0.04430442748664601);
///
/// // refused: the slice holds nothing that could be taken for a value
/// assert_eq!(k_into(z, 1.0, Scaling::Unscaled, &mut out), Err(Refusal::Climb));
/// assert!(out.iter().all(|w| w.re.to_bits() == 0x7FF8_0000_0000_0000 && w.im.to_bits() == 0x7FF8_0000_0000_0000));
/// # Ok::<(), Refusal>(())
/// ```
pub fn k_into(z: Complex, order: f64, scaling: Scaling, out: &mut [Complex]) -> Result<Answer, Refusal> {
    into(raw::lichenoar_k, z, order, scaling, out)
}

/// Fills the slice with I of the orders `order`, `order + 1`, .. at `z`: the modified Bessel function of the first kind, by its power series.
///
/// Scaled, every value is times e^-re z. High orders underflow first: those entries are zero and `zeros` counts them. Where `zeros` is negative the steps
/// stopped at an entry that was set to zero: the entries above it are finished, and those below it, the first `unfinished` of the slice, hold the fixed
/// not-a-number. [`Answer::is_whole`] says whether there are any.
///
/// # Errors
/// [`Refusal::Length`], [`NotFinite`](Refusal::NotFinite), [`Order`](Refusal::Order), [`Sign`](Refusal::Sign), [`Size`](Refusal::Size),
/// [`Series`](Refusal::Series) or [`Overflow`](Refusal::Overflow), the first that applies. Every entry of the slice is then the fixed not-a-number in both
/// parts.
///
/// ```
/// use lichenoar::{i_into, Complex, Refusal, Scaling};
///
/// let mut out = [Complex::ZERO];
/// let answer = i_into(Complex::from(2.0), 0.0, Scaling::Unscaled, &mut out)?;
/// assert_eq!(out[0].re, 2.279585302336067);
/// assert_eq!(answer.longest_sum, 12);
/// // the series is for arguments whose |z|²/4 is at most the order plus the number of entries
/// assert_eq!(i_into(Complex::from(4.0), 0.0, Scaling::Unscaled, &mut out), Err(Refusal::Series));
/// # Ok::<(), Refusal>(())
/// ```
pub fn i_into(z: Complex, order: f64, scaling: Scaling, out: &mut [Complex]) -> Result<Answer, Refusal> {
    into(raw::lichenoar_i, z, order, scaling, out)
}

/// The logarithm of the gamma function of a number above 0.
///
/// # Errors
/// [`Refusal::NotFinite`], [`NotPositive`](Refusal::NotPositive) for 0 or less, [`Overflow`](Refusal::Overflow) from about 2.56e305.
///
/// ```
/// use lichenoar::{log_gamma, Refusal};
///
/// assert_eq!(log_gamma(1.0), Ok(0.0));
/// assert_eq!(log_gamma(7.25), Ok(7.052185450738539));
/// assert_eq!(log_gamma(0.0), Err(Refusal::NotPositive));
/// ```
pub fn log_gamma(x: f64) -> Result<f64, Refusal> {
    // Safety: a number passes, every one is taken, and the record has the archive's layout (raw.rs).
    let record = unsafe { raw::lichenoar_log_gamma(x) };
    match Refusal::from_number(record.number) {
        Some(refusal) => Err(refusal),
        None => Ok(record.value),
    }
}

// The example of the README is a test too.
#[cfg(doctest)]
#[doc = include_str!("../README.md")]
struct Readme;
