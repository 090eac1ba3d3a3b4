use crate::{raw, Complex, Refusal, Scaling};
use core::error::Error;
use core::fmt::{self, Write};
use core::iter::FusedIterator;

/// The digits of a frame.
const DIGITS: usize = 56;

/// Which function a frame asks for. Later versions may add kinds.
#[derive(Debug, Clone, Copy, PartialEq, Eq, Hash)]
#[non_exhaustive]
#[repr(u8)]
pub enum Kind {
    /// K, the modified Bessel function of the second kind.
    K = 1,
    /// I, the modified Bessel function of the first kind.
    I = 2,
}

/// An even sweep: the same question at `steps` points from `first` to `last`, written as frames, which the frame program answers.
///
/// Point j, counted from 0, has in each part `first + j·((last - first)/(steps - 1))`, each operation rounded once: the last point may differ from `last`
/// in its last bits, and lie past it. Of one step the point is `first`, and `last` is not looked at. An order or a real part of -0 is made 0. A point that
/// K or I refuses is written all the same.
///
/// ```
/// use lichenoar::{k, Complex, Kind, Scaling, Sweep};
///
/// let sweep = Sweep {
///     kind: Kind::K,
///     scaling: Scaling::Scaled,
///     order: 0.25,
///     entries: 2,
///     first: Complex::new(1.5, -0.75),
///     last: Complex::new(2.5, 0.75),
///     steps: 3,
/// };
/// let mut out = vec![0; sweep.needed()?];
/// let frames = sweep.frames_into(&mut out)?;
///
/// // what the frame program reads: 56 digits and a newline each
/// assert!(frames.as_bytes().starts_with(b"010100023FD00000000000003FF8000000000000BFE8000000000000\n"));
/// assert_eq!(frames.len(), 3);
///
/// // the points, read back from what was written
/// let points: Vec<_> = frames.points().collect();
/// assert_eq!(points[1], (0.25, Complex::new(2.0, 0.0)));
/// for (order, z) in points {
///     println!("{z}: {}", k(order, z, sweep.scaling)?);
/// }
/// # Ok::<(), Box<dyn std::error::Error>>(())
/// ```
///
/// Where nothing may be allocated, an array of [`BYTES_A_STEP`](Sweep::BYTES_A_STEP) a step has the room.
///
/// ```
/// # use lichenoar::{Complex, Kind, Scaling, Sweep, SweepError};
/// let one = Complex::from(1.0);
/// let sweep = Sweep { kind: Kind::I, scaling: Scaling::Unscaled, order: 0.0, entries: 1, first: one, last: Complex::from(2.0), steps: 11 };
/// let mut out = [0; 11 * Sweep::BYTES_A_STEP];
/// for frame in sweep.frames_into(&mut out)? {
///     assert_eq!(&frame.as_bytes()[..8], b"02000001");
/// }
/// # Ok::<(), SweepError>(())
/// ```
#[derive(Debug, Clone, Copy, PartialEq)]
pub struct Sweep {
    /// The function that the frames ask for.
    pub kind: Kind,
    /// Whether they ask for scaled values.
    pub scaling: Scaling,
    /// The first order, from 0 to 1,000.
    pub order: f64,
    /// How many orders at each point, from 1 to 512.
    pub entries: u32,
    /// The first point: a real part from 0 to 32,768, an imaginary part from -32,768 to 32,768.
    pub first: Complex,
    /// The last point, within the same limits.
    pub last: Complex,
    /// How many points, from 1 to 4,096.
    pub steps: u32,
}

impl Sweep {
    /// The bytes of a frame: 56 digits and a newline.
    pub const BYTES_A_STEP: usize = DIGITS + 1;

    fn call(&self, out: &mut [u8]) -> Result<usize, Refusal> {
        let &Sweep { kind, scaling, order, entries, first, last, steps } = self;
        let (kind, scaling) = (kind as u8, u8::from(scaling == Scaling::Scaled));
        let (place, length) = (out.as_mut_ptr(), out.len());
        // Safety: `out` is `length` bytes, lent for the call alone and written within their bounds, whatever is asked for, and the record has the archive's
        // layout (raw.rs).
        let record = unsafe { raw::lichenoar_sweep(kind, scaling, entries, order, first.re, first.im, last.re, last.im, steps, place, length) };
        match Refusal::from_number(record.number) {
            Some(refusal) => Err(refusal),
            None => Ok(record.needed as usize),
        }
    }

    /// How many bytes the frames are: [`BYTES_A_STEP`](Sweep::BYTES_A_STEP) times `steps`, 233,472 at most.
    ///
    /// # Errors
    /// [`Refusal::Steps`], [`Length`](Refusal::Length), [`NotFinite`](Refusal::NotFinite), [`Order`](Refusal::Order), [`Sign`](Refusal::Sign) or
    /// [`Size`](Refusal::Size), the first that applies.
    ///
    /// ```
    /// use lichenoar::{Complex, Kind, Refusal, Scaling, Sweep};
    ///
    /// let (first, last) = (Complex::from(1.0), Complex::from(-1.0));
    /// let sweep = Sweep { kind: Kind::K, scaling: Scaling::Scaled, order: 0.0, entries: 1, first, last, steps: 1 };
    /// // of one step the last point has no part in it
    /// assert_eq!(sweep.needed(), Ok(57));
    /// assert_eq!(Sweep { steps: 2, ..sweep }.needed(), Err(Refusal::Sign));
    /// assert_eq!(Sweep { steps: 0, ..sweep }.needed(), Err(Refusal::Steps));
    /// ```
    pub fn needed(&self) -> Result<usize, Refusal> {
        self.call(&mut [])
    }

    /// Writes the frames over the first bytes of the slice. The bytes behind them stay as they were.
    ///
    /// # Errors
    /// [`SweepError::Refused`], as for [`needed`](Sweep::needed); [`SweepError::Room`] where the slice is shorter than the frames. Every byte of the slice
    /// then stays as it was.
    ///
    /// ```
    /// use lichenoar::{Complex, Kind, Refusal, Scaling, Sweep, SweepError};
    ///
    /// let (first, last) = (Complex::from(1.0), Complex::from(2.0));
    /// let sweep = Sweep { kind: Kind::K, scaling: Scaling::Scaled, order: 0.0, entries: 1, first, last, steps: 2 };
    /// let mut out = [7; 120];
    /// assert_eq!(sweep.frames_into(&mut out[..113]).unwrap_err(), SweepError::Room { needed: 114 });
    /// assert_eq!(Sweep { order: -1.0, ..sweep }.frames_into(&mut out).unwrap_err(), SweepError::Refused(Refusal::Order));
    /// assert_eq!(out, [7; 120]);
    ///
    /// assert_eq!(sweep.frames_into(&mut out)?.len(), 2);
    /// assert_eq!(out[114..], [7; 6]);
    /// # Ok::<(), SweepError>(())
    /// ```
    pub fn frames_into<'a>(&self, out: &'a mut [u8]) -> Result<Frames<'a>, SweepError> {
        let needed = self.call(out)?;
        match out.get(..needed) {
            Some(rest) => Ok(Frames { rest }),
            None => Err(SweepError::Room { needed }),
        }
    }
}

/// Why a sweep was not written. Later versions may add cases.
#[derive(Debug, Clone, Copy, PartialEq, Eq, Hash)]
#[non_exhaustive]
pub enum SweepError {
    /// The sweep is refused.
    Refused(Refusal),
    /// The slice is shorter than the frames.
    Room {
        /// How many bytes the frames are.
        needed: usize,
    },
}

impl From<Refusal> for SweepError {
    fn from(refusal: Refusal) -> Self {
        SweepError::Refused(refusal)
    }
}

impl fmt::Display for SweepError {
    fn fmt(&self, f: &mut fmt::Formatter<'_>) -> fmt::Result {
        match self {
            SweepError::Refused(refusal) => refusal.fmt(f),
            SweepError::Room { needed } => write!(f, "the frames are {needed} bytes, more than were lent"),
        }
    }
}

impl Error for SweepError {}

/// The frames of a [`Sweep`], as they were written, from the first point to the last: an iterator that knows how many are left and goes from either end.
#[derive(Debug, Clone, PartialEq, Eq, Hash)]
pub struct Frames<'a> {
    rest: &'a [u8],
}

impl<'a> Frames<'a> {
    /// The frames that were not yet taken, with a newline behind each, as the frame program reads them.
    #[must_use]
    pub const fn as_bytes(&self) -> &'a [u8] {
        self.rest
    }

    /// The [`point`](Frame::point) of each frame that was not yet taken.
    pub fn points(&self) -> impl DoubleEndedIterator<Item = (f64, Complex)> + ExactSizeIterator + FusedIterator + Clone + 'a {
        self.clone().map(|frame| frame.point())
    }
}

impl<'a> Iterator for Frames<'a> {
    type Item = Frame<'a>;

    fn next(&mut self) -> Option<Frame<'a>> {
        let (digits, rest) = self.rest.split_first_chunk()?;
        // behind the newline
        self.rest = rest.get(1..).unwrap_or_default();
        Some(Frame { digits })
    }

    fn size_hint(&self) -> (usize, Option<usize>) {
        let left = self.rest.len() / Sweep::BYTES_A_STEP;
        (left, Some(left))
    }

    fn nth(&mut self, n: usize) -> Option<Frame<'a>> {
        self.rest = self.rest.get(n.saturating_mul(Sweep::BYTES_A_STEP)..).unwrap_or_default();
        self.next()
    }
}

impl<'a> DoubleEndedIterator for Frames<'a> {
    fn next_back(&mut self) -> Option<Frame<'a>> {
        let (_newline, lines) = self.rest.split_last()?;
        let (rest, digits) = lines.split_last_chunk()?;
        self.rest = rest;
        Some(Frame { digits })
    }
}

impl ExactSizeIterator for Frames<'_> {}

impl FusedIterator for Frames<'_> {}

/// A frame of a [`Sweep`]: 56 upper-case hexadecimal digits. `Display` writes them; there is no newline.
#[derive(Debug, Clone, Copy, PartialEq, Eq, Hash)]
pub struct Frame<'a> {
    digits: &'a [u8; DIGITS],
}

impl<'a> Frame<'a> {
    /// The digits.
    #[must_use]
    pub const fn as_bytes(&self) -> &'a [u8; DIGITS] {
        self.digits
    }

    /// The order and the argument that the frame asks for, read from its digits.
    #[must_use]
    pub fn point(&self) -> (f64, Complex) {
        (self.value(8), Complex::new(self.value(24), self.value(40)))
    }

    /// The value whose bits are the 16 digits from this place on.
    fn value(&self, at: usize) -> f64 {
        let digits = self.digits.iter().skip(at).take(16);
        f64::from_bits(digits.fold(0, |bits, &digit| bits << 4 | u64::from(char::from(digit).to_digit(16).unwrap_or(0))))
    }
}

impl fmt::Display for Frame<'_> {
    fn fmt(&self, f: &mut fmt::Formatter<'_>) -> fmt::Result {
        self.digits.iter().try_for_each(|&digit| f.write_char(char::from(digit)))
    }
}
