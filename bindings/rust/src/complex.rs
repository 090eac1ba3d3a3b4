use core::fmt;

/// A complex number: two `f64` one after the other, the real part first.
///
/// It comes from a pair, an array or a real number, and goes back into a pair or an array; with the feature `num-complex` (README) also from and
/// into `num_complex::Complex<f64>`. Every bit is kept.
///
/// ```
/// use lichenoar::Complex;
///
/// let z = Complex::new(1.0, 0.5);
/// assert_eq!(z, (1.0, 0.5).into());
/// assert_eq!(z, Complex::from([1.0, 0.5]));
/// assert_eq!(Complex::new(2.0, 0.0), 2.0.into());
///
/// let (re, im) = z.into();
/// assert_eq!((re, im), (1.0, 0.5));
/// assert_eq!(<[f64; 2]>::from(z), [1.0, 0.5]);
/// ```
#[repr(C)]
#[derive(Debug, Clone, Copy, PartialEq, Default)]
pub struct Complex {
    /// The real part.
    pub re: f64,
    /// The imaginary part.
    pub im: f64,
}

impl Complex {
    /// Both parts zero: what a slice to be filled may hold beforehand.
    pub const ZERO: Complex = Complex { re: 0.0, im: 0.0 };

    /// The number `re + im·i`.
    #[must_use]
    pub const fn new(re: f64, im: f64) -> Self {
        Complex { re, im }
    }
}

impl From<(f64, f64)> for Complex {
    fn from((re, im): (f64, f64)) -> Self {
        Complex { re, im }
    }
}

impl From<Complex> for (f64, f64) {
    fn from(z: Complex) -> Self {
        (z.re, z.im)
    }
}

impl From<[f64; 2]> for Complex {
    fn from([re, im]: [f64; 2]) -> Self {
        Complex { re, im }
    }
}

impl From<Complex> for [f64; 2] {
    fn from(z: Complex) -> Self {
        [z.re, z.im]
    }
}

impl From<f64> for Complex {
    fn from(re: f64) -> Self {
        Complex { re, im: 0.0 }
    }
}

/// With the feature `num-complex`, and the other way round too.
///
/// ```
/// use lichenoar::{k, Scaling};
/// use num_complex::Complex;
///
/// let z = Complex::new(1.5, -0.75);
/// let value: Complex<f64> = k(0.25, z.into(), Scaling::Scaled)?.into();
/// assert_eq!(value * 2.0, Complex::new(1.8131839932916272, 0.3954283850892836));
/// # Ok::<(), lichenoar::Refusal>(())
/// ```
#[cfg(feature = "num-complex")]
impl From<num_complex::Complex<f64>> for Complex {
    fn from(z: num_complex::Complex<f64>) -> Self {
        Complex { re: z.re, im: z.im }
    }
}

#[cfg(feature = "num-complex")]
impl From<Complex> for num_complex::Complex<f64> {
    fn from(z: Complex) -> Self {
        num_complex::Complex { re: z.re, im: z.im }
    }
}

impl fmt::Display for Complex {
    fn fmt(&self, f: &mut fmt::Formatter<'_>) -> fmt::Result {
        write!(f, "{}{:+}i", self.re, self.im)
    }
}
