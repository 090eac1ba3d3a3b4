// What the text uses of `num`, and no more. Shared by the two stand-ins, which differ in their module `elementary` alone.

pub use complex::Complex;
pub use traits::{Float, ToPrimitive, Zero};

pub mod traits {
    use core::ops::{Add, Div, Mul, Neg, Rem, Sub};

    pub trait Zero: Sized {
        fn zero() -> Self;
    }
    pub trait ConstZero {
        const ZERO: Self;
    }
    pub trait ConstOne {
        const ONE: Self;
    }
    pub trait FloatConst {
        #[allow(non_snake_case)]
        fn PI() -> Self;
    }
    /// A conversion gives nothing for a not-a-number and for what its type does not reach; a fraction is cut off.
    pub trait ToPrimitive {
        fn to_usize(&self) -> Option<usize>;
        fn to_isize(&self) -> Option<isize>;
        fn to_f32(&self) -> Option<f32>;
    }

    pub trait Float:
        Copy + PartialOrd + PartialEq + ToPrimitive + Add<Output = Self> + Sub<Output = Self> + Mul<Output = Self> + Div<Output = Self> + Rem<Output = Self> + Neg<Output = Self>
    {
        fn zero() -> Self;
        fn one() -> Self;
        fn epsilon() -> Self;
        fn min_positive_value() -> Self;
        fn max_value() -> Self;
        fn abs(self) -> Self;
        fn max(self, other: Self) -> Self;
        fn min(self, other: Self) -> Self;
        fn clamp(self, low: Self, high: Self) -> Self;
        fn is_finite(self) -> bool;
        fn fract(self) -> Self;
        fn round(self) -> Self;
        fn sqrt(self) -> Self;
        fn exp(self) -> Self;
        fn ln(self) -> Self;
        fn log10(self) -> Self;
        fn sin(self) -> Self;
        fn cos(self) -> Self;
        fn sin_cos(self) -> (Self, Self);
        fn sinh(self) -> Self;
        fn cosh(self) -> Self;
        fn hypot(self, other: Self) -> Self;
        fn atan2(self, other: Self) -> Self;
        fn powf(self, other: Self) -> Self;
        fn sin_pi(self) -> Self;
        fn cos_pi(self) -> Self;
        /// A power is that many products in a row, starting from 1.
        #[inline]
        fn powi(self, n: i32) -> Self {
            let mut p = Self::one();
            for _ in 0..n {
                p = p * self;
            }
            p
        }
    }

    macro_rules! float {
        ($t:ident) => {
            impl Zero for $t {
                fn zero() -> Self {
                    0.0
                }
            }
            impl ConstZero for $t {
                const ZERO: Self = 0.0;
            }
            impl ConstOne for $t {
                const ONE: Self = 1.0;
            }
            impl FloatConst for $t {
                #[inline]
                fn PI() -> Self {
                    core::$t::consts::PI
                }
            }
            impl ToPrimitive for $t {
                #[inline]
                fn to_usize(&self) -> Option<usize> {
                    if *self > -1.0 && *self < usize::MAX as $t { Some(*self as usize) } else { None }
                }
                #[inline]
                fn to_isize(&self) -> Option<isize> {
                    if *self >= isize::MIN as $t && *self < isize::MAX as $t { Some(*self as isize) } else { None }
                }
                #[inline]
                fn to_f32(&self) -> Option<f32> {
                    Some(*self as f32)
                }
            }
            impl Float for $t {
                #[inline]
                fn zero() -> Self {
                    0.0
                }
                #[inline]
                fn one() -> Self {
                    1.0
                }
                fn epsilon() -> Self {
                    $t::EPSILON
                }
                fn min_positive_value() -> Self {
                    $t::MIN_POSITIVE
                }
                #[inline]
                fn max_value() -> Self {
                    $t::MAX
                }
                #[inline]
                fn abs(self) -> Self {
                    $t::abs(self)
                }
                #[inline]
                fn max(self, other: Self) -> Self {
                    $t::max(self, other)
                }
                #[inline]
                fn min(self, other: Self) -> Self {
                    $t::min(self, other)
                }
                fn clamp(self, low: Self, high: Self) -> Self {
                    $t::clamp(self, low, high)
                }
                #[inline]
                fn is_finite(self) -> bool {
                    $t::is_finite(self)
                }
                #[inline]
                fn fract(self) -> Self {
                    $t::fract(self)
                }
                #[inline]
                fn log10(self) -> Self {
                    $t::log10(self)
                }
                fn powf(self, other: Self) -> Self {
                    $t::powf(self, other)
                }
                float!(one $t round sqrt exp ln sin cos sinh cosh sin_pi cos_pi);
                #[inline]
                fn sin_cos(self) -> (Self, Self) {
                    (Float::sin(self), Float::cos(self))
                }
                #[inline]
                fn hypot(self, other: Self) -> Self {
                    crate::elementary::hypot(self as f64, other as f64) as $t
                }
                #[inline]
                fn atan2(self, other: Self) -> Self {
                    crate::elementary::angle(self as f64, other as f64) as $t
                }
            }
        };
        (one $t:ident $($name:ident)*) => { $(#[inline] fn $name(self) -> Self { crate::elementary::$name(self as f64) as $t })* };
    }
    float!(f64);
    float!(f32);

    impl ToPrimitive for isize {
        fn to_usize(&self) -> Option<usize> {
            usize::try_from(*self).ok()
        }
        fn to_isize(&self) -> Option<isize> {
            Some(*self)
        }
        fn to_f32(&self) -> Option<f32> {
            Some(*self as f32)
        }
    }
}

pub mod complex {
    use crate::traits::{ConstOne, ConstZero, Float, Zero};
    use core::ops::{Add, AddAssign, Div, DivAssign, Mul, MulAssign, Neg, Sub, SubAssign};

    #[derive(Clone, Copy, Debug, PartialEq)]
    pub struct Complex<T> {
        pub re: T,
        pub im: T,
    }

    impl<T> Complex<T> {
        #[inline]
        pub const fn new(re: T, im: T) -> Self {
            Complex { re, im }
        }
    }

    impl<T: ConstZero + ConstOne> Complex<T> {
        pub const I: Self = Complex { re: T::ZERO, im: T::ONE };
        pub const ONE: Self = Complex { re: T::ONE, im: T::ZERO };
        pub const ZERO: Self = Complex { re: T::ZERO, im: T::ZERO };
    }

    impl<T: Float> Zero for Complex<T> {
        #[inline]
        fn zero() -> Self {
            Complex::new(T::zero(), T::zero())
        }
    }

    impl<T: Float> From<T> for Complex<T> {
        fn from(re: T) -> Self {
            Complex::new(re, T::zero())
        }
    }

    impl<T: Float> Complex<T> {
        #[inline]
        pub fn norm_sqr(&self) -> T {
            self.re * self.re + self.im * self.im
        }
        #[inline]
        pub fn conj(&self) -> Self {
            Complex::new(self.re, -self.im)
        }
        #[inline]
        pub fn arg(self) -> T {
            self.im.atan2(self.re)
        }
        #[inline]
        pub fn ln(self) -> Self {
            Complex::new(self.re.hypot(self.im).ln(), self.arg())
        }
        #[inline]
        pub fn exp(self) -> Self {
            let r = self.re.exp();
            Complex::new(r * self.im.cos(), r * self.im.sin())
        }
        #[inline]
        pub fn cosh(self) -> Self {
            Complex::new(self.re.cosh() * self.im.cos(), self.re.sinh() * self.im.sin())
        }
        #[inline]
        pub fn sinh(self) -> Self {
            Complex::new(self.re.sinh() * self.im.cos(), self.re.cosh() * self.im.sin())
        }
        /// The root of the modulus at half the angle.
        #[inline]
        pub fn sqrt(self) -> Self {
            let r = self.re.hypot(self.im).sqrt();
            let half = self.arg() / (T::one() + T::one());
            Complex::new(r * half.cos(), r * half.sin())
        }
        /// A power is that many products in a row, starting from 1.
        #[inline]
        pub fn powu(&self, n: u32) -> Self {
            let mut p = Complex::new(T::one(), T::zero());
            for _ in 0..n {
                p = p * *self;
            }
            p
        }
        #[inline]
        pub fn powi(&self, n: i32) -> Self {
            self.powu(n as u32)
        }
        #[inline]
        pub fn is_finite(self) -> bool {
            self.re.is_finite() && self.im.is_finite()
        }
    }

    pub trait ComplexFloat {
        type Real;
        fn abs(self) -> Self::Real;
        fn re(self) -> Self::Real;
        fn im(self) -> Self::Real;
    }

    impl<T: Float> ComplexFloat for Complex<T> {
        type Real = T;
        #[inline]
        fn abs(self) -> T {
            self.re.hypot(self.im)
        }
        #[inline]
        fn re(self) -> T {
            self.re
        }
        #[inline]
        fn im(self) -> T {
            self.im
        }
    }

    impl<T: Float> Neg for Complex<T> {
        type Output = Self;
        #[inline]
        fn neg(self) -> Self {
            Complex::new(-self.re, -self.im)
        }
    }
    impl<T: Float> Add for Complex<T> {
        type Output = Self;
        #[inline]
        fn add(self, w: Self) -> Self {
            Complex::new(self.re + w.re, self.im + w.im)
        }
    }
    impl<T: Float> Sub for Complex<T> {
        type Output = Self;
        #[inline]
        fn sub(self, w: Self) -> Self {
            Complex::new(self.re - w.re, self.im - w.im)
        }
    }
    impl<T: Float> Mul for Complex<T> {
        type Output = Self;
        #[inline]
        fn mul(self, w: Self) -> Self {
            Complex::new(self.re * w.re - self.im * w.im, self.re * w.im + self.im * w.re)
        }
    }
    impl<T: Float> Div for Complex<T> {
        type Output = Self;
        #[inline]
        fn div(self, w: Self) -> Self {
            let n = w.norm_sqr();
            let re = self.re * w.re + self.im * w.im;
            let im = self.im * w.re - self.re * w.im;
            Complex::new(re / n, im / n)
        }
    }
    impl<T: Float> Add<T> for Complex<T> {
        type Output = Self;
        #[inline]
        fn add(self, t: T) -> Self {
            Complex::new(self.re + t, self.im)
        }
    }
    impl<T: Float> Sub<T> for Complex<T> {
        type Output = Self;
        #[inline]
        fn sub(self, t: T) -> Self {
            Complex::new(self.re - t, self.im)
        }
    }
    impl<T: Float> Mul<T> for Complex<T> {
        type Output = Self;
        #[inline]
        fn mul(self, t: T) -> Self {
            Complex::new(self.re * t, self.im * t)
        }
    }
    impl<T: Float> Div<T> for Complex<T> {
        type Output = Self;
        #[inline]
        fn div(self, t: T) -> Self {
            Complex::new(self.re / t, self.im / t)
        }
    }

    macro_rules! assign {
        ($($name:ident $method:ident $op:tt;)*) => { $(
            impl<T: Float> $name for Complex<T> {
                #[inline]
                fn $method(&mut self, w: Self) {
                    *self = *self $op w;
                }
            }
            impl<T: Float> $name<T> for Complex<T> {
                #[inline]
                fn $method(&mut self, t: T) {
                    *self = *self $op t;
                }
            }
        )* };
    }
    assign! {
        AddAssign add_assign +;
        SubAssign sub_assign -;
        MulAssign mul_assign *;
        DivAssign div_assign /;
    }

    macro_rules! real_first {
        ($($t:ident)*) => { $(
            impl Mul<Complex<$t>> for $t {
                type Output = Complex<$t>;
                #[inline]
                fn mul(self, w: Complex<$t>) -> Complex<$t> {
                    Complex::new(self * w.re, self * w.im)
                }
            }
            impl Div<Complex<$t>> for $t {
                type Output = Complex<$t>;
                #[inline]
                fn div(self, w: Complex<$t>) -> Complex<$t> {
                    Complex::new(self, 0.0) / w
                }
            }
        )* };
    }
    real_first!(f64 f32);
}
