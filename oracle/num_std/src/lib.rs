//! The same stand-in over std's elementary functions: what the old crate costs, for the speed comparisons.
pub mod elementary {
    macro_rules! of_std {
        ($($name:ident)*) => { $(#[inline] pub fn $name(x: f64) -> f64 { x.$name() })* };
    }
    of_std! { sqrt exp ln sin cos sinh cosh round }
    #[inline]
    pub fn sin_pi(x: f64) -> f64 {
        (std::f64::consts::PI * x).sin()
    }
    #[inline]
    pub fn cos_pi(x: f64) -> f64 {
        (std::f64::consts::PI * x).cos()
    }
    #[inline]
    pub fn hypot(x: f64, y: f64) -> f64 {
        x.hypot(y)
    }
    #[inline]
    pub fn angle(y: f64, x: f64) -> f64 {
        y.atan2(x)
    }
}

include!("../../num/src/body.rs");
