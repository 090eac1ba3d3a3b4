//! Stands in for `num`, with docs/SCOPE.md's section Arithmetic for its operators. Each elementary call goes to libcapi.a.
pub mod elementary {
    extern "C" {
        fn lichenoar_sqrt(x: f64) -> f64;
        fn lichenoar_exp(x: f64) -> f64;
        fn lichenoar_ln(x: f64) -> f64;
        fn lichenoar_sin(x: f64) -> f64;
        fn lichenoar_cos(x: f64) -> f64;
        fn lichenoar_sinh(x: f64) -> f64;
        fn lichenoar_cosh(x: f64) -> f64;
        fn lichenoar_sin_pi(x: f64) -> f64;
        fn lichenoar_cos_pi(x: f64) -> f64;
        fn lichenoar_round(x: f64) -> f64;
        fn lichenoar_hypot(x: f64, y: f64) -> f64;
        fn lichenoar_angle(y: f64, x: f64) -> f64;
    }
    macro_rules! routed {
        ($($name:ident $routine:ident;)*) => { $(#[inline] pub fn $name(x: f64) -> f64 { unsafe { $routine(x) } })* };
    }
    routed! {
        sqrt lichenoar_sqrt;
        exp lichenoar_exp;
        ln lichenoar_ln;
        sin lichenoar_sin;
        cos lichenoar_cos;
        sinh lichenoar_sinh;
        cosh lichenoar_cosh;
        sin_pi lichenoar_sin_pi;
        cos_pi lichenoar_cos_pi;
        round lichenoar_round;
    }
    #[inline]
    pub fn hypot(x: f64, y: f64) -> f64 {
        unsafe { lichenoar_hypot(x, y) }
    }
    #[inline]
    pub fn angle(y: f64, x: f64) -> f64 {
        unsafe { lichenoar_angle(y, x) }
    }
}

include!("body.rs");
