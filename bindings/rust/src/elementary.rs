//! The twelve real routines that K, I and log-gamma stand on. Each is defined for every argument and has the same bits on every processor;
//! a not-a-number comes back with the bits 7FF8000000000000. docs/SCOPE.md of the repository says what each gives at infinities, docs/ACCURACY.md how near it is.
//!
//! ```
//! use lichenoar::elementary::{angle, cos_pi, hypot, ln, round, sin_pi, sqrt};
//!
//! assert_eq!(sqrt(4.0), 2.0);
//! assert_eq!(hypot(3.0, 4.0), 5.0);
//! assert_eq!(ln(0.0), f64::NEG_INFINITY);
//! assert_eq!(angle(0.0, 1.0), 0.0);
//! assert_eq!(sin_pi(1000.0), 0.0);
//! assert_eq!(cos_pi(0.5), 0.0);
//! assert_eq!(round(-2.5), -3.0);
//! ```

use crate::raw;

macro_rules! routine {
    ($(#[$words:meta])* $name:ident, $raw:ident, $($argument:ident),+) => {
        $(#[$words])*
        #[must_use]
        #[inline]
        pub fn $name($($argument: f64),+) -> f64 {
            // Safety: numbers alone pass, and the routine takes every one.
            unsafe { raw::$raw($($argument),+) }
        }
    };
}

routine!(
    /// The square root: the nearest `f64`, ties to even. Of a negative number the fixed not-a-number, of either zero that zero.
    sqrt, lichenoar_sqrt, x
);
routine!(
    /// The root of `x² + y²`, with no overflow on the way.
    hypot, lichenoar_hypot, x, y
);
routine!(
    /// e to the power x.
    exp, lichenoar_exp, x
);
routine!(
    /// The natural logarithm: minus infinity at either zero, the fixed not-a-number below.
    ln, lichenoar_ln, x
);
routine!(
    /// The sine of x radians.
    sin, lichenoar_sin, x
);
routine!(
    /// The cosine of x radians.
    cos, lichenoar_cos, x
);
routine!(
    /// The angle of the point (x, y), in radians. y comes first, as in `f64::atan2`.
    angle, lichenoar_angle, y, x
);
routine!(
    /// The hyperbolic sine.
    sinh, lichenoar_sinh, x
);
routine!(
    /// The hyperbolic cosine.
    cosh, lichenoar_cosh, x
);
routine!(
    /// sin(πx): exactly 0 at every whole x.
    sin_pi, lichenoar_sin_pi, x
);
routine!(
    /// cos(πx): exactly 0 at -0.5 and 0.5.
    cos_pi, lichenoar_cos_pi, x
);
routine!(
    /// The nearest whole number, half away from zero.
    round, lichenoar_round, x
);
