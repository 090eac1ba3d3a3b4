//! The constants of docs/SCOPE.md, in the place where the text asks for them when its feature `std` is off.
use super::MachineConsts;

pub const MACHINE_CONSTANTS_64: MachineConsts<f64> = MachineConsts {
    underflow_limit: 1000.0 * f64::MIN_POSITIVE,
    absolute_approximation_limit: 1000.0 * f64::MIN_POSITIVE * 4503599627370496.0,
    abs_error_tolerance: f64::EPSILON,
    exponent_limit: 700.9217936944459,
    approximation_limit: 664.8716455337102,
    rtol: 4503599627370496.0,
    gamma_ln_z_min: 7.0,
    // not asked for by what is carried over
    significant_digits: f64::NAN,
    asymptotic_z_limit: f64::NAN,
    asymptotic_order_limit: f64::NAN,
};

pub const MACHINE_CONSTANTS_32: MachineConsts<f32> = MachineConsts {
    underflow_limit: f32::NAN,
    absolute_approximation_limit: f32::NAN,
    abs_error_tolerance: f32::NAN,
    exponent_limit: f32::NAN,
    approximation_limit: f32::NAN,
    significant_digits: f32::NAN,
    asymptotic_z_limit: f32::NAN,
    asymptotic_order_limit: f32::NAN,
    rtol: f32::NAN,
    gamma_ln_z_min: f32::NAN,
};
