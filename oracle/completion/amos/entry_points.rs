//! Doors to the three kernels.
use crate::types::BesselFloat;

pub use super::power_series::i_power_series;
pub use super::right_half_plane::k_right_half_plane;

pub fn log_gamma(x: f64) -> Option<f64> {
    super::gamma_ln(x, <f64 as BesselFloat>::MACHINE_CONSTANTS).ok()
}

pub fn lost(y: num::Complex<f64>) -> bool {
    super::utils::will_underflow(y, <f64 as BesselFloat>::MACHINE_CONSTANTS)
}
