//! Not carried over: what `i_right_half_plane` and `limits` name and no door reaches.
use crate::{BesselError, BesselFloat, Scaling};
use num::Complex;

pub fn i_asymptotic<T: BesselFloat>(_: Complex<T>, _: T, _: Scaling, _: &mut [Complex<T>]) -> Result<usize, BesselError<T>> {
    unreachable!()
}

pub fn i_asymp_large_order<T: BesselFloat>(_: Complex<T>, _: T, _: Scaling, _: usize, _: &mut [Complex<T>]) -> Result<(usize, usize), BesselError<T>> {
    unreachable!()
}

pub struct AiryGeometry<T> {
    pub phi: Complex<T>,
    pub arg: Complex<T>,
    pub zeta1: Complex<T>,
    pub zeta2: Complex<T>,
}

impl<T: BesselFloat> AiryGeometry<T> {
    pub fn compute(_: Complex<T>, _: T) -> Self {
        unreachable!()
    }
}

pub struct DebyeGeometry<T> {
    pub phi_i: Complex<T>,
    pub phi_k: Complex<T>,
    pub zeta1: Complex<T>,
    pub zeta2: Complex<T>,
}

impl<T: BesselFloat> DebyeGeometry<T> {
    pub fn compute(_: Complex<T>, _: T) -> Self {
        unreachable!()
    }
}
