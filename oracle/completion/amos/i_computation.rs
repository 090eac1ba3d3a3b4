//! Not carried over: what `i_right_half_plane` names and no door reaches.
use crate::{BesselError, BesselFloat, Scaling};
use num::Complex;

pub fn i_miller<T: BesselFloat>(_: Complex<T>, _: T, _: Scaling, _: &mut [Complex<T>]) -> Result<(), BesselError<T>> {
    unreachable!()
}

pub fn i_wronskian<T: BesselFloat>(_: Complex<T>, _: T, _: Scaling, _: &mut [Complex<T>]) -> Result<usize, BesselError<T>> {
    unreachable!()
}
