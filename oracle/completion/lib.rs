//! The root of the text's crate, with what is not carried over left out.
#![allow(warnings)]
pub mod amos;
pub mod count;
mod types;

pub use amos::Scaling;
pub use types::{BesselError, BesselFloat};
