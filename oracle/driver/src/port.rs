//! The entry points of libcapi.a; `None` for one that the build left out, which fails the run.
#![allow(unused_variables, dead_code)]

#[path = "../../record.rs"]
mod record;

use crate::draw::Call;
use crate::reference::{Kind, Outcome};
use record::{Answer, Entry};

#[repr(C)]
struct LogGamma {
    value: f64,
    number: u32,
}

extern "C" {
    #[cfg(feature = "log_gamma")]
    fn lichenoar_log_gamma(x: f64) -> LogGamma;
    #[cfg(feature = "i")]
    fn lichenoar_i(answer: *mut Answer, scaled: u8, v: f64, re: f64, im: f64, out: *mut f64, length: usize) -> *mut Answer;
    #[cfg(feature = "k")]
    fn lichenoar_k(answer: *mut Answer, scaled: u8, v: f64, re: f64, im: f64, out: *mut f64, length: usize) -> *mut Answer;
}

pub fn log_gamma(x: f64) -> Option<(u32, u64)> {
    #[cfg(feature = "log_gamma")]
    {
        let r = unsafe { lichenoar_log_gamma(x) };
        return Some((r.number, r.value.to_bits()));
    }
    #[cfg(not(feature = "log_gamma"))]
    None
}

/// The call, on a buffer filled with the given rubbish and guarded by a cell on each side.
pub fn outcome(kind: Kind, c: &Call, rubbish: u64) -> Option<Result<Outcome, String>> {
    let function: Option<Entry> = match kind {
        #[cfg(feature = "k")]
        Kind::K => Some(lichenoar_k),
        #[cfg(feature = "i")]
        Kind::I => Some(lichenoar_i),
        #[allow(unreachable_patterns)]
        _ => None,
    };
    let function = function?;
    let mut cells = vec![f64::from_bits(rubbish); c.length + 2];
    let guard = 0x0123_4567_89AB_CDEF;
    cells[0] = f64::from_bits(guard);
    cells[c.length + 1] = f64::from_bits(guard);
    let mut a = Answer::default();
    unsafe { function(&mut a, c.scaled as u8, c.v, c.re, c.im, cells.as_mut_ptr().add(1), c.length) };
    if cells[0].to_bits() != guard || cells[c.length + 1].to_bits() != guard {
        return Some(Err("a cell outside the buffer was written".to_string()));
    }
    Some(Ok(Outcome {
        number: a.number,
        zeros: a.zeros,
        longest_sum: a.longest_sum,
        rungs: a.rungs,
        backward: a.backward,
        cells: cells[1..=c.length].iter().map(|x| x.to_bits()).collect(),
    }))
}
