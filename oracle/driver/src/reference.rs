//! What docs/SCOPE.md says of a call, with the Rust text for the kernels: its number, its counts and every cell.

use crate::draw::Call;
use num::complex::ComplexFloat;
use num::Complex;

pub const FIXED: u64 = 0x7FF8_0000_0000_0000;
/// What a cell holds before a kernel is called: a pattern that no step yields.
const RUBBISH: u64 = 0x7FF4_DEAD_BEEF_0001;

#[derive(Clone, Debug, PartialEq, Eq)]
pub struct Outcome {
    pub number: u32,
    pub zeros: i32,
    pub longest_sum: u32,
    pub rungs: u32,
    pub backward: u32,
    pub cells: Vec<u64>,
}

fn refusal(number: u32, length: usize) -> Outcome {
    Outcome { number, zeros: 0, longest_sum: 0, rungs: 0, backward: 0, cells: vec![FIXED; length] }
}

#[derive(Clone, Copy, PartialEq, Eq, Debug)]
pub enum Kind {
    K,
    I,
}

/// The checks that are made before the kernel, in their order: the first that applies.
fn refused_before(kind: Kind, c: &Call) -> Option<u32> {
    if c.length % 2 == 1 || c.length == 0 || c.length > 1024 {
        return Some(1);
    }
    if !(c.v.is_finite() && c.re.is_finite() && c.im.is_finite()) {
        return Some(2);
    }
    if c.v < 0.0 || c.v > 1000.0 {
        return Some(3);
    }
    if c.re < 0.0 {
        return Some(11);
    }
    if c.re > 32768.0 || c.im.abs() > 32768.0 {
        return Some(12);
    }
    if kind == Kind::K && c.re == 0.0 && c.im == 0.0 {
        return Some(4);
    }
    if kind == Kind::I {
        let modulus = Complex::new(c.re + 0.0, c.im).abs();
        if modulus * modulus * 0.25 > ((c.v + 0.0) + (c.length / 2 - 1) as f64) + 1.0 {
            return Some(5);
        }
    }
    None
}

/// Runs one copy of the text: the kernel's own answer, and its cells with what was not written left as rubbish.
macro_rules! kernel {
    ($copy:ident, $kind:expr, $c:expr, $cells:expr) => {{
        let z = Complex::new($c.re + 0.0, $c.im);
        let scaling = if $c.scaled { $copy::Scaling::Scaled } else { $copy::Scaling::Unscaled };
        match $kind {
            Kind::K => $copy::amos::k_right_half_plane(z, $c.v + 0.0, scaling, $cells).map(|n| n as isize).map_err(|e| e.error_code()),
            Kind::I => Ok($copy::amos::i_power_series(z, $c.v + 0.0, scaling, $cells)),
        }
    }};
}

fn rubbish(n: usize) -> Vec<Complex<f64>> {
    vec![Complex::new(f64::from_bits(RUBBISH), f64::from_bits(RUBBISH)); n]
}

fn bits(cells: &[Complex<f64>]) -> Vec<u64> {
    cells.iter().flat_map(|z| [z.re.to_bits(), z.im.to_bits()]).collect()
}

/// The outcome, and the branches that the counted copy passed. The two copies are compared with each other on the way.
pub fn outcome(kind: Kind, c: &Call) -> Result<(Outcome, u64), String> {
    if let Some(number) = refused_before(kind, c) {
        return Ok((refusal(number, c.length), 0));
    }
    let n = c.length / 2;
    let mut cells = rubbish(n);
    counted::count::begin();
    let answer = kernel!(counted, kind, c, &mut cells);
    let counts = counted::count::taken();
    let zeros = match answer {
        Ok(zeros) => zeros,
        // the two refusals that the counted copy adds, and the search that ended unmet
        Err(2) => return Ok((refusal(7, c.length), counts.passed)),
        Err(_) => return Ok((refusal(6, c.length), counts.passed)),
    };
    let mut plain = rubbish(n);
    if kernel!(text, kind, c, &mut plain) != Ok(zeros) || bits(&plain) != bits(&cells) {
        return Err("the text and its counted copy differ".to_string());
    }
    let unwritten = |z: &Complex<f64>| z.re.to_bits() == RUBBISH && z.im.to_bits() == RUBBISH;
    let mut finished = 0;
    if kind == Kind::I && Complex::new(c.re + 0.0, c.im).abs() < 1000.0 * f64::MIN_POSITIVE {
        // the text writes at most the first entry; the port writes zeros beside it
        for z in cells.iter_mut().filter(|z| unwritten(z)) {
            *z = Complex::new(0.0, 0.0);
        }
    } else if zeros < 0 {
        finished = cells.iter().position(|z| !unwritten(z)).unwrap_or(n);
        for z in &mut cells[..finished] {
            *z = Complex::new(f64::from_bits(FIXED), f64::from_bits(FIXED));
        }
    }
    if cells.iter().any(unwritten) {
        return Err("the text left a cell unwritten".to_string());
    }
    if cells[finished..].iter().any(|z| !z.is_finite()) {
        return Ok((refusal(8, c.length), counts.passed));
    }
    let outcome = Outcome { number: 0, zeros: zeros as i32, longest_sum: counts.longest_sum, rungs: counts.rungs, backward: counts.backward, cells: bits(&cells) };
    Ok((outcome, counts.passed))
}

/// Log-gamma: its number, and the value's bits (the fixed not-a-number where it is refused).
pub fn log_gamma(x: f64) -> Result<((u32, u64), u64), String> {
    if !x.is_finite() {
        return Ok(((2, FIXED), 0));
    }
    if x <= 0.0 {
        return Ok(((10, FIXED), 0));
    }
    counted::count::begin();
    let counted = counted::amos::log_gamma(x).ok_or("the text refused")?;
    let passed = counted::count::taken().passed;
    let plain = text::amos::log_gamma(x).ok_or("the text refused")?;
    if plain.to_bits() != counted.to_bits() {
        return Err("the text and its counted copy differ".to_string());
    }
    Ok((if plain.is_finite() { (0, plain.to_bits()) } else { (8, FIXED) }, passed))
}
