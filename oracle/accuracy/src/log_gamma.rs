//! Log-gamma by region. A line: region, the bits of the argument, the number and the value of libcapi.a, 1 or 0 for whether the Rust text over std's functions answered, and its value.

use crate::draw::Draw;
use std::io::Write;

#[repr(C)]
struct LogGamma {
    value: f64,
    number: u32,
}

extern "C" {
    fn lichenoar_log_gamma(x: f64) -> LogGamma;
}

const ARGUMENTS: usize = 5000;

type Drawing = fn(&mut Draw) -> f64;

/// Where the steps change (a table for whole arguments to 100, a shift below 7, the series from 7 on), and where the true value is 0.
const REGIONS: [(&str, Drawing); 11] = [
    ("subnormal", |d| d.by_exponent(-1074, -1023)),
    ("2^-1022_to_2^-10", |d| d.by_exponent(-1022, -11)),
    ("2^-10_to_15/16", |d| d.between(1.0 / 1024.0, 0.9375)),
    ("beside_1", |d| if d.below(2) == 0 { d.between(0.9375, 1.0625) } else { 1.0 + small(d) }),
    ("17/16_to_31/16", |d| d.between(1.0625, 1.9375)),
    ("beside_2", |d| if d.below(2) == 0 { d.between(1.9375, 2.0625) } else { 2.0 + small(d) }),
    ("33/16_to_7", |d| d.between(2.0625, 7.0)),
    ("7_to_100", |d| d.between(7.0, 100.0)),
    ("whole_1_to_100", |d| 1.0 + d.below(100) as f64),
    ("100_to_2^20", |d| if d.below(2) == 0 { d.between(100.0, 1048576.0) } else { 100.0 + d.by_exponent(-3, 19) }),
    ("2^20_to_2^1014", |d| d.by_exponent(20, 1013)),
];

/// A step off a whole argument, either way, even in exponent.
fn small(d: &mut Draw) -> f64 {
    let step = d.by_exponent(-50, -5);
    d.sign(step)
}

pub fn run(seed: u64) {
    let mut out = std::io::BufWriter::new(std::io::stdout().lock());
    for (place, (region, draw)) in REGIONS.iter().enumerate() {
        let mut d = Draw::new(seed + (place as u64) * 0x1000_0000);
        for _ in 0..ARGUMENTS {
            let x = draw(&mut d);
            let ours = unsafe { lichenoar_log_gamma(x) };
            let text = native::amos::log_gamma(x);
            let told = text.unwrap_or(0.0);
            writeln!(out, "{region} {:016X} {} {:016X} {} {:016X}", x.to_bits(), ours.number, ours.value.to_bits(), text.is_some() as u8, told.to_bits()).unwrap();
        }
        eprintln!("log_gamma {region}: {ARGUMENTS} asked");
    }
}
