//! Reads calls, one a line: K or I, scaled (0 or 1), cells lent, then the bits of v, re and im in hexadecimal; the rest of a line is a remark. Prints what each of these makes of it:
//!   given  the Rust text with no line changed, over its own constants and std's elementary functions
//!   text   the Rust text as completed by docs/SCOPE.md
//!   644    the Fortran, where it was compiled in; its start is the number of Miller's backward steps
//!   here   this project
use std::io::BufRead;
use std::panic::{catch_unwind, AssertUnwindSafe};

mod algorithm_644;
#[path = "../../../oracle/record.rs"]
#[allow(dead_code)]
mod record;

use record::{Answer, Entry};

extern "C" {
    fn lichenoar_i(answer: *mut Answer, scaled: u8, v: f64, re: f64, im: f64, out: *mut f64, length: usize) -> *mut Answer;
    fn lichenoar_k(answer: *mut Answer, scaled: u8, v: f64, re: f64, im: f64, out: *mut f64, length: usize) -> *mut Answer;
}

/// What a cell holds before a call.
const RUBBISH: u64 = 0x7FF4_DEAD_BEEF_0001;

struct Call {
    i: bool,
    scaled: bool,
    length: usize,
    v: f64,
    re: f64,
    im: f64,
}

fn one(x: f64) -> String {
    match x.to_bits() {
        RUBBISH => "unwritten".to_string(),
        b => format!("{b:016X} ({x:.10e})"),
    }
}

fn print(name: &str, verdict: &str, cells: &[f64]) {
    println!("  {name:5} {verdict}");
    let n = cells.len() / 2;
    for k in (0..n).filter(|&k| k < 3 || k + 1 == n) {
        println!("        [{k}] {} {}", one(cells[2 * k]), one(cells[2 * k + 1]));
    }
}

macro_rules! run {
    ($name:expr, $copy:ident, $num:ident, $c:expr, $counts:expr) => {{
        let c: &Call = $c;
        let mut out = vec![$num::Complex::new(f64::from_bits(RUBBISH), f64::from_bits(RUBBISH)); c.length / 2];
        let scaling = if c.scaled { $copy::Scaling::Scaled } else { $copy::Scaling::Unscaled };
        let z = $num::Complex::new(c.re, c.im);
        let r = catch_unwind(AssertUnwindSafe(|| {
            if c.i {
                Ok($copy::amos::i_power_series(z, c.v, scaling, &mut out))
            } else {
                $copy::amos::k_right_half_plane(z, c.v, scaling, &mut out).map(|n| n as isize)
            }
        }));
        let verdict = match r {
            Ok(Ok(n)) => format!("zeros {n}{}", $counts),
            Ok(Err(e)) => format!("error {e:?}"),
            Err(_) => "panics".to_string(),
        };
        let cells: Vec<f64> = out.iter().flat_map(|z| [z.re, z.im]).collect();
        print($name, &verdict, &cells);
    }};
}

/// The counts of the call in the counted copy, which also refuses where docs/SCOPE.md adds a refusal.
fn counts(c: &Call) -> String {
    let mut out = vec![num::Complex::new(0.0, 0.0); c.length / 2];
    let scaling = if c.scaled { counted::Scaling::Scaled } else { counted::Scaling::Unscaled };
    counted::count::begin();
    let z = num::Complex::new(c.re, c.im);
    let _ = catch_unwind(AssertUnwindSafe(|| {
        if c.i {
            counted::amos::i_power_series(z, c.v, scaling, &mut out);
        } else {
            let _ = counted::amos::k_right_half_plane(z, c.v, scaling, &mut out);
        }
    }));
    let t = counted::count::taken();
    format!(", longest sum {}, rungs {}, start {}", t.longest_sum, t.rungs, t.backward)
}

fn main() {
    std::panic::set_hook(Box::new(|_| ()));
    for line in std::io::stdin().lock().lines().map(|l| l.unwrap()) {
        let w: Vec<&str> = line.split_whitespace().collect();
        if w.len() < 6 || (w[0] != "K" && w[0] != "I") {
            println!("{line}");
            continue;
        }
        let bits = |s: &str| f64::from_bits(u64::from_str_radix(s, 16).unwrap());
        let c = Call { i: w[0] == "I", scaled: w[1] == "1", length: w[2].parse().unwrap(), v: bits(w[3]), re: bits(w[4]), im: bits(w[5]) };
        println!("{line}");
        println!("  v={:?} z={:?} + i*{:?}", c.v, c.re, c.im);
        run!("given", given, num_std, &c, "");
        run!("text", text, num, &c, counts(&c));
        if let Some((verdict, cells)) = algorithm_644::run(c.i, c.scaled, c.length / 2, c.v, c.re, c.im) {
            print("644", &verdict, &cells);
        }
        let mut cells = vec![f64::from_bits(RUBBISH); c.length];
        let mut a = Answer::default();
        let entry: Entry = if c.i { lichenoar_i } else { lichenoar_k };
        unsafe { entry(&mut a, c.scaled as u8, c.v, c.re, c.im, cells.as_mut_ptr(), c.length) };
        let verdict = format!("number {}, zeros {}, longest sum {}, rungs {}, start {}", a.number, a.zeros, a.longest_sum, a.rungs, a.backward);
        print("here", &verdict, &cells);
    }
}
