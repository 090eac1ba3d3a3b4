//! Times the twelve elementary routines of libcapi.a against std's on the same arguments, in one process, interleaved. A run is the best of many rounds; of several runs the least,
//! the median and the largest are printed, behind what they were measured on. `bench [ROUNDS [RUNS]]`: 400 rounds, 7 runs.
//! Throughput: independent calls. Latency: each argument waits for the result before it (one exclusive-or of bits, the same for both sides).
//! One line a routine: nanoseconds a call and the ratio ours / std's, for each of the two.

#[path = "../../tools/host/runs.rs"]
mod runs;

use runs::{count_at, tell_machine, Rows};
use std::cell::RefCell;
use std::hint::black_box;
use std::time::Instant;

extern "C" {
    fn lichenoar_sqrt(x: f64) -> f64;
    fn lichenoar_exp(x: f64) -> f64;
    fn lichenoar_ln(x: f64) -> f64;
    fn lichenoar_sin(x: f64) -> f64;
    fn lichenoar_cos(x: f64) -> f64;
    fn lichenoar_sinh(x: f64) -> f64;
    fn lichenoar_cosh(x: f64) -> f64;
    fn lichenoar_sin_pi(x: f64) -> f64;
    fn lichenoar_cos_pi(x: f64) -> f64;
    fn lichenoar_round(x: f64) -> f64;
    fn lichenoar_hypot(x: f64, y: f64) -> f64;
    fn lichenoar_angle(y: f64, x: f64) -> f64;
}

const ARGUMENTS: usize = 2048;

/// splitmix64: the arguments are the same in every run.
struct Draw(u64);

impl Draw {
    fn next(&mut self) -> u64 {
        self.0 = self.0.wrapping_add(0x9E37_79B9_7F4A_7C15);
        let mut z = self.0;
        z = (z ^ (z >> 30)).wrapping_mul(0xBF58_476D_1CE4_E5B9);
        z = (z ^ (z >> 27)).wrapping_mul(0x94D0_49BB_1331_11EB);
        z ^ (z >> 31)
    }
    fn between(&mut self, low: f64, high: f64) -> f64 {
        low + (high - low) * ((self.next() >> 11) as f64 / (1u64 << 53) as f64)
    }
}

fn arguments(low: f64, high: f64, seed: u64) -> Vec<f64> {
    let mut d = Draw(seed);
    (0..ARGUMENTS).map(|_| d.between(low, high)).collect()
}

#[inline(always)]
fn throughput(xs: &[f64], ys: &[f64], f: impl Fn(f64, f64) -> f64) -> f64 {
    let begun = Instant::now();
    let mut sum = 0.0;
    for i in 0..ARGUMENTS {
        sum += f(xs[i], ys[i]);
    }
    black_box(sum);
    begun.elapsed().as_nanos() as f64 / ARGUMENTS as f64
}

#[inline(always)]
fn latency(xs: &[f64], ys: &[f64], mask: u64, f: impl Fn(f64, f64) -> f64) -> f64 {
    let begun = Instant::now();
    let mut last = 0u64;
    for i in 0..ARGUMENTS {
        last = f(f64::from_bits(xs[i].to_bits() ^ (last & mask)), ys[i]).to_bits();
    }
    black_box(last);
    begun.elapsed().as_nanos() as f64 / ARGUMENTS as f64
}

fn compare(rows: &RefCell<Rows>, name: &str, rounds: usize, xs: &[f64], ys: &[f64], ours: impl Fn(f64, f64) -> f64, theirs: impl Fn(f64, f64) -> f64) {
    let mask = black_box(0u64);
    let mut best = [f64::INFINITY; 4];
    for _ in 0..rounds {
        best[0] = best[0].min(throughput(xs, ys, &ours));
        best[1] = best[1].min(throughput(xs, ys, &theirs));
        best[2] = best[2].min(latency(xs, ys, mask, &ours));
        best[3] = best[3].min(latency(xs, ys, mask, &theirs));
    }
    rows.borrow_mut().add(name, &best);
}

/// std's side is called as ours is: a function that is not inlined.
macro_rules! std_one {
    ($($name:ident $f:expr;)*) => { $(#[inline(never)] extern "C" fn $name(x: f64) -> f64 { let f: fn(f64) -> f64 = $f; f(x) })* };
}
macro_rules! std_two {
    ($($name:ident $f:expr;)*) => { $(#[inline(never)] extern "C" fn $name(x: f64, y: f64) -> f64 { let f: fn(f64, f64) -> f64 = $f; f(x, y) })* };
}
std_one! {
    std_sqrt |x| x.sqrt();
    std_exp |x| x.exp();
    std_ln |x| x.ln();
    std_sin |x| x.sin();
    std_cos |x| x.cos();
    std_sinh |x| x.sinh();
    std_cosh |x| x.cosh();
    std_sin_pi |x| (std::f64::consts::PI * x).sin();
    std_cos_pi |x| (std::f64::consts::PI * x).cos();
    std_round |x| x.round();
}
std_two! {
    std_hypot |x, y| x.hypot(y);
    std_atan2 |y, x| y.atan2(x);
}

const USAGE: &str = "usage: bench [ROUNDS [RUNS]]";

fn main() {
    let words: Vec<String> = std::env::args().skip(1).collect();
    let (rounds, runs) = (count_at(&words, 0, 400, USAGE), count_at(&words, 1, 7, USAGE));
    let rows = RefCell::new(Rows::new());
    for run in 1..=runs {
        eprintln!("bench: run {run} of {runs}");
        all(&rows, rounds);
    }
    tell_machine(concat!(env!("CARGO_MANIFEST_DIR"), "/../tools/host/machine.sh"));
    println!("Least / median / largest of {runs} runs, each the best of {rounds} rounds.\n");
    println!("| routine | throughput ns | std ns | ratio | latency ns | std ns | ratio |");
    println!("|---|---|---|---|---|---|---|");
    rows.borrow().print(2);
}

fn all(rows: &RefCell<Rows>, rounds: usize) {
    let none = vec![0.0; ARGUMENTS];
    let one = |name: &str, low: f64, high: f64, ours: unsafe extern "C" fn(f64) -> f64, theirs: extern "C" fn(f64) -> f64| {
        let xs = arguments(low, high, 7);
        compare(rows, name, rounds, &xs, &none, |x, _| unsafe { ours(x) }, |x, _| theirs(x));
    };
    let two = |name: &str, low: f64, high: f64, ours: unsafe extern "C" fn(f64, f64) -> f64, theirs: extern "C" fn(f64, f64) -> f64| {
        let xs = arguments(low, high, 7);
        let ys = arguments(low, high, 8);
        compare(rows, name, rounds, &xs, &ys, |x, y| unsafe { ours(x, y) }, |x, y| theirs(x, y));
    };
    one("sqrt", 0.0, 46341.0, lichenoar_sqrt, std_sqrt);
    two("hypot", -100.0, 100.0, lichenoar_hypot, std_hypot);
    one("exp", -700.0, 355.0, lichenoar_exp, std_exp);
    one("ln", 0.001, 2000.0, lichenoar_ln, std_ln);
    one("sin", -100.0, 100.0, lichenoar_sin, std_sin);
    one("cos", -100.0, 100.0, lichenoar_cos, std_cos);
    two("angle", -100.0, 100.0, lichenoar_angle, std_atan2);
    one("sinh", -20.0, 20.0, lichenoar_sinh, std_sinh);
    one("sinh, below 1", -1.0, 1.0, lichenoar_sinh, std_sinh);
    one("cosh", -20.0, 20.0, lichenoar_cosh, std_cosh);
    one("cosh, below 1", -1.0, 1.0, lichenoar_cosh, std_cosh);
    one("sin_pi", -0.5, 0.5, lichenoar_sin_pi, std_sin_pi);
    one("cos_pi", -0.5, 0.5, lichenoar_cos_pi, std_cos_pi);
    one("round", 0.0, 1000.0, lichenoar_round, std_round);
}
