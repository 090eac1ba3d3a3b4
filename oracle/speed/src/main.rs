//! Times log-gamma, I and K of libcapi.a against the Rust text over std's functions, on the same arguments, in one process, interleaved. A run is the best of many rounds; of several runs
//! the least, the median and the largest are printed, behind what they were measured on. `speed [ROUNDS [LETTERS [RUNS]]]`: 400 rounds, 7 runs; LETTERS times those workloads alone.
//! Log-gamma, throughput: independent calls; latency: each argument waits for the value before it. I and K: the whole entry point, every check and the record included,
//! against the text's kernel alone. The workloads: K scaled, a: v=0, n=2, re=im from 2^-7 to 2^6; b: v<50, n=10, |z| from 0.1 to 50; B: as b, unscaled; c: v=1000, n=512,
//! |z| from 1,700 to 3,000. I unscaled, v=0, |z| ≤ 2, d: n=1; D: n=10.

#[path = "../../record.rs"]
#[allow(dead_code)]
mod record;
#[path = "../../../tools/host/runs.rs"]
mod runs;

use record::{Answer, Entry};
use runs::{count_at, tell_machine, Rows};
use std::hint::black_box;
use std::time::Instant;

#[repr(C)]
struct LogGamma {
    value: f64,
    number: u32,
}

extern "C" {
    fn lichenoar_log_gamma(x: f64) -> LogGamma;
    fn lichenoar_i(answer: *mut Answer, scaled: u8, v: f64, re: f64, im: f64, out: *mut f64, length: usize) -> *mut Answer;
    fn lichenoar_k(answer: *mut Answer, scaled: u8, v: f64, re: f64, im: f64, out: *mut f64, length: usize) -> *mut Answer;
}

struct Ask {
    v: f64,
    re: f64,
    im: f64,
}

/// splitmix64, seeded by the workload's letter; points of the right half disc by rejection, so that no function of a library but sqrt is asked.
struct Workload(u64);

impl Workload {
    fn new(letter: char) -> Self {
        Workload(0x6B65_7276_0000_0000 + letter as u64)
    }
    fn raw(&mut self) -> u64 {
        self.0 = self.0.wrapping_add(0x9E37_79B9_7F4A_7C15);
        let mut x = self.0;
        x = (x ^ (x >> 30)).wrapping_mul(0xBF58_476D_1CE4_E5B9);
        x = (x ^ (x >> 27)).wrapping_mul(0x94D0_49BB_1331_11EB);
        x ^ (x >> 31)
    }
    fn unit(&mut self) -> f64 {
        (self.raw() >> 11) as f64 * 2f64.powi(-53)
    }
    fn point(&mut self, radius: f64) -> (f64, f64) {
        loop {
            let (a, b) = (self.unit(), 2.0 * self.unit() - 1.0);
            let q = a * a + b * b;
            if q > 0.0 && q <= 1.0 {
                let scale = radius / q.sqrt();
                return (a * scale, b * scale);
            }
        }
    }
}

fn asks(letter: char, count: usize) -> Vec<Ask> {
    let mut w = Workload::new(letter);
    (0..count)
        .map(|_| {
            let (v, r) = match letter {
                'a' => {
                    let e = -7 + (w.raw() % 13) as i32;
                    let m = (1.0 + w.unit()) * 2f64.powi(e);
                    return Ask { v: 0.0, re: m, im: m };
                }
                'b' | 'B' => (50.0 * w.unit(), 0.1 + 49.9 * w.unit()),
                'c' => (1000.0, 1700.0 + 1300.0 * w.unit()),
                _ => (0.0, 2.0 * w.unit()),
            };
            let (re, im) = w.point(r);
            Ask { v, re, im }
        })
        .collect()
}

/// Nanoseconds a call, ours and the text's.
fn workload(letter: char, n: usize, rounds: usize) -> [f64; 2] {
    let is_k = !matches!(letter, 'd' | 'D');
    let scaled = matches!(letter, 'a' | 'b' | 'c');
    let (entry, scaling): (Entry, _) = (if is_k { lichenoar_k } else { lichenoar_i }, if scaled { native::Scaling::Scaled } else { native::Scaling::Unscaled });
    let calls = if n > 100 { 64 } else { ARGUMENTS };
    let asks = asks(letter, calls);
    let mut cells = vec![0.0; 2 * n];
    let mut entries = vec![native_complex(0.0, 0.0); n];
    let mut best = [f64::INFINITY; 2];
    for _ in 0..rounds {
        let begun = Instant::now();
        for q in &asks {
            let mut answer = Answer::default();
            unsafe { entry(&mut answer, scaled as u8, q.v, q.re, q.im, cells.as_mut_ptr(), 2 * n) };
            black_box((&cells, &answer));
        }
        best[0] = best[0].min(begun.elapsed().as_nanos() as f64 / calls as f64);
        let begun = Instant::now();
        for q in &asks {
            let z = native_complex(q.re, q.im);
            let count = if is_k {
                native::amos::k_right_half_plane(z, q.v, scaling, &mut entries).map_or(-1, |n| n as isize)
            } else {
                native::amos::i_power_series(z, q.v, scaling, &mut entries)
            };
            black_box((&entries, count));
        }
        best[1] = best[1].min(begun.elapsed().as_nanos() as f64 / calls as f64);
    }
    best
}

fn native_complex(re: f64, im: f64) -> num_std::Complex<f64> {
    num_std::Complex::new(re, im)
}

const ARGUMENTS: usize = 2048;

fn arguments(low: f64, high: f64, whole: bool) -> Vec<f64> {
    let mut s = 7u64;
    (0..ARGUMENTS)
        .map(|_| {
            s = s.wrapping_mul(6364136223846793005).wrapping_add(1442695040888963407);
            let x = low + (high - low) * ((s >> 11) as f64 / (1u64 << 53) as f64);
            if whole { x.ceil() } else { x }
        })
        .collect()
}

fn ours(x: f64) -> f64 {
    let r = unsafe { lichenoar_log_gamma(x) };
    if r.number == 0 { r.value } else { 0.0 }
}

#[inline(never)]
fn theirs(x: f64) -> f64 {
    native::amos::log_gamma(x).unwrap_or(0.0)
}

fn throughput(xs: &[f64], f: impl Fn(f64) -> f64) -> f64 {
    let begun = Instant::now();
    black_box(xs.iter().map(|x| f(*x)).sum::<f64>());
    begun.elapsed().as_nanos() as f64 / ARGUMENTS as f64
}

fn latency(xs: &[f64], mask: u64, f: impl Fn(f64) -> f64) -> f64 {
    let begun = Instant::now();
    let mut last = 0u64;
    for x in xs {
        last = f(f64::from_bits(x.to_bits() ^ (last & mask))).to_bits();
    }
    black_box(last);
    begun.elapsed().as_nanos() as f64 / ARGUMENTS as f64
}

/// A row for each kind of argument: throughput and latency, ours and the text's.
fn log_gamma(rounds: usize, rows: &mut Rows) {
    let mask = black_box(0u64);
    for (name, low, high, whole) in [("0 to 7", 0.0, 7.0, false), ("7 to 1,000", 7.0, 1000.0, false), ("whole, 1 to 100", 0.0, 100.0, true)] {
        let xs = arguments(low, high, whole);
        let mut best = [f64::INFINITY; 4];
        for _ in 0..rounds {
            best[0] = best[0].min(throughput(&xs, ours));
            best[1] = best[1].min(throughput(&xs, theirs));
            best[2] = best[2].min(latency(&xs, mask, ours));
            best[3] = best[3].min(latency(&xs, mask, theirs));
        }
        rows.add(name, &best);
    }
}

const USAGE: &str = "usage: speed [ROUNDS [LETTERS [RUNS]]], LETTERS of abBcdD";

fn main() {
    let words: Vec<String> = std::env::args().skip(1).collect();
    let (rounds, runs) = (count_at(&words, 0, 400, USAGE), count_at(&words, 2, 7, USAGE));
    let letters = words.get(1);
    let (mut of_log_gamma, mut of_workloads) = (Rows::new(), Rows::new());
    for run in 1..=runs {
        eprintln!("speed: run {run} of {runs}");
        if letters.is_none() {
            log_gamma(rounds, &mut of_log_gamma);
        }
        for (letter, n) in [('a', 2), ('b', 10), ('B', 10), ('c', 512), ('d', 1), ('D', 10)] {
            if letters.map_or(true, |l| l.contains(letter)) {
                of_workloads.add(&letter.to_string(), &workload(letter, n, rounds));
            }
        }
    }
    tell_machine(concat!(env!("CARGO_MANIFEST_DIR"), "/../../tools/host/machine.sh"));
    println!("Least / median / largest of {runs} runs, each the best of {rounds} rounds.\n");
    if letters.is_none() {
        println!("| log-gamma | throughput ns | text ns | ratio | latency ns | text ns | ratio |\n|---|---|---|---|---|---|---|");
        of_log_gamma.print(2);
        println!();
    }
    println!("| workload | ns a call | text ns | ratio |\n|---|---|---|---|");
    of_workloads.print(1);
}
