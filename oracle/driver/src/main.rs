//! oracle ENTRY COUNT SEED: compares an entry point of libcapi.a (log_gamma, i, k) with the Rust text, bit for bit: values, counts, refusal numbers and every
//! cell of a buffer that was filled with rubbish first. ENTRY `limits` compares K and I, every third call outside the limits in one, two or three ways.
//! ENTRY `text-i` or `text-k` compares the text with its counted copy alone. The structured inputs come first
//! where there are any, then COUNT random ones by SEED. `record` in the place of an ENTRY prints COUNT recorded answers of log-gamma, and `frames` COUNT asking frames each with
//! its answer line, for replays without Rust. A difference prints the call in hexadecimal and fails the run. At the end: refusals by number, the largest
//! counts, and how often each branch was taken; a branch that the domain reaches and the run did not is a failure too.

mod draw;
mod frames;
mod port;
mod reference;

use draw::{Call, Draw};
use reference::Kind;
use std::process::exit;

/// The branches of the counted copy (generate.py has the same numbers): for each, the name, and which entry point reaches it.
pub const BRANCHES: [(u32, &str, &str); 35] = [
    (0, "I below the underflow limit", "i"),
    (2, "I order below the exponent limit", "i"),
    (3, "I stopped at a zeroed order", "i"),
    (4, "I near underflow", "i"),
    (5, "I value lost", "i"),
    (6, "I stopped at a lost value", "i"),
    (7, "I near-underflow mark cleared", "i"),
    (8, "I sum is 1 at once", "i"),
    (9, "I sum taken", "i"),
    (10, "I downward step", "i"),
    (11, "K one finished value", "k"),
    (12, "K Temme near overflow", "k"),
    (13, "K seeds kept on scale", "k"),
    (15, "K climb out of underflow", "k"),
    (16, "K climb: value on scale", "k"),
    (17, "K climb: lowered", "k"),
    (18, "K first orders on scale", "k"),
    (19, "K all zeros", "k"),
    (20, "K two values on scale", "k"),
    (21, "K three or more left", "k"),
    (22, "K difference series", "k"),
    (23, "K Temme sum taken", "k"),
    (24, "K real Miller", "k"),
    (25, "K complex Miller", "k"),
    (26, "K search met at once", "k"),
    (27, "K search met", "k"),
    (29, "K search for first orders", "k"),
    (30, "K two orders found", "k"),
    (31, "K search lowered", "-"),
    (32, "K scale state moved", "k"),
    (33, "log-gamma from the table", "log_gamma"),
    (34, "log-gamma shifted", "log_gamma"),
    (35, "log-gamma series", "log_gamma"),
    (36, "log-gamma series met its test", "log_gamma"),
    (37, "log-gamma shift undone", "log_gamma"),
];

/// 0 and the refusals' numbers.
pub const NUMBERS: usize = 13;

struct Tally {
    calls: u64,
    compared: u64,
    by_number: [u64; NUMBERS],
    branches: [u64; 64],
    longest: [u32; 3],
}

impl Tally {
    fn passed(&mut self, passed: u64) {
        for b in 0..64 {
            self.branches[b] += passed >> b & 1;
        }
    }
}

fn differs(text: String) -> ! {
    println!("DIFFERENT: {text}");
    exit(1)
}

fn log_gamma(x: f64, t: &mut Tally) {
    let call = format!("log_gamma {:016X}", x.to_bits());
    let (want, passed) = reference::log_gamma(x).unwrap_or_else(|e| differs(format!("{call}: {e}")));
    t.calls += 1;
    t.by_number[want.0 as usize] += 1;
    t.passed(passed);
    if let Some(got) = port::log_gamma(x) {
        t.compared += 1;
        if got != want {
            differs(format!("{call}: number {} value {:016X}, the text has {} {:016X}", got.0, got.1, want.0, want.1));
        }
    }
}

/// The text's number; the run ends where the port's outcome is another.
fn bessel(kind: Kind, c: &Call, rubbish: u64, with_port: bool, t: &mut Tally) -> u32 {
    let call = format!("{kind:?} scaled={} v={:016X} re={:016X} im={:016X} cells={}", c.scaled as u8, c.v.to_bits(), c.re.to_bits(), c.im.to_bits(), c.length);
    let (want, passed) = reference::outcome(kind, c).unwrap_or_else(|e| differs(format!("{call}: {e}")));
    t.calls += 1;
    t.by_number[want.number as usize] += 1;
    t.passed(passed);
    for (most, now) in t.longest.iter_mut().zip([want.longest_sum, want.rungs, want.backward]) {
        *most = (*most).max(now);
    }
    if kind == Kind::K && want.number == 0 {
        let r = c.v.round() as u32;
        let n = (c.length / 2) as u32;
        if want.rungs != if r == 0 && n == 1 { 0 } else { r + n - 2 } {
            differs(format!("{call}: {} rungs", want.rungs));
        }
    }
    if !with_port {
        return want.number;
    }
    match port::outcome(kind, c, rubbish) {
        None => differs(format!("libcapi.a has no entry point {kind:?}")),
        Some(Err(e)) => differs(format!("{call}: {e}")),
        Some(Ok(got)) => {
            t.compared += 1;
            if got != want {
                let at = got.cells.iter().zip(&want.cells).position(|(a, b)| a != b);
                differs(format!("{call}: first cell that differs {at:?}\n  port {:?}\n  text {:?}", short(&got), short(&want)));
            }
        }
    }
    want.number
}

/// K and I, with calls that were drawn to lie outside the limits in a known way: the number has to be that way's. Whether every way was met.
fn limits(count: u64, d: &mut Draw, t: &mut Tally) -> bool {
    let mut ways = [0u64; 8];
    let mut one = |kind: Kind, (c, broken): (Call, draw::Broken), rubbish: u64, t: &mut Tally| {
        let number = bessel(kind, &c, rubbish, true, t);
        ways[broken.ways()] += 1;
        let before = if c.length % 2 == 1 || c.length == 0 || c.length > 1024 {
            Some(1)
        } else if [c.v, c.re, c.im].iter().any(|x| !x.is_finite()) {
            Some(2)
        } else {
            broken.number()
        };
        if before.map_or([1, 2, 3, 11, 12].contains(&number), |wanted| number != wanted) {
            differs(format!("{kind:?} {c:?}, drawn as {broken:?}, has the number {number}"));
        }
    };
    for kind in [Kind::K, Kind::I] {
        for call in draw::limits_edges() {
            one(kind, call, 0x7FF0_0000_0000_0001, t);
        }
    }
    for i in 0..count {
        let kind = if d.below(2) == 0 { Kind::K } else { Kind::I };
        let call = draw::call_limits(d, i % 3 == 0);
        let rubbish = d.bits();
        one(kind, call, rubbish, t);
    }
    let outside: u64 = ways[1..].iter().sum();
    println!("outside the limits: {outside} of {} calls; by order {}, sign {}, size {}, order and sign {}, order and size {}, sign and size {}, all three {}",
        t.calls, ways[1], ways[2], ways[4], ways[3], ways[5], ways[6], ways[7]);
    3 * outside >= t.calls && !ways.contains(&0)
}

fn short(o: &reference::Outcome) -> String {
    let cells: Vec<String> = o.cells.iter().take(12).map(|c| format!("{c:016X}")).collect();
    format!("number {} zeros {} sum {} rungs {} backward {} cells {}", o.number, o.zeros, o.longest_sum, o.rungs, o.backward, cells.join(" "))
}

/// Every edge, thinned to a quarter of COUNT, and random arguments: the argument, the text's number and the value's bits.
fn record(count: u64, d: &mut Draw) {
    let edges = draw::log_gamma_edges();
    let step = (edges.len() as u64 * 4 / count.max(4)).max(1) as usize;
    let mut xs: Vec<f64> = edges.iter().enumerate().filter(|(i, _)| *i < 12 || i % step == 0).map(|(_, x)| *x).collect();
    while (xs.len() as u64) < count {
        xs.push(draw::log_gamma_argument(d));
    }
    for x in xs {
        let ((number, value), _) = reference::log_gamma(x).unwrap_or_else(|e| differs(e));
        println!("log_gamma {:016X} {number} {value:016X}", x.to_bits());
    }
}

fn main() {
    let a: Vec<String> = std::env::args().skip(1).collect();
    let (Some(entry), Some(count), Some(seed)) = (a.first(), a.get(1).and_then(|s| s.parse::<u64>().ok()), a.get(2).and_then(|s| s.parse::<u64>().ok())) else {
        eprintln!("usage: oracle log_gamma|i|k|limits|text-i|text-k|record|frames COUNT SEED");
        exit(2);
    };
    let mut d = Draw::new(seed);
    if entry == "record" {
        record(count, &mut d);
        return;
    }
    if entry == "frames" {
        frames::print(count, &mut d);
        return;
    }
    println!("oracle {entry}: {count} random calls by the seed {seed}");
    let mut t = Tally { calls: 0, compared: 0, by_number: [0; NUMBERS], branches: [0; 64], longest: [0; 3] };
    let name = entry.trim_start_matches("text-");
    let mut missed = false;
    match name {
        "log_gamma" => {
            for x in draw::log_gamma_edges() {
                log_gamma(x, &mut t);
            }
            for _ in 0..count {
                let x = draw::log_gamma_argument(&mut d);
                log_gamma(x, &mut t);
            }
        }
        "i" | "k" => {
            let kind = if name == "i" { Kind::I } else { Kind::K };
            for c in if kind == Kind::I { draw::i_edges() } else { draw::k_edges() } {
                bessel(kind, &c, 0x7FF0_0000_0000_0001, name == entry, &mut t);
            }
            for _ in 0..count {
                let c = if kind == Kind::I { draw::call_i(&mut d) } else { draw::call_k(&mut d) };
                let rubbish = d.bits();
                bessel(kind, &c, rubbish, name == entry, &mut t);
            }
        }
        "limits" if name == entry => missed = !limits(count, &mut d, &mut t),
        _ => {
            eprintln!("oracle: no entry point {entry}");
            exit(2);
        }
    }
    println!("{} calls, {} compared with libcapi.a, none different; longest sum {}, rungs {}, backward steps {}", t.calls, t.compared, t.longest[0], t.longest[1], t.longest[2]);
    let numbers: Vec<String> = t.by_number.iter().enumerate().filter(|(_, n)| **n > 0).map(|(i, n)| format!("{i}: {n}")).collect();
    println!("by number: {}", numbers.join(", "));
    if missed {
        println!("  a way of lying outside the limits was not met, or fewer than a third of the calls lie there");
    }
    for (b, what, who) in BRANCHES {
        let n = t.branches[b as usize];
        if who == name || n > 0 {
            println!("  {n:>12} {what}");
        }
        if who == name && n == 0 {
            println!("  never taken: {what}");
            missed = true;
        }
    }
    exit(missed as i32)
}
