//! Asking frames and the answer lines that the Rust text, as docs/SCOPE.md completes it, gives them: one pair a line, with a blank between. Every way of going wrong
//! that a line has is among them, every refusal that the text meets, and every branch; what is missing fails the run.

use crate::draw::{self, Call, Draw};
use crate::reference::{self, Kind, Outcome};
use crate::{BRANCHES, NUMBERS};
use std::process::exit;

const MALFORMED: &str = "090000000000000000";

fn asking(kind: Kind, c: &Call, n: usize) -> String {
    let kind = if kind == Kind::K { 1 } else { 2 };
    format!("{kind:02X}{:02X}{n:04X}{:016X}{:016X}{:016X}", c.scaled as u8, c.v.to_bits(), c.re.to_bits(), c.im.to_bits())
}

fn answer(o: &Outcome) -> String {
    let mut line = format!("{:02X}{:04X}{:04X}{:04X}{:04X}", o.number, o.zeros as i16, o.longest_sum, o.rungs, o.backward);
    if o.number == 0 {
        for cell in &o.cells {
            line.push_str(&format!("{cell:016X}"));
        }
    }
    line
}

/// A line that is no frame, made from one that is.
fn malformed(d: &mut Draw, frame: &str) -> String {
    let mut bytes = frame.as_bytes().to_vec();
    let at = d.below(56) as usize;
    match d.below(9) {
        0 => bytes.truncate(at),
        1 => bytes.insert(at, b'0'),
        2 => bytes.extend_from_slice(b"00"),
        3 => bytes[at] = d.of(b"abcdefgGxX+-.,;:/@`"),
        4 => bytes[1] = d.of(b"03456789ABCDEF"),
        5 => bytes[0] = d.of(b"123456789ABCDEF"),
        6 => bytes[3] = d.of(b"23456789ABCDEF"),
        7 => bytes[2] = d.of(b"123456789ABCDEF"),
        _ => bytes.push(b'\r'),
    }
    String::from_utf8(bytes).unwrap()
}

/// The calls that docs/SCOPE.md and docs/DIFFERENCES.md name.
fn named() -> Vec<(Kind, Call, usize)> {
    let bits = f64::from_bits;
    let call = |kind, scaled, n, v: f64, re: f64, im: f64| (kind, Call { scaled, v, re, im, length: 2 * n }, n);
    vec![
        call(Kind::I, false, 2, 0.0, 0.0, 0.0),
        call(Kind::K, false, 1, 0.0, 0.0, 0.0),
        call(Kind::I, false, 2, 1.0, 0.0, 0.0),
        call(Kind::I, false, 3, 0.0, bits(0x0000_0004_0000_0000), 0.0),
        call(Kind::K, false, 1, f64::NAN, 0.0, 0.0),
        call(Kind::K, false, 1, 0.0, -5e-324, 0.0),
        call(Kind::I, false, 1, 0.0, 4.0, 0.0),
        call(Kind::I, false, 1, 0.0, 2.0, 0.0),
        call(Kind::K, false, 1, 0.0, 2.0, 0.0),
        call(Kind::K, false, 2, 0.0, 800.0, 0.0),
        call(Kind::K, false, 1, 1.0, 800.0, 0.0),
        call(Kind::K, false, 2, 1.0, 800.0, 0.0),
        call(Kind::I, true, 50, bits(0x4072_9C5E_15A0_1B31), bits(0x403E_2A75_B881_2B83), bits(0xC035_EF2D_038D_1EF8)),
        call(Kind::I, false, 10, bits(0x4075_1000_0000_0000), bits(0x4031_73BE_00B3_864E), bits(0x403C_A6A1_6331_9358)),
        call(Kind::I, false, 417, 3.0, 0.0, bits(0x4022_5472_F9AB_882D)),
    ]
}

/// How many orders a frame asks for: few as a rule, so that the file stays small.
fn pairs(d: &mut Draw, i: u64, drawn: usize) -> usize {
    match i % 400 {
        0 => 512,
        1 => d.of(&[0, 513, 1024, 65535]),
        2..=5 => drawn,
        6..=120 => 2,
        121..=160 => 3 + d.below(6) as usize,
        _ => 1,
    }
}

pub fn print(count: u64, d: &mut Draw) {
    let mut numbers = [0u64; NUMBERS];
    let mut branches = 0;
    // the calls that are named; of the edges of both entry points those that reach a branch first, and of the rest every so many; then random calls
    let mut calls = named();
    let mut reached = 0;
    for (kind, edges) in [(Kind::K, draw::k_edges()), (Kind::I, draw::i_edges())] {
        let fit: Vec<Call> = edges.into_iter().filter(|c| c.length % 2 == 0).collect();
        let step = (fit.len() as u64 * 8 / count.max(8)).max(1) as usize;
        for (i, c) in fit.iter().enumerate() {
            let passed = reference::outcome(kind, c).map_or(0, |(_, passed)| passed);
            if passed & !reached != 0 || (i % step == 0 && c.length <= 12) {
                reached |= passed;
                calls.push((kind, *c, c.length / 2));
            }
        }
    }
    // orders that are found lost on the way down need long visits
    while reached & draw::DEEP != draw::DEEP {
        let c = draw::call_i(d);
        let passed = reference::outcome(Kind::I, &c).map_or(0, |(_, passed)| passed);
        if c.length % 2 == 0 && passed & draw::DEEP & !reached != 0 {
            reached |= passed;
            calls.push((Kind::I, c, c.length / 2));
        }
    }
    let mut i = 0;
    while (calls.len() as u64) < count {
        let kind = if d.below(2) == 0 { Kind::K } else { Kind::I };
        let c = if kind == Kind::K { draw::call_k(d) } else { draw::call_i(d) };
        let n = pairs(d, i, c.length / 2);
        calls.push((kind, Call { length: 2 * n, ..c }, n));
        i += 1;
    }
    for (i, (kind, c, n)) in calls.iter().enumerate() {
        let ask = asking(*kind, c, *n);
        if i % 16 == 15 {
            println!("{} {MALFORMED}", malformed(d, &ask));
            numbers[9] += 1;
            continue;
        }
        let (o, passed) = reference::outcome(*kind, c).unwrap_or_else(|e| crate::differs(format!("{ask}: {e}")));
        numbers[o.number as usize] += 1;
        branches |= passed;
        println!("{ask} {}", answer(&o));
    }
    let mut missed = false;
    for (number, met) in numbers.iter().enumerate().filter(|(number, _)| ![6, 10].contains(number)) {
        if *met == 0 {
            eprintln!("frames: none is answered by {number}");
            missed = true;
        }
    }
    for (b, what, who) in BRANCHES {
        if (who == "i" || who == "k") && branches >> b & 1 == 0 {
            eprintln!("frames: never taken: {what}");
            missed = true;
        }
    }
    eprintln!("frames by number: {numbers:?}");
    exit(missed as i32)
}
