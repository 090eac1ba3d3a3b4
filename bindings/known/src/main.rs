//! Prints the answers that the Rust text gives to the calls of ../calls.txt: the file ../known.txt, which the tests of both bindings replay.
//! After oracle/make.sh: cargo run --offline --quiet > ../known.txt
#![allow(dead_code)]

#[path = "../../../oracle/driver/src/draw.rs"]
mod draw;
#[path = "../../../oracle/driver/src/reference.rs"]
mod reference;

use draw::Call;
use reference::Kind;

fn value(word: &str) -> f64 {
    f64::from_bits(u64::from_str_radix(word, 16).expect("16 hexadecimal digits"))
}

fn main() {
    println!("# Answers of the Rust text to the calls of calls.txt, printed by bindings/known. Kind, scaled, bits of v, re, im, cells lent; then number, zeros,");
    println!("# longest sum, rungs, backward steps, and every cell of an answer. Of a refusal every cell is 7FF8000000000000. g is log-gamma: argument, number, value.");
    for line in include_str!("../calls.txt").lines() {
        let words: Vec<&str> = line.split('#').next().unwrap_or("").split_whitespace().collect();
        match words[..] {
            [] => {}
            ["g", x] => {
                let ((number, bits), _) = reference::log_gamma(value(x)).expect(line);
                println!("g {x} {number} {bits:016X}");
            }
            [kind, scaled, v, re, im, length] => {
                let c = Call { scaled: scaled != "0", v: value(v), re: value(re), im: value(im), length: length.parse().expect(line) };
                let (o, _) = reference::outcome(if kind == "k" { Kind::K } else { Kind::I }, &c).expect(line);
                print!("{} {} {} {} {} {}", words.join(" "), o.number, o.zeros, o.longest_sum, o.rungs, o.backward);
                o.cells.iter().filter(|_| o.number == 0).for_each(|cell| print!(" {cell:016X}"));
                println!();
            }
            _ => panic!("not understood: {line}"),
        }
    }
}
