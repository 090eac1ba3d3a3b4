//! Replays the answers of the Rust text (../known.txt) through the public functions: number, counts and the bits of every entry, from slices full of rubbish.

use lichenoar::{i_into, k_into, log_gamma, Complex, Refusal, Scaling};
use std::collections::BTreeSet;

const KNOWN: &str = include_str!("../../known.txt");
const FIXED: u64 = 0x7FF8_0000_0000_0000;

fn value(word: &str) -> f64 {
    f64::from_bits(u64::from_str_radix(word, 16).unwrap())
}

fn bits(out: &[Complex]) -> Vec<u64> {
    out.iter().flat_map(|z| [z.re.to_bits(), z.im.to_bits()]).collect()
}

/// The refusal's number, 0 for an answer.
fn bessel(words: &[&str]) -> u32 {
    let [kind, scaled, v, re, im, length, number, zeros, longest_sum, rungs, backward] = words[..11] else { panic!("{words:?}") };
    let length: usize = length.parse().unwrap();
    let number: u32 = number.parse().unwrap();
    // rubbish that differs from cell to cell, and an entry on each side that is not lent
    let mut room: Vec<Complex> = (0..length / 2 + 2).map(|i| Complex::new(i as f64, -(i as f64))).collect();
    let untouched = [room[0], room[length / 2 + 1]];
    let lent = &mut room[1..=length / 2];
    let function = if kind == "k" { k_into } else { i_into };
    let scaling = if scaled == "0" { Scaling::Unscaled } else { Scaling::Scaled };
    let got = function(Complex::new(value(re), value(im)), value(v), scaling, lent);
    let cells = bits(lent);
    match got {
        Ok(a) => {
            assert_eq!(number, 0, "{words:?}");
            let counts = [i64::from(a.zeros), a.longest_sum.into(), a.rungs.into(), a.backward.into()];
            assert_eq!(counts, [zeros, longest_sum, rungs, backward].map(|w| w.parse::<i64>().unwrap()), "{words:?}");
            let want: Vec<u64> = words[11..].iter().map(|w| value(w).to_bits()).collect();
            assert_eq!(cells, want, "{words:?}");
        }
        Err(refusal) => {
            assert_eq!(refusal.number(), number, "{words:?}");
            assert_eq!(cells, vec![FIXED; length], "{words:?}");
        }
    }
    assert_eq!([room[0], room[length / 2 + 1]], untouched, "an entry outside the slice was written: {words:?}");
    number
}

#[test]
fn every_known_answer_and_every_refusal() {
    let mut met = BTreeSet::new();
    let (mut calls, mut odd) = (0, 0);
    for line in KNOWN.lines().filter(|l| !l.starts_with('#')) {
        let words: Vec<&str> = line.split_whitespace().collect();
        calls += 1;
        if words[0] == "g" {
            let number: u32 = words[2].parse().unwrap();
            let want = Refusal::from_number(number).map_or(Ok(value(words[3]).to_bits()), Err);
            assert_eq!(log_gamma(value(words[1])).map(f64::to_bits), want, "{line}");
            met.insert((words[0], number));
        } else if words[5].parse::<usize>().unwrap() % 2 == 1 {
            // no slice of Complex is an odd number of cells: src/raw.rs tries these
            odd += 1;
        } else {
            met.insert((words[0], bessel(&words)));
        }
    }
    assert_eq!((calls, odd), (86, 2));
    let all = [("g", [0, 2, 8, 10].as_slice()), ("i", &[0, 1, 2, 3, 5, 11, 12]), ("k", &[0, 1, 2, 3, 4, 7, 8, 11, 12])];
    assert_eq!(met, all.iter().flat_map(|(kind, numbers)| numbers.iter().map(move |n| (*kind, *n))).collect());
}
