//! Single values: the entry of a slice of one, by bits, and the refusals that they have and have not.

use lichenoar::Scaling::{Scaled, Unscaled};
use lichenoar::{i, i_into, k, k_into, Answer, Complex, Refusal, Scaling};
use std::collections::BTreeSet;

type Single = fn(f64, Complex, Scaling) -> Result<Complex, Refusal>;
type Sequence = fn(Complex, f64, Scaling, &mut [Complex]) -> Result<Answer, Refusal>;
const FUNCTIONS: [(Single, Sequence); 2] = [(k, k_into), (i, i_into)];
const RUBBISH: Complex = Complex::new(123.0, -456.0);
const KNOWN: &str = include_str!("../../known.txt");

fn bits(z: Complex) -> [u64; 2] {
    <[f64; 2]>::from(z).map(f64::to_bits)
}

/// Splitmix: the same draws in every run.
struct Draws(u64);

impl Draws {
    fn bits(&mut self) -> u64 {
        self.0 = self.0.wrapping_add(0x9E37_79B9_7F4A_7C15);
        let mut x = self.0;
        x = (x ^ (x >> 30)).wrapping_mul(0xBF58_476D_1CE4_E5B9);
        x = (x ^ (x >> 27)).wrapping_mul(0x94D0_49BB_1331_11EB);
        x ^ (x >> 31)
    }

    /// From 0 to 1.
    fn part(&mut self) -> f64 {
        (self.bits() >> 11) as f64 / (1u64 << 53) as f64
    }

    /// Mostly inside the domain, of every size; at times outside, or any pattern of bits.
    fn call(&mut self) -> (f64, Complex, Scaling) {
        let scaling = if self.bits() % 2 == 0 { Unscaled } else { Scaled };
        let order = match self.bits() % 8 {
            0 => (self.bits() % 1002) as f64,
            1 => f64::from_bits(self.bits()),
            2 => self.part() * 1e-3,
            _ => self.part() * 1000.0,
        };
        let size = 2f64.powf(self.part() * 26.0 - 10.0);
        let angle = (self.part() - 0.5) * 3.2;
        let z = match self.bits() % 8 {
            0 => Complex::from(size),
            1 => Complex::new(f64::from_bits(self.bits()), size),
            2 => Complex::new(size, f64::from_bits(self.bits())),
            // near the edge of I's power series, or 0
            3 => Complex::from(2.0 * (order.abs() + 2.0 * self.part()).sqrt()),
            4 if self.bits() % 16 == 0 => Complex::ZERO,
            _ => Complex::new(size * angle.cos(), size * angle.sin()),
        };
        (order, z, scaling)
    }
}

/// The numbers met, 0 for an answer: K's, then I's.
fn outcomes(calls: u32, mut tried: impl FnMut(usize, f64, Complex, Scaling) -> u32) -> [BTreeSet<u32>; 2] {
    let mut draws = Draws(1);
    let mut met = [BTreeSet::new(), BTreeSet::new()];
    for _ in 0..calls {
        let (order, z, scaling) = draws.call();
        for (place, numbers) in met.iter_mut().enumerate() {
            numbers.insert(tried(place, order, z, scaling));
        }
    }
    met
}

#[test]
fn the_entry_of_a_slice_of_one() {
    let met = outcomes(60_000, |place, order, z, scaling| {
        let (single, sequence) = FUNCTIONS[place];
        let mut out = [RUBBISH];
        let want = sequence(z, order, scaling, &mut out).map(|_| bits(out[0]));
        let got = single(order, z, scaling).map(bits);
        assert_eq!(got, want, "function {place}, order {order:e}, {z:?}, {scaling:?}");
        got.err().map_or(0, Refusal::number)
    });
    // every outcome that a slice of one is known to have
    assert_eq!(met, [BTreeSet::from([0, 2, 3, 4, 7, 8, 11, 12]), BTreeSet::from([0, 2, 3, 5, 11, 12])]);
}

#[test]
fn the_first_entry_of_longer_slices_of_k() {
    let mut draws = Draws(2);
    let (mut answered, mut zeros) = (0, 0);
    for _ in 0..60_000 {
        let (order, z, scaling) = draws.call();
        let mut out = [RUBBISH; 3];
        if let (Ok(value), Ok(answer)) = (k(order, z, scaling), k_into(z, order, scaling, &mut out)) {
            assert_eq!(bits(value), bits(out[0]), "order {order:e}, {z:?}, {scaling:?}");
            assert_eq!(answer.unfinished, 0);
            answered += 1;
            zeros += u32::from(value == Complex::ZERO);
        }
    }
    assert!(answered > 15_000 && zeros > 100, "{answered} {zeros}");
}

#[test]
fn known_answers() {
    let mut calls = 0;
    for line in KNOWN.lines().filter(|l| !l.starts_with(['#', 'g'])) {
        let words: Vec<&str> = line.split_whitespace().collect();
        let value = |place: usize| f64::from_bits(u64::from_str_radix(words[place], 16).unwrap());
        if words[5] != "2" {
            continue;
        }
        calls += 1;
        let single = if words[0] == "k" { k } else { i };
        let got = single(value(2), Complex::new(value(3), value(4)), if words[1] == "0" { Unscaled } else { Scaled });
        let want = match Refusal::from_number(words[6].parse().unwrap()) {
            Some(refusal) => Err(refusal),
            None => Ok([value(11).to_bits(), value(12).to_bits()]),
        };
        assert_eq!(got.map(bits), want, "{line}");
    }
    assert!(calls >= 20, "{calls}");
}

#[test]
fn each_refusal_of_a_single_value() {
    let one = Complex::from(1.0);
    for scaling in [Unscaled, Scaled] {
        for (single, _) in FUNCTIONS {
            for bad in [f64::NAN, f64::INFINITY, f64::NEG_INFINITY] {
                assert_eq!(single(bad, one, scaling), Err(Refusal::NotFinite));
                assert_eq!(single(0.0, Complex::new(bad, 0.0), scaling), Err(Refusal::NotFinite));
                assert_eq!(single(0.0, Complex::new(0.0, bad), scaling), Err(Refusal::NotFinite));
            }
            for outside in [-1.0, 1_000.000_000_000_000_1, -f64::from_bits(1)] {
                // the order comes first, whatever the parts are
                for z in [one, (-1.0, 0.0).into(), (1.0, 32_769.0).into(), (-32_769.0, 32_769.0).into()] {
                    assert_eq!(single(outside, z, scaling), Err(Refusal::Order));
                }
            }
            // then the sign, whatever the sizes are
            for outside in [(-1.0, 0.0), (-f64::from_bits(1), 1.0), (-32_769.0, 0.0), (-1.0, 32_769.0), (-f64::MAX, -f64::MAX)] {
                assert_eq!(single(0.0, outside.into(), scaling), Err(Refusal::Sign));
            }
            for outside in [(32_769.0, 0.0), (1.0, 32_769.0), (1.0, -32_769.0), (-0.0, 32_768.000_000_000_01), (f64::MAX, f64::MAX)] {
                assert_eq!(single(0.0, outside.into(), scaling), Err(Refusal::Size));
            }
        }
        assert_eq!(k(0.0, Complex::ZERO, scaling), Err(Refusal::Zero));
        assert_eq!(k(1000.0, one, scaling), Err(Refusal::Overflow));
        assert_eq!(i(0.0, Complex::from(4.0), scaling), Err(Refusal::Series));
    }
    assert_eq!(k(2.0, Complex::from(800.0), Unscaled), Err(Refusal::Climb));
    assert!(k(2.0, Complex::from(800.0), Scaled).is_ok());
}

#[test]
fn real_arguments_have_real_values() {
    let mut draws = Draws(3);
    let mut answered = [0, 0];
    for _ in 0..60_000 {
        let (order, z, scaling) = draws.call();
        for (place, (single, _)) in FUNCTIONS.into_iter().enumerate() {
            for im in [0.0, -0.0] {
                if let Ok(value) = single(order, Complex::new(z.re, im), scaling) {
                    assert!(value.im == 0.0 && value.re.is_finite(), "function {place}, order {order:e}, {z:?}, {scaling:?}: {value}");
                    answered[place] += 1;
                }
            }
        }
    }
    assert!(answered.iter().all(|&n| n > 30_000), "{answered:?}");
}
