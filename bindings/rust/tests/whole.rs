//! `Answer::is_whole` and `unfinished`, held to the entries themselves: on a grid about the edge of I's power series, where counts are negative.

use lichenoar::Scaling::{Scaled, Unscaled};
use lichenoar::{i_into, k_into, Complex};

const RUBBISH: Complex = Complex::new(123.0, -456.0);
const FIXED: u64 = 0x7FF8_0000_0000_0000;

fn is_fixed(z: &Complex) -> bool {
    z.re.to_bits() == FIXED && z.im.to_bits() == FIXED
}

/// Whether the count is negative, and whether the answer is whole; None of a refusal.
fn tried(z: Complex, order: f64, scaled: bool, n: usize) -> Option<(bool, bool)> {
    let mut room = [RUBBISH; 60];
    let out = &mut room[..n];
    let answer = i_into(z, order, if scaled { Scaled } else { Unscaled }, out).ok()?;
    let words = format!("{z:?}, order {order}, {scaled}, {n} entries: {answer:?}");
    let (below, finished) = out.split_at(answer.unfinished);
    assert!(below.iter().all(is_fixed), "{words}");
    assert!(finished.iter().all(|w| w.re.is_finite() && w.im.is_finite()), "{words}");
    assert_eq!(answer.is_whole(), !out.iter().any(|w| w.re.is_nan() || w.im.is_nan()), "{words}");
    if answer.zeros < 0 {
        // the steps stopped at an entry that is zero, at or below the highest
        assert_eq!(finished[0], Complex::ZERO, "{words}");
        assert_eq!(finished.iter().filter(|w| **w == Complex::ZERO).count(), answer.zeros.unsigned_abs() as usize, "{words}");
    } else {
        assert!(answer.is_whole(), "{words}");
    }
    Some((answer.zeros < 0, answer.is_whole()))
}

#[test]
fn i_about_the_edge_of_its_series() {
    let (mut counts_not_negative, mut whole, mut not_whole) = (0, 0, 0);
    for n in [1, 2, 3, 5, 20, 60] {
        for step in 0..100 {
            let order = f64::from(step) * 10.0 + 0.25 * f64::from(step % 4);
            for part in 0..=20 {
                // |z|²/4 from the order to the order plus n
                let modulus = 2.0 * (order + n as f64 * f64::from(part) / 20.0).sqrt() * (1.0 - 1e-9);
                for angle in [0.0f64, 0.5, -1.2, 1.57] {
                    let z = Complex::new(modulus * angle.cos(), modulus * angle.sin());
                    for scaled in [false, true] {
                        match tried(z, order, scaled, n).expect("not refused") {
                            (false, _) => counts_not_negative += 1,
                            // a slice of one is always whole
                            (true, true) => whole += 1,
                            (true, false) => {
                                assert_ne!(n, 1);
                                not_whole += 1;
                            }
                        }
                    }
                }
            }
        }
    }
    assert!(counts_not_negative > 10_000 && whole > 10_000 && not_whole > 10_000, "{counts_not_negative} {whole} {not_whole}");
}

#[test]
fn one_order_kept_and_the_next_lost() {
    let value = f64::from_bits;
    let z = Complex::new(value(0x403E_2A75_B881_2B83), value(0xC035_EF2D_038D_1EF8));
    let mut out = [RUBBISH; 50];
    let answer = i_into(z, value(0x4072_9C5E_15A0_1B31), Scaled, &mut out).unwrap();
    assert_eq!((answer.zeros, answer.unfinished, answer.is_whole()), (-1, 48, false));
    assert!(out[..48].iter().all(is_fixed));
    assert_eq!(out[48], Complex::ZERO);
    assert!(out[49].re.is_finite() && out[49] != Complex::ZERO);
    // the two highest orders alone: the stop is at the first entry
    let answer = i_into(z, value(0x4072_9C5E_15A0_1B31) + 48.0, Scaled, &mut out[..2]).unwrap();
    assert_eq!((answer.zeros, answer.unfinished, answer.is_whole()), (-1, 0, true));
}

#[test]
fn k_is_whole() {
    let mut out = [RUBBISH; 20];
    let answer = k_into(Complex::new(700.0, 3.0), 0.0, Unscaled, &mut out).unwrap();
    assert_eq!((answer.zeros, answer.unfinished, answer.is_whole()), (20, 0, true));
    let answer = k_into(Complex::new(700.0, 3.0), 0.0, Scaled, &mut out).unwrap();
    assert_eq!((answer.zeros, answer.unfinished, answer.is_whole()), (0, 0, true));
}
