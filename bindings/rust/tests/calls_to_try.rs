//! The calls to try of the scope, one test a row, and what the crate says of itself.

use lichenoar::elementary::{angle, cos, cos_pi, cosh, exp, hypot, ln, round, sin, sin_pi, sinh, sqrt};
use lichenoar::Scaling::{Scaled, Unscaled};
use lichenoar::{i_into, k_into, log_gamma, Answer, Complex, Refusal};

type Counts = (i32, u32, u32, u32);

const RUBBISH: Complex = Complex::new(123.0, -456.0);

/// The four counts of an answer, which is whole.
fn counts(got: Result<Answer, Refusal>) -> Result<Counts, Refusal> {
    got.map(|a| {
        assert!(a.is_whole() && a.unfinished == 0);
        (a.zeros, a.longest_sum, a.rungs, a.backward)
    })
}

#[test]
fn i_of_0() {
    let mut out = [RUBBISH; 2];
    assert_eq!(counts(i_into(Complex::ZERO, 1.0, Unscaled, &mut out)), Ok((0, 0, 0, 0)));
    assert_eq!(out, [Complex::ZERO; 2]);
}

#[test]
fn i_of_a_tiny_argument() {
    let mut out = [RUBBISH; 3];
    let tiny = f64::from_bits(1 << 34);
    assert_eq!(tiny, 2f64.powi(-520) * 2f64.powi(-520));
    assert_eq!(counts(i_into(tiny.into(), 0.0, Unscaled, &mut out)), Ok((2, 0, 0, 0)));
    assert_eq!(out, [Complex::new(1.0, 0.0), Complex::ZERO, Complex::ZERO]);
}

#[test]
fn k_of_an_order_that_is_not_a_number() {
    let mut out = [RUBBISH; 1];
    assert_eq!(k_into(Complex::ZERO, f64::NAN, Unscaled, &mut out), Err(Refusal::NotFinite));
    assert!(out[0].re.is_nan() && out[0].im.is_nan());
}

#[test]
fn k_left_of_the_axis() {
    let mut out = [RUBBISH; 1];
    assert_eq!(k_into(Complex::new(-f64::from_bits(1), 0.0), 0.0, Unscaled, &mut out), Err(Refusal::Sign));
}

#[test]
fn slices_of_no_entry_and_of_too_many() {
    assert_eq!(k_into(Complex::from(1.0), 0.0, Unscaled, &mut []), Err(Refusal::Length));
    for n in [513, 514, 1024, 100_000] {
        let mut out = vec![RUBBISH; n];
        assert_eq!(k_into(Complex::from(1.0), 0.0, Unscaled, &mut out), Err(Refusal::Length));
        assert!(out.iter().all(|z| z.re.to_bits() == 0x7FF8_0000_0000_0000 && z.im.to_bits() == 0x7FF8_0000_0000_0000));
    }
    let mut out = vec![RUBBISH; 512];
    assert_eq!(k_into(Complex::from(1.0), 0.0, Scaled, &mut out), Err(Refusal::Overflow));
    assert_eq!(k_into(Complex::from(1000.0), 0.0, Scaled, &mut out).map(|a| a.rungs), Ok(510));
}

#[test]
fn i_beyond_its_series() {
    let mut out = [RUBBISH; 1];
    assert_eq!(i_into(Complex::from(4.0), 0.0, Unscaled, &mut out), Err(Refusal::Series));
    assert_eq!(counts(i_into(Complex::from(2.0), 0.0, Unscaled, &mut out)), Ok((0, 12, 0, 0)));
}

#[test]
fn square_roots() {
    assert_eq!(sqrt(4.0), 2.0);
    assert_eq!(sqrt(f64::from_bits(1)), 2f64.powi(-537));
}

#[test]
fn log_gammas() {
    assert_eq!((log_gamma(1.0), log_gamma(2.0), log_gamma(0.0)), (Ok(0.0), Ok(0.0), Err(Refusal::NotPositive)));
}

#[test]
fn k_at_2() {
    assert_eq!(counts(k_into(Complex::from(2.0), 0.0, Unscaled, &mut [RUBBISH])), Ok((0, 18, 0, 0)));
}

#[test]
fn unscaled_k_at_800() {
    let z = Complex::from(800.0);
    let mut out = [RUBBISH; 2];
    assert_eq!(k_into(z, 0.0, Unscaled, &mut out).map(|a| a.zeros), Ok(2));
    assert_eq!(out, [Complex::ZERO; 2]);
    assert_eq!(k_into(z, 1.0, Unscaled, &mut out[..1]).map(|a| a.zeros), Ok(1));
    assert_eq!(k_into(z, 1.0, Unscaled, &mut out), Err(Refusal::Climb));
}

#[test]
fn elementary_routines() {
    assert_eq!(hypot(3.0, 4.0), 5.0);
    assert_eq!((exp(0.0), ln(1.0), sin(0.0), cos(0.0), sinh(0.0), cosh(0.0)), (1.0, 0.0, 0.0, 1.0, 0.0, 1.0));
    assert_eq!((exp(f64::NEG_INFINITY), ln(0.0), round(2.5), round(-0.25)), (0.0, f64::NEG_INFINITY, 3.0, 0.0));
    assert_eq!((sin_pi(7.0), cos_pi(0.5), cos_pi(1.0)), (0.0, 0.0, -1.0));
    // y comes first
    assert_eq!(angle(1.0, 0.0), std::f64::consts::FRAC_PI_2);
    assert_eq!(angle(0.0, -1.0), std::f64::consts::PI);
    for (ours, std) in
        [(exp(1.0), 1f64.exp()), (ln(10.0), 10f64.ln()), (sin(3.0), 3f64.sin()), (cos(3.0), 3f64.cos()), (sinh(2.0), 2f64.sinh()), (cosh(2.0), 2f64.cosh())]
    {
        assert!((ours - std).abs() <= 2.0 * f64::EPSILON * std.abs(), "{ours} {std}");
    }
    for x in [f64::NAN, -f64::NAN, f64::from_bits(0x7FF0_0000_0000_0001)] {
        assert_eq!(sqrt(x).to_bits(), 0x7FF8_0000_0000_0000);
    }
}

#[test]
fn a_complex_number_is_two_cells() {
    assert_eq!((size_of::<Complex>(), align_of::<Complex>()), (16, 8));
    assert_eq!(Complex::new(1.5, -0.25).to_string(), "1.5-0.25i");
}

#[test]
fn conversions_keep_every_bit_and_every_place() {
    let parts = [0.0, -0.0, 1.5, -2.0, f64::from_bits(1), f64::MAX, f64::INFINITY, f64::NEG_INFINITY, f64::from_bits(0x7FF0_0000_0000_0001), -f64::NAN];
    let bits = |pair: (f64, f64)| (pair.0.to_bits(), pair.1.to_bits());
    for re in parts {
        for im in parts {
            let want = (re.to_bits(), im.to_bits());
            for z in [Complex::new(re, im), Complex::from((re, im)), Complex::from([re, im])] {
                assert_eq!((z.re.to_bits(), z.im.to_bits()), want);
                assert_eq!(bits(z.into()), want);
                assert_eq!(<[f64; 2]>::from(z).map(f64::to_bits), [want.0, want.1]);
            }
        }
        let z = Complex::from(re);
        assert_eq!((z.re.to_bits(), z.im.to_bits()), (re.to_bits(), 0));
    }
}
