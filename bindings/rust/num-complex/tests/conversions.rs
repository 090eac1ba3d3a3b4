//! The feature num-complex: numbers of num_complex go in and come back with every bit kept.

use lichenoar::Scaling::{Scaled, Unscaled};
use lichenoar::{i, i_into, k, k_into, Complex, Kind, Refusal, Sweep, SweepError};

type Num = num_complex::Complex<f64>;

fn bits(z: Num) -> [u64; 2] {
    [z.re.to_bits(), z.im.to_bits()]
}

#[test]
fn there_and_back() {
    let parts = [0.0, -0.0, 1.5, -2.0, f64::from_bits(1), f64::MAX, f64::INFINITY, f64::NEG_INFINITY, f64::from_bits(0x7FF0_0000_0000_0001), -f64::NAN];
    for re in parts {
        for im in parts {
            let theirs = Num::new(re, im);
            let ours = Complex::from(theirs);
            assert_eq!([ours.re.to_bits(), ours.im.to_bits()], bits(theirs));
            assert_eq!(bits(ours.into()), bits(theirs));
        }
    }
}

#[test]
fn values_at_their_numbers() -> Result<(), Refusal> {
    let z = Num::new(1.5, -0.75);
    let value: Num = k(0.25, z.into(), Scaled)?.into();
    assert_eq!(value, Num::new(0.9065919966458136, 0.1977141925446418));
    let value: Num = i(0.0, Num::from(2.0).into(), Unscaled)?.into();
    assert_eq!(value, Num::from(2.279585302336067));
    Ok(())
}

#[test]
fn a_sweep_between_their_numbers() -> Result<(), SweepError> {
    let (first, last) = (Num::new(1.5, -0.75), Num::new(2.5, 0.75));
    let sweep = Sweep { kind: Kind::K, scaling: Scaled, order: 0.25, entries: 2, first: first.into(), last: last.into(), steps: 3 };
    let mut out = [0; 3 * Sweep::BYTES_A_STEP];
    let points: Vec<Num> = sweep.frames_into(&mut out)?.points().map(|(_, z)| z.into()).collect();
    assert_eq!(points, [first, (first + last) / 2.0, last]);
    Ok(())
}

#[test]
fn a_derivative_with_their_arithmetic() -> Result<(), Refusal> {
    // K'(v) = (v/z) K(v) - K(v+1) and I'(v) = (v/z) I(v) + I(v+1), beside -(K(v-1) + K(v+1))/2 and (I(v-1) + I(v+1))/2
    let z = Num::new(1.5, -0.75);
    let mut out = [Complex::ZERO; 3];
    for (sign, function) in [(-1.0, k_into as fn(_, _, _, &mut [Complex]) -> _), (1.0, i_into)] {
        function(z.into(), 0.25, Unscaled, &mut out)?;
        let [below, at, above] = out.map(Num::from);
        let (first, second) = (at * 1.25 / z + above * sign, (below + above) * 0.5 * sign);
        assert!((first - second).norm_sqr() < 1e-28 * second.norm_sqr(), "{first} {second}");
    }
    Ok(())
}
