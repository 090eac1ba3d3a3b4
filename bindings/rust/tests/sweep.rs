//! Sweeps: every byte of their frames and of what lies behind, the points read back, each refusal that they have, and the iterator over them.

use lichenoar::Scaling::{Scaled, Unscaled};
use lichenoar::{i_into, k, k_into, Complex, Frame, Kind, Refusal, Scaling, Sweep, SweepError};

const PLAIN: Sweep =
    Sweep { kind: Kind::K, scaling: Scaled, order: 0.25, entries: 2, first: Complex::new(1.5, -0.75), last: Complex::new(2.5, 0.75), steps: 3 };

/// One part of point j, each operation rounded once.
fn part(first: f64, last: f64, steps: u32, j: u32) -> f64 {
    if steps == 1 {
        return first;
    }
    let step = (last - first) / f64::from(steps - 1);
    first + f64::from(j) * step
}

/// -0 made 0.
fn plus_zero(x: f64) -> f64 {
    if x == 0.0 {
        0.0
    } else {
        x
    }
}

/// The order and point j, by bits.
fn point(s: &Sweep, j: u32) -> [u64; 3] {
    let (first, last) = (plus_zero(s.first.re), plus_zero(s.last.re));
    [plus_zero(s.order), part(first, last, s.steps, j), part(s.first.im, s.last.im, s.steps, j)].map(f64::to_bits)
}

fn points(s: &Sweep) -> Vec<[u64; 3]> {
    (0..s.steps).map(|j| point(s, j)).collect()
}

/// The frames, by another road than the crate's.
fn frames(s: &Sweep) -> String {
    let kind = if s.kind == Kind::K { 1 } else { 2 };
    let head = format!("{kind:02X}{:02X}{:04X}", u8::from(s.scaling == Scaled), s.entries);
    points(s).iter().map(|[v, re, im]| format!("{head}{v:016X}{re:016X}{im:016X}\n")).collect()
}

fn bits((order, z): (f64, Complex)) -> [u64; 3] {
    [order, z.re, z.im].map(f64::to_bits)
}

/// In a slice with room for exactly its frames, for less and for more.
fn accepted(s: &Sweep) {
    let want = frames(s);
    let needed = want.len();
    assert_eq!((s.needed(), needed), (Ok(57 * s.steps as usize), 57 * s.steps as usize), "{s:?}");
    for length in [0, 1, needed - 57, needed - 1] {
        let mut out = vec![b'x'; length];
        assert_eq!(s.frames_into(&mut out), Err(SweepError::Room { needed }), "{s:?}");
        assert!(out.iter().all(|&b| b == b'x'), "{s:?}, {length} bytes");
    }
    for more in [0, 1, 57, 100] {
        let mut out = vec![b'x'; needed + more];
        let got = s.frames_into(&mut out).unwrap();
        assert_eq!(got.as_bytes(), want.as_bytes(), "{s:?}");
        assert_eq!(got.points().map(bits).collect::<Vec<_>>(), points(s), "{s:?}");
        assert!(out[needed..].iter().all(|&b| b == b'x'), "{s:?}, {more} bytes more");
    }
}

fn refused(s: &Sweep, refusal: Refusal) {
    assert_eq!(s.needed(), Err(refusal), "{s:?}");
    for length in [0, 57, 57 * 4096] {
        let mut out = vec![b'x'; length];
        assert_eq!(s.frames_into(&mut out), Err(SweepError::Refused(refusal)), "{s:?}");
        assert!(out.iter().all(|&b| b == b'x'), "{s:?}, {length} bytes");
    }
}

#[test]
fn the_bytes_themselves() {
    let mut out = [0; 3 * Sweep::BYTES_A_STEP];
    PLAIN.frames_into(&mut out).unwrap();
    let want = "010100023FD00000000000003FF8000000000000BFE8000000000000\n\
                010100023FD000000000000040000000000000000000000000000000\n\
                010100023FD000000000000040040000000000003FE8000000000000\n";
    assert_eq!(out, want.as_bytes());
    accepted(&PLAIN);
}

#[test]
fn every_number_of_steps() {
    let wide = Sweep { first: Complex::new(0.1, 32_768.0), last: Complex::new(0.7, -32_768.0), order: 1000.0, entries: 512, ..PLAIN };
    let mut out = vec![0; 4096 * Sweep::BYTES_A_STEP];
    for steps in 1..=4096 {
        let s = Sweep { steps, ..wide };
        let got = s.frames_into(&mut out).unwrap();
        assert_eq!((got.len(), got.points().next_back().map(bits)), (steps as usize, Some(point(&s, steps - 1))), "{steps} steps");
    }
    for steps in [1, 2, 3, 10, 4096] {
        accepted(&Sweep { steps, ..wide });
        accepted(&Sweep { steps, kind: Kind::I, scaling: Unscaled, ..wide });
    }
    for steps in [0, 4097, 65_536, 65_537, 75_350_304, u32::MAX] {
        refused(&Sweep { steps, ..PLAIN }, Refusal::Steps);
    }
}

#[test]
fn of_one_step_the_last_point_is_not_looked_at() {
    for last in [(f64::NAN, 0.0), (0.0, f64::NEG_INFINITY), (-1.0, 0.0), (1e300, -1e300)] {
        accepted(&Sweep { steps: 1, last: last.into(), ..PLAIN });
        assert!(Sweep { steps: 2, last: last.into(), ..PLAIN }.needed().is_err());
    }
}

#[test]
fn zeros_of_either_sign() {
    let zero = Sweep { order: -0.0, first: Complex::new(-0.0, -0.0), steps: 1, ..PLAIN };
    accepted(&zero);
    let mut out = [0; 3 * Sweep::BYTES_A_STEP];
    let point = zero.frames_into(&mut out).unwrap().points().next().unwrap();
    // the order and the real part are made 0, and the imaginary part is kept
    assert_eq!(bits(point), [0, 0, (-0.0f64).to_bits()]);
    for last in [(-0.0, -0.0), (0.0, 0.0), (1.0, 1.0)] {
        accepted(&Sweep { steps: 3, last: last.into(), ..zero });
    }
}

#[test]
fn points_past_the_last_and_below_0() {
    let mut out = [0; 4 * Sweep::BYTES_A_STEP];
    let past = Sweep { first: Complex::from(0.3), last: Complex::from(0.9), ..PLAIN };
    assert!(past.frames_into(&mut out).unwrap().points().next_back().unwrap().1.re > 0.9);
    let below = Sweep { first: Complex::from(3.1), last: Complex::ZERO, steps: 4, ..PLAIN };
    let (order, z) = below.frames_into(&mut out).unwrap().points().last().unwrap();
    // it is written, and K refuses it
    assert!(z.re < 0.0 && z.re > -1e-15);
    assert_eq!(k(order, z, Scaled), Err(Refusal::Sign));
    accepted(&past);
    accepted(&below);
}

#[test]
fn every_fault_at_once_and_each_mended_in_turn() {
    let bad = Complex::new(-1.0, 32_769.0);
    let mut s = Sweep { order: f64::NAN, entries: 513, first: bad, last: bad, steps: 4097, ..PLAIN };
    refused(&s, Refusal::Steps);
    s.steps = 2;
    refused(&s, Refusal::Length);
    s.entries = 512;
    refused(&s, Refusal::NotFinite);
    s.order = -1.0;
    refused(&s, Refusal::Order);
    s.order = 1000.0;
    refused(&s, Refusal::Sign);
    s.first.re = 0.0;
    refused(&s, Refusal::Sign);
    s.last.re = 0.0;
    refused(&s, Refusal::Size);
    s.first.im = 32_768.0;
    refused(&s, Refusal::Size);
    s.last.im = -32_768.0;
    accepted(&s);
}

#[test]
fn each_refusal_at_each_place() {
    for entries in [0, 513, 65_536, 65_537, u32::MAX] {
        refused(&Sweep { entries, ..PLAIN }, Refusal::Length);
    }
    for order in [f64::NAN, -f64::NAN, f64::INFINITY, f64::NEG_INFINITY] {
        refused(&Sweep { order, ..PLAIN }, Refusal::NotFinite);
    }
    for order in [-1.0, -f64::from_bits(1), 1_000.000_000_000_000_1, f64::MAX] {
        refused(&Sweep { order, ..PLAIN }, Refusal::Order);
    }
    let outside = [
        (f64::NAN, 0.0, Refusal::NotFinite),
        (0.0, f64::NAN, Refusal::NotFinite),
        (f64::INFINITY, 0.0, Refusal::NotFinite),
        (0.0, f64::NEG_INFINITY, Refusal::NotFinite),
        (-1.0, 0.0, Refusal::Sign),
        (-f64::from_bits(1), 0.0, Refusal::Sign),
        (-40_000.0, 40_000.0, Refusal::Sign),
        (32_769.0, 0.0, Refusal::Size),
        (0.0, 32_768.000_000_000_01, Refusal::Size),
        (-0.0, -f64::MAX, Refusal::Size),
    ];
    for (re, im, refusal) in outside {
        let end = Complex::new(re, im);
        refused(&Sweep { first: end, ..PLAIN }, refusal);
        refused(&Sweep { first: end, steps: 1, ..PLAIN }, refusal);
        refused(&Sweep { last: end, ..PLAIN }, refusal);
    }
}

/// Splitmix: the same draws in every run.
fn drawn(state: &mut u64) -> u64 {
    *state = state.wrapping_add(0x9E37_79B9_7F4A_7C15);
    let mut x = *state;
    x = (x ^ (x >> 30)).wrapping_mul(0xBF58_476D_1CE4_E5B9);
    x = (x ^ (x >> 27)).wrapping_mul(0x94D0_49BB_1331_11EB);
    x ^ (x >> 31)
}

#[test]
fn drawn_sweeps_of_every_size() {
    let mut state = 1;
    let mut met = std::collections::BTreeMap::new();
    let mut out = vec![0; 4096 * Sweep::BYTES_A_STEP];
    for _ in 0..4_000 {
        let mut value = |most: f64| match drawn(&mut state) % 32 {
            0 => f64::from_bits(drawn(&mut state)),
            1 => most,
            2 => -0.0,
            3 => [f64::NAN, f64::INFINITY, f64::NEG_INFINITY][drawn(&mut state) as usize % 3],
            _ => most * 2f64.powf(-((drawn(&mut state) % 4000) as f64 / 100.0)),
        };
        let (order, parts) = (value(1000.0), [(); 4].map(|()| value(32_768.0)));
        let side = |x: f64, bit: u64| if bit % 2 == 0 { x } else { -x };
        let (first, last) = (Complex::new(parts[0], side(parts[1], drawn(&mut state))), Complex::new(parts[2], side(parts[3], drawn(&mut state))));
        let steps = if drawn(&mut state) % 64 == 0 { drawn(&mut state) % 5000 } else { drawn(&mut state) % 40 } as u32;
        let scaling = if drawn(&mut state) % 2 == 0 { Unscaled } else { Scaled };
        let s = Sweep { scaling, order, first, last, steps, entries: (drawn(&mut state) % 530) as u32, ..PLAIN };
        let number = match s.frames_into(&mut out) {
            Ok(got) => {
                assert_eq!(got.as_bytes(), frames(&s).as_bytes(), "{s:?}");
                assert!(got.points().map(bits).eq(points(&s)), "{s:?}");
                0
            }
            Err(SweepError::Refused(refusal)) => refusal.number(),
            Err(error) => panic!("{s:?}: {error}"),
        };
        *met.entry(number).or_insert(0) += 1;
    }
    assert!(met[&0] > 2_000, "{met:?}");
    assert_eq!(met.keys().copied().collect::<Vec<_>>(), [0, 1, 2, 3, 11, 12, 13], "{met:?}");
}

#[test]
fn the_iterator_goes_from_either_end() {
    let s = Sweep { steps: 100, ..PLAIN };
    let mut out = vec![0; s.needed().unwrap()];
    let whole = s.frames_into(&mut out).unwrap();
    let lines: Vec<Frame> = whole.clone().collect();
    assert_eq!(lines.len(), 100);

    let mut left = whole.clone();
    for (taken, line) in lines.iter().enumerate() {
        assert_eq!((left.len(), left.size_hint(), left.points().len()), (100 - taken, (100 - taken, Some(100 - taken)), 100 - taken));
        assert_eq!(left.as_bytes(), &whole.as_bytes()[57 * taken..]);
        assert_eq!(left.next(), Some(*line));
    }
    assert_eq!((left.len(), left.next(), left.next_back(), left.next()), (0, None, None, None));

    assert_eq!(whole.clone().rev().collect::<Vec<_>>(), lines.iter().copied().rev().collect::<Vec<_>>());
    let mut both = whole.clone();
    for taken in 0..50 {
        assert_eq!((both.next(), both.next_back()), (Some(lines[taken]), Some(lines[99 - taken])));
    }
    assert_eq!((both.next_back(), both.next()), (None, None));

    for n in [0, 1, 50, 99, 100, 101, usize::MAX / 57, usize::MAX / 57 + 1, usize::MAX] {
        let mut left = whole.clone();
        assert_eq!(left.nth(n), lines.get(n).copied());
        assert_eq!(left.len(), 100usize.saturating_sub(n).saturating_sub(1));
    }
    assert_eq!(whole.points().rev().map(bits).collect::<Vec<_>>(), points(&s).into_iter().rev().collect::<Vec<_>>());
}

#[test]
fn a_frame_is_its_digits() {
    let mut out = [0; 3 * Sweep::BYTES_A_STEP];
    let frame = PLAIN.frames_into(&mut out).unwrap().next().unwrap();
    assert_eq!(frame.to_string(), "010100023FD00000000000003FF8000000000000BFE8000000000000");
    assert_eq!(frame.as_bytes(), frame.to_string().as_bytes());
    assert_eq!(frame.point(), (0.25, Complex::new(1.5, -0.75)));
}

#[test]
fn the_words_of_an_error() {
    fn has<T: std::error::Error + Copy + Eq + std::hash::Hash + Send + Sync + 'static>(_: T) {}
    has(SweepError::Refused(Refusal::Steps));
    let asked = |s: Sweep, out: &mut [u8]| -> Result<usize, Box<dyn std::error::Error>> { Ok(s.frames_into(out)?.len()) };
    assert_eq!(asked(PLAIN, &mut [0; 171]).unwrap(), 3);
    assert_eq!(asked(PLAIN, &mut [0; 170]).unwrap_err().to_string(), "the frames are 171 bytes, more than were lent");
    assert_eq!(asked(Sweep { steps: 0, ..PLAIN }, &mut []).unwrap_err().to_string(), "refusal 13: a sweep of no steps or of more than 4,096");
}

#[test]
fn what_the_points_are_for() {
    let mut out = [0; 11 * Sweep::BYTES_A_STEP];
    for (kind, scaling, function) in [(Kind::K, Scaled, k_into as fn(_, _, Scaling, &mut [Complex]) -> _), (Kind::I, Unscaled, i_into)] {
        let s = Sweep { kind, scaling, last: Complex::new(1.75, 0.75), steps: 11, ..PLAIN };
        for (order, z) in s.frames_into(&mut out).unwrap().points() {
            let mut values = [Complex::ZERO; 2];
            assert!(function(z, order, scaling, &mut values).unwrap().is_whole());
        }
    }
}
