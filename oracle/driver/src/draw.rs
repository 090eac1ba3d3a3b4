//! Inputs: random by region and structured around every branch. The same seed gives the same calls.

pub struct Draw(u64);

impl Draw {
    pub fn new(seed: u64) -> Self {
        Draw(seed)
    }
    /// splitmix64
    pub fn bits(&mut self) -> u64 {
        self.0 = self.0.wrapping_add(0x9E37_79B9_7F4A_7C15);
        let mut z = self.0;
        z = (z ^ (z >> 30)).wrapping_mul(0xBF58_476D_1CE4_E5B9);
        z = (z ^ (z >> 27)).wrapping_mul(0x94D0_49BB_1331_11EB);
        z ^ (z >> 31)
    }
    pub fn below(&mut self, n: u64) -> u64 {
        self.bits() % n
    }
    pub fn between(&mut self, low: f64, high: f64) -> f64 {
        low + (high - low) * ((self.bits() >> 11) as f64 / (1u64 << 53) as f64)
    }
    /// A magnitude whose binary exponent is even over low..=high, with random digits; below -1022 it is subnormal.
    pub fn by_exponent(&mut self, low: i64, high: i64) -> f64 {
        let e = low + self.below((high - low + 1) as u64) as i64;
        if e < -1022 {
            let place = (e + 1074) as u32;
            f64::from_bits(1 << place | self.bits() & ((1 << place) - 1))
        } else {
            f64::from_bits(((e + 1023) as u64) << 52 | self.bits() >> 12)
        }
    }
    /// x moved by up to `places` patterns.
    pub fn beside(&mut self, x: f64, places: u64) -> f64 {
        let step = self.below(2 * places + 1) as i64 - places as i64;
        let b = x.to_bits() as i64 + step;
        if x == 0.0 { f64::from_bits(self.below(places + 1)) } else { f64::from_bits(b as u64) }
    }
    pub fn sign(&mut self, x: f64) -> f64 {
        if self.bits() & 1 == 0 { x } else { -x }
    }
    pub fn of<T: Copy>(&mut self, list: &[T]) -> T {
        list[self.below(list.len() as u64) as usize]
    }
}

/// The arguments of log-gamma that every run begins with: all powers of two, all whole and half arguments to 1,000 with their neighbours, the
/// neighbours of each boundary, and what is refused.
pub fn log_gamma_edges() -> Vec<f64> {
    let mut out = vec![0.0, -0.0, f64::INFINITY, f64::NEG_INFINITY, f64::NAN, -f64::NAN, -1.0, -0.5, -5e-324, f64::MAX, -f64::MAX, f64::from_bits(0x7FF0_0000_0000_0001)];
    let mut beside = |x: f64, places: i64| {
        for step in -places..=places {
            out.push(f64::from_bits((x.to_bits() as i64 + step) as u64));
        }
    };
    for place in 0..52 {
        beside(f64::from_bits(1 << place), if place > 2 { 2 } else { 0 });
    }
    for e in 1..2047u64 {
        beside(f64::from_bits(e << 52), 2);
    }
    for j in 1..=2000 {
        beside(j as f64 / 2.0, 3);
    }
    for x in [7.0, 6.5, 100.1, 100.0, 101.0, 4503599627370496.0, 9007199254740992.0, 2.5563481638716906e305, 2.2250738585072014e-308] {
        beside(x, 200);
    }
    out
}

pub fn log_gamma_argument(d: &mut Draw) -> f64 {
    match d.below(10) {
        0..=2 => d.by_exponent(-1074, 1023),
        3..=4 => d.between(0.0, 8.0),
        5 => d.between(0.0, 110.0),
        6 => d.by_exponent(-60, 60),
        7 => {
            let j = d.below(2000) as f64 / 2.0;
            d.beside(j, 1000)
        }
        8 => d.beside(2.5563481638716906e305, 1 << 40),
        _ => f64::from_bits(d.bits()),
    }
}

#[derive(Clone, Copy, Debug)]
pub struct Call {
    pub scaled: bool,
    pub v: f64,
    pub re: f64,
    pub im: f64,
    /// the buffer's length in cells
    pub length: usize,
}

const LENGTHS: [usize; 12] = [0, 1, 2, 3, 4, 5, 6, 1022, 1023, 1024, 1025, 1026];

fn length(d: &mut Draw) -> usize {
    match d.below(40) {
        0 => d.of(&LENGTHS),
        1 => d.below(1031) as usize,
        2 => 2 * (1 + d.below(512) as usize),
        3..=6 => 2 * (1 + d.below(40) as usize),
        7..=20 => 2,
        21..=30 => 4,
        _ => 6 + 2 * d.below(6) as usize,
    }
}

fn order(d: &mut Draw) -> f64 {
    match d.below(20) {
        0..=4 => d.below(6) as f64,
        5..=7 => d.below(2000) as f64 / 2.0,
        8..=9 => {
            let half = d.below(2001) as f64 / 2.0;
            d.beside(half, 4)
        }
        10..=12 => d.between(0.0, 3.0),
        13..=15 => d.between(0.0, 50.0),
        16..=17 => d.between(0.0, 1000.0),
        18 => d.by_exponent(-1074, -1),
        _ => d.of(&[0.0, -0.0, 1000.0, 999.5, 0.5, 1.5, f64::from_bits(1), f64::from_bits(0x408F_4000_0000_0001), -1.0, f64::NAN, f64::INFINITY]),
    }
}

/// A modulus at a value that a kernel tests, or near it.
fn threshold(d: &mut Draw) -> f64 {
    let x = d.of(&[2.0, f64::EPSILON, f64::from_bits(0x403C_AAAA_AAAA_AAAA), 664.8716455337102, 700.9217936944459, 32768.0, 1000.0 * f64::MIN_POSITIVE, 1.0, 28.0]);
    d.beside(x, 6)
}

pub fn call_k(d: &mut Draw) -> Call {
    let scaled = d.below(2) == 0;
    let v = order(d);
    let (re, im) = match d.below(24) {
        0..=3 => (d.between(0.0, 3.0), d.between(-3.0, 3.0)),
        4..=6 => (d.between(0.0, 60.0), d.between(-60.0, 60.0)),
        7..=8 => (d.between(640.0, 1200.0), d.of(&[0.0, -0.0, 1e-300, 1.0, -30.0])),
        9..=10 => (d.between(640.0, 1200.0), d.between(-800.0, 800.0)),
        11 => (threshold(d), d.of(&[0.0, -0.0])),
        12 => (0.0, threshold(d)),
        13 => {
            let (r, a) = (threshold(d), d.between(-1.5707963267948966, 1.5707963267948966));
            ((r * a.cos()).abs(), r * a.sin())
        }
        14 => {
            let x = d.by_exponent(-1074, -40);
            (x, d.of(&[0.0, -0.0]))
        }
        15 => {
            let (x, y) = (d.by_exponent(-1074, 3), d.by_exponent(-1074, 3));
            (x, d.sign(y))
        }
        16 => (0.0, d.between(-40.0, 40.0)),
        17..=18 => (d.between(0.0, 32768.0), d.between(-32768.0, 32768.0)),
        19 => {
            let (x, y) = (d.by_exponent(-30, 14), d.by_exponent(-60, 14));
            (x, d.sign(y))
        }
        20 => {
            let (x, y) = (d.between(1.5, 30.0), d.by_exponent(-1074, -10));
            (x, d.sign(y))
        }
        21 => (d.of(&[0.0, -0.0, f64::from_bits(0x8000_0000_0000_0001), 32768.0, f64::from_bits(0x40E0_0000_0000_0001), f64::NAN, f64::INFINITY]), d.of(&[0.0, -0.0, 32768.0, -32768.0, f64::from_bits(0xC0E0_0000_0000_0001), f64::NAN, f64::NEG_INFINITY])),
        22 => (d.between(660.0, 702.0), d.between(-1.0, 1.0)),
        _ => (d.by_exponent(-10, 10), 0.0),
    };
    Call { scaled, v, re, im, length: length(d) }
}

/// The branches of I that no edge reaches: a visit stopped at a lost value.
pub const DEEP: u64 = 1 << 6;

pub fn call_i(d: &mut Draw) -> Call {
    let scaled = d.below(2) == 0;
    let v = order(d);
    let length = length(d);
    let n = (length / 2).max(1) as f64;
    // the largest modulus that refusal 5 lets through
    let edge = 2.0 * (v.abs().min(1000.0) + n).sqrt();
    let r = match d.below(12) {
        0..=3 => d.between(0.0, edge),
        4 => d.beside(edge, 20),
        5 => d.between(0.0, 2.0),
        6 => d.by_exponent(-1074, 1),
        7 => threshold(d),
        8 => d.between(0.5 * edge, edge),
        9 => d.by_exponent(-60, 1),
        _ => d.between(0.0, 1.1 * edge),
    };
    let (re, im) = match d.below(8) {
        0 => (r, d.of(&[0.0, -0.0])),
        1..=2 => (0.0, d.sign(r)),
        3 => {
            let t = d.by_exponent(-1074, -1);
            (t.min(r), d.sign(r))
        }
        _ => {
            let a = d.between(-1.5707963267948966, 1.5707963267948966);
            ((r * a.cos()).abs(), r * a.sin())
        }
    };
    Call { scaled, v, re, im, length }
}

/// The calls of I that every run begins with: every length of a buffer from 0 to 1,030, the edge of refusal 5 by single patterns, calls that stop with unfinished cells
/// or with holes, and the smallest arguments.
pub fn i_edges() -> Vec<Call> {
    let bits = f64::from_bits;
    let mut out = Vec::new();
    let mut both = |v: f64, re: f64, im: f64, length: usize| {
        for scaled in [false, true] {
            out.push(Call { scaled, v, re, im, length });
        }
    };
    for length in 0..=1030 {
        both(0.5, 1.25, -0.75, length);
        both(3.0, 0.0, bits(0x4022_5472_F9AB_882D), length);
        both(340.25, 20.0, 15.0, length);
        both(0.0, 1e-310, 0.0, length);
    }
    for (v, n, edge) in [(0.0, 1, 2.0), (1.0, 1, bits(0x4006_A09E_667F_3BCC)), (0.0, 512, 2.0 * 512f64.sqrt()), (1000.0, 512, 2.0 * 1512f64.sqrt()), (0.25, 3, 2.0 * 3.25f64.sqrt())] {
        for step in -40i64..=40 {
            let m = bits((edge.to_bits() as i64 + step) as u64);
            both(v, m, 0.0, 2 * n);
            both(v, 0.0, m, 2 * n);
            both(v, 0.0, -m, 2 * n);
            both(v, m * 0.5f64.sqrt(), m * 0.5f64.sqrt(), 2 * n);
        }
    }
    both(bits(0x4072_9C5E_15A0_1B31), bits(0x403E_2A75_B881_2B83), bits(0xC035_EF2D_038D_1EF8), 100);
    both(bits(0x4075_1000_0000_0000), bits(0x4031_73BE_00B3_864E), bits(0x403C_A6A1_6331_9358), 20);
    for place in 0..1075u64 {
        let x = if place < 52 { bits(1 << place) } else { bits((place - 51) << 52) };
        both(0.0, x, 0.0, 6);
        both(1.5, 0.0, x, 6);
        both(0.0, x, -x, 4);
    }
    both(1.0, 0.0, 0.0, 4);
    both(0.0, -0.0, -0.0, 4);
    both(-0.0, 0.0, 0.0, 2);
    out
}

/// The calls of K that every run begins with: every length of a buffer from 0 to 1,030 in each way of seeding, the moduli that the kernel tests by single patterns, in
/// every direction and with im ±0 and tiny, whole and half orders with their neighbours, the refusals' edges, zero pairs, and the smallest arguments.
pub fn k_edges() -> Vec<Call> {
    let bits = f64::from_bits;
    let by = |x: f64, step: i64| bits((x.to_bits() as i64 + step) as u64);
    let mut out = Vec::new();
    let mut both = |v: f64, re: f64, im: f64, length: usize| {
        for scaled in [false, true] {
            out.push(Call { scaled, v, re, im, length });
        }
    };
    for length in 0..=1030 {
        both(0.25, 1.25, -0.75, length);
        both(3.5, 0.5, 40.0, length);
        both(7.75, 20.0, -15.0, length);
        both(600.25, 900.0, 3.0, length);
        both(0.0, 800.0, 0.0, length);
    }
    let tiny = [0.0, -0.0, 5e-324, -5e-324, 1e-300, -1e-20];
    let far = bits(0x403C_AAAA_AAAA_AAAA);
    for edge in [2.0, far, 664.8716455337102, 700.9217936944459, 1000.0 * f64::MIN_POSITIVE, f64::EPSILON, 32768.0] {
        for step in -24i64..=24 {
            let m = by(edge, step);
            for v in [0.0, 0.25, 0.5, 0.75, 1.0, 2.5, 17.125] {
                for im in tiny {
                    both(v, m, im, 4);
                }
                both(v, 0.0, m, 2);
                both(v, 0.0, -m, 6);
                both(v, m * 0.6, m * 0.8, 4);
                both(v, m * 0.8, m * -0.6, 4);
            }
        }
    }
    for half in 0..=2000u32 {
        let v = half as f64 / 2.0;
        for step in if half == 0 { 0..=2 } else { -2..=2 } {
            both(by(v, step), 1.5, 0.5, 4);
            both(by(v, step), 9.0, -3.0, 2);
        }
    }
    for (edge, v, length) in [(bits(0x4084_C6F9_214B_27EB), 1.0, 4), (bits(0x1FF6_A09E_667F_3BCC), 2.0, 2), (bits(0x4075_DEB5_36BF_7760), 1000.0, 2), (bits(0x0010_0000_0000_0000), 0.0, 2), (bits(0x0008_0000_0000_0000), 0.0, 2)] {
        for step in -40i64..=40 {
            for im in tiny {
                both(v, by(edge, step), im, length);
                both(v, by(edge, step), im, length + 2);
            }
        }
    }
    for step in -40i64..=40 {
        for turn in [1.0, -1.0] {
            both(bits(0x408B_3400_0000_0001), 0.0, turn * by(bits(0x403C_AAAA_AAAA_AAAB), step), 2);
            both(bits(0x408B_3400_0000_0001), f64::EPSILON, turn * by(bits(0x403C_AAAA_AAAA_AAAB), step), 2);
            both(989.0, by(bits(0x4093_F7CF_41F2_2098), step), turn * bits(0x401C_2E2D_F410_B960), 2);
            both(bits(0x3FE4_0BB0_4546_2AA4), bits(0x0003_097A_26B1_16A6), turn * by(bits(0x0006_AA15_9D31_2637), step), 2);
        }
    }
    for re in 640..=1200 {
        for v in [0.0, 0.5, 1.0, 2.0, 130.25, 500.0, 927.0, 999.5, 1000.0] {
            for n in [1, 2, 3, 512] {
                both(v, re as f64, 0.0, 2 * n);
                both(v, re as f64 + 0.375, 17.0, 2 * n);
            }
        }
    }
    for place in 0..1075u64 {
        let x = if place < 52 { bits(1 << place) } else { bits((place - 51) << 52) };
        for v in [0.0, 0.25, 0.5, 0.75, 1.0] {
            both(v, x, 0.0, 2);
            both(v, 0.0, -x, 4);
            both(v, x, x, 6);
        }
    }
    both(0.0, 0.0, 0.0, 2);
    both(f64::NAN, 0.0, 0.0, 2);
    both(1.0, -5e-324, 0.0, 2);
    both(-0.0, -0.0, -0.0, 4);
    both(0.3, 1.0, -0.0, 6);
    both(0.3, 1.0, 0.0, 6);
    both(5e-324, 0.3, 0.0, 2);
    out
}

/// Which limits a call was drawn to break.
#[derive(Clone, Copy, Debug)]
pub struct Broken {
    pub order: bool,
    pub sign: bool,
    pub size: bool,
}

impl Broken {
    pub fn ways(self) -> usize {
        self.order as usize + 2 * self.sign as usize + 4 * self.size as usize
    }
    /// The refusal of a call that is otherwise whole: by the order first, then by the sign, then by the size.
    pub fn number(self) -> Option<u32> {
        [(self.order, 3), (self.sign, 11), (self.size, 12)].iter().find(|(broken, _)| *broken).map(|(_, number)| *number)
    }
}

/// The value `steps` patterns farther from zero.
fn farther(x: f64, steps: u64) -> f64 {
    f64::from_bits(x.to_bits() + steps)
}

const LEAST: f64 = f64::from_bits(1);

fn order_inside(d: &mut Draw) -> f64 {
    match d.below(6) {
        0 => d.of(&[0.0, -0.0, LEAST, f64::MIN_POSITIVE, 1000.0, 999.5]),
        1 => f64::from_bits(1000f64.to_bits() - d.below(8)),
        2 => d.by_exponent(-1074, 8),
        3 => d.below(1001) as f64,
        _ => d.between(0.0, 1000.0),
    }
}

fn order_outside(d: &mut Draw) -> f64 {
    match d.below(6) {
        0 => d.of(&[-LEAST, -f64::MIN_POSITIVE, -1000.0, 1001.0, f64::MAX, -f64::MAX]),
        1 => farther(1000.0, 1 + d.below(8)),
        2 => -farther(0.0, 1 + d.below(8)),
        3 => -d.by_exponent(-1074, 1023),
        4 => d.by_exponent(10, 1023),
        _ => -d.between(0.001, 2000.0),
    }
}

/// A magnitude above zero, at most 32,768.
fn part_inside(d: &mut Draw) -> f64 {
    match d.below(6) {
        0 => d.of(&[LEAST, f64::MIN_POSITIVE, 32768.0, 1.0]),
        1 => f64::from_bits(32768f64.to_bits() - d.below(8)),
        2 => farther(0.0, 1 + d.below(8)),
        3 => d.by_exponent(-1074, 14),
        4 => d.between(0.001, 60.0),
        _ => d.between(0.001, 32768.0),
    }
}

/// A magnitude above 32,768.
fn part_outside(d: &mut Draw) -> f64 {
    match d.below(4) {
        0 => d.of(&[32769.0, 65536.0, f64::MAX]),
        1 => farther(32768.0, 1 + d.below(8)),
        2 => d.by_exponent(16, 1023),
        _ => d.between(32768.1, 70000.0),
    }
}

/// A call with one, two or all three limits broken, or with none; one in eight of the kept parts is a zero of either sign. A few have a length that is refused, or a
/// value that is not finite, which come first.
pub fn call_limits(d: &mut Draw, outside: bool) -> (Call, Broken) {
    let ways = if outside { 1 + d.below(7) } else { 0 };
    let broken = Broken { order: ways & 1 != 0, sign: ways & 2 != 0, size: ways & 4 != 0 };
    // the size is broken by the real part, by the imaginary part, or by both
    let by = if broken.size { 1 + d.below(3) } else { 0 };
    let v = if broken.order { order_outside(d) } else { order_inside(d) };
    let part = |d: &mut Draw, large: bool, may_vanish: bool| match (large, may_vanish && d.below(8) == 0) {
        (true, _) => part_outside(d),
        (false, true) => 0.0,
        _ => part_inside(d),
    };
    let re = part(d, by & 1 != 0, !broken.sign);
    // a zero of either sign is not below zero
    let re = if broken.sign || (re == 0.0 && d.below(2) == 0) { -re } else { re };
    let im = part(d, by & 2 != 0, true);
    let mut c = Call { scaled: d.below(2) == 0, v, re, im: d.sign(im), length: length(d) };
    if d.below(64) == 0 {
        let bad = d.of(&[f64::NAN, f64::INFINITY, f64::NEG_INFINITY]);
        *[&mut c.v, &mut c.re, &mut c.im][d.below(3) as usize] = bad;
    }
    (c, broken)
}

/// Both sides of every limit, with zeros of both signs, the least and the largest values, each with each.
pub fn limits_edges() -> Vec<(Call, Broken)> {
    let (above, below) = (farther(1000.0, 1), f64::from_bits(1000f64.to_bits() - 1));
    let (large, small) = (farther(32768.0, 1), f64::from_bits(32768f64.to_bits() - 1));
    let orders = [(0.0, false), (-0.0, false), (LEAST, false), (-LEAST, true), (below, false), (1000.0, false), (above, true), (-1000.0, true), (f64::MAX, true), (-f64::MAX, true)];
    let parts = [(0.0, false), (LEAST, false), (f64::MIN_POSITIVE, false), (2.0, false), (small, false), (32768.0, false), (large, true), (f64::MAX, true)];
    let mut out = Vec::new();
    for (v, order) in orders {
        for (x, wide) in parts {
            for (y, high) in parts {
                for signs in 0..8u8 {
                    let re = if signs & 1 != 0 { -x } else { x };
                    let im = if signs & 2 != 0 { -y } else { y };
                    let broken = Broken { order, sign: signs & 1 != 0 && x != 0.0, size: wide || high };
                    out.push((Call { scaled: signs & 4 != 0, v, re, im, length: 4 }, broken));
                }
            }
        }
    }
    out
}
