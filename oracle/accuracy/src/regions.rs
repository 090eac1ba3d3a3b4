//! The regions, each with its way of drawing a call. Directions come from a half disc by rejection, so that nearly all draws ask no library function but sqrt.

use crate::draw::Draw;

pub struct Ask {
    pub is_k: bool,
    pub scaled: bool,
    pub v: f64,
    pub re: f64,
    pub im: f64,
    pub n: usize,
}

pub struct Region {
    pub key: String,
    pub lengths: &'static [usize],
    /// how many calls are kept
    pub calls: usize,
    /// whether a call whose first and last entries are both zero is kept too
    pub zeros_count: bool,
    /// a call with n orders, or nothing where the draw fell outside the region
    pub draw: Box<dyn Fn(&mut Draw, usize) -> Option<Ask>>,
}

const CALLS: usize = 3000;
const SHORT: &[usize] = &[1, 2, 10];
const LONG: &[usize] = &[512];
const FAR: f64 = 28.666666666666664;

#[derive(Clone, Copy, PartialEq)]
enum Turn {
    Any,
    Up,
    Down,
    Real,
    Imaginary,
}

/// A point of the right half plane with the given modulus, near enough.
fn point(d: &mut Draw, r: f64, turn: Turn) -> (f64, f64) {
    match turn {
        Turn::Real => return (r, 0.0),
        Turn::Imaginary => return (0.0, d.sign(r)),
        _ => {}
    }
    loop {
        let (a, b) = (d.between(0.0, 1.0), d.between(-1.0, 1.0));
        let q = a * a + b * b;
        if q > 0.0 && q <= 1.0 {
            let s = r / q.sqrt();
            let im = match turn {
                Turn::Up => b.abs(),
                Turn::Down => -b.abs(),
                _ => b,
            };
            return (a * s, im * s);
        }
    }
}

/// An order from low to high, one in four of them whole.
fn order(d: &mut Draw, low: f64, high: f64) -> f64 {
    let v = d.between(low, high);
    if d.below(4) == 0 { v.ceil().min(high) } else { v }
}

/// A modulus from low to high, half of them even in size and half even in exponent.
fn modulus(d: &mut Draw, low: f64, high: f64) -> f64 {
    if d.below(2) == 0 {
        return d.between(low, high);
    }
    loop {
        let m = d.by_exponent(low.log2().floor() as i64, high.log2().floor() as i64);
        if m > low && m <= high {
            return m;
        }
    }
}

fn named(scaled: bool) -> &'static str {
    if scaled { "scaled" } else { "unscaled" }
}

type Drawing = Box<dyn Fn(&mut Draw, usize) -> Option<Ask>>;

fn region(key: String, draw: Drawing) -> Region {
    Region { key, lengths: SHORT, calls: CALLS, zeros_count: false, draw }
}

const ORDERS: [(&str, f64, f64); 3] = [("0-3", 0.0, 3.0), ("3-50", 3.0, 50.0), ("50-1000", 50.0, 1000.0)];

/// K by branch, order and scaling.
fn k_branches(out: &mut Vec<Region>) {
    let branches = [("temme", 0.001, 2.0, Turn::Any), ("miller", 2.0, FAR, Turn::Any), ("far_up", FAR, 0.0, Turn::Up), ("far_down", FAR, 0.0, Turn::Down)];
    for (branch, low, high, turn) in branches {
        for (orders, least, most) in ORDERS {
            for scaled in [false, true] {
                let top = if high > 0.0 { high } else if scaled { 32768.0 } else { 660.0 };
                out.push(region(
                    format!("k_{branch}_{orders}_{}", named(scaled)),
                    Box::new(move |d, n| {
                        let (v, r) = (order(d, least, most), modulus(d, low, top));
                        let (re, im) = point(d, r, turn);
                        Some(Ask { is_k: true, scaled, v, re, im, n })
                    }),
                ));
            }
        }
    }
}

/// K on the axes and at half orders.
fn k_axes(out: &mut Vec<Region>) {
    for (name, turn, most) in [("real_axis_0-3", Turn::Real, 3.0), ("imaginary_axis_0-3", Turn::Imaginary, 3.0), ("half_orders_0-50", Turn::Any, 50.0)] {
        for scaled in [false, true] {
            out.push(region(
                format!("k_{name}_{}", named(scaled)),
                Box::new(move |d, n| {
                    let v = if turn == Turn::Any { d.below(50) as f64 + 0.5 } else { order(d, 0.0, most) };
                    let r = modulus(d, 0.001, 660.0);
                    let (re, im) = point(d, r, turn);
                    Some(Ask { is_k: true, scaled, v, re, im, n })
                }),
            ));
        }
    }
}

/// K unscaled, where e^-re is at or below the least numbers. Between re 1,070 and 1,101 at the highest orders the answer can be far from the truth; above, all is refused.
fn k_climb(out: &mut Vec<Region>) {
    let parts = [("665-701_order_0-50", 664.88, 700.92, 0.0, 50.0), ("701-1070_order_50-1000", 700.92, 1070.0, 50.0, 1000.0), ("1070-1101_order_890-1000", 1070.0, 1101.0, 890.0, 1000.0), ("1102-1200_order_50-1000", 1102.0, 1200.0, 50.0, 1000.0)];
    for (name, low, high, least, most) in parts {
        let part = region(
            format!("k_climb_re_{name}"),
            Box::new(move |d, n| {
                let (v, re, y, tiny) = (order(d, least, most), d.between(low, high), d.between(-600.0, 600.0), d.by_exponent(-60, -20));
                let im = d.of(&[0.0, tiny, y, y]);
                Some(Ask { is_k: true, scaled: false, v, re, im, n })
            }),
        );
        out.push(if low > 1101.0 { Region { calls: 100, ..part } } else { part });
    }
}

/// K at the smallest arguments and orders, and in long lists.
fn k_ends(out: &mut Vec<Region>) {
    // below 2^-1000 an order above 1 overflows
    for (name, low, high, most) in [("2^-1000_to_2^-10", -1000, -11, 3.0), ("below_2^-1000", -1074, -1001, 1.0)] {
        let tiny = region(
            format!("k_tiny_z_{name}"),
            Box::new(move |d, n| {
                let (v, x, y) = (order(d, 0.0, most), d.by_exponent(low, high), d.by_exponent(low, high));
                let (re, im) = d.of(&[(x, 0.0), (x, y), (y, x), (x, -y), (0.0, -y), (x, x)]);
                Some(Ask { is_k: true, scaled: d.below(2) == 0, v, re, im, n })
            }),
        );
        out.push(if most == 1.0 { Region { lengths: &[1], zeros_count: true, ..tiny } } else { tiny });
    }
    for (name, low, high) in [("beside_whole_numbers", 0, 0), ("2^-1022_to_2^-10", -1022, -11), ("subnormal", -1074, -1023)] {
        out.push(region(
            format!("k_orders_{name}"),
            Box::new(move |d, n| {
                let v = if low == 0 {
                    let whole = 1.0 + d.below(20) as f64;
                    d.beside(whole, 1000)
                } else {
                    d.by_exponent(low, high)
                };
                let r = modulus(d, 0.001, 28.0);
                let (re, im) = point(d, r, Turn::Any);
                Some(Ask { is_k: true, scaled: d.below(2) == 0, v, re, im, n })
            }),
        ));
    }
    let long = region(
        "k_long_lists".to_string(),
        Box::new(|d, n| {
            let (v, r) = (order(d, 0.0, 1000.0), d.between(1700.0, 3000.0));
            let (re, im) = point(d, r, Turn::Any);
            Some(Ask { is_k: true, scaled: true, v, re, im, n })
        }),
    );
    out.push(Region { lengths: LONG, ..long });
}

/// The largest modulus that refusal 5 lets through.
fn edge(v: f64, n: usize) -> f64 {
    2.0 * (v + n as f64).sqrt()
}

fn i_orders(out: &mut Vec<Region>) {
    for (orders, least, most) in [("0-3", 0.0, 3.0), ("3-50", 3.0, 50.0), ("50-340", 50.0, 340.0), ("340-1000", 340.0, 1000.0)] {
        for scaled in [false, true] {
            let all = region(
                format!("i_{orders}_{}", named(scaled)),
                Box::new(move |d, n| {
                    let v = order(d, least, most);
                    let r = modulus(d, 0.001, edge(v, n));
                    let (re, im) = point(d, r, Turn::Any);
                    Some(Ask { is_k: false, scaled, v, re, im, n })
                }),
            );
            out.push(Region { zeros_count: least == 340.0, ..all });
        }
    }
    for (name, least, most, n, turn) in [("0-50", 0.0, 50.0, 1, Turn::Imaginary), ("50-340", 50.0, 340.0, 1, Turn::Imaginary), ("0-340_long_lists", 0.0, 340.0, 512, Turn::Imaginary), ("0-340_long_lists", 0.0, 340.0, 512, Turn::Any), ("340-365_near_the_edge", 340.0, 365.0, 1, Turn::Any)] {
        let axis = if turn == Turn::Imaginary { "imaginary_axis_" } else { "" };
        let part = region(
            format!("i_{axis}{name}"),
            Box::new(move |d, n| {
                let v = order(d, least, most);
                // above order 340 an argument well inside the limit gives zeros alone
                let low = if least == 340.0 { 0.9 * edge(v, n) } else { 0.001 };
                let r = modulus(d, low, edge(v, n));
                let (re, im) = point(d, r, turn);
                Some(Ask { is_k: false, scaled: false, v, re, im, n })
            }),
        );
        out.push(Region { lengths: if n == 1 { SHORT } else { LONG }, ..part });
    }
}

/// I whose leading term is e^-640 to e^-701, and I of the smallest arguments.
fn i_ends(out: &mut Vec<Region>) {
    for scaled in [false, true] {
        out.push(region(
            format!("i_near_underflow_{}", named(scaled)),
            Box::new(move |d, n| {
                let (v, depth) = (order(d, 3.0, 352.0), d.between(640.0, 701.0));
                let r = 2.0 * ((native::amos::log_gamma(v + 1.0)? - depth) / v).exp();
                let (re, im) = point(d, r, Turn::Any);
                (r > 0.0 && r <= edge(v, n)).then_some(Ask { is_k: false, scaled, v, re, im, n })
            }),
        ));
    }
    out.push(region(
        "i_tiny_z_2^-1000_to_2^-10".to_string(),
        Box::new(|d, n| {
            let (v, r) = (order(d, 0.0, 3.0), d.by_exponent(-1000, -11));
            let (re, im) = point(d, r, Turn::Any);
            Some(Ask { is_k: false, scaled: d.below(2) == 0, v, re, im, n })
        }),
    ));
}

/// The pictures: calls with n = 1, even over log2 |z| and the square root of the order (K), or over |z| and the order (I).
fn pictures(out: &mut Vec<Region>) {
    for (name, turn) in [("up", Turn::Up), ("down", Turn::Down)] {
        let picture = region(
            format!("picture_k_{name}"),
            Box::new(move |d, n| {
                let (s, e) = (d.between(0.0, 1.0), d.between(-10.0, 15.0));
                let (re, im) = point(d, e.exp2(), turn);
                Some(Ask { is_k: true, scaled: true, v: 1000.0 * s * s, re, im, n })
            }),
        );
        out.push(Region { lengths: &[1], calls: 16000, zeros_count: true, ..picture });
    }
    for (name, turn) in [("any", Turn::Any), ("imaginary_axis", Turn::Imaginary)] {
        let picture = region(
            format!("picture_i_{name}"),
            Box::new(move |d, n| {
                let (v, r) = (d.between(0.0, 360.0), d.between(0.0, 38.0));
                let (re, im) = point(d, r, turn);
                Some(Ask { is_k: false, scaled: false, v, re, im, n })
            }),
        );
        out.push(Region { lengths: &[1], calls: 16000, zeros_count: true, ..picture });
    }
}

/// The picture of plain K where e^-re underflows: calls with n = 1, even over re and the order, on the real axis and off it.
fn climb_pictures(out: &mut Vec<Region>) {
    for (name, reach) in [("real_axis", 0.0), ("off_the_axis", 600.0)] {
        let picture = region(
            format!("picture_k_climb_{name}"),
            Box::new(move |d, n| {
                let (v, re, im) = (d.between(0.0, 1000.0), d.between(660.0, 1110.0), d.between(-reach, reach));
                Some(Ask { is_k: true, scaled: false, v, re, im, n })
            }),
        );
        out.push(Region { lengths: &[1], calls: 16000, zeros_count: true, ..picture });
    }
}

/// The four answers that equal the Rust's and are far from the truth.
fn far_from_the_truth(out: &mut Vec<Region>) {
    let b = f64::from_bits;
    for (name, is_k, v, re, im, n) in [
        ("holes", false, 3.0, 0.0, b(0x4022_5472_F9AB_882D), 417),
        ("subnormal_seeds", true, 999.5, 1100.0, 0.0, 1),
        ("zero", true, b(0x3FE4_0BB0_4546_2AA4), b(0x0003_097A_26B1_16A6), b(0x0006_AA15_9D31_2637), 1),
        ("subnormal_order", true, b(1), 0.3, 0.0, 1),
    ] {
        let one = region(format!("far_{name}"), Box::new(move |_, n| Some(Ask { is_k, scaled: false, v, re, im, n })));
        let lengths: &'static [usize] = if n == 1 { &[1] } else { &[417] };
        out.push(Region { calls: 1, zeros_count: true, lengths, ..one });
    }
}

pub fn regions() -> Vec<Region> {
    let mut out = Vec::new();
    k_branches(&mut out);
    k_axes(&mut out);
    k_climb(&mut out);
    k_ends(&mut out);
    i_orders(&mut out);
    i_ends(&mut out);
    pictures(&mut out);
    climb_pictures(&mut out);
    far_from_the_truth(&mut out);
    out
}
