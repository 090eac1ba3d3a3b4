//! Prints what the stand-in for `num` gives, over std's functions, for standin.py to hold to a high-precision program: one line an operation, in hexadecimal bits.

use num_std::complex::{Complex, ComplexFloat};
use num_std::traits::Float;
use num_std::ToPrimitive;

struct Draw(u64);

impl Draw {
    fn bits(&mut self) -> u64 {
        self.0 = self.0.wrapping_add(0x9E37_79B9_7F4A_7C15);
        let mut z = self.0;
        z = (z ^ (z >> 30)).wrapping_mul(0xBF58_476D_1CE4_E5B9);
        z = (z ^ (z >> 27)).wrapping_mul(0x94D0_49BB_1331_11EB);
        z ^ (z >> 31)
    }
    fn part(&mut self) -> f64 {
        let e = self.bits() % 14;
        let m = f64::from_bits(0x3FF << 52 | self.bits() >> 12);
        let x = m * 2f64.powi(e as i32 - 9);
        if self.bits() & 1 == 0 { x } else { -x }
    }
}

fn show(op: &str, given: &[f64], got: &[f64]) {
    let hex = |v: &[f64]| v.iter().map(|x| format!("{:016X}", x.to_bits())).collect::<Vec<_>>().join(" ");
    println!("{op} {} = {}", hex(given), hex(got));
}

fn main() {
    let mut d = Draw(20261115);
    for _ in 0..500 {
        let (a, b, c, e) = (d.part(), d.part(), d.part(), d.part());
        let (z, w) = (Complex::new(a, b), Complex::new(c, e));
        let both = [a, b, c, e];
        let with = [a, b, c];
        let pair = |z: Complex<f64>| [z.re, z.im];
        show("product", &both, &pair(z * w));
        show("quotient", &both, &pair(z / w));
        show("sum", &both, &pair(z + w));
        show("difference", &both, &pair(z - w));
        show("times", &with, &pair(z * c));
        show("left_times", &with, &pair(c * z));
        show("over", &with, &pair(z / c));
        show("real_over", &with, &pair(c / z));
        show("plus", &with, &pair(z + c));
        show("minus", &with, &pair(z - c));
        show("opposite", &[a, b], &pair(-z));
        show("conjugate", &[a, b], &pair(z.conj()));
        show("modulus", &[a, b], &[z.abs()]);
        show("norm_sqr", &[a, b], &[z.norm_sqr()]);
        show("arg", &[a, b], &[z.arg()]);
        show("ln", &[a, b], &pair(z.ln()));
        show("exp", &[a, b], &pair(z.exp()));
        show("cosh", &[a, b], &pair(z.cosh()));
        show("sinh", &[a, b], &pair(z.sinh()));
        show("sqrt", &[a, b], &pair(z.sqrt()));
        show("square", &[a, b], &pair(z.powi(2)));
        show("fifth", &[a, b], &pair(z.powu(5)));
        show("real_fifth", &[a], &[Float::powi(a, 5)]);
        show("to_usize", &[a], &[a.to_usize().map_or(-1.0, |n| n as f64)]);
    }
    let mut assigned = Complex::new(3.0, -2.0);
    assigned += Complex::new(1.0, 1.0);
    assigned -= 0.5;
    assigned *= Complex::new(0.0, 2.0);
    assigned /= 4.0;
    show("assigned", &[], &[assigned.re, assigned.im]);
}
