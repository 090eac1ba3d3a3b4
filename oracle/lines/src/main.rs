//! The frame program around the Rust text over std's functions, for times: the same reading and writing in pieces of 64 KiB, digits by tables, the text's kernels
//! behind the checks of docs/SCOPE.md. Its answers have the text's bits over std, so they need not equal ours; counts other than the zeros are left at 0.

use num_std::Complex;
use std::io::{Read, Write};

const NO: u8 = 255;

fn worth() -> [u8; 256] {
    let mut table = [NO; 256];
    for (i, b) in b"0123456789ABCDEF".iter().enumerate() {
        table[*b as usize] = i as u8;
    }
    table
}

fn spell(value: u64, digits: usize, out: &mut Vec<u8>) {
    for i in (0..digits).rev() {
        out.push(b"0123456789ABCDEF"[(value >> (4 * i) & 15) as usize]);
    }
}

fn refuse(number: u64, out: &mut Vec<u8>) {
    spell(number, 2, out);
    out.extend_from_slice(b"0000000000000000\n");
}

fn answer(line: &[u8], worth: &[u8; 256], entries: &mut [Complex<f64>], out: &mut Vec<u8>) {
    if line.len() != 56 || line.iter().any(|b| worth[*b as usize] == NO) {
        return refuse(9, out);
    }
    let field = |from: usize, width: usize| line[from..from + width].iter().fold(0u64, |n, b| n << 4 | worth[*b as usize] as u64);
    let (kind, scaled, n) = (field(0, 2), field(2, 2), field(4, 4) as usize);
    let (v, re, im) = (f64::from_bits(field(8, 16)), f64::from_bits(field(24, 16)), f64::from_bits(field(40, 16)));
    if !(1..=2).contains(&kind) || scaled > 1 {
        return refuse(9, out);
    }
    if n == 0 || n > 512 {
        return refuse(1, out);
    }
    if !(v.is_finite() && re.is_finite() && im.is_finite()) {
        return refuse(2, out);
    }
    if !(0.0..=1000.0).contains(&v) {
        return refuse(3, out);
    }
    if re < 0.0 {
        return refuse(11, out);
    }
    if re > 32768.0 || im.abs() > 32768.0 {
        return refuse(12, out);
    }
    let (z, cells) = (Complex::new(re, im), &mut entries[..n]);
    let scaling = if scaled == 1 { native::Scaling::Scaled } else { native::Scaling::Unscaled };
    let zeros = if kind == 1 {
        match native::amos::k_right_half_plane(z, v, scaling, cells) {
            Ok(zeros) => zeros as isize,
            Err(_) => return refuse(6, out),
        }
    } else {
        native::amos::i_power_series(z, v, scaling, cells)
    };
    if cells.iter().any(|w| !(w.re.is_finite() && w.im.is_finite())) {
        return refuse(8, out);
    }
    out.extend_from_slice(b"00");
    spell(zeros as u16 as u64, 4, out);
    out.extend_from_slice(b"000000000000");
    for w in cells {
        spell(w.re.to_bits(), 16, out);
        spell(w.im.to_bits(), 16, out);
    }
    out.push(b'\n');
}

fn main() {
    let worth = worth();
    let mut entries = vec![Complex::new(0.0, 0.0); 512];
    let (mut input, mut output) = (std::io::stdin().lock(), std::io::stdout().lock());
    let (mut chunk, mut held, mut out) = (vec![0u8; 65536], Vec::new(), Vec::with_capacity(65536));
    loop {
        let got = input.read(&mut chunk).unwrap();
        if got == 0 {
            break;
        }
        for piece in chunk[..got].split_inclusive(|b| *b == b'\n') {
            let whole = piece.last() == Some(&b'\n');
            held.extend_from_slice(&piece[..piece.len() - whole as usize]);
            if whole {
                answer(&held, &worth, &mut entries, &mut out);
                held.clear();
            }
            if out.len() > 49152 {
                output.write_all(&out).unwrap();
                out.clear();
            }
        }
    }
    if !held.is_empty() {
        answer(&held, &worth, &mut entries, &mut out);
    }
    output.write_all(&out).unwrap();
}
