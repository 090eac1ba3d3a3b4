//! `accuracy [SEED]`: draws calls of K and I region by region and prints each with the first and last entries that libcapi.a and the Rust text over std's functions give.
//! A line: region, K or I, scaled (0 or 1), n, the bits of v, re, im; the number of libcapi.a and its two entries; 1 or 0 for whether the text answered with finite entries, and its
//! two entries. tools/accuracy/truth.c reads the lines. `accuracy log_gamma [SEED]`: the same for log-gamma, for tools/accuracy/log_gamma.py; log_gamma.rs has its lines.
//! Each region is told on standard error when it is done.

#[path = "../../driver/src/draw.rs"]
#[allow(dead_code)]
mod draw;
mod log_gamma;
#[path = "../../record.rs"]
#[allow(dead_code)]
mod record;
mod regions;

use draw::Draw;
use num_std::Complex;
use record::Answer;
use regions::{Ask, Region};
use std::io::Write;

extern "C" {
    fn lichenoar_i(answer: *mut Answer, scaled: u8, v: f64, re: f64, im: f64, out: *mut f64, length: usize) -> *mut Answer;
    fn lichenoar_k(answer: *mut Answer, scaled: u8, v: f64, re: f64, im: f64, out: *mut f64, length: usize) -> *mut Answer;
}

type Ends = [f64; 4];

/// The number, and the first and last entries.
fn ours(a: &Ask) -> (u32, Ends) {
    let mut cells = vec![f64::NAN; 2 * a.n];
    let mut answer = Answer::default();
    let entry = if a.is_k { lichenoar_k } else { lichenoar_i };
    unsafe { entry(&mut answer, a.scaled as u8, a.v, a.re, a.im, cells.as_mut_ptr(), cells.len()) };
    (answer.number, [cells[0], cells[1], cells[2 * a.n - 2], cells[2 * a.n - 1]])
}

/// Whether the text's kernel answered with finite entries, and the first and last of them.
fn text(a: &Ask) -> (bool, Ends) {
    let mut entries = vec![Complex::new(f64::NAN, f64::NAN); a.n];
    let z = Complex::new(a.re, a.im);
    let scaling = if a.scaled { native::Scaling::Scaled } else { native::Scaling::Unscaled };
    let mut zeros = 0;
    let met = if a.is_k {
        native::amos::k_right_half_plane(z, a.v, scaling, &mut entries).is_ok()
    } else {
        zeros = native::amos::i_power_series(z, a.v, scaling, &mut entries);
        true
    };
    let finite = zeros < 0 || entries.iter().all(|w| w.re.is_finite() && w.im.is_finite());
    let (first, last) = (entries[0], entries[a.n - 1]);
    (met && finite, [first.re, first.im, last.re, last.im])
}

fn words(cells: &[f64]) -> String {
    cells.iter().map(|x| format!("{:016X}", x.to_bits())).collect::<Vec<_>>().join(" ")
}

/// Whether the conjugate argument gets the conjugate answer: equal numbers, and equal entries, the two zeros counting as one.
fn mirrored(a: &Ask, (number, e): (u32, Ends)) -> bool {
    let (other, m) = ours(&Ask { im: -a.im, ..*a });
    let same = |x: f64, y: f64| x == y || x.is_nan() && y.is_nan();
    other == number && same(e[0], m[0]) && same(-e[1], m[1]) && same(e[2], m[2]) && same(-e[3], m[3])
}

fn run(region: &Region, d: &mut Draw, out: &mut impl Write) {
    let (mut asked, mut kept, mut mirror) = (0, 0, 0);
    while kept < region.calls && asked < 40 * region.calls {
        let n = region.lengths[kept % region.lengths.len()];
        let Some(a) = (region.draw)(d, n) else { continue };
        asked += 1;
        let mine = ours(&a);
        let (met, theirs) = text(&a);
        if mine.0 == 0 && (region.zeros_count || mine.1.iter().any(|x| x.is_finite() && *x != 0.0)) {
            kept += 1;
        }
        mirror += mirrored(&a, mine) as usize;
        let kind = if a.is_k { 'K' } else { 'I' };
        writeln!(out, "{} {kind} {} {n} {} {} {} {} {}", region.key, a.scaled as u8, words(&[a.v, a.re, a.im]), mine.0, words(&mine.1), met as u8, words(&theirs)).unwrap();
    }
    eprintln!("{}: {asked} asked, {kept} kept; {mirror} of those asked get the conjugate answer at the conjugate argument", region.key);
}

fn main() {
    let mut words: Vec<String> = std::env::args().skip(1).collect();
    let of_log_gamma = words.first().is_some_and(|word| word == "log_gamma");
    words.drain(..of_log_gamma as usize);
    let seed = words.first().map_or(644, |s| s.parse().expect("the seed is a whole number"));
    if of_log_gamma {
        return log_gamma::run(seed);
    }
    let mut out = std::io::BufWriter::new(std::io::stdout().lock());
    for (place, region) in regions::regions().iter().enumerate() {
        run(region, &mut Draw::new(seed + (place as u64) * 0x1000_0000), &mut out);
    }
}
