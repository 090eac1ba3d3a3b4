//! K and I of one order, K of several with the counts of the steps taken, calls that are refused: the words, and what to do; the frames of a sweep; and the
//! page of a few answer lines.

use lichenoar::{i, k, k_into, Complex, Kind, Page, Refusal, Scaling, Sweep, SweepError};

fn told(name: &str, value: Result<Complex, Refusal>) {
    match value {
        Ok(value) => println!("{name} = {value}"),
        Err(refusal) => println!("{name}: {refusal}; {}", refusal.remedy()),
    }
}

fn main() -> Result<(), SweepError> {
    let z = Complex::new(1.5, -0.75);
    told("K(0.25) at 1.5-0.75i, scaled", k(0.25, z, Scaling::Scaled));
    told("I(0) at 2", i(0.0, Complex::from(2.0), Scaling::Unscaled));
    told("K(0) at 0", k(0.0, Complex::ZERO, Scaling::Unscaled));
    told("I(0) at 4", i(0.0, Complex::from(4.0), Scaling::Unscaled));

    let mut out = [Complex::ZERO; 3];
    let answer = k_into(z, 0.25, Scaling::Scaled, &mut out)?;
    for (order, value) in out.iter().enumerate() {
        println!("K({}) at 1.5-0.75i, scaled = {value}", 0.25 + order as f64);
    }
    println!("zeros {}, longest sum {}, rungs {}, backward steps {}", answer.zeros, answer.longest_sum, answer.rungs, answer.backward);

    let sweep = Sweep { kind: Kind::K, scaling: Scaling::Scaled, order: 0.25, entries: 2, first: z, last: Complex::new(2.5, 0.75), steps: 3 };
    let mut lines = [0; 3 * Sweep::BYTES_A_STEP];
    for frame in sweep.frames_into(&mut lines)? {
        println!("{frame} asks at {}", frame.point().1);
    }

    // an answer, a refusal by 4, and a line that was cut
    let mut page = Page::new();
    for line in ["0000000010000000003FED02CD380D17703FC94EB2DB77969A3FF37EB3DB656B713FDC2EE896201B11", "040000000000000000", "04000000"] {
        page.line(line.as_bytes())?;
    }
    println!("{} lines: {} answered, {} refused by 4, {} unreadable", page.lines(), page.answered(), page.refused(4), page.unreadable());
    Ok(())
}
