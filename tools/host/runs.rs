//! What every program here that times has in common, by `#[path]`: what it was measured on, and the least, the median and the largest of several runs.

use std::process::Command;

/// Prints the lines of tools/host/machine.sh, which is named from the crate that asks.
pub fn tell_machine(script: &str) {
    match Command::new(script).output() {
        Ok(said) if said.status.success() => println!("{}", String::from_utf8_lossy(&said.stdout)),
        _ => println!("processor, clock and compilers: not known, since {script} did not run\n"),
    }
}

/// The word at a place as a number from 1 on, or `usual` where there is none; anything else ends the program with `usage`.
pub fn count_at(words: &[String], place: usize, usual: usize, usage: &str) -> usize {
    match words.get(place).map(|word| word.parse()) {
        None => usual,
        Some(Ok(number)) if number > 0 => number,
        _ => {
            eprintln!("{usage}");
            std::process::exit(2)
        }
    }
}

/// `least / median / largest`
pub fn spread(runs: &[f64], digits: usize) -> String {
    let mut sorted = runs.to_vec();
    sorted.sort_by(f64::total_cmp);
    let (last, middle) = (sorted.len() - 1, sorted.len() / 2);
    let median = if last % 2 == 0 { sorted[middle] } else { (sorted[middle - 1] + sorted[middle]) / 2.0 };
    format!("{:.digits$} / {:.digits$} / {:.digits$}", sorted[0], median, sorted[last])
}

/// The rows of a table: a name, and for every run its times, in pairs of ours and the other side's.
pub struct Rows(Vec<(String, Vec<Vec<f64>>)>);

impl Rows {
    pub fn new() -> Self {
        Rows(Vec::new())
    }

    /// One more run of the row `name`, which a first run begins.
    pub fn add(&mut self, name: &str, times: &[f64]) {
        match self.0.iter_mut().find(|row| row.0 == name) {
            Some(row) => row.1.push(times.to_vec()),
            None => self.0.push((name.to_string(), vec![times.to_vec()])),
        }
    }

    /// A line a row: for each pair ours, the other side's and the ratio, which is formed run by run.
    pub fn print(&self, digits: usize) {
        for (name, runs) in &self.0 {
            let mut line = format!("| {name} |");
            for pair in 0..runs[0].len() / 2 {
                let side = |place: usize| runs.iter().map(|times| times[place]).collect::<Vec<_>>();
                let (ours, theirs) = (side(2 * pair), side(2 * pair + 1));
                let ratios: Vec<f64> = ours.iter().zip(&theirs).map(|(a, b)| a / b).collect();
                line += &format!(" {} | {} | {} |", spread(&ours, digits), spread(&theirs, digits), spread(&ratios, 2));
            }
            println!("{line}");
        }
    }
}
