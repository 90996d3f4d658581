//! `differential SEED COUNT`: the proved library and this implementation side by side on COUNT random inputs.
//! Stops at the first difference (exit 1), and leaves `sheet` and `journal` in the folder `difference`; of a pair
//! of lists, also `journal-2`.

#![deny(unsafe_code)]

mod compare;
mod covers;
mod damaged_keys;
mod demand;
mod group_lists;
mod group_sheets;
mod group_stations;
mod journals;
mod keys;
mod lists;
mod minutes;
mod near_misses;
mod panel_sheets;
mod panels;
mod raw_stations;
mod records;
mod rng;
mod route_counts;
mod separation;
mod separation_counts;
mod separation_lists;
mod sheet_counts;
mod splits;
mod stations;
mod tally;
mod times;
mod train_lists;
mod units;
mod verdicts;
mod writers;

use compare::Comparison;
use std::path::Path;
use std::{env, fs, io, process};

/// Two answers that should be the same, and the files to replay them from.
pub struct Difference {
    pub call: String,
    /// Each with whose it is: library and reference, or two lists, heard by one of these.
    pub answers: Vec<(&'static str, String)>,
    pub sheet: Vec<u8>,
    /// One, or two where two lists were heard.
    pub journals: Vec<Vec<u8>>,
}

fn main() {
    let numbers: Vec<u64> = env::args().skip(1).filter_map(|word| word.parse().ok()).collect();
    let [seed, count] = numbers[..] else {
        eprintln!("usage: differential SEED COUNT");
        process::exit(2);
    };
    let mut comparison = Comparison::new(seed);
    if let Err(difference) = run(&mut comparison, count) {
        show(&difference, &comparison, seed);
        process::exit(1);
    }
    let never = comparison.tally.report();
    if !never.is_empty() {
        println!("never occurred: {}", never.join(", "));
        process::exit(1);
    }
    println!("no difference");
}

/// All verdicts, all counts near the panel's limits, then rounds until the count is reached; the last round is
/// finished.
fn run(comparison: &mut Comparison, count: u64) -> Result<(), Difference> {
    comparison.all_verdicts()?;
    comparison.all_panel_counts()?;
    while comparison.tally.inputs < count {
        comparison.round()?;
        comparison.splits()?;
        comparison.separation()?;
    }
    Ok(())
}

fn show(difference: &Difference, comparison: &Comparison, seed: u64) {
    println!("difference, seed {seed}, after {} inputs and {} lists", comparison.tally.inputs, comparison.tally.lists);
    println!("call: {}", difference.call);
    difference.answers.iter().for_each(|(side, answer)| println!("{side}: {answer}"));
    match leave(difference) {
        Ok(files) => println!("left in the folder difference: {}", files.join(", ")),
        Err(error) => println!("difference: {error}"),
    }
}

/// Writes the files of the difference; their names and lengths.
fn leave(difference: &Difference) -> io::Result<Vec<String>> {
    let folder = Path::new("difference");
    fs::create_dir_all(folder)?;
    let journals = ["journal", "journal-2"].into_iter().zip(&difference.journals);
    let mut left = Vec::new();
    for (name, bytes) in [("sheet", &difference.sheet)].into_iter().chain(journals) {
        fs::write(folder.join(name), bytes)?;
        left.push(format!("{name} ({} bytes)", bytes.len()));
    }
    Ok(left)
}
