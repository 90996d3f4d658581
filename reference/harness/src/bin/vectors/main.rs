//! Writes the stored cases: `vectors FOLDER` puts the files `cases` and `stdout` there, and `index`, the source line of
//! each case.
//! Every case states the code it is about; the program stops if this implementation gives another.

#![deny(unsafe_code)]

mod both_ends;
mod cases;
mod copies;
mod crossovers;
mod group_lists;
mod groups;
mod journals;
mod keys;
mod kinds;
mod lists;
mod minutes;
mod panels;
mod records;
mod scenes;
mod separation;
mod sheets;
mod signal_works;

use cases::Cases;
use std::path::Path;
use std::{env, fs, process};

const CASES_LIMIT: usize = 294_912;
const STDOUT_LIMIT: usize = 65_536;

fn main() {
    let Some(folder) = env::args().nth(1) else {
        eprintln!("usage: vectors FOLDER");
        process::exit(2);
    };
    let mut cases = Cases::default();
    sheets::add(&mut cases);
    records::add(&mut cases);
    kinds::add(&mut cases);
    lists::add(&mut cases);
    journals::add(&mut cases);
    signal_works::add(&mut cases);
    copies::add(&mut cases);
    both_ends::add(&mut cases);
    panels::add(&mut cases);
    minutes::add(&mut cases);
    crossovers::add(&mut cases);
    keys::add(&mut cases);
    separation::add(&mut cases);
    groups::add(&mut cases);
    group_lists::add(&mut cases);
    println!("{} cases, {} bytes; stdout {} bytes", cases.count, cases.bytes.len(), cases.stdout.len());
    assert!(cases.bytes.len() <= CASES_LIMIT && cases.stdout.len() <= STDOUT_LIMIT);
    let write = |name: &str, bytes: &[u8]| fs::write(Path::new(&folder).join(name), bytes);
    let written = fs::create_dir_all(&folder)
        .and_then(|()| write("cases", &cases.bytes))
        .and_then(|()| write("stdout", cases.stdout.as_bytes()))
        .and_then(|()| write("index", cases.index.as_bytes()));
    if let Err(error) = written {
        eprintln!("{folder}: {error}");
        process::exit(1);
    }
}
