//! Speed of the proved library beside this implementation: the same inputs, in one run, in turn, the least time of many
//! rounds. It prints nanoseconds for each and their ratio, how cost grows with the input, and the stack that the
//! library's calls take. `bench stack CALL FRAMES` is a run that it starts itself to find that stack.

#![deny(unsafe_code)]

mod growth;
mod inputs;
mod pairs;
mod stack;
mod timing;

use inputs::Inputs;
use std::env;

fn main() {
    let arguments: Vec<String> = env::args().skip(1).collect();
    let arguments: Vec<&str> = arguments.iter().map(String::as_str).collect();
    match arguments[..] {
        ["stack", call, frames] => stack::run_beneath(call, frames.parse().expect("a number of frames")),
        _ => all_tables(),
    }
}

fn all_tables() {
    let inputs = Inputs::largest();
    pairs::table(&inputs);
    println!();
    growth::tables(&inputs);
    println!();
    stack::lines();
}
