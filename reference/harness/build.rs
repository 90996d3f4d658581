//! Tells cargo where the proved library is, when the feature `library` asks for it.

use std::env;

/// The last is not shipped: it takes any station, for the comparison.
const ARCHIVES: [&str; 5] =
    ["works_desk_journal", "works_desk_unit", "works_desk_signals", "works_desk_panel", "station_trial"];

fn main() {
    println!("cargo:rerun-if-env-changed=DESK_LIB");
    if env::var_os("CARGO_FEATURE_LIBRARY").is_none() {
        return;
    }
    if let Ok(folder) = env::var("DESK_LIB") {
        println!("cargo:rustc-link-search=native={folder}");
        for archive in ARCHIVES {
            println!("cargo:rerun-if-changed={folder}/lib{archive}.a");
        }
    }
    for archive in ARCHIVES {
        println!("cargo:rustc-link-lib=static={archive}");
    }
}
