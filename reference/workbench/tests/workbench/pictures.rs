//! Pictures of sheets and journals. Those kept in `docs/pictures` are what the program draws.

use crate::{failure, text, Folder};
use reference::builders::*;
use std::fs;

/// The path of a file of the repository.
fn kept(name: &str) -> String {
    format!("{}/../../{name}", env!("CARGO_MANIFEST_DIR"))
}

/// The picture that a command draws.
fn drawn(test: &str, command: &str, files: &[&str]) -> String {
    let out = Folder::new(test).path("out.svg");
    let said = text(&[&[command], files, &[&out]].concat());
    let picture = fs::read_to_string(&out).expect("written");
    assert_eq!(said, format!("{out}: {} bytes written\n", picture.len()));
    picture
}

/// What a command says that is refused and writes nothing.
fn refused(test: &str, command: &str, files: &[&str]) -> String {
    let folder = Folder::new(test);
    let said = failure(&[&[command], files, &[&folder.path("out.svg")]].concat());
    assert!(!folder.0.join("out.svg").exists());
    said
}

#[test]
fn sheet_of_station_k() {
    let picture = drawn("picture_k", "draw-sheet", &[&kept("examples/station-k/sheet")]);
    assert!(picture.contains(">Station plan: 3 turnouts, 1 route, 1 zone</text>"), "{picture}");
    assert!(picture.contains(">3 turnouts: 2 electric, 1 by hand; 1 group; 1 route</text>"), "{picture}");
    assert!(picture.contains("<title>route 0, turnout 0: run over, normal</title>"), "{picture}");
    assert!(picture.contains("<title>route 0, turnout 2: flank, normal</title>"), "{picture}");
    assert!(picture.contains("<title>group 0: {0,1}</title>"), "{picture}");
}

/// SHEET-14: the sheet's version does not show.
#[test]
fn sheets_of_either_version() {
    let folder = Folder::new("either");
    let pairs = [(station_k(), station_k_in_version_2()), (largest_station(), largest_station_in_version_2())];
    for (one, two) in pairs {
        let [one, two] = [one, two].map(|sheet| drawn("drawn", "draw-sheet", &[&folder.file("sheet", sheet.bytes())]));
        assert!(one == two);
    }
}

/// Groups of three, of two and of eight, side by side.
#[test]
fn sheet_of_larger_groups() {
    let sheet = Folder::new("group_files").file("sheet", group_station().bytes());
    let picture = drawn("groups", "draw-sheet", &[&sheet]);
    for (number, turnouts) in ["{0,1,2}", "{3,4}", "{5,6,7,8,9,10,11,12}"].iter().enumerate() {
        assert_eq!(picture.matches(&format!("<title>group {number}: {turnouts}</title>")).count(), 1, "{picture}");
    }
    assert!(picture.contains(">14 turnouts: 3 electric, 11 by hand; 3 groups; 2 routes</text>"), "{picture}");
}

#[test]
fn journal_of_station_k() {
    let files = [kept("examples/station-k/sheet"), kept("examples/station-k/journal")];
    let picture = drawn("picture_journal_k", "draw-journal", &[&files[0], &files[1]]);
    assert!(picture.contains(">Journal: 11 records; station of 3 turnouts, 1 route, 1 zone</text>"), "{picture}");
    let refused = ["refused by 22: the regime is held, {0} without a clearance or a key", "refused by 19: "];
    assert!(refused.iter().all(|words| picture.contains(words)), "{picture}");
}

/// Drawn anew: `workbench draw-sheet examples/station-k/sheet docs/pictures/station-k-sheet.svg`, and likewise
/// `draw-journal`.
#[test]
fn pictures_kept() {
    let (sheet, journal) = (kept("examples/station-k/sheet"), kept("examples/station-k/journal"));
    let pictures = [
        ("docs/pictures/station-k-sheet.svg", drawn("kept_sheet", "draw-sheet", &[&sheet])),
        ("docs/pictures/station-k-journal.svg", drawn("kept_journal", "draw-journal", &[&sheet, &journal])),
    ];
    for (name, picture) in pictures {
        assert!(fs::read_to_string(kept(name)).expect("kept") == picture, "{name} is not what the program draws");
    }
}

#[test]
fn refused_pictures() {
    let folder = Folder::new("bad_files");
    let (sheet, talk) = (folder.file("sheet", station_k().bytes()), folder.file("journal", journal(&journal_k())));
    let bad_sheet = folder.file("bad_sheet", &station_k().bytes()[..49]);
    let bad_journal = folder.file("bad_journal", &journal(&journal_k())[..100]);
    assert!(refused("undrawn", "draw-sheet", &[&bad_sheet]).starts_with("refused by 1: "));
    assert!(refused("undrawn", "draw-journal", &[&bad_sheet, &talk]).starts_with("refused by 1: "));
    assert!(refused("undrawn", "draw-journal", &[&sheet, &bad_journal]).starts_with("refused by 30: "));
    assert!(refused("undrawn", "draw-journal", &[&bad_sheet, &bad_journal]).starts_with("refused by 1: "));
}

#[test]
fn missing_files() {
    let sheet = kept("examples/station-k/sheet");
    assert!(failure(&["draw-sheet", "/no/such/sheet", "/no/such/out"]).starts_with("/no/such/sheet: "));
    assert!(failure(&["draw-sheet", &sheet, "/no/such/out"]).starts_with("/no/such/out: "));
    assert!(failure(&["draw-journal", &sheet, "/no/such/journal", "/no/such/out"]).starts_with("/no/such/journal: "));
}
