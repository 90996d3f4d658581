//! The program `workbench`, run on files, by command. Here: how it is run, and the files of a test.

mod explain;
mod explain_groups;
mod explain_releases;
mod files;
mod groups;
mod journals;
mod pictures;
mod random;
mod sheets;

use reference::drafts::Sheet;
use reference::sheet::{ELECTRIC, HAND};
use reference::writer;
use std::path::PathBuf;
use std::process::{Command, Output};
use std::{env, fs};

/// A folder of the test's own.
struct Folder(PathBuf);

impl Folder {
    fn new(test: &str) -> Folder {
        let path = PathBuf::from(env!("CARGO_TARGET_TMPDIR")).join("workbench").join(test);
        let _ = fs::remove_dir_all(&path);
        fs::create_dir_all(&path).expect("a folder");
        Folder(path)
    }

    fn path(&self, name: &str) -> String {
        self.0.join(name).to_string_lossy().into_owned()
    }

    /// Writes a file and gives its path.
    fn file(&self, name: &str, bytes: impl AsRef<[u8]>) -> String {
        fs::write(self.path(name), bytes).expect("a file");
        self.path(name)
    }
}

fn workbench(arguments: &[&str]) -> Output {
    Command::new(env!("CARGO_BIN_EXE_workbench")).args(arguments).output().expect("the program runs")
}

/// The text of a command that ends with 0.
fn text(arguments: &[&str]) -> String {
    let output = workbench(arguments);
    assert_eq!(output.status.code(), Some(0), "{}", String::from_utf8_lossy(&output.stderr));
    String::from_utf8(output.stdout).expect("UTF-8")
}

/// What a command that ends with 1 says on stderr, or else on stdout.
fn failure(arguments: &[&str]) -> String {
    let output = workbench(arguments);
    assert_eq!(output.status.code(), Some(1));
    let said = if output.stderr.is_empty() { output.stdout } else { output.stderr };
    String::from_utf8(said).expect("UTF-8")
}

/// Binary to text to binary, and to the same text again: the text, and the binary that was made.
fn shown_and_made(test: &str, what: &str, bytes: &[u8]) -> (String, Vec<u8>) {
    let folder = Folder::new(test);
    let (show, make) = (format!("show-{what}"), format!("make-{what}"));
    let shown = text(&[&show, &folder.file("given", bytes)]);
    text(&[&make, &folder.file("text", &shown), &folder.path("made")]);
    assert_eq!(text(&[&show, &folder.path("made")]), shown);
    (shown, fs::read(folder.path("made")).expect("written"))
}

/// Binary to text to binary: the same.
fn round_trip(test: &str, what: &str, bytes: &[u8]) -> String {
    let (shown, made) = shown_and_made(test, what, bytes);
    assert_eq!(made, bytes);
    shown
}

/// A sheet of version 1 to text to a sheet: the bytes of its version 2, which give the same bytes.
fn converted(test: &str, sheet: &Sheet) -> String {
    let (shown, made) = shown_and_made(test, "sheet", &sheet.bytes());
    assert_eq!(made, in_version_2(sheet));
    assert_eq!(round_trip(test, "sheet", &made), shown);
    shown
}

/// WRITE-5: "A sheet of version 1 is so turned into one of version 2, of the same length".
fn in_version_2(sheet: &Sheet) -> Vec<u8> {
    let bytes = sheet.bytes();
    let mut copy = vec![0; bytes.len()];
    assert_eq!(writer::copy_sheet(&bytes, &mut copy), [0, 0]);
    assert_eq!([bytes[4], copy[4]], [1, 2]);
    copy
}

/// The sheet that `make-sheet` makes of a text.
fn sheet_of(test: &str, given: &str) -> Vec<u8> {
    let folder = Folder::new(test);
    text(&["make-sheet", &folder.file("text", given), &folder.path("made")]);
    fs::read(folder.path("made")).expect("written")
}

/// A text that `make-..` turns down: nothing is written.
fn bad_text(test: &str, command: &str, given: impl AsRef<[u8]>) -> String {
    let folder = Folder::new(test);
    let said = failure(&[command, &folder.file("text", given), &folder.path("made")]);
    assert!(!folder.0.join("made").exists());
    said
}

/// 64 turnouts, 64 routes, 8 zones, of version 1; both drives, crossovers, every set of a route in use.
fn large_station() -> Sheet {
    let mut sheet = Sheet::new(8);
    for zone in 0..8 {
        sheet = sheet.crossover(zone, zone % 2).crossover(zone, ELECTRIC).turnout(zone, HAND);
        sheet = sheet.turnout(zone, ELECTRIC).turnout(zone, HAND).turnout(zone, ELECTRIC);
    }
    for n in 0..64 {
        let (zone, first) = (n % 8, 8 * (n % 8));
        let [c0, c1, c2, c3, t4, t5, t6, t7] = [0, 1, 2, 3, 4, 5, 6, 7].map(|k| first + k);
        sheet = match n / 8 % 4 {
            0 => sheet.route(zone, &[t4], &[], &[], &[]),
            1 => sheet.route(zone, &[c0, t4], &[c2, c3], &[t5], &[c2, c3, t5]),
            2 => sheet.route(zone, &[c0, c1, c2], &[t7], &[t6, c3], &[c0, c1, t7]),
            _ => sheet.route(zone, &[t4, t5, t6, t7], &[c0, c1, c2, c3], &[], &[t4, c0, c1]),
        };
    }
    sheet
}

#[test]
fn usage() {
    let wrong = [
        &[][..],
        &["show-sheet"],
        &["show"],
        &["explain", "a"],
        &["make-sheet", "a", "b", "c"],
        &["copy-sheet", "a"],
        &["copy-sheet", "a", "b", "c"],
        &["check-panel"],
        &["check-panel", "a", "b"],
        &["draw-sheet", "a"],
        &["draw-sheet", "a", "b", "c"],
        &["draw-journal", "a", "b"],
        &["draw-journal", "a", "b", "c", "d"],
    ];
    for arguments in wrong {
        let output = workbench(arguments);
        assert_eq!(output.status.code(), Some(2));
        assert!(output.stdout.is_empty() && output.stderr.starts_with(b"usage:"));
    }
}

#[test]
fn missing_file() {
    assert!(failure(&["show-sheet", "/no/such/file"]).starts_with("/no/such/file: "));
}
