//! Sheets copied, sheets checked for the cabin panel, and files that every command refuses.

use crate::{failure, in_version_2, large_station, text, Folder};
use reference::builders::*;
use reference::drafts::Sheet;
use reference::sheet::HAND;
use std::fs;

/// WRITE-5: a sheet of version 1 becomes one of version 2, and the program says so.
#[test]
fn sheets_turned_into_version_2() {
    let folder = Folder::new("turned");
    for sheet in [station_k(), large_station(), largest_station(), Sheet::new(1).turnout(0, HAND)] {
        let (given, copy) = (folder.file("given", sheet.bytes()), folder.path("copy"));
        let said = format!("{copy}: {} bytes written\n{copy}: version 2, made from version 1", sheet.bytes().len());
        assert_eq!(text(&["copy-sheet", &given, &copy]), said + ": crossovers are groups\n");
        assert_eq!(fs::read(&copy).expect("written"), in_version_2(&sheet));
    }
}

/// WRITE-2: "A sheet of version 2 that is read and written comes out byte for byte."
#[test]
fn sheets_copied() {
    let folder = Folder::new("copied");
    let smallest = Sheet::of_version_2(1).turnout(0, HAND);
    for sheet in [station_k_in_version_2(), group_station(), largest_station_in_version_2(), smallest] {
        let bytes = sheet.bytes();
        let (given, copy) = (folder.file("given", &bytes), folder.file("copy", [7; 3000]));
        assert_eq!(text(&["copy-sheet", &given, &copy]), format!("{copy}: {} bytes written\n", bytes.len()));
        assert_eq!(fs::read(&copy).expect("written"), bytes);
        text(&["copy-sheet", &given, &given]);
        assert_eq!(fs::read(&given).expect("written"), bytes);
    }
    assert!(failure(&["copy-sheet", &folder.path("missing"), &folder.path("new")]).contains("missing: "));
    assert!(!folder.0.join("new").exists());
}

/// PANEL-2: "Turned away: 9, more than 16 turnouts or 8 routes, .. before the length".
#[test]
fn sheets_for_the_panel() {
    let folder = Folder::new("panel");
    let taken = [
        (station_k(), "3 turnouts, 1 route, 1 zone"),
        (station_k_in_version_2(), "3 turnouts, 1 route, 1 zone"),
        (group_station(), "14 turnouts, 2 routes, 1 zone"),
        (largest_panel_station(), "16 turnouts, 8 routes, 2 zones"),
        (Sheet::new(8).turnout(7, HAND), "1 turnout, 0 routes, 8 zones"),
    ];
    for (sheet, counts) in taken {
        let path = folder.file("sheet", sheet.bytes());
        assert_eq!(text(&["check-panel", &path]), format!("the cabin panel takes the sheet: {counts}\n"));
    }
    let rule = "refused by 9: more than 16 turnouts or 8 routes, the cabin panel's limits. Here: ";
    let over = [largest_panel_station().turnout(0, HAND), largest_panel_station().route(0, &[4], &[], &[], &[])];
    for (sheet, counts) in over.iter().zip(["P 17, R 8", "P 16, R 9"]) {
        let bytes = sheet.bytes();
        for lent in [&bytes[..], &bytes[..bytes.len() - 1], &bytes[..8]] {
            let path = folder.file("sheet", lent);
            assert_eq!(failure(&["check-panel", &path]), format!("{rule}{counts}\n"));
        }
        text(&["show-sheet", &folder.file("sheet", &bytes)]); // the desk takes it
    }
    assert!(failure(&["check-panel", &folder.path("missing")]).contains("missing: "));
}

#[test]
fn refused_files() {
    let folder = Folder::new("refused");
    let good = station_k().bytes();
    let changed = |place: usize, value: u8| {
        let mut bytes = good.clone();
        bytes[place] = value;
        bytes
    };
    let cases = [
        (
            good[..49].to_vec(),
            "refused by 1: length: at least 8 bytes, and exactly 8 + 3P + 33R. Here: 49 bytes; P 3, R 1 need 50\n",
        ),
        (good[..7].to_vec(), "refused by 1: "),
        (changed(0, 0), "refused by 2: "),
        (changed(4, 0), "refused by 3: version: 16 bits, 1 or 2. Here: version 0\n"),
        (changed(4, 3), "refused by 3: version: 16 bits, 1 or 2. Here: version 3\n"),
        (changed(3, 1), "refused by 3: version: 16 bits, 1 or 2. Here: version 257\n"),
        (changed(7, 0), "refused by 4: "),
        (changed(16, 2), "refused by 5: turnout record 2: "),
        (changed(17, 1), "refused by 6: route record 0: "),
    ];
    let journal_path = folder.file("journal", journal(&journal_k()));
    for (bytes, expected) in cases {
        let path = folder.file("sheet", bytes);
        let copy = folder.path("copy");
        let commands = [
            &["show-sheet", &path][..],
            &["explain", &path, &journal_path],
            &["copy-sheet", &path, &copy],
            &["check-panel", &path],
        ];
        for arguments in commands {
            let said = failure(arguments);
            assert!(said.starts_with(expected), "{said}");
        }
        assert!(!folder.0.join("copy").exists());
    }
    let sheet_path = folder.file("sheet", &good);
    let path = folder.file("short", &journal(&journal_k())[..367]);
    for arguments in [&["show-journal", &path][..], &["explain", &sheet_path, &path]] {
        let said = failure(arguments);
        assert!(said.starts_with("refused by 30: ") && said.contains("367 bytes; count 11 needs 368"), "{said}");
    }
}
