//! Journals as text and back: `show-journal` and `make-journal`.

use crate::random::{random_records, Random};
use crate::{bad_text, round_trip, text, Folder};
use reference::builders::*;
use reference::drafts::journal_of;
use reference::message::RECORD;
use std::fs;

#[test]
fn journal_of_station_k() {
    let shown = round_trip("journal_k", "journal", &journal(&journal_k()));
    let lines = [
        "work asked: time 0, zone 0, form 7, turnouts {0,1}, request M.45  # 1",
        "clearance: time 115, zone 0, train 512, turnout 0, declaration 3, position normal, no clamp, \
         medium voice  # 6",
    ];
    assert!(lines.iter().all(|line| shown.lines().any(|shown| shown == *line)), "{shown}");
}

/// RECORD-3, RECORD-4: a d5 of 1 stands at the line's end, a d5 of 0 has no words, any other does not read.
#[test]
fn journal_with_whole_groups() {
    let clearance = cleared(512, [0, 1, 0, 0, 1]).at(115);
    let shown = round_trip("whole_groups", "journal", &journal(&[0, 1, 2, 255].map(|d5| clearance.d(5, d5))));
    let line =
        "clearance: time 115, zone 0, train 512, turnout 0, declaration 1, position normal, no clamp, medium voice";
    let lines: Vec<&str> = shown.lines().skip(1).collect();
    assert_eq!(lines[0], format!("{line}  # 1"));
    assert_eq!(lines[1], format!("{line}, covers the whole group  # 2"));
    assert!(lines[2].starts_with("bytes: 06 00 00000073 00000200 "));
    assert!(lines[2].ends_with(" 000100000102  # 3; does not read, 13: d5 is 2, not 0 or 1"), "{shown}");
    assert!(lines[3].ends_with("# 4; does not read, 13: d5 is 255, not 0 or 1"), "{shown}");
    let shown = round_trip("whole_groups_other", "journal", &journal(&[passed(512).d(5, 1)]));
    assert!(shown.ends_with("# 1; does not read, 13: d5 is 1, not 0\n"), "{shown}");
}

/// The words for a d5 of 1 before M-107 are still read.
#[test]
fn journal_with_older_words() {
    let folder = Folder::new("older_words");
    let line =
        "clearance: time 115, zone 0, train 512, turnout 0, declaration 1, position normal, no clamp, medium voice";
    for words in ["covers both ends", "covers the whole group"] {
        text(&["make-journal", &folder.file("text", format!("{line}, {words}\n")), &folder.path("made")]);
        let made = fs::read(folder.path("made")).expect("written");
        assert_eq!(made, journal(&[cleared(512, [0, 1, 0, 0, 1]).at(115).d(5, 1)]), "{words}");
    }
}

/// RECORD-3, RECORD-4: a key by its name; any other d1 does not read.
#[test]
fn journal_with_keys() {
    let keys = [1, 2, 0, 3].map(|key| key_used(512, 2, key).at(120));
    let shown = round_trip("keys", "journal", &journal(&[&keys[..], &[key_used(0, 64, 1)]].concat()));
    let lines: Vec<&str> = shown.lines().skip(1).collect();
    assert_eq!(lines[0], "key used: time 120, zone 0, train 512, turnout 2, key Tcl  # 1");
    assert_eq!(lines[1], "key used: time 120, zone 0, train 512, turnout 2, key Es  # 2");
    assert!(lines[2].starts_with("bytes: 0d 00 00000078 00000200 "), "{shown}");
    assert!(lines[2].ends_with("# 3; does not read, 13: d1 is 0, not 1 key Tcl or 2 key Es"), "{shown}");
    assert!(lines[3].ends_with("# 4; does not read, 13: d1 is 3, not 1 key Tcl or 2 key Es"), "{shown}");
    assert!(lines[4].ends_with("13: d0 (turnout) is 64, not 0 to 63, id (train) is 0"), "{shown}");
}

#[test]
fn journal_with_unreadable_records() {
    let records = [message(14, 7), passed(0), agreed(7).a(&[63]).d(5, 9), recorder(1)].map(|record| record.to_bytes());
    let shown = round_trip("unreadable", "journal", &journal_of(&records));
    assert!(shown.contains("bytes: 0e 00 00000000 00000007 "));
    assert!(shown.contains("# 1; does not read, 11: kind 14 is not 1 to 13\n"));
    assert!(shown.contains("# 2; does not read, 13: id (train) is 0\n"));
    assert!(shown.contains("# 3; does not read, 13: set a is not empty, d5 is 9, not 0\n"));
    assert!(shown.contains("\nrecorder: time 0, zone 0, working  # 4\n"));
}

#[test]
fn empty_and_full_journals() {
    round_trip("empty", "journal", &journal(&[]));
    let shown = round_trip("full", "journal", &journal(&vec![agreed(u32::MAX).at(u32::MAX).in_zone(255); 1024]));
    let said = bad_text("overfull", "make-journal", shown + "agreed: time 1, zone 0, form 1\n");
    assert!(said.contains("line 1026: expected the end of the text after 1024 records"), "{said}");
}

#[test]
fn random_journals_there_and_back() {
    let mut random = Random(1);
    for n in 0..4 {
        round_trip(&format!("random_{n}"), "journal", &journal_of(&random_records(&mut random, 1024)));
    }
    let any: Vec<[u8; RECORD]> =
        (0..1024).map(|n: u32| [0; RECORD].map(|_| random.below(3 + u64::from(n % 9)) as u8)).collect();
    let shown = round_trip("random_bytes", "journal", &journal_of(&any));
    assert!(!shown.contains("13: none"), "a record that does not read without a reason");
}

#[test]
fn bytes_after_the_last_record() {
    let folder = Folder::new("rest");
    let bytes = [journal(&journal_k()), vec![7; 5]].concat();
    let shown = text(&["show-journal", &folder.file("journal", bytes)]);
    assert!(shown.ends_with("# 5 bytes after the last record, not looked at.\n"));
}

#[test]
fn loose_text() {
    let folder = Folder::new("loose");
    let loose = "# one of each\r\n\r\n  part   restored :time 5,zone 1 , form 9,turnouts { 3, 1 }# 1\r\n";
    text(&["make-journal", &folder.file("text", loose), &folder.path("made")]);
    let made = fs::read(folder.path("made")).expect("written");
    assert_eq!(made, journal(&[part_restored(9, &[1, 3]).at(5).in_zone(1)]));
}

#[test]
fn bad_journal_texts() {
    let cases = [
        ("agreed", "line 2: expected 'name: field, field, ..'; found 'agreed'"),
        ("agree: time 1", "line 2: expected a kind (work asked, agreed,"),
        ("agreed: time x, zone 0, form 7", "line 2: expected 'time N', N from 0 to 4294967295; found 'time x'"),
        ("agreed: time 4294967296, zone 0, form 7", "line 2: expected 'time N'"),
        ("agreed: time 1, zone 256, form 7", "line 2: expected 'zone N', N from 0 to 255; found 'zone 256'"),
        ("agreed: time 1, zone 0", "line 2: expected 'form N', N from 1 to 4294967295; found nothing"),
        ("agreed: time 1, zone 0, form 0", "line 2: expected 'form N', N from 1"),
        ("agreed: time 1, zone 0, train 7", "line 2: expected 'form N'"),
        ("agreed: time 1, zone 0, form 7, form 7", "line 2: expected the end of the line; found 'form 7'"),
        ("part restored: time 1, zone 0, form 7, turnouts {64}", "line 2: expected 'turnouts {n,n,..}'"),
        (
            "part restored: time 1, zone 0, form 7, turnouts {1,1}",
            "line 2: expected 'turnouts {n,n,..}', each turnout once",
        ),
        ("part restored: time 1, zone 0, form 7, turnouts {1", "line 2: expected 'turnouts {n,n,..}'"),
        (
            "ordered: time 1, zone 0, train 7, clear",
            "line 2: expected 'signals clear' or 'signals danger'; found 'clear'",
        ),
        ("movement asked: time 1, zone 0, train 7, route 64", "line 2: expected 'route N', N from 0 to 63"),
        (
            "clearance: time 1, zone 0, train 7, turnout 0, declaration 1, position normal, no clamp, medium voice, x",
            "line 2: expected 'covers the whole group' or the end of the line; found 'x'",
        ),
        (
            "clearance: time 1, zone 0, train 7, turnout 0, declaration 1, position normal, no clamp, covers both ends",
            "line 2: expected 'medium voice' or 'medium written'; found 'covers both ends'",
        ),
        (
            "passed: time 1, zone 0, train 7, covers both ends",
            "line 2: expected the end of the line; found 'covers both",
        ),
        ("key used: time 1, zone 0, train 7, turnout 2, Tcl", "line 2: expected 'key Tcl' or 'key Es'; found 'Tcl'"),
        ("key used: time 1, zone 0, train 7, turnout 64, key Es", "line 2: expected 'turnout N', N from 0 to 63"),
        ("bytes: 0d00", "line 2: expected 32 bytes in hex; found '0d00'"),
    ];
    for (line, expected) in cases {
        let said = bad_text("bad_journal", "make-journal", format!("agreed: time 1, zone 0, form 7\n{line}\n"));
        assert!(said.contains(expected), "{said}");
    }
    let readable: String = passed(7).to_bytes().iter().map(|byte| format!("{byte:02x}")).collect();
    let said = bad_text("bad_journal", "make-journal", format!("bytes: {readable}"));
    assert!(said.contains("line 1: expected the record by its kind: 'passed: time 0, zone 0, train 7'"), "{said}");
    let said = bad_text("bad_journal", "make-journal", b"# one\n\xff\n");
    assert!(said.contains("line 2: expected text in UTF-8"), "{said}");
}
