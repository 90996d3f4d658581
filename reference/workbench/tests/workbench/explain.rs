//! A journal explained: station K's, minutes, random ones.

use crate::random::{random_records, Random};
use crate::{text, Folder};
use reference::builders::*;
use reference::drafts::{journal_of, Sheet};
use reference::message::{self, Message};
use reference::refusal::number;
use reference::{replay, sheet};
use std::collections::BTreeSet;

/// What `explain` says of the messages, cut at each record; the first part is of record 1.
pub fn explained(test: &str, sheet: &Sheet, messages: &[Message]) -> Vec<String> {
    let folder = Folder::new(test);
    let (sheet, journal) = (folder.file("sheet", sheet.bytes()), folder.file("journal", journal(messages)));
    text(&["explain", &sheet, &journal]).split("\nRecord ").skip(1).map(String::from).collect()
}

/// Each part says all the words expected of it.
pub fn all_say<const N: usize>(parts: &[String], expected: &[[&str; N]]) {
    assert_eq!(parts.len(), expected.len());
    for (part, expected) in parts.iter().zip(expected) {
        assert!(expected.iter().all(|words| part.contains(words)), "{part}");
    }
}

#[test]
fn explanation_of_station_k() {
    let parts = explained("explain_k", &station_k(), &journal_k());
    let expected = [
        ["work asked on turnouts {0,1} by M.45, form 7", "Answer 0, 0 minutes: accepted", "Open to work: none"],
        ["agreement to the work of form 7", "Answer 0, 0 minutes: accepted", "Open to work: none"],
        ["lost at {0,1}", "Answer 0, 0 minutes: accepted", "Open to work: {0,1}."],
        ["movement of train 512", "Answer 0, 0 minutes: accepted", "Regime: held, {0} without a clearance or a key."],
        ["with signals clear", "Answer 22, 0 minutes: refused: clear needs the regime clear", "the regime is held"],
        ["declaration 3 (lacks detection)", "Answer 0, 0 minutes: accepted", "Open to work: {1}, not {0}."],
        ["with signals clear", "Answer 22, 0 minutes: refused: clear needs the regime clear", "the regime is danger"],
        ["with signals at danger", "Answer 0, 0 minutes: accepted", "route 0, ordered. Cleared: {0}. Keys: none."],
        ["all turnouts of form 7", "Answer 19, 0 minutes: refused: a standing movement names", "which names {0}."],
        ["train 512 passed", "Answer 0, 0 minutes: accepted", "Open to work: {1}, not {0}."],
        ["all turnouts of form 7", "Answer 0, 2 minutes: accepted", "Work in zone 0: none."],
    ];
    all_say(&parts, &expected);
}

/// MINUTES-1: where the minutes come from, and which way an exact half goes. Works one after another, the last as long
/// as station K's.
#[test]
fn explanation_of_minutes() {
    let (half, nearest) = ("an exact half minute, to the even whole minute", "to the nearest whole minute");
    let expected = [
        (1000, 29, "0 minutes", nearest),
        (2000, 30, "0 minutes", half),
        (3000, 31, "1 minute", nearest),
        (4000, 60, "1 minute", nearest),
        (5000, 90, "2 minutes", half),
        (6000, 119, "2 minutes", nearest),
    ];
    let works = expected.map(|(time, seconds, ..)| {
        [work_asked(7, 1, &[2]).at(time), agreed(7).at(time), all_restored(7).at(time + seconds)]
    });
    let parts = explained("explain_minutes", &station_k(), &works.concat());
    assert_eq!(parts.len(), 18);
    for (part, (time, seconds, minutes, rounded)) in parts.iter().skip(2).step_by(3).zip(expected) {
        assert!(part.contains(&format!("Answer 0, {minutes}: accepted")), "{part}");
        assert!(part.contains(&format!(" Agreed at {time}: {seconds} seconds, {rounded}.\n")), "{part}");
    }
}

/// On random journals the explanation gives the answers of the replay, and every refusal a reason; on station K, and
/// on one with larger groups.
#[test]
fn explanation_of_random_journals() {
    let folder = Folder::new("explain_random");
    let (k, groups) = (station_k().bytes(), group_station().bytes());
    let mut random = Random(2);
    let mut seen = BTreeSet::new();
    let mut all_told = String::new();
    for bytes in [&k; 24].into_iter().chain([&groups; 4]) {
        let (station, sheet_path) = (sheet::read(bytes).expect("a good sheet"), folder.file("sheet", bytes));
        let records = random_records(&mut random, 1024);
        let journal = journal_of(&records);
        let told = text(&["explain", &sheet_path, &folder.file("journal", &journal)]);
        let (answers, _) = replay::hear_all(&station, &journal).expect("a good journal");
        let parts: Vec<&str> = told.split("\nRecord ").skip(1).collect();
        assert_eq!(parts.len(), answers.len());
        for ((part, answer), record) in parts.iter().zip(answers).zip(records) {
            let minutes = answer.unwrap_or(0);
            assert!(part.contains(&format!("Answer {}, {minutes} minute", number(&answer))), "{part}");
            assert!(!part.contains("Here: ."), "{part}");
            assert!(!part.contains("does not read, 13: none"), "{part}");
            seen.insert((message::read(&record).map_or(0, |message| message.kind), number(&answer)));
        }
        all_told += &told;
    }
    let covered = ["must cover the whole group", "may not say that it covers the whole group", "no group to cover"];
    let parts = ["covering the whole group", "group 0, {0} and not {1}", "group 0, {0,1} and not {2}"];
    for words in covered.iter().chain(&parts) {
        assert!(all_told.contains(words), "{words}");
    }
    let codes: BTreeSet<u8> = seen.iter().map(|(_, code)| *code).collect();
    assert_eq!(codes, BTreeSet::from([0, 11, 12, 13, 14, 15, 16, 17, 18, 19, 20, 21, 22, 23]));
    let checks = [
        (1, &[16, 17][..]),
        (2, &[15, 18, 19]),
        (3, &[15, 18]),
        (4, &[15, 17, 18, 19, 22]),
        (5, &[16, 17]),
        (6, &[15, 16, 17, 20, 21]),
        (7, &[15, 18, 22]),
        (8, &[15, 18]),
        (9, &[15, 18]),
        (10, &[15, 17, 18, 19, 22]),
        (11, &[15, 18, 19]),
        (12, &[]),
        (13, &[15, 16, 17, 23]),
    ];
    for (kind, own) in checks {
        for code in [0, 12, 14].iter().chain(own) {
            assert!(seen.contains(&(kind, *code)), "kind {kind}, code {code}");
        }
    }
}
