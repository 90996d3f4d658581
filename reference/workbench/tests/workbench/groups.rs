//! Groups in the texts of sheets, the older words for crossovers, and wrong groups in words.

use crate::{bad_text, failure, round_trip, sheet_of, text, Folder};
use reference::builders::*;
use reference::drafts::Sheet;
use reference::sheet::{ELECTRIC, HAND};

/// Groups of two, three and eight, mixed and numbered with gaps; 5 is alone.
fn mixed() -> Sheet {
    let numbers = [31, 4, 0, 31, 4, 255, 0, 4, 4, 4, 4, 4, 4, 31];
    Sheet::of_version_2(1).carriers(0, HAND, &numbers).route(0, &[0, 1, 2], &[], &[3], &[0])
}

#[test]
fn mixed_groups_there_and_back() {
    let shown = round_trip("mixed", "sheet", &mixed().bytes());
    let plan = "#   turnouts: electric none; hand with key lock {0,1,2,3,4,5,6,7,8,9,10,11,12,13}\n\
                #   group 0: {2,6}\n\
                #   group 4: {1,4,7,8,9,10,11,12}\n\
                #   group 31: {0,3,13}\n\
                #   alone: {5}\n";
    assert!(shown.contains(plan), "{shown}");
    assert!(shown.contains("\nturnout 13: zone 0, group 31, hand with key lock\n"), "{shown}");
    round_trip("group_station", "sheet", &group_station().bytes());
}

/// Turnouts of one zone, electric, each tied as its words say.
fn turnouts(ties: &[&str]) -> String {
    let lines = ties.iter().enumerate().map(|(n, tie)| format!("turnout {n}: zone 0, {tie}, electric\n"));
    format!("station: turnouts {}, routes 0, zones 1\n{}", ties.len(), lines.collect::<String>())
}

/// SHEET-14: "numbered from 0 in the order of their lower ends".
#[test]
fn older_words() {
    let ties = ["crossover with 5", "alone", "crossover with 3", "crossover with 2", "alone", "crossover with 0"];
    let expected = Sheet::of_version_2(1).carriers(0, ELECTRIC, &[0, 255, 1, 1, 255, 0]);
    assert_eq!(sheet_of("older", &turnouts(&ties)), expected.bytes());
    let k = "station: turnouts 3, routes 1, zones 1\n\
             turnout 0: zone 0, crossover with 1, electric\n\
             turnout 1: zone 0, crossover with 0, electric\n\
             turnout 2: zone 0, alone, hand with key lock\n\
             route 0: zone 0, runs over {0}, flank {2}, exit zone {}, reverse {}\n";
    assert_eq!(sheet_of("older_k", k), station_k_in_version_2().bytes());
}

/// SHEET-13: both ends name each other; the refusals are those of version 1.
#[test]
fn older_words_refused() {
    let rule = "a partner is below P, not itself, names it back, same zone and drive; drive 0 or 1. Here: ";
    let cases = [
        (["crossover with 1", "alone"], "line 2: refused by 5: turnout record 0: ", "partner 1 does not name 0 back"),
        (["alone", "crossover with 0"], "line 3: refused by 5: turnout record 1: ", "partner 0 does not name 1 back"),
        (["crossover with 0", "alone"], "line 2: refused by 5: ", "turnout 0 is its own partner"),
        (["alone", "crossover with 2"], "line 3: refused by 5: ", "partner 2 is not below P, 2"),
    ];
    for (ties, number, here) in cases {
        let said = bad_text("older_refused", "make-sheet", turnouts(&ties));
        assert!(said.contains(number) && said.contains(&format!("{rule}{here}; nothing written")), "{said}");
    }
}

/// One text has one sort of words.
#[test]
fn words_mixed() {
    let cases = [
        (
            ["group 0", "group 0", "alone", "crossover with 4", "crossover with 3"],
            "line 5: expected 'alone' or 'group N', N from 0 to 254, as on line 2; found 'crossover with 4'; nothing",
        ),
        (
            ["alone", "crossover with 2", "crossover with 1", "group 0", "group 0"],
            "line 5: expected 'alone' or 'crossover with N', N from 0 to 254, as on line 3; found 'group 0'; nothing",
        ),
    ];
    for (ties, expected) in cases {
        let said = bad_text("words_mixed", "make-sheet", turnouts(&ties));
        assert!(said.contains(expected), "{said}");
    }
}

/// SHEET-2, SHEET-3: what is wrong with a record of version 2, at the first turnout that carries the number.
#[test]
fn wrong_groups_in_words() {
    let folder = Folder::new("wrong_groups");
    let with = |records: &[[u8; 3]]| Sheet { turnouts: records.to_vec(), ..Sheet::of_version_2(2) };
    let nine: Vec<[u8; 3]> = [vec![[0, 255, 0]], vec![[1, 7, 1]; 9]].concat();
    let cases = [
        (with(&[[0, 255, 0], [0, 32, 0]]), 1, "group 32 is not 0 to 31"),
        (with(&[[0, 254, 0], [0, 254, 0]]), 0, "group 254 is not 0 to 31"),
        (with(&[[0, 0, 0], [0, 0, 0], [0, 31, 0]]), 2, "group 31 has turnout 2 alone"),
        (with(&nine), 1, "group 7 has 9 turnouts, {1,2,3,4,5,6,7,8,9}"),
        (with(&[[0, 3, 0], [0, 3, 0], [1, 3, 0]]), 0, "group 3 is not of one zone: 0 is in zone 0, 2 in zone 1"),
        (with(&[[0, 3, 0], [0, 3, 1]]), 0, "group 3 is not of one drive: 0 is electric, 1 hand with key lock"),
        (with(&[[0, 3, 0], [0, 3, 9]]), 0, "group 3 is not of one drive: 0 is electric, 1 of drive 9"),
        (with(&[[0, 255, 0], [2, 255, 0]]), 1, "zone 2 is not below Z, 2"),
        (with(&[[0, 255, 0], [0, 255, 2]]), 1, "drive 2"),
        (with(&[[2, 40, 2]]), 0, "zone 2 is not below Z, 2; group 40 is not 0 to 31; drive 2"),
    ];
    let rule = "zone below Z; group 0 to 31, or 255 for alone; drive 0 or 1; a group has 2 to 8 turnouts of one zone \
                and one drive (Art. 2.19), else its first turnout is bad";
    for (sheet, index, here) in cases {
        let said = failure(&["show-sheet", &folder.file("sheet", sheet.bytes())]);
        assert_eq!(said, format!("refused by 5: turnout record {index}: {rule}. Here: {here}\n"));
    }
}

/// SHEET-8, SHEET-9: of larger groups the flank takes all or none, and positions may differ.
#[test]
fn routes_over_groups() {
    let folder = Folder::new("group_routes");
    let groups = || Sheet::of_version_2(1).group(0, HAND, 3).group(0, HAND, 2).turnout(0, HAND);
    let cases = [
        (groups().route(0, &[5], &[0, 2], &[], &[]), "flank takes a part of group 0, {0,2} and not {1}"),
        (
            groups().route(0, &[5], &[0, 4], &[], &[]),
            "flank takes a part of group 0, {0} and not {1,2}; flank takes a part of group 1, {4} and not {3}",
        ),
        (groups().route(0, &[3], &[], &[4], &[4]), "both turnouts of group 1 are named, {4} reverse and {3} normal"),
    ];
    for (sheet, here) in cases {
        let said = failure(&["show-sheet", &folder.file("sheet", sheet.bytes())]);
        assert!(said.starts_with("refused by 6: route record 0: run over, flank, exit zone disjoint; "), "{said}");
        assert!(said.ends_with(&format!(". Here: {here}\n")), "{said}");
    }
    text(&["show-sheet", &folder.file("sheet", groups().route(0, &[0, 5], &[], &[1, 2], &[0, 1]).bytes())]);
    text(&["show-sheet", &folder.file("sheet", groups().route(0, &[5], &[0, 1, 2], &[3], &[1, 3]).bytes())]);
}
