//! Sheets as text and back: `show-sheet` and `make-sheet`.

use crate::random::{random_groups, random_station, Random};
use crate::{bad_text, converted, large_station, round_trip, text, Folder};
use reference::builders::{station_k, station_k_in_version_2};
use reference::drafts::Sheet;
use reference::sheet::{self, HAND};

/// Of either version: the same text.
#[test]
fn sheet_of_station_k() {
    let shown = round_trip("sheet_k", "sheet", &station_k_in_version_2().bytes());
    let lines = [
        "station: turnouts 3, routes 1, zones 1",
        "turnout 0: zone 0, group 0, electric",
        "turnout 1: zone 0, group 0, electric",
        "turnout 2: zone 0, alone, hand with key lock",
        "route 0: zone 0, runs over {0}, flank {2}, exit zone {}, reverse {}",
        "#   group 0: {0,1}",
        "#   alone: {2}",
    ];
    assert!(lines.iter().all(|line| shown.lines().any(|shown| shown == *line)), "{shown}");
    assert_eq!(converted("sheet_k_1", &station_k()), shown);
}

#[test]
fn large_sheet() {
    assert!(sheet::read(&large_station().bytes()).is_ok());
    let shown = converted("large", &large_station());
    assert!(shown.contains("\nturnout 63: zone 7, alone, electric\n"), "{shown}");
    assert!(shown.contains("\nroute 9: zone 1, runs over {8,12}, flank {10,11}, exit zone {13}, reverse {10,11,13}\n"));
}

#[test]
fn random_sheets_there_and_back() {
    let mut random = Random(3);
    let mut routes = [0, 0];
    for _ in 0..20 {
        let sheets = [random_station(&mut random), random_groups(&mut random)];
        converted("random_sheet", &sheets[0]);
        round_trip("random_groups", "sheet", &sheets[1].bytes());
        routes = [routes[0] + sheets[0].routes.len(), routes[1] + sheets[1].routes.len()];
    }
    assert!(routes.iter().all(|routes| *routes > 250), "{routes:?}");
}

#[test]
fn smallest_sheet() {
    let shown = round_trip("smallest", "sheet", &Sheet::of_version_2(1).turnout(0, HAND).bytes());
    assert!(shown.ends_with("#   groups: none\n#   alone: {0}\n#   routes: none\n"), "{shown}");
    converted("smallest_1", &Sheet::new(1).turnout(0, HAND));
}

#[test]
fn bad_sheet_texts() {
    let head = "station: turnouts 1, routes 0, zones 1\n";
    let with = |line: &str| format!("{head}{line}");
    let cases = [
        (String::new(), "line 1: expected 'station: turnouts N, routes N, zones N'; found the end of the text"),
        ("station: turnouts 256".to_string(), "line 1: expected 'turnouts N', N from 0 to 255; found 'turnouts 256'"),
        (with(""), "line 2: expected 'turnout 0: zone N, alone or group N, electric or hand with key lock'; found"),
        (with("\nturnout 1: zone 0, alone, electric"), "line 3: expected 'turnout 0: "),
        (with("turnout 0: zone 0, group, electric"), "line 2: expected 'alone' or 'group N', N from 0 to 254; found"),
        (with("turnout 0: zone 0, group 255, electric"), "line 2: expected 'alone' or 'group N', N from 0 to 254; "),
        (with("turnout 0: zone 0, crossover 1, electric"), "line 2: expected 'alone' or 'group N', N from 0 to 254; "),
        (with("turnout 0: zone 0, alone, hand"), "line 2: expected 'electric' or 'hand with key lock'; found 'hand'"),
        (with("turnout 0: zone 0, alone, electric\n#\nroute 0:"), "line 4: expected the end of the text after 1 turn"),
        (
            "station: turnouts 0, routes 1, zones 1\nroute 0: zone 0, over {0}".to_string(),
            "line 2: expected 'runs over {n,n,..}', each turnout once, from 0 to 63; found 'over {0}'",
        ),
    ];
    for (given, expected) in cases {
        let said = bad_text("bad_sheet", "make-sheet", given);
        assert!(said.contains(expected), "{said}");
    }
}

#[test]
fn texts_of_refused_sheets() {
    let folder = Folder::new("texts_k");
    let shown = text(&["show-sheet", &folder.file("sheet", station_k().bytes())]);
    let cases = [
        ("zones 1", "zones 9", "line 2: refused by 4: counts: P 1 to 64, R 0 to 64, Z 1 to 8. Here: P 3, R 1, Z 9"),
        ("turnout 1: zone 0, group 0", "turnout 1: zone 0, alone", "line 4: refused by 5: turnout record 0: "),
        ("turnout 2: zone 0, alone", "turnout 2: zone 0, group 32", "line 6: refused by 5: turnout record 2: "),
        ("turnout 2: zone 0", "turnout 2: zone 1", "line 6: refused by 5: turnout record 2: "),
        ("runs over {0}", "runs over {}", "line 8: refused by 6: route record 0: "),
        ("runs over {0}", "runs over {0,3}", "Here: {3} not among the turnouts of zone 0"),
        ("runs over {0}", "runs over {0,2}", "Here: run over, flank and exit zone overlap"),
        ("reverse {}", "reverse {1}", "Here: reverse {1} is not named by the route"),
        ("flank {2}", "flank {1}", "Here: flank takes a part of group 0, {1} and not {0}; nothing written"),
        (
            "exit zone {}, reverse {}",
            "exit zone {1}, reverse {1}",
            "Here: both turnouts of group 0 are named, {1} reverse and {0} normal; nothing written",
        ),
    ];
    for (old, new, expected) in cases {
        assert!(shown.contains(old));
        let said = bad_text("refused_text", "make-sheet", shown.replacen(old, new, 1));
        assert!(said.contains(expected), "{said}");
    }
}
