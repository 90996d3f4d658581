//! The plan of a station as comment lines: for each zone its turnouts, groups and routes.

use crate::{groups, words};
use reference::set::{members, only, Set};
use reference::station::{Drive, Route, Station};

pub fn plan(station: &Station) -> String {
    let mut text = String::from("# Plan\n");
    for zone in 0..station.zones {
        let turnouts = station.of_zone(zone);
        text += &format!("# Zone {zone}\n");
        text += &format!("#   turnouts: {}\n", drives(station, turnouts));
        let groups = groups::of(station, turnouts);
        for group in &groups {
            text += &format!("#   group {}: {}\n", group.number, words::set(group.turnouts));
        }
        if groups.is_empty() {
            text += "#   groups: none\n";
        }
        text += &format!("#   alone: {}\n", words::set_or_none(groups::alone(station, turnouts)));
        for (n, route) in station.routes.iter().enumerate().filter(|(_, route)| route.zone == zone) {
            text += &format!("#   route {n}: {}\n", parts(route));
        }
        if !station.routes.iter().any(|route| route.zone == zone) {
            text += "#   routes: none\n";
        }
    }
    text
}

fn drives(station: &Station, turnouts: Set) -> String {
    let by_hand = members(turnouts)
        .filter(|&n| station.turnout(n).is_some_and(|turnout| turnout.drive == Drive::Hand))
        .fold(0, |set, n| set | only(n));
    let electric = turnouts & !by_hand;
    format!("electric {}; hand with key lock {}", words::set_or_none(electric), words::set_or_none(by_hand))
}

/// Each part of the route with its turnouts' positions.
fn parts(route: &Route) -> String {
    let parts = [("runs over", route.run_over), ("flank", route.flank), ("exit zone", route.exit_zone)];
    let named = parts.iter().filter(|(_, set)| *set != 0);
    let worded: Vec<String> = named.map(|(name, set)| format!("{name} {}", positions(route, *set))).collect();
    worded.join("; ")
}

fn positions(route: &Route, set: Set) -> String {
    let each = members(set).map(|n| format!("{n} {}", words::position(route.position(n))));
    each.collect::<Vec<_>>().join(", ")
}
