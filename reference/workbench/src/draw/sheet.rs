//! A station's plan as a picture: title, legend, and a box for each zone, as many beside each other as fit.

use super::legend::{self, Entry};
use super::sheet_zone::ZonePlan;
use super::svg::{Point, Svg};
use super::symbols::{self, Branch, Part};
use super::{group_bars, LEAST_WIDTH, MARGIN};
use crate::words;
use reference::clearance::Position;
use reference::station::{Drive, Station};

/// The widest picture: 64 columns of 19 pixels, the rows' names and the margins.
const MOST_WIDTH: i32 = 1332;
const COLUMNS: i32 = 1216;
const GAP: i32 = 14;

pub fn draw(station: &Station) -> String {
    let zones: Vec<ZonePlan> = (0..station.zones).map(|n| ZonePlan::of(station, n, column(station))).collect();
    let (places, width, height) = placed(&zones);
    let mut svg = Svg::default();
    let title = format!("Station plan: {}", words::station(station));
    let notes = [
        "By zone, turnouts as columns and routes as rows. The order is by number: the sheet does not hold the tracks' \
         geometry.",
    ];
    let top = legend::head(&mut svg, width, &title, &notes, LEGEND);
    for (zone, (x, y)) in zones.iter().zip(places) {
        zone.draw(&mut svg, (x, top + y));
    }
    svg.page(width, top + height + MARGIN, &title, "")
}

/// The width of a turnout's column, the same in all zones: as much as the zone of most turnouts allows.
fn column(station: &Station) -> i32 {
    let most = (0..station.zones).map(|zone| station.of_zone(zone).count_ones()).max().unwrap_or(1);
    (COLUMNS / most.max(1) as i32).clamp(19, 34)
}

/// Where each box goes, from the first one's top; then the width of the picture and the height of them all.
fn placed(zones: &[ZonePlan]) -> (Vec<Point>, i32, i32) {
    let (mut x, mut y, mut row_height) = (MARGIN, 0, 0);
    let (mut places, mut width) = (Vec::new(), LEAST_WIDTH);
    for zone in zones {
        if x > MARGIN && x + zone.width() + MARGIN > MOST_WIDTH {
            (x, y, row_height) = (MARGIN, y + row_height + GAP, 0);
        }
        places.push((x, y));
        x += zone.width() + GAP;
        row_height = row_height.max(zone.height());
        width = width.max(x - GAP + MARGIN);
    }
    (places, width, y + row_height)
}

const LEGEND: &[Entry] = &[
    Entry { words: "turnout, electric", width: 18, draw: |svg, at| turnout(svg, at, Drive::Electric) },
    Entry { words: "turnout by hand, with key lock", width: 18, draw: |svg, at| turnout(svg, at, Drive::Hand) },
    Entry { words: "group of turnouts, with its number", width: 82, draw: group },
    Entry { words: "run over", width: 18, draw: |svg, at| mark(svg, at, Part::RunOver, Position::Normal) },
    Entry { words: "flank", width: 18, draw: |svg, at| mark(svg, at, Part::Flank, Position::Normal) },
    Entry { words: "exit zone", width: 18, draw: |svg, at| mark(svg, at, Part::ExitZone, Position::Normal) },
    Entry { words: "the same with R: reverse, else normal", width: 64, draw: reverse },
    Entry { words: "no mark: not named by the route", width: 0, draw: |_, _| {} },
];

fn turnout(svg: &mut Svg, (x, y): Point, drive: Drive) {
    symbols::turnout(svg, (x + 9, y - 3), Branch::Right);
    symbols::drive(svg, (x + 9, y + 9), drive);
}

fn group(svg: &mut Svg, (x, y): Point) {
    let turnouts = [(x + 21, Branch::Right), (x + 47, Branch::Right), (x + 73, Branch::Left)];
    let ends = turnouts.map(|(x, branch)| symbols::turnout(svg, (x, y + 8), branch));
    group_bars::bar(svg, &ends, 1);
    group_bars::number(svg, ends[0], 1, 0);
}

fn mark(svg: &mut Svg, (x, y): Point, part: Part, position: Position) {
    symbols::mark(svg, (x + 9, y), part, position);
}

fn reverse(svg: &mut Svg, (x, y): Point) {
    for (n, part) in (0..).zip([Part::RunOver, Part::Flank, Part::ExitZone]) {
        mark(svg, (x + 22 * n, y), part, Position::Reverse);
    }
}

#[cfg(test)]
mod tests {
    use super::super::group_bars::NUMBER as BAR_NUMBER;
    use super::super::ink;
    use super::super::sheet_zone::{NUMBER, OF_GROUP};
    use super::super::svg::reading::{texts, well_formed};
    use super::super::text::Face;
    use super::*;
    use reference::builders::{group_station, largest_station, plain_station, station_k};
    use reference::drafts::Sheet;
    use reference::sheet::{self, HAND};

    fn drawn(sheet: &Sheet) -> (Station, String) {
        let station = sheet::read(&sheet.bytes()).expect("a good sheet");
        let picture = draw(&station);
        assert!(well_formed(&picture));
        (station, picture)
    }

    /// How often the text stands in the picture.
    fn times(picture: &str, words: &str) -> usize {
        texts(picture).iter().filter(|text| **text == words).count()
    }

    /// How often the number stands in the picture in that face.
    fn times_in(picture: &str, face: Face, number: usize) -> usize {
        picture.matches(&format!("{}>{number}</text>", face.attributes())).count()
    }

    #[test]
    fn every_turnout_and_route() {
        let sheets = [station_k(), largest_station(), plain_station(64, 0), plain_station(64, 15), group_station()];
        for sheet in sheets.iter().chain(&[interleaved(), in_eights()]) {
            let (station, picture) = drawn(sheet);
            for n in 0..station.turnouts.len() {
                assert_eq!(times_in(&picture, NUMBER, n), 1, "turnout {n}");
            }
            for n in 0..station.routes.len() {
                assert_eq!(times(&picture, &format!("route {n}")), 1, "route {n}");
            }
        }
    }

    /// Groups of 2, 3 and 8 whose turnouts are mixed; 10 is alone.
    fn interleaved() -> Sheet {
        let numbers = [0, 3, 31, 31, 3, 0, 3, 31, 31, 31, 255, 31, 31, 31];
        Sheet::of_version_2(1).carriers(0, HAND, &numbers).route(0, &[0, 1, 2], &[], &[], &[0, 1])
    }

    /// 64 turnouts in 8 groups of 8, each turnout in the group after that of the turnout before.
    fn in_eights() -> Sheet {
        Sheet::of_version_2(1).carriers(0, HAND, &(0..64).map(|n| n % 8).collect::<Vec<u8>>())
    }

    /// Each group has its name, its number at its bar, and a dot for each turnout between the first and the last. The
    /// legend has a group 0 of three.
    #[test]
    fn every_group() {
        for sheet in [station_k(), group_station(), interleaved(), in_eights(), largest_station()] {
            let (station, picture) = drawn(&sheet);
            let groups = station.groups();
            for (number, turnouts) in groups.iter() {
                let name = format!("<title>group {number}: {}</title>", words::set(turnouts));
                assert_eq!(picture.matches(&name).count(), 1, "{name}");
                assert_eq!(times_in(&picture, BAR_NUMBER, number.into()), 1 + usize::from(number == 0));
            }
            assert_eq!(picture.matches("<title>group ").count(), groups.iter().count());
            let inner: u32 = groups.iter().map(|(_, turnouts)| turnouts.count_ones() - 2).sum();
            let dots = format!(" r=\"2\" {}", ink::DOT);
            assert_eq!(picture.matches(&dots).count() as u32, inner + 1);
        }
    }

    /// Each turnout has its group's number below its own where bars overlap, and only there.
    #[test]
    fn numbers_of_groups() {
        for (sheet, overlapping) in [(interleaved(), true), (in_eights(), true), (group_station(), false)] {
            let (station, picture) = drawn(&sheet);
            assert_eq!(times(&picture, "of group"), usize::from(overlapping));
            for (number, turnouts) in station.groups().iter() {
                let expected = if overlapping { turnouts.count_ones() as usize } else { 0 };
                assert_eq!(times_in(&picture, OF_GROUP, number.into()), expected, "group {number}");
            }
        }
    }

    /// Each mark has its name; the legend has one of each part without R and one with it.
    #[test]
    fn every_mark() {
        for sheet in [station_k(), largest_station()] {
            let (station, picture) = drawn(&sheet);
            let marks = |part: &str| picture.matches(&format!(": {part}, ")).count() as u32;
            let count = |set: fn(&reference::station::Route) -> u64| -> u32 {
                station.routes.iter().map(|route| set(route).count_ones()).sum()
            };
            assert_eq!(marks("run over"), count(|route| route.run_over));
            assert_eq!(marks("flank"), count(|route| route.flank));
            assert_eq!(marks("exit zone"), count(|route| route.exit_zone));
            assert_eq!(times(&picture, "R") as u32, count(|route| route.reverse) + 3);
        }
    }

    #[test]
    fn many_routes_repeat_the_numbers() {
        let (_, picture) = drawn(&plain_station(64, 64));
        assert_eq!(times(&picture, "63"), 4);
    }

    #[test]
    fn zones_without_turnouts_or_routes() {
        let (_, picture) = drawn(&Sheet::new(3).turnout(1, HAND));
        assert_eq!(times(&picture, "no turnouts, so no routes"), 2);
        assert_eq!(times(&picture, "no routes"), 1);
        assert_eq!(times(&picture, "1 turnout: 0 electric, 1 by hand; 0 groups; 0 routes"), 1);
    }

    #[test]
    fn widths() {
        let width = |sheet: Sheet| {
            let (_, picture) = drawn(&sheet);
            let (_, rest) = picture.split_once(" width=\"").expect("a width");
            rest.split('"').next().expect("a number").parse::<i32>().expect("a number")
        };
        assert_eq!(width(station_k()), LEAST_WIDTH);
        assert_eq!(width(plain_station(64, 64)), MOST_WIDTH);
        assert!((LEAST_WIDTH..=MOST_WIDTH).contains(&width(largest_station())));
    }
}
