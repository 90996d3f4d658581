//! A journal as a picture: one row for each record, from the first down to the last; a table of the records at the
//! left, and a lane for each zone with its work, its movement and what the records say of them.

use super::columns::{Columns, Span, BAR};
use super::legend::{self, Entry};
use super::notes::Mark;
use super::placed::{placed, repeats, Placed, HEAD_HEIGHT, REPEATED_HEIGHT};
use super::svg::{Area, Point, Svg};
use super::text::Face;
use super::{bars, ink, rows, table, MARGIN};
use crate::words;
use reference::refusal::Refusal;
use reference::station::Station;

pub fn draw(station: &Station, journal: &[u8]) -> Result<String, Refusal> {
    let rows = rows::heard(station, journal)?;
    let columns = Columns::of(&rows, station.zones);
    let width = columns.width();
    let mut svg = Svg::default();
    let title = format!("Journal: {}; station of {}", words::count(rows.len(), "record"), words::station(station));
    let top = legend::head(&mut svg, width, &title, NOTES, LEGEND);
    let (placed, mut end) = placed(&rows, &columns, top);
    for (zone, lane) in columns.lanes.iter().enumerate() {
        bars::draw(&mut svg, &placed, zone, *lane);
    }
    for row in &placed {
        rule(&mut svg, columns.all(), row.y);
        table::record(&mut svg, &columns, row);
        table::notes(&mut svg, &columns, row);
    }
    heads(&mut svg, &columns, &placed, top);
    if placed.is_empty() {
        svg.text((columns.words.x + 6, end + 17), Face::of(11), "no records");
        end += 26;
    }
    frame(&mut svg, &columns, top, end);
    Ok(svg.page(width, end + MARGIN, &title, ink::PATTERNS))
}

const NOTES: &[&str] = &[
    "From top to bottom, one row for each record: time is written, not to scale. A row shows what the zones hold after \
     its record; a bar goes on as long as that stands. After a colon stands the movement's regime, where it changes.",
];

fn rule(svg: &mut Svg, span: Span, y: i32) {
    svg.line((span.x, y), (span.end(), y), ink::RULE);
}

/// The columns' heads at the top, and again after many rows.
fn heads(svg: &mut Svg, columns: &Columns, placed: &[Placed], top: i32) {
    table::head(svg, columns, (top, HEAD_HEIGHT), None);
    for (n, row) in placed.iter().enumerate().filter(|(n, _)| repeats(*n)) {
        let above = n.checked_sub(1).map(|n| placed[n].row);
        table::head(svg, columns, (row.y - REPEATED_HEIGHT, REPEATED_HEIGHT), above);
    }
}

/// Around all, and between the lanes.
fn frame(svg: &mut Svg, columns: &Columns, top: i32, end: i32) {
    for lane in &columns.lanes {
        svg.line((lane.0.x, top), (lane.0.x, end), ink::LANE);
    }
    let all = columns.all();
    svg.rect(Area { x: all.x, y: top, width: all.width, height: end - top }, ink::FRAME);
}

const LEGEND: &[Entry] = &[
    Entry { words: "left bar: work asked", width: BAR, draw: |svg, at| svg.rect(sample(at), ink::WORK_ASKED) },
    Entry { words: "work agreed", width: BAR, draw: |svg, at| svg.rect(sample(at), ink::WORK_AGREED) },
    Entry { words: "open to work", width: BAR, draw: open },
    Entry { words: "right bar: movement asked", width: BAR, draw: |svg, at| svg.rect(sample(at), ink::MOVEMENT_ASKED) },
    Entry { words: "ordered, signals clear", width: BAR, draw: |svg, at| svg.rect(sample(at), ink::CLEAR) },
    Entry { words: "ordered, signals at danger", width: BAR, draw: |svg, at| svg.rect(sample(at), ink::DANGER) },
    Entry { words: "recorder out", width: 6, draw: recorder_out },
    Entry { words: "clearance (turnout, declaration): all efficient", width: BAR, draw: efficient },
    Entry { words: "clearance that lacks something", width: BAR, draw: |svg, at| mark(svg, at, Mark::Lacking) },
    Entry { words: "release key (turnout, Tcl or Es)", width: BAR, draw: |svg, at| mark(svg, at, Mark::Key) },
    Entry { words: "refused, with its number", width: BAR, draw: |svg, at| mark(svg, at, Mark::Refused) },
    Entry { words: "the record's zone", width: 6, draw: |svg, (x, y)| table::pointer(svg, (x, y - 4)) },
];

/// A piece of a bar.
fn sample((x, y): Point) -> Area {
    Area { x, y: y - 9, width: BAR, height: 18 }
}

fn open(svg: &mut Svg, at: Point) {
    svg.rect(sample(at), ink::WORK_AGREED);
    svg.rect(bars::inner(sample(at)), ink::OPEN);
}

fn efficient(svg: &mut Svg, at: Point) {
    mark(svg, at, Mark::Efficient);
}

fn mark(svg: &mut Svg, (x, y): Point, mark: Mark) {
    table::mark(svg, (x + BAR / 2, y), mark);
}

fn recorder_out(svg: &mut Svg, (x, y): Point) {
    svg.rect(Area { x: x + 2, width: 3, ..sample((x, y)) }, ink::BLACK);
}

#[cfg(test)]
mod tests {
    use super::super::svg::reading::{texts, well_formed};
    use super::*;
    use reference::builders::*;
    use reference::drafts::{journal_of, Sheet};
    use reference::message::RECORD;
    use reference::replay::hear_all;
    use reference::sheet;

    fn drawn(sheet: &Sheet, journal: &[u8]) -> String {
        let station = sheet::read(&sheet.bytes()).expect("a good sheet");
        let picture = draw(&station, journal).expect("a good journal");
        assert!(well_formed(&picture));
        picture
    }

    fn of(sheet: &Sheet, messages: &[reference::message::Message]) -> String {
        drawn(sheet, &journal(messages))
    }

    /// How often the text stands in the picture.
    fn times(picture: &str, words: &str) -> usize {
        texts(picture).iter().filter(|text| **text == words).count()
    }

    /// The texts of each row: those at the baseline of its number and below it, up to the next row's.
    fn rows(picture: &str) -> Vec<Vec<&str>> {
        let number = format!("<text x=\"{}\"", texts_end(picture));
        picture.split(&number).skip(1).map(texts_of).collect()
    }

    fn texts_of(part: &str) -> Vec<&str> {
        let first = part.split_once('>').and_then(|(_, rest)| rest.split_once("</text>")).map(|(words, _)| words);
        first.into_iter().chain(texts(part)).collect()
    }

    /// The x at which the numbers of the records end: that of their head.
    fn texts_end(picture: &str) -> &str {
        let (before, _) = picture.split_once(">no.</text>").expect("the head");
        before.rsplit_once("<text x=\"").and_then(|(_, rest)| rest.split_once('"')).expect("its x").0
    }

    /// The number, time, zone, code and minutes of each record; a refused one has its number at the reason as well.
    #[test]
    fn every_record_of_station_k() {
        let picture = of(&station_k(), &journal_k());
        let station = sheet::read(&station_k().bytes()).expect("station K reads");
        let (answers, _) = hear_all(&station, &journal(&journal_k())).expect("a good journal");
        let rows = rows(&picture);
        assert_eq!(rows.len(), 12, "eleven records, and the head that is drawn last");
        for (n, (message, answer)) in journal_k().iter().zip(answers).enumerate() {
            let code = reference::refusal::number(&answer).to_string();
            let figures = [(n + 1).to_string(), message.time.to_string(), "0".to_string(), code.clone()];
            assert_eq!(rows[n][..4], figures);
            assert_eq!(rows[n][4], answer.unwrap_or(0).to_string());
            let reason = format!("refused by {code}: ");
            assert_eq!(rows[n].iter().any(|words| words.starts_with(&reason)), answer.is_err(), "{:?}", rows[n]);
        }
        assert!(rows[0].contains(&"form 7, {0,1}") && rows[2].contains(&"open {0,1}"), "{rows:?}");
        assert!(rows[3].contains(&"train 512, route 0: held") && rows[7].contains(&"ordered at danger"), "{rows:?}");
        assert!(rows[5].contains(&"0, decl. 3: danger") && rows[5].contains(&"open {1}"), "{rows:?}");
    }

    #[test]
    fn keys_and_parts() {
        let messages = [
            work_asked(7, 2, &[2, 3, 4]),
            agreed(7),
            detection_off(7, &[2, 3, 4], &[]),
            movement_asked(9, 0),
            key_used(9, 2, 1),
            key_used(9, 3, 2),
            key_used(9, 4, 1),
            cleared(9, [4, 1, 0, 0, 1]),
            ordered(9, 1),
            passed(9),
            part_restored(7, &[4]),
            recorder(0),
            all_restored(7),
            movement_asked(10, 0),
            cancelled(10),
        ];
        let picture = of(&exit_zone_station(), &messages);
        let labels = [
            ["form 7, {2,3,4}", "agreed", "open {2,3,4}", "train 9, route 0: held", "2, key Tcl"],
            ["3, key Es", "23", "4, decl. 1: clear", "open {2,3}", "ordered clear"],
            ["passed", "still {2,3}", "recorder out", "restored", "cancelled"],
        ];
        for label in labels.as_flattened() {
            let expected = if *label == "23" || *label == "recorder out" { 2..=3 } else { 1..=1 };
            assert!(expected.contains(&times(&picture, label)), "{label}");
        }
    }

    /// Records that do not read and records of no zone have a row and their number, and nothing in a lane.
    #[test]
    fn records_of_no_zone() {
        let records = [message(14, 7), passed(0), agreed(7).in_zone(9)].map(|record| record.to_bytes());
        let picture = drawn(&station_k(), &journal_of(&records));
        for code in ["11", "13", "12"] {
            assert_eq!(times(&picture, code), 1, "{code}");
        }
        assert_eq!(times(&picture, "refused by 12: zone 9, Z is 1"), 1);
        assert_eq!(picture.matches("l5 4 l-5 4 z").count(), 1, "the legend's pointer alone");
    }

    #[test]
    fn heads_again() {
        let messages: Vec<_> = (0..101).map(|n| recorder(n % 2)).collect();
        let picture = of(&largest_station(), &messages);
        assert_eq!(times(&picture, "Zone 7"), 3);
        assert_eq!(times(&of(&station_k(), &[]), "no records"), 1);
    }

    /// Bytes at random and the widest figures; a bad journal is refused.
    #[test]
    fn any_journal() {
        let mut seed = 1u64;
        let mut any = || {
            seed = seed.wrapping_mul(6364136223846793005).wrapping_add(1442695040888963407);
            (seed >> 33) as u8
        };
        let records: Vec<[u8; RECORD]> = (0..1024).map(|_| [0; RECORD].map(|_| any() % 14)).collect();
        drawn(&largest_station(), &journal_of(&records));
        let wide =
            [work_asked(u32::MAX, 1, &[0, 1]).at(1), agreed(u32::MAX).at(2), all_restored(u32::MAX).at(u32::MAX)];
        assert_eq!(times(&of(&largest_station(), &wide), "71582788"), 1);
        let station = sheet::read(&station_k().bytes()).expect("station K reads");
        assert_eq!(draw(&station, b"WKJ"), Err(Refusal::Journal));
    }
}
