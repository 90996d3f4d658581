//! The table of records and the heads of all columns; the labels and marks of the lanes.

use super::columns::{Columns, Lane, Span, FIGURES, HEAD};
use super::ink;
use super::notes::{Bar, Mark};
use super::placed::{Placed, HEAD_HEIGHT, LINE, REASON, RED};
use super::rows::Row;
use super::svg::{Area, Point, Svg};
use super::text::Face;
use crate::state;
use reference::refusal::number;
use reference::work::Work;
use reference::zone::Zone;

const REFUSED: Face = FIGURES.bold().coloured(RED);

/// The heads of the columns; after a row, also what the zones hold then.
pub fn head(svg: &mut Svg, columns: &Columns, (y, height): (i32, i32), above: Option<&Row>) {
    let all = columns.all();
    let area = Area { x: all.x, y, width: all.width, height };
    svg.rect(area, ink::HEAD);
    let base = y + HEAD_HEIGHT - 7;
    for (span, words) in [
        (columns.number, "no."),
        (columns.time, "time, s"),
        (columns.zone, "zone"),
        (columns.code, "code"),
        (columns.minutes, "min"),
    ] {
        svg.text((span.end() - 6, base), HEAD.ending(), words);
    }
    svg.text((columns.words.x + 6, base), HEAD, "record");
    for (n, lane) in columns.lanes.iter().enumerate() {
        svg.text((lane.work().x, y + 13), HEAD, &format!("Zone {n}"));
        svg.text((lane.work().x, base), lane.face(), "work, movement");
        if let Some(row) = above {
            held(svg, *lane, base + lane.line(), &row.after[n]);
        }
    }
}

/// The form of the zone's work and the train of its movement.
fn held(svg: &mut Svg, lane: Lane, y: i32, zone: &Zone) {
    let form = match zone.work {
        Work::None => "no work".to_string(),
        Work::Asked(works) | Work::Agreed { works, .. } => format!("form {}", works.id),
    };
    let train = state::standing(zone).map_or("no movement".to_string(), |train| format!("train {}", train.id));
    for (n, words) in (0..).zip([form, train]) {
        svg.text((lane.work().x, y + lane.line() * n), lane.face(), &words);
    }
}

/// The record in the table's columns.
pub fn record(svg: &mut Svg, columns: &Columns, placed: &Placed) {
    let (row, base) = (placed.row, placed.y + 13);
    let mut figures = |span: Span, face: Face, words: &str| svg.text((span.end() - 6, base), face.ending(), words);
    figures(columns.number, FIGURES, &row.number.to_string());
    if let Some((message, _)) = &row.heard {
        figures(columns.time, FIGURES, &message.time.to_string());
        figures(columns.zone, FIGURES, &message.zone.to_string());
    }
    let face = if row.answer.is_ok() { FIGURES } else { REFUSED };
    figures(columns.code, face, &number(&row.answer).to_string());
    figures(columns.minutes, FIGURES, &row.answer.unwrap_or(0).to_string());
    let said = placed.said.iter().map(|line| (FIGURES, line));
    let lines = said.chain(placed.refused.iter().map(|line| (REASON, line)));
    for (n, (face, line)) in (0..).zip(lines) {
        svg.text((columns.words.x + 6, base + LINE * n), face, line);
    }
}

/// The labels and marks in the lane of the record's zone, and a pointer to them.
pub fn notes(svg: &mut Svg, columns: &Columns, placed: &Placed) {
    let Some(lane) = placed.row.zone().and_then(|(zone, ..)| columns.lanes.get(usize::from(zone))) else {
        return;
    };
    pointer(svg, (lane.0.x + 2, placed.y + 6));
    if let Some((bar, drawn)) = placed.mark {
        let bar = if bar == Bar::Work { lane.work() } else { lane.movement() };
        mark(svg, (bar.middle(), placed.y + 10), drawn);
    }
    let refused = placed.row.answer.is_err();
    let face = if refused { lane.face().bold().coloured(RED) } else { lane.face() };
    for (n, line) in (0..).zip(&placed.labels) {
        svg.text((lane.labels().x, placed.y + 13 + lane.line() * n), face, line);
    }
}

/// To the zone of a record, from its upper left corner.
pub fn pointer(svg: &mut Svg, (x, y): Point) {
    svg.path(&format!("M{x} {y} l5 4 l-5 4 z"), ink::BLACK);
}

/// A tick or a dash in a disc, a key, a cross; around a point.
pub fn mark(svg: &mut Svg, (x, y): Point, mark: Mark) {
    match mark {
        Mark::Efficient => {
            svg.circle((x, y), 6, ink::EFFICIENT);
            svg.path(&format!("M{} {y} l3 3 l4 -6", x - 3), ink::TICK);
        }
        Mark::Lacking => {
            svg.circle((x, y), 6, ink::LACKING);
            svg.line((x - 3, y), (x + 3, y), ink::TRACK);
        }
        Mark::Key => {
            svg.rect(Area { x: x - 7, y: y - 6, width: 14, height: 12 }, ink::WHITE);
            svg.circle((x - 3, y), 3, ink::KEY);
            svg.path(&format!("M{x} {y} h6 v4 M{} {y} v3", x + 3), ink::KEY);
        }
        Mark::Refused => {
            svg.rect(Area { x: x - 6, y: y - 6, width: 12, height: 12 }, ink::WHITE);
            svg.path(&format!("M{} {} l8 8 m0 -8 l-8 8", x - 4, y - 4), ink::CROSS);
        }
    }
}
