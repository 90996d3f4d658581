//! The rows of a journal's picture put below each other, each as high as its words and labels need; the heads of the
//! columns above the first and again after many.

use super::columns::{Columns, FIGURES};
use super::notes::{notes, Bar, Mark};
use super::rows::Row;
use super::text::Face;

/// For refusals, beside a cross or bold figures.
pub const RED: &str = "#a33a00";
pub const REASON: Face = Face::of(10).coloured(RED);
pub const LINE: i32 = 13;
/// The columns' heads stand again after so many rows.
pub const ROWS_TOGETHER: usize = 50;
pub const HEAD_HEIGHT: i32 = 34;
/// With room for what the zones hold.
pub const REPEATED_HEIGHT: i32 = HEAD_HEIGHT + 2 * LINE;

pub struct Placed<'r, 's> {
    pub row: &'r Row<'s>,
    pub y: i32,
    pub height: i32,
    pub said: Vec<String>,
    pub refused: Vec<String>,
    pub mark: Option<(Bar, Mark)>,
    pub labels: Vec<String>,
}

/// The rows from that y on; then the y below the last.
pub fn placed<'r, 's>(rows: &'r [Row<'s>], columns: &Columns, top: i32) -> (Vec<Placed<'r, 's>>, i32) {
    let mut y = top + HEAD_HEIGHT;
    let mut placed = Vec::new();
    for (n, row) in rows.iter().enumerate() {
        if repeats(n) {
            y += REPEATED_HEIGHT;
        }
        let place = place(row, columns, y);
        y += place.height;
        placed.push(place);
    }
    (placed, y)
}

/// Do the heads stand again above this row?
pub fn repeats(row: usize) -> bool {
    row > 0 && row.is_multiple_of(ROWS_TOGETHER)
}

fn place<'r, 's>(row: &'r Row<'s>, columns: &Columns, y: i32) -> Placed<'r, 's> {
    let room = columns.words.width - 12;
    let said = FIGURES.lines(&row.said, room);
    let refused = row.refused.as_ref().map(|words| REASON.lines(words, room)).unwrap_or_default();
    let notes = notes(row);
    let lane = columns.lanes[0];
    let labels: Vec<String> =
        notes.labels.iter().flat_map(|label| lane.face().lines(label, lane.labels().width)).collect();
    let words = LINE * (said.len() + refused.len()) as i32;
    let height = words.max(lane.line() * labels.len() as i32 + 2) + 7;
    Placed { row, y, height, said, refused, mark: notes.mark, labels }
}
