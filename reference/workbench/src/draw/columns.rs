//! Where the columns of a journal's picture are: those of the table of records, and a lane for each zone.

use super::rows::Row;
use super::text::Face;
use super::{LEAST_WIDTH, MARGIN};

pub const HEAD: Face = Face::of(10).bold();
pub const FIGURES: Face = Face::of(11);
/// The width of a bar in a lane.
pub const BAR: i32 = 18;

/// About as much as a screen shows.
const MOST_WIDTH: i32 = 1400;
const LEAST_WORDS: i32 = 250;
const MOST_WORDS: i32 = 380;
const LEAST_LANE: i32 = 116;
const MOST_LANE: i32 = 260;

#[derive(Clone, Copy, Debug, PartialEq, Eq)]
pub struct Span {
    pub x: i32,
    pub width: i32,
}

impl Span {
    pub fn end(self) -> i32 {
        self.x + self.width
    }

    pub fn middle(self) -> i32 {
        self.x + self.width / 2
    }
}

/// The lane of a zone: a pointer's room, the recorder's line, the bar of its work, that of its movement, labels.
#[derive(Clone, Copy, Debug, PartialEq, Eq)]
pub struct Lane(pub Span);

impl Lane {
    pub fn recorder(self) -> Span {
        Span { x: self.0.x + 9, width: 3 }
    }

    pub fn work(self) -> Span {
        Span { x: self.recorder().end() + 3, width: BAR }
    }

    pub fn movement(self) -> Span {
        Span { x: self.work().end() + 3, width: BAR }
    }

    pub fn labels(self) -> Span {
        let x = self.movement().end() + 4;
        Span { x, width: self.0.end() - 4 - x }
    }

    /// For labels: smaller in narrow lanes.
    pub fn face(self) -> Face {
        Face::of(if self.0.width < 160 { 9 } else { 11 })
    }

    /// From one line of a label to the next.
    pub fn line(self) -> i32 {
        self.face().size + 2
    }
}

pub struct Columns {
    pub number: Span,
    pub time: Span,
    pub zone: Span,
    pub words: Span,
    pub code: Span,
    pub minutes: Span,
    pub lanes: Vec<Lane>,
}

impl Columns {
    /// Figures as wide as the widest; words and lanes share what is left.
    pub fn of(rows: &[Row], zones: u8) -> Columns {
        let widest = |head: &str, figures: &dyn Fn(&Row) -> u32| {
            let figures = rows.iter().map(|row| FIGURES.width(&figures(row).to_string())).max().unwrap_or(0);
            figures.max(HEAD.width(head)) + 12
        };
        let number = widest("no.", &|row| row.number);
        let time = widest("time, s", &|row| row.heard.map_or(0, |(message, _)| message.time));
        let zone = widest("zone", &|row| row.heard.map_or(0, |(message, _)| message.zone.into()));
        let code = widest("code", &|_| 0);
        let minutes = widest("min", &|row| row.answer.unwrap_or(0));
        let room = MOST_WIDTH - 2 * MARGIN - number - time - zone - code - minutes;
        let zones = i32::from(zones);
        let lane = ((room - MOST_WORDS) / zones).clamp(LEAST_LANE, MOST_LANE);
        let short = LEAST_WIDTH - MOST_WIDTH + room - zones * lane;
        let words = (room - zones * lane).clamp(LEAST_WORDS, MOST_WORDS).max(short);
        let mut x = MARGIN;
        let mut next = |width: i32| {
            x += width;
            Span { x: x - width, width }
        };
        Columns {
            number: next(number),
            time: next(time),
            zone: next(zone),
            words: next(words),
            code: next(code),
            minutes: next(minutes),
            lanes: (0..zones).map(|_| Lane(next(lane))).collect(),
        }
    }

    /// From the first column to the last lane.
    pub fn all(&self) -> Span {
        let end = self.lanes.last().map_or(self.minutes.end(), |lane| lane.0.end());
        Span { x: self.number.x, width: end - self.number.x }
    }

    /// Of the picture.
    pub fn width(&self) -> i32 {
        self.all().end() + MARGIN
    }
}
