//! One zone of a station's plan, as a box: its turnouts as columns with their groups above, and below them a row for
//! each route with the marks of the turnouts it names.

use super::group_bars::{self, levelled, Bar, LEVEL};
use super::ink;
use super::svg::{Area, Point, Svg};
use super::symbols::{self, Branch, Part, BRANCH};
use super::text::Face;
use crate::{groups, words};
use reference::set::members;
use reference::station::{Drive, Route, Station, Turnout};

const NAME: Face = Face::of(13).bold();
const COUNTS: Face = Face::of(11);
pub const NUMBER: Face = Face::of(11).bold().centred();
pub const OF_GROUP: Face = Face::of(11).centred();
const LABEL: Face = Face::of(11);
const PADDING: i32 = 10;
/// The room for the rows' names, left of the columns.
const LABELS: i32 = 64;
const HEADER: i32 = 42;
const ROW: i32 = 22;
const NUMBERS: i32 = 18;
/// The turnouts' numbers stand again after so many routes.
const ROUTES_TOGETHER: usize = 16;

pub struct ZonePlan<'s> {
    number: u8,
    /// The width of a turnout's column.
    column: i32,
    turnouts: Vec<(u8, &'s Turnout)>,
    routes: Vec<(usize, &'s Route)>,
    bars: Vec<Bar>,
}

impl<'s> ZonePlan<'s> {
    pub fn of(station: &'s Station, number: u8, column: i32) -> Self {
        let of_zone = station.of_zone(number);
        let turnouts: Vec<_> = members(of_zone).filter_map(|n| Some((n, station.turnout(n)?))).collect();
        let routes = station.routes.iter().enumerate().filter(|(_, route)| route.zone == number).collect();
        let bars = levelled(groups::of(station, of_zone), &members(of_zone).collect::<Vec<u8>>());
        ZonePlan { number, column, turnouts, routes, bars }
    }

    pub fn width(&self) -> i32 {
        self.grid().max(COUNTS.width(&self.counts())) + 2 * PADDING
    }

    /// The width of the rows: their names and the columns.
    fn grid(&self) -> i32 {
        LABELS + self.column * self.turnouts.len() as i32
    }

    pub fn height(&self) -> i32 {
        if self.turnouts.is_empty() {
            return HEADER;
        }
        self.rows_top() + self.row(self.routes.len().max(1) - 1) + ROW + PADDING
    }

    pub fn draw(&self, svg: &mut Svg, (x, y): Point) {
        let frame = Area { x, y, width: self.width(), height: self.height() };
        svg.rect(Area { height: HEADER, ..frame }, ink::BAND);
        svg.text((x + PADDING, y + 17), NAME, &format!("Zone {}", self.number));
        svg.text((x + PADDING, y + 34), COUNTS, &self.counts());
        if !self.turnouts.is_empty() {
            self.rows(svg, (x + PADDING, y + self.rows_top()));
            self.schematic(svg, (x + PADDING, y + self.track()));
        }
        svg.rect(frame, ink::FRAME);
    }

    /// `3 turnouts: 2 electric, 1 by hand; 1 group; 1 route`.
    fn counts(&self) -> String {
        if self.turnouts.is_empty() {
            return "no turnouts, so no routes".to_string();
        }
        let by_hand = self.turnouts.iter().filter(|(_, turnout)| turnout.drive == Drive::Hand).count();
        format!(
            "{}: {} electric, {by_hand} by hand; {}; {}",
            words::count(self.turnouts.len(), "turnout"),
            self.turnouts.len() - by_hand,
            words::count(self.bars.len(), "group"),
            words::count(self.routes.len(), "route")
        )
    }

    /// How many bars of groups stand one over the other.
    fn levels(&self) -> i32 {
        self.bars.iter().map(|bar| bar.level).max().unwrap_or(0)
    }

    /// The y of the turnouts' tracks in the box: below the highest bar.
    fn track(&self) -> i32 {
        HEADER + PADDING + LEVEL * self.levels() + BRANCH
    }

    /// The height of the turnouts' numbers; where bars overlap, each turnout has its group's number below its own.
    fn heads(&self) -> i32 {
        if self.levels() > 1 {
            2 * NUMBERS
        } else {
            NUMBERS
        }
    }

    /// The y of the first route's row in the box: below tracks, drives and numbers.
    fn rows_top(&self) -> i32 {
        self.track() + 22 + self.heads()
    }

    /// The y of a row from the first one's.
    fn row(&self, n: usize) -> i32 {
        ROW * n as i32 + NUMBERS * (n / ROUTES_TOGETHER) as i32
    }

    /// The middle of a column, from the left of the labels.
    fn column(&self, left: i32, n: usize) -> i32 {
        left + LABELS + self.column * n as i32 + self.column / 2
    }

    /// Tracks, drives and groups; `y` is that of the tracks. The last turnout of a group has its branch to the left,
    /// towards the others.
    fn schematic(&self, svg: &mut Svg, (left, y): Point) {
        let ends = self.turnouts.iter().enumerate().map(|(n, (_, turnout))| {
            let x = self.column(left, n);
            let side = if self.bars.iter().any(|bar| bar.right() == n) { Branch::Left } else { Branch::Right };
            symbols::drive(svg, (x, y + 13), turnout.drive);
            symbols::turnout(svg, (x, y), side)
        });
        let ends: Vec<Point> = ends.collect();
        if !self.bars.is_empty() {
            svg.text((left, y - BRANCH - LEVEL + 4), LABEL, "group");
        }
        group_bars::draw(svg, &self.bars, &ends);
    }

    fn numbers(&self, svg: &mut Svg, (left, y): Point) {
        svg.text((left, y + 13), LABEL, "turnout");
        for (n, (number, _)) in self.turnouts.iter().enumerate() {
            svg.text((self.column(left, n), y + 13), NUMBER, &number.to_string());
        }
    }

    fn numbers_of_groups(&self, svg: &mut Svg, (left, y): Point) {
        svg.text((left, y + 13), LABEL, "of group");
        for bar in &self.bars {
            for n in &bar.columns {
                svg.text((self.column(left, *n), y + 13), OF_GROUP, &bar.group.number.to_string());
            }
        }
    }

    /// The routes with their marks; `y` is that of the first row.
    fn rows(&self, svg: &mut Svg, (left, y): Point) {
        self.numbers(svg, (left, y - self.heads()));
        if self.levels() > 1 {
            self.numbers_of_groups(svg, (left, y - NUMBERS));
        }
        for (n, (number, route)) in self.routes.iter().enumerate() {
            let y = y + self.row(n);
            if n > 0 && n.is_multiple_of(ROUTES_TOGETHER) {
                self.numbers(svg, (left, y - NUMBERS));
            }
            if n.is_multiple_of(2) {
                svg.rect(Area { x: left, y, width: self.grid(), height: ROW }, ink::STRIPE);
            }
            self.route(svg, (left, y), *number, route);
        }
        if self.routes.is_empty() {
            svg.text((left, y + 15), LABEL, "no routes");
        }
    }

    fn route(&self, svg: &mut Svg, (left, y): Point, number: usize, route: &Route) {
        svg.line((left, y), (left + self.grid(), y), ink::RULE);
        svg.text((left, y + 15), LABEL, &format!("route {number}"));
        for (n, (turnout, _)) in self.turnouts.iter().enumerate() {
            let x = self.column(left, n);
            svg.line((x - self.column / 2, y), (x - self.column / 2, y + ROW), ink::RULE);
            let Some(part) = Part::of(route, *turnout) else {
                continue;
            };
            let position = route.position(*turnout);
            let name = format!("route {number}, turnout {turnout}: {}, {}", part.words(), words::position(position));
            svg.group(&name, |svg| symbols::mark(svg, (x, y + ROW / 2), part, position));
        }
    }
}
