//! The symbols of a plan: a turnout with its drive, and the marks of a route's turnouts.

use super::ink;
use super::svg::{Area, Point, Svg};
use super::text::Face;
use reference::clearance::Position;
use reference::set::holds;
use reference::station::{Drive, Route};

/// How far above the track a turnout's branch ends.
pub const BRANCH: i32 = 9;
const LETTER: Face = Face::of(8).bold().centred();
const WHITE: &str = "#ffffff";

/// Where the branch of a turnout goes: its second track, or towards the others of its group.
#[derive(Clone, Copy, Debug, PartialEq, Eq)]
pub enum Branch {
    Left,
    Right,
}

/// A piece of track with its branch, around a point on the track; gives the end of the branch.
pub fn turnout(svg: &mut Svg, (x, y): Point, branch: Branch) -> Point {
    let side = if branch == Branch::Right { 1 } else { -1 };
    let end = (x + 4 * side, y - BRANCH);
    svg.line((x - 8, y), (x + 8, y), ink::TRACK);
    svg.line((x - 5 * side, y), end, ink::TRACK);
    end
}

/// Electric: a disc with the letter E. By hand: a lock with its keyhole.
pub fn drive(svg: &mut Svg, (x, y): Point, drive: Drive) {
    match drive {
        Drive::Electric => {
            svg.circle((x, y), 7, ink::BLACK);
            svg.text((x, y + 3), LETTER.coloured(WHITE), "E");
        }
        Drive::Hand => {
            svg.rect(Area { x: x - 6, y: y - 6, width: 12, height: 12 }, ink::LOCK);
            svg.circle((x, y - 1), 2, ink::BLACK);
            svg.path(&format!("M{x} {y} l2 4 h-4 z"), ink::BLACK);
        }
    }
}

/// The part that a turnout has in a route.
#[derive(Clone, Copy, Debug, PartialEq, Eq)]
pub enum Part {
    RunOver,
    Flank,
    ExitZone,
}

impl Part {
    /// None for a turnout that the route does not name.
    pub fn of(route: &Route, turnout: u8) -> Option<Part> {
        let parts = [(route.run_over, Part::RunOver), (route.flank, Part::Flank), (route.exit_zone, Part::ExitZone)];
        parts.into_iter().find(|(set, _)| holds(*set, turnout)).map(|(_, part)| part)
    }

    pub fn words(self) -> &'static str {
        match self {
            Part::RunOver => "run over",
            Part::Flank => "flank",
            Part::ExitZone => "exit zone",
        }
    }
}

/// Run over: a full square. Flank: a triangle. Exit zone: a hollow diamond. Reverse: the letter R within.
pub fn mark(svg: &mut Svg, (x, y): Point, part: Part, position: Position) {
    let (letter, colour) = match part {
        Part::RunOver => {
            svg.rect(Area { x: x - 7, y: y - 7, width: 14, height: 14 }, ink::RUN_OVER);
            ((x, y + 3), WHITE)
        }
        Part::Flank => {
            svg.path(&format!("M{x} {} l8 15 h-16 z", y - 9), ink::FLANK);
            ((x, y + 5), "#000000")
        }
        Part::ExitZone => {
            svg.path(&format!("M{x} {} l8 8 l-8 8 l-8 -8 z", y - 8), ink::EXIT_ZONE);
            ((x, y + 3), "#000000")
        }
    };
    if position == Position::Reverse {
        svg.text(letter, LETTER.coloured(colour), "R");
    }
}
