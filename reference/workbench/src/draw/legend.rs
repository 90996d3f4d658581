//! The head of a picture: its title, notes, and a legend of symbols with their words, as many beside each other as fit.

use super::svg::{Area, Point, Svg};
use super::text::Face;
use super::{ink, MARGIN};

const TITLE: Face = Face::of(18).bold();
const NOTE: Face = Face::of(12);
const WORDS: Face = Face::of(11);
const LINE: i32 = 28;
const GAP: i32 = 22;

pub struct Entry {
    /// What the symbol stands for.
    pub words: &'static str,
    /// The width of the symbol.
    pub width: i32,
    /// Draws the symbol around a point at its left and half its height.
    pub draw: fn(&mut Svg, Point),
}

/// Title, notes and legend in a picture of that width; gives the y below them.
pub fn head(svg: &mut Svg, width: i32, title: &str, notes: &[&str], entries: &[Entry]) -> i32 {
    let room = width - 2 * MARGIN;
    let mut y = MARGIN + 16;
    for line in TITLE.lines(title, room) {
        svg.text((MARGIN, y), TITLE, &line);
        y += 22;
    }
    for line in notes.iter().flat_map(|note| NOTE.lines(note, room)) {
        svg.text((MARGIN, y), NOTE, &line);
        y += 17;
    }
    legend(svg, Area { x: MARGIN, y, width: room, height: 0 }, entries) + MARGIN
}

/// The entries from the area's top on, in a frame; gives the y of its end.
fn legend(svg: &mut Svg, area: Area, entries: &[Entry]) -> i32 {
    let start = (area.x + 12, area.y + LINE / 2 + 4);
    let (mut x, mut y) = start;
    for entry in entries {
        let width = entry.width + 8 + WORDS.width(entry.words);
        if x != start.0 && x + width > area.x + area.width - 12 {
            (x, y) = (start.0, y + LINE);
        }
        (entry.draw)(svg, (x, y));
        svg.text((x + entry.width + 8, y + 4), WORDS, entry.words);
        x += width + GAP;
    }
    let end = y + LINE / 2 + 4;
    svg.rect(Area { height: end - area.y, ..area }, ink::FRAME);
    end
}
