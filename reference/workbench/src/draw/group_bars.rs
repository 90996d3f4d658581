//! Groups as bars above a zone's turnouts: a drop to each turnout of the group, and its number at the left end. Bars
//! stand one over the other where they overlap: the shorter lower, so that nested ones do not cross.

use super::ink;
use super::svg::{Point, Svg};
use super::text::Face;
use crate::groups::Group;
use crate::words;
use reference::set::holds;

/// The height of a level.
pub const LEVEL: i32 = 7;
pub const NUMBER: Face = Face::of(9).bold().ending();
/// From a number to the drop beside it.
const GAP: i32 = 3;

/// A group with the columns of its turnouts, from left to right, and its level from 1.
pub struct Bar {
    pub group: Group,
    pub columns: Vec<usize>,
    pub level: i32,
}

impl Bar {
    fn left(&self) -> usize {
        self.columns.first().copied().unwrap_or(0)
    }

    pub fn right(&self) -> usize {
        self.columns.last().copied().unwrap_or(0)
    }

    fn overlaps(&self, other: &Bar) -> bool {
        other.left() < self.right() && self.left() < other.right()
    }
}

/// The groups of a zone whose columns are these turnouts, each on the lowest level that is free along it.
pub fn levelled(groups: Vec<Group>, turnouts: &[u8]) -> Vec<Bar> {
    let columns = |group: &Group| (0..turnouts.len()).filter(|&n| holds(group.turnouts, turnouts[n])).collect();
    let mut bars: Vec<Bar> =
        groups.into_iter().map(|group| Bar { group, columns: columns(&group), level: 1 }).collect();
    bars.sort_by_key(|bar| (bar.right() - bar.left(), bar.left()));
    for n in 0..bars.len() {
        let below = bars[..n].iter().filter(|other| bars[n].overlaps(other));
        bars[n].level = 1 + below.map(|other| other.level).max().unwrap_or(0);
    }
    bars
}

/// The bars over the ends of the columns' branches; then their numbers, so that no later bar cuts into one.
pub fn draw(svg: &mut Svg, bars: &[Bar], ends: &[Point]) {
    for Bar { group, columns, level } in bars {
        let ends: Vec<Point> = columns.iter().map(|&n| ends[n]).collect();
        let name = format!("group {}: {}", group.number, words::set(group.turnouts));
        svg.group(&name, |svg| bar(svg, &ends, *level));
    }
    for bar in bars {
        number(svg, ends[bar.left()], bar.level, bar.group.number);
    }
}

/// A bar over the ends of its turnouts' branches, at least two, from left to right; its outer corners are round, and a
/// dot shows that an inner drop ends at it. Bars drawn before are cut where its drops cross them.
pub fn bar(svg: &mut Svg, ends: &[Point], level: i32) {
    let [(left, y), inner @ .., (right, _)] = ends else {
        return;
    };
    let (height, across) = (LEVEL * level, right - left - 8);
    let rise = height - 4;
    let mut steps = format!("M{left} {y} v-{rise} q0 -4 4 -4 h{across} q4 0 4 4 v{rise}");
    for (x, y) in inner {
        steps += &format!(" M{x} {y} v-{height}");
    }
    svg.path(&steps, ink::GAP);
    svg.path(&steps, ink::GROUP);
    for (x, y) in inner {
        svg.circle((*x, y - height), 2, ink::DOT);
    }
}

/// The group's number, left of the corner of its bar: between that drop and the column before no other line goes.
pub fn number(svg: &mut Svg, (left, y): Point, level: i32, number: u8) {
    svg.text((left - GAP, y - LEVEL * level + 3), NUMBER, &number.to_string());
}

#[cfg(test)]
mod tests {
    use super::*;
    use reference::set::of;

    /// The levels of groups of these turnouts, in the order in which they are given; a column for each turnout.
    fn levels_of(groups: &[&[u8]]) -> Vec<i32> {
        let numbered = (0..).zip(groups).map(|(number, turnouts)| Group { number, turnouts: of(turnouts) });
        let mut bars = levelled(numbered.collect(), &(0..64).collect::<Vec<u8>>());
        bars.sort_by_key(|bar| bar.group.number);
        bars.iter().map(|bar| bar.level).collect()
    }

    #[test]
    fn levels_of_pairs() {
        assert_eq!(levels_of(&[&[0, 1], &[2, 3], &[4, 5]]), [1, 1, 1]);
        assert_eq!(levels_of(&[&[0, 5], &[1, 4], &[2, 3]]), [3, 2, 1]);
        assert_eq!(levels_of(&[&[0, 2], &[1, 3], &[4, 5]]), [1, 2, 1]);
        assert_eq!(levels_of(&[]), []);
    }

    /// The most there are: 32 pairs, each within the next.
    #[test]
    fn nested_levels() {
        let pairs: Vec<[u8; 2]> = (0..32).map(|n| [n, 63 - n]).collect();
        let pairs: Vec<&[u8]> = pairs.iter().map(|pair| &pair[..]).collect();
        assert_eq!(levels_of(&pairs), (1..=32).rev().collect::<Vec<i32>>());
    }

    #[test]
    fn levels_of_larger_groups() {
        assert_eq!(levels_of(&[&[0, 1, 2], &[3, 4, 5, 6, 7, 8, 9, 10], &[11, 12]]), [1, 1, 1]);
        assert_eq!(levels_of(&[&[0, 4, 9], &[1, 3], &[2, 5, 6, 7, 8, 10, 11, 12]]), [2, 1, 3]);
    }

    /// A corner at either end, a drop and a dot for each turnout between them.
    #[test]
    fn shapes_of_a_bar() {
        for turnouts in [2, 3, 8] {
            let mut svg = Svg::default();
            let ends: Vec<Point> = (0..turnouts).map(|n| (20 * n, 50)).collect();
            bar(&mut svg, &ends, 2);
            let picture = svg.page(1, 1, "", "");
            assert_eq!(picture.matches("<path ").count(), 2);
            assert_eq!(picture.matches(" M").count(), 2 * (turnouts as usize - 2));
            assert_eq!(picture.matches("<circle ").count(), turnouts as usize - 2);
        }
    }

    /// In the narrowest columns, of 19 pixels, the widest number ends before the drop of the column before.
    #[test]
    fn numbers_between_columns() {
        assert!(NUMBER.width("31") + GAP < 19 - 2);
    }
}
