//! The text of station sheets: the counts, a line for each turnout and route; the plan as comments. Turnouts are tied
//! together by `group N`; the older words `crossover with N` are still read.

use crate::lines::{end, lines, number_after, Line, TextError};
use crate::{plan, words};
use reference::drafts::Sheet;
use reference::group::ALONE;
use reference::sheet::{SheetFault, ELECTRIC, HAND};
use reference::station::{Drive, Route, Station, Turnout};

pub const DRIVES: [(&str, u8); 2] = [("electric", ELECTRIC), ("hand with key lock", HAND)];

pub fn show(station: &Station) -> String {
    let (turnouts, routes) = (&station.turnouts, &station.routes);
    let mut text = format!(
        "# Station sheet.\nstation: turnouts {}, routes {}, zones {}\n\n",
        turnouts.len(),
        routes.len(),
        station.zones
    );
    for (n, turnout) in turnouts.iter().enumerate() {
        text += &format!("turnout {n}: {}\n", turnout_fields(turnout));
    }
    text.push('\n');
    for (n, route) in routes.iter().enumerate() {
        text += &format!("route {n}: {}\n", route_fields(route));
    }
    if !routes.is_empty() {
        text.push('\n');
    }
    text + &plan::plan(station)
}

fn turnout_fields(turnout: &Turnout) -> String {
    let group = match turnout.group {
        Some(number) => format!("group {number}"),
        None => "alone".to_string(),
    };
    format!("zone {}, {group}, {}", turnout.zone, drive(turnout.drive))
}

pub fn drive(drive: Drive) -> &'static str {
    match drive {
        Drive::Electric => DRIVES[0].0,
        Drive::Hand => DRIVES[1].0,
    }
}

fn route_fields(route: &Route) -> String {
    format!(
        "zone {}, runs over {}, flank {}, exit zone {}, reverse {}",
        route.zone,
        words::set(route.run_over),
        words::set(route.flank),
        words::set(route.exit_zone),
        words::set(route.reverse)
    )
}

/// Words that tie turnouts together, and the version of the sheets that tie them so.
#[derive(Clone, Copy)]
struct Tie {
    words: &'static str,
    version: u16,
}

/// SHEET-2: the number of the turnout's group.
const GROUP: Tie = Tie { words: "group", version: 2 };
/// SHEET-13: the other end of a crossover, which names this one back.
const CROSSOVER: Tie = Tie { words: "crossover with", version: 1 };

/// A sheet described by a text, not yet read by the sheet's rules, and the lines that its records stand on.
pub struct Described {
    /// Of version 1 where the text has the older words.
    pub sheet: Sheet,
    station_line: usize,
    /// The first line that ties a turnout to others, and its words, which all others must have: a crossover numbered
    /// beside groups might take the number of one.
    tied: Option<(usize, Tie)>,
    turnout_lines: Vec<usize>,
    route_lines: Vec<usize>,
}

impl Described {
    fn new(sheet: Sheet, station_line: usize) -> Described {
        Described { sheet, station_line, tied: None, turnout_lines: Vec::new(), route_lines: Vec::new() }
    }

    /// The next turnout: its zone, its group or partner, its drive.
    fn turnout(&mut self, line: &mut Line) -> Result<(), TextError> {
        let zone = line.byte("zone")?;
        let (tie, number) = match self.tied {
            None => line.take("'alone' or 'group N', N from 0 to 254", |field| tied(field, &[GROUP, CROSSOVER]))?,
            Some((first, tie)) => {
                let expected = format!("'alone' or '{} N', N from 0 to 254, as on line {first}", tie.words);
                line.take(&expected, |field| tied(field, &[tie]))?
            }
        };
        if let (None, Some(tie)) = (self.tied, tie) {
            self.tied = Some((line.number, tie));
            self.sheet.version = tie.version;
        }
        self.sheet.turnouts.push([zone, number, line.choice(&DRIVES)?]);
        self.turnout_lines.push(line.number);
        Ok(())
    }

    /// The line of the record that a refusal names; else that of the counts.
    pub fn line_of(&self, fault: SheetFault) -> usize {
        match fault {
            SheetFault::Turnout(n) => self.turnout_lines[usize::from(n)],
            SheetFault::Route(n) => self.route_lines[usize::from(n)],
            _ => self.station_line,
        }
    }
}

pub fn read(text: &str) -> Result<Described, TextError> {
    let mut lines = lines(text);
    let mut next = |head: &str, fields: &str| -> Result<Line, TextError> {
        let expected = format!("'{head}: {fields}'");
        match lines.next() {
            Some(line) => {
                line.and_then(|line| if line.head == head { Ok(line) } else { Err(line.other_head(&expected)) })
            }
            None => Err(TextError { line: end(text), expected, found: "the end of the text".to_string() }),
        }
    };
    let mut station = next("station", "turnouts N, routes N, zones N")?;
    let (turnouts, routes) = (station.byte("turnouts")?, station.byte("routes")?);
    let mut described = Described::new(Sheet::of_version_2(station.byte("zones")?), station.number);
    station.end()?;
    for n in 0..turnouts {
        let mut line = next(&format!("turnout {n}"), "zone N, alone or group N, electric or hand with key lock")?;
        described.turnout(&mut line)?;
        line.end()?;
    }
    for n in 0..routes {
        let mut line = next(&format!("route {n}"), "zone N, runs over {..}, flank {..}, exit zone {..}, reverse {..}")?;
        let zone = line.byte("zone")?;
        let sets = [line.set("runs over")?, line.set("flank")?, line.set("exit zone")?, line.set("reverse")?];
        described.sheet.routes.push((zone, sets));
        described.route_lines.push(line.number);
        line.end()?;
    }
    match lines.next() {
        Some(line) => {
            Err(line?.other_head(&format!("the end of the text after {turnouts} turnouts and {routes} routes")))
        }
        None => Ok(described),
    }
}

/// Whether a turnout is tied to others, by one of these words, and the number after them.
fn tied(field: &str, ties: &[Tie]) -> Option<(Option<Tie>, u8)> {
    if field == "alone" {
        return Some((None, ALONE));
    }
    ties.iter().find_map(|tie| Some((Some(*tie), number_after(field, tie.words, 0, 254)? as u8)))
}
