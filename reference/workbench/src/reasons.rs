//! What breaks the check that refused a message, from what the zone held before it.

use crate::{groups, sheet_text, state, words};
use reference::clearance::{Channel, Clearance};
use reference::desk::Desk;
use reference::message::{Content, Message};
use reference::movement::Train;
use reference::refusal::Refusal;
use reference::set::{holds, only, Set};
use reference::station::Station;
use reference::work::{Work, Works};
use reference::zone::Zone;

/// In words, what the refusal rests on; `desk` is the one before the message.
pub fn reason(desk: &Desk, message: &Message, content: &Content, refusal: Refusal) -> String {
    let station = desk.station();
    let Some(zone) = desk.zone(message.zone) else {
        return format!("zone {}, Z is {}", message.zone, station.zones);
    };
    let (works, train) = (works(zone), state::standing(zone));
    match refusal {
        Refusal::Clock => format!("time {}, last accepted {}", message.time, zone.last),
        Refusal::UnknownId => unknown(content, works, train),
        Refusal::Occupied => occupied(content, works, train),
        Refusal::Place => place(station, message.zone, zone, content),
        Refusal::Stage => stage(zone, content),
        Refusal::Conflict => conflict(station, content, works, train),
        Refusal::Unfit => unfit(station, content, train),
        Refusal::Channel => channel(content).to_string(),
        Refusal::Regime => regime(zone, content),
        Refusal::Key => key(station, content, train),
        _ => String::new(),
    }
}

fn works(zone: &Zone) -> Option<Works> {
    match zone.work {
        Work::Asked(works) | Work::Agreed { works, .. } => Some(works),
        Work::None => None,
    }
}

/// Is the message about the zone's movement, not its work?
fn of_movement(content: &Content) -> bool {
    let of_turnout = matches!(content, Content::Cleared(_) | Content::KeyUsed { .. });
    of_turnout || matches!(content, Content::Ordered(_) | Content::Passed | Content::Cancelled)
}

fn unknown(content: &Content, works: Option<Works>, train: Option<Train>) -> String {
    match (of_movement(content), works, train) {
        (true, _, Some(train)) => format!("the zone's movement is of train {}", train.id),
        (true, _, None) => "the zone has no movement".to_string(),
        (false, Some(works), _) => format!("the zone's work is under form {}", works.id),
        (false, None, _) => "the zone has no work".to_string(),
    }
}

fn occupied(content: &Content, works: Option<Works>, train: Option<Train>) -> String {
    match (content, works, train) {
        (Content::WorkAsked { .. }, Some(works), _) => format!("work under form {}", works.id),
        (Content::MovementAsked { .. }, _, Some(train)) => format!("movement of train {}", train.id),
        (Content::Cleared(Clearance { turnout, .. }) | Content::KeyUsed { turnout, .. }, _, Some(train)) => {
            let settled = if holds(train.keys, *turnout) { "has a key" } else { "is cleared" };
            format!("turnout {turnout} {settled}")
        }
        _ => String::new(),
    }
}

/// 17: the parts of the rule that are broken.
fn place(station: &Station, number: u8, zone: &Zone, content: &Content) -> String {
    let work = works(zone).map_or(0, |works| works.turnouts);
    let mut bad = Vec::new();
    match *content {
        Content::WorkAsked { turnouts, .. } => {
            empty(&mut bad, turnouts, "turnouts");
            outside(&mut bad, turnouts & !station.of_zone(number), &format!("outside zone {number}"));
            bad.extend(groups::split(station, turnouts));
        }
        Content::DetectionOff { lost, portable } => {
            empty(&mut bad, lost | portable, "lost and portable device");
            outside(&mut bad, lost & portable, "in both lost and portable device");
            outside(&mut bad, (lost | portable) & !work, "outside the work");
        }
        Content::PartRestored { turnouts } => {
            empty(&mut bad, turnouts, "turnouts");
            outside(&mut bad, turnouts & !work, "outside the work");
            if turnouts == work {
                bad.push(format!("{} is the whole work", words::set(turnouts)));
            }
            bad.extend(groups::split(station, turnouts));
        }
        Content::MovementAsked { route } => bad.push(match station.routes.get(usize::from(route)) {
            Some(other) => format!("route {route} is of zone {}", other.zone),
            None => format!("route {route}, R is {}", station.routes.len()),
        }),
        Content::Cleared(Clearance { turnout, .. }) | Content::KeyUsed { turnout, .. } => {
            if !holds(zone.work.agreed_turnouts(), turnout) {
                bad.push(format!("turnout {turnout} is not under agreed work"));
            }
            if let Some(train) = state::standing(zone).filter(|train| !holds(train.route.named(), turnout)) {
                bad.push(format!("{} does not name turnout {turnout}", state::route(station, &train)));
            }
        }
        _ => {}
    }
    bad.join("; ")
}

fn empty(bad: &mut Vec<String>, set: Set, name: &str) {
    if set == 0 {
        bad.push(format!("{name} empty"));
    }
}

fn outside(bad: &mut Vec<String>, set: Set, place: &str) {
    if set != 0 {
        bad.push(format!("{} {place}", words::set(set)));
    }
}

/// 18: how far the work is, or the movement.
fn stage(zone: &Zone, content: &Content) -> String {
    match (of_movement(content), state::standing(zone), zone.work) {
        (true, Some(train), _) if train.ordered() => format!("train {} is ordered", train.id),
        (true, Some(train), _) => format!("train {} is not ordered", train.id),
        (false, _, Work::Asked(works)) => format!("the work of form {} is only asked", works.id),
        (false, _, Work::Agreed { works, since, .. }) => format!("form {} was agreed at {since}", works.id),
        _ => String::new(),
    }
}

/// 19: the turnouts that the movement names or has cleared.
fn conflict(station: &Station, content: &Content, works: Option<Works>, train: Option<Train>) -> String {
    let (Some(works), Some(train)) = (works, train) else {
        return String::new();
    };
    let named = |turnouts: Set| {
        let common = words::set(train.route.named() & turnouts);
        format!("train {} stands on {}, which names {common}", train.id, state::route(station, &train))
    };
    match *content {
        Content::DetectionOff { lost, portable } => {
            format!("{} cleared for train {}", words::set((lost | portable) & train.cleared), train.id)
        }
        Content::PartRestored { turnouts } => named(turnouts),
        _ => named(works.turnouts),
    }
}

/// 20: of position, declaration, clamp and what is covered, those that do not fit.
fn unfit(station: &Station, content: &Content, train: Option<Train>) -> String {
    let (Content::Cleared(clearance), Some(train)) = (content, train) else {
        return String::new();
    };
    let n = clearance.turnout;
    let Some(turnout) = station.turnout(n) else {
        return String::new();
    };
    let run_over = holds(train.route.run_over, n);
    let mut bad = Vec::new();
    if clearance.position != train.route.position(n) {
        bad.push(format!("the route has turnout {n} {}", words::position(train.route.position(n))));
    }
    if !clearance.fits_drive(turnout.drive) {
        let drive = sheet_text::drive(turnout.drive);
        bad.push(format!("declaration {} does not fit the drive, {drive}", clearance.declaration));
    }
    if !clearance.clamp_fits(run_over) {
        let part = if run_over { "run over" } else { "in flank or exit zone" };
        let (declaration, clamp) = (clearance.declaration, words::clamp(clearance.clamp));
        bad.push(format!("{clamp} does not fit declaration {declaration} on a turnout {part}"));
    }
    if !clearance.cover_fits(station.in_group(n)) {
        bad.push(covering(station, clearance));
    }
    bad.join("; ")
}

/// FIT-4: "with declaration 1 or 2 on a turnout of a group .. d5 is 1; in every other clearance d5 is 0".
fn covering(station: &Station, clearance: &Clearance) -> String {
    let (n, declaration) = (clearance.turnout, clearance.declaration);
    let Some(group) = groups::of(station, only(n)).pop() else {
        return format!("turnout {n} is alone: there is no group to cover");
    };
    let (number, turnouts) = (group.number, words::set(group.turnouts));
    let due = if clearance.covers_group { "may not say that it covers" } else { "must cover" };
    format!("declaration {declaration} on turnout {n} of group {number}, {turnouts}, {due} the whole group")
}

fn channel(content: &Content) -> &'static str {
    match content {
        Content::Cleared(Clearance { channel: Channel::Voice, .. }) => "voice, and the recorder is out",
        _ => "written, and the recorder works",
    }
}

/// 22.
fn regime(zone: &Zone, content: &Content) -> String {
    match *content {
        Content::DetectionOff { portable, .. } => {
            format!("portable device at {}, work under recorded verbal", words::set(portable))
        }
        Content::PartRestored { .. } => "the work is under M.45".to_string(),
        _ => state::regime(zone).map(|regime| format!("the regime is {regime}")).unwrap_or_default(),
    }
}

/// 23: where the route has the turnout.
fn key(station: &Station, content: &Content, train: Option<Train>) -> String {
    let (Content::KeyUsed { turnout, key }, Some(train)) = (content, train) else {
        return String::new();
    };
    let (key, route) = (words::key(*key), state::route(station, &train));
    if holds(train.route.run_over, *turnout) {
        return format!("{route} runs over turnout {turnout}: no key is for it");
    }
    format!("{route} has turnout {turnout} in its exit zone, and the key is {key}")
}
