//! What a record leaves in its zone's lane: labels of what changed in work and movement, and a mark for a clearance, a
//! key or a refusal. All from the zone before and after the record.

use super::rows::Row;
use crate::{state, words};
use reference::message::Content;
use reference::movement::Regime;
use reference::set::{holds, Set};
use reference::work::Work;
use reference::zone::Zone;

#[derive(Clone, Copy, Debug, PartialEq, Eq)]
pub enum Mark {
    /// A clearance that declares all efficient.
    Efficient,
    /// A clearance that lacks something.
    Lacking,
    Key,
    Refused,
}

/// Which bar a mark stands on.
#[derive(Clone, Copy, Debug, PartialEq, Eq)]
pub enum Bar {
    Work,
    Movement,
}

/// The mark, where there is one, and the labels, each on a line of its own.
#[derive(Clone, Debug, Default, PartialEq, Eq)]
pub struct Notes {
    pub mark: Option<(Bar, Mark)>,
    pub labels: Vec<String>,
}

/// None for a record of no zone.
pub fn notes(row: &Row) -> Notes {
    let (Some((_, content)), Some((_, before, after))) = (row.heard, row.zone()) else {
        return Notes::default();
    };
    if let Err(refusal) = row.answer {
        let bar = if of_movement(&content) { Bar::Movement } else { Bar::Work };
        return Notes { mark: Some((bar, Mark::Refused)), labels: vec![refusal.number().to_string()] };
    }
    let (mark, label) = movement(&before, &after, &content);
    let label = with_regime(label, regime(&before), regime(&after));
    let labels = label.into_iter().chain(work(&before, &after)).collect();
    Notes { mark: mark.map(|mark| (Bar::Movement, mark)), labels }
}

fn of_movement(content: &Content) -> bool {
    use Content::*;
    matches!(content, MovementAsked { .. } | Cleared(_) | KeyUsed { .. } | Ordered(_) | Passed | Cancelled)
}

/// A set in a label: its turnouts, or how many there are; the record's words have them all.
fn short(set: Set) -> String {
    match set.count_ones() as usize {
        many @ 7.. => words::count(many, "turnout"),
        _ => words::set(set),
    }
}

/// How the work changes, what is open after it, and the recorder.
fn work(before: &Zone, after: &Zone) -> Vec<String> {
    let mut labels = Vec::new();
    match (before.work, after.work) {
        (Work::None, Work::Asked(works)) => labels.push(format!("form {}, {}", works.id, short(works.turnouts))),
        (Work::Asked(_), Work::Agreed { .. }) => labels.push("agreed".to_string()),
        (Work::Asked(_), Work::None) => labels.push("withdrawn".to_string()),
        (Work::Agreed { .. }, Work::None) => labels.push("restored".to_string()),
        (Work::Agreed { works: old, .. }, Work::Agreed { works, .. }) if old != works => {
            labels.push(format!("still {}", short(works.turnouts)));
        }
        _ => {}
    }
    if before.work.open() != after.work.open() && after.work != Work::None {
        labels.push(match after.work.open() {
            0 => "none open".to_string(),
            open => format!("open {}", short(open)),
        });
    }
    if before.recorder_working != after.recorder_working {
        labels.push(format!("recorder {}", words::recorder(after.recorder_working)));
    }
    labels
}

/// The regime of the zone's movement.
fn regime(zone: &Zone) -> Option<Regime> {
    zone.standing(state::standing(zone)?.id).ok().map(|standing| standing.regime)
}

/// The label, and the regime where it is another than before.
fn with_regime(label: Option<String>, before: Option<Regime>, after: Option<Regime>) -> Option<String> {
    let changed = after.filter(|_| before != after).map(words::regime);
    match (label, changed) {
        (Some(label), Some(regime)) => Some(format!("{label}: {regime}")),
        (label, regime) => label.or(regime.map(str::to_string)),
    }
}

/// How the movement changes.
fn movement(before: &Zone, after: &Zone, content: &Content) -> (Option<Mark>, Option<String>) {
    match (state::standing(before), state::standing(after), content) {
        (None, Some(train), _) => (None, Some(format!("train {}, route {}", train.id, train.number))),
        (Some(train), None, _) => (None, Some(if train.ordered() { "passed" } else { "cancelled" }.to_string())),
        (Some(old), Some(train), Content::Ordered(aspect)) if old.order != train.order => {
            (None, Some(format!("ordered {}", words::aspect(*aspect))))
        }
        (Some(old), Some(train), Content::Cleared(clearance)) if old.cleared != train.cleared => {
            let efficient = holds(train.efficient, clearance.turnout);
            let mark = if efficient { Mark::Efficient } else { Mark::Lacking };
            (Some(mark), Some(format!("{}, decl. {}", clearance.turnout, clearance.declaration)))
        }
        (Some(old), Some(train), Content::KeyUsed { turnout, key }) if old.keys != train.keys => {
            (Some(Mark::Key), Some(format!("{turnout}, key {}", words::key(*key))))
        }
        _ => (None, None),
    }
}
