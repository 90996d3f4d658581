//! Words for sets, values, records, and for the checks and effects of each kind, KIND-1 to KIND-13, in short.

use reference::clearance::{Channel, Clamp, Clearance, Position};
use reference::keys::Key;
use reference::message::{Aspect, Content, Form, Message};
use reference::movement::Regime;
use reference::refusal::Refusal;
use reference::set::{members, Set};
use reference::station::Station;

/// `{0,1}`.
pub fn set(set: Set) -> String {
    let turnouts: Vec<String> = members(set).map(|n| n.to_string()).collect();
    format!("{{{}}}", turnouts.join(","))
}

pub fn set_or_none(turnouts: Set) -> String {
    if turnouts == 0 {
        "none".to_string()
    } else {
        set(turnouts)
    }
}

pub fn list(items: &[String]) -> String {
    if items.is_empty() {
        "none".to_string()
    } else {
        items.join(", ")
    }
}

/// `1 record`, `2 records`.
pub fn count(number: usize, noun: &str) -> String {
    format!("{number} {noun}{}", if number == 1 { "" } else { "s" })
}

/// `3 turnouts, 1 route, 1 zone`.
pub fn station(station: &Station) -> String {
    let counts = [
        count(station.turnouts.len(), "turnout"),
        count(station.routes.len(), "route"),
        count(usize::from(station.zones), "zone"),
    ];
    counts.join(", ")
}

pub fn position(position: Position) -> &'static str {
    match position {
        Position::Normal => "normal",
        Position::Reverse => "reverse",
    }
}

pub fn clamp(clamp: Clamp) -> &'static str {
    match clamp {
        Clamp::None => "no clamp",
        Clamp::Clamp => "clamped",
        Clamp::Attended => "attended",
    }
}

pub fn medium(channel: Channel) -> &'static str {
    match channel {
        Channel::Voice => "by voice",
        Channel::Written => "in writing",
    }
}

pub fn form(form: Form) -> &'static str {
    match form {
        Form::M45 => "M.45",
        Form::RecordedVerbal => "recorded verbal",
        Form::Other(_) => "no known form",
    }
}

pub fn aspect(aspect: Aspect) -> &'static str {
    match aspect {
        Aspect::Clear => "clear",
        Aspect::Danger => "at danger",
    }
}

pub fn regime(regime: Regime) -> &'static str {
    match regime {
        Regime::Held => "held",
        Regime::Clear => "clear",
        Regime::Danger => "danger",
    }
}

pub fn key(key: Key) -> &'static str {
    match key {
        Key::Tcl => "Tcl",
        Key::Es => "Es",
    }
}

/// FIT-5: "Declarations 1 and 2 mean all efficient; 3, 5, 7 lack detection; 4, 6, 8, 9 lack more."
pub fn declaration(number: u8) -> &'static str {
    match number {
        1 | 2 => "all efficient",
        3 | 5 | 7 => "lacks detection",
        _ => "lacks more than detection",
    }
}

/// What the message says, whether or not it is accepted.
pub fn said(message: &Message, content: &Content) -> String {
    let id = message.id;
    match *content {
        Content::WorkAsked { turnouts, form: asked } => {
            format!("work asked on turnouts {} by {}, form {id}", set(turnouts), form(asked))
        }
        Content::Agreed => format!("agreement to the work of form {id}"),
        Content::Withdrawn => format!("withdrawal of the request of form {id}"),
        Content::DetectionOff { lost, portable } => format!(
            "detection off under form {id}, lost at {}, portable device at {}",
            set_or_none(lost),
            set_or_none(portable)
        ),
        Content::MovementAsked { route } => format!("movement of train {id} asked over route {route}"),
        Content::Cleared(clearance) => {
            format!("clearance of turnout {} for train {id}, {}", clearance.turnout, declared(&clearance))
        }
        Content::Ordered(ordered) => format!("order to train {id} with signals {}", aspect(ordered)),
        Content::Passed => format!("train {id} passed"),
        Content::Cancelled => format!("movement of train {id} cancelled"),
        Content::PartRestored { turnouts } => format!("turnouts {} of form {id} restored", set(turnouts)),
        Content::AllRestored => format!("all turnouts of form {id} restored"),
        Content::Recorder { working } => format!("recorder {}", recorder(working)),
        Content::KeyUsed { turnout, key: used } => format!("key {} used for turnout {turnout}, train {id}", key(used)),
    }
}

fn declared(clearance: &Clearance) -> String {
    format!(
        "declaration {} ({}), {}, {}, {}{}",
        clearance.declaration,
        declaration(clearance.declaration),
        position(clearance.position),
        clamp(clearance.clamp),
        medium(clearance.channel),
        if clearance.covers_group { ", covering the whole group" } else { "" }
    )
}

pub fn recorder(working: bool) -> &'static str {
    if working {
        "working"
    } else {
        "out"
    }
}

/// The check that refused a message that reads: HEAR-2, HEAR-3, or a check of its kind after 14, KIND-1 to KIND-13.
pub fn check(content: &Content, refusal: Refusal) -> &'static str {
    use Content::*;
    match (refusal, content) {
        (Refusal::Zone, _) => "zone not below Z",
        (Refusal::Clock, _) => "time before the zone's last accepted",
        (Refusal::UnknownId, _) => "no work or movement under this id",
        (Refusal::Occupied, WorkAsked { .. }) => "work in zone",
        (Refusal::Occupied, MovementAsked { .. }) => "movement in zone",
        (Refusal::Occupied, _) => "cleared already, or with a key",
        (Refusal::Place, WorkAsked { .. }) => "a empty, outside the zone or splitting a group (Art. 2.16, 2.19)",
        (Refusal::Place, DetectionOff { .. }) => "both empty, overlapping or outside the work",
        (Refusal::Place, MovementAsked { .. }) => "route not below R or of another zone",
        (Refusal::Place, Cleared(_) | KeyUsed { .. }) => "not under agreed work or not named",
        (Refusal::Place, _) => "a empty, not a proper part of the work, or splitting a group",
        (Refusal::Stage, Agreed) => "work agreed already",
        (Refusal::Stage, Withdrawn) => "work agreed",
        (Refusal::Stage, Ordered(_)) => "movement ordered already",
        (Refusal::Stage, Passed) => "movement not ordered",
        (Refusal::Stage, Cancelled) => "movement ordered",
        (Refusal::Stage, _) => "work not agreed",
        (Refusal::Conflict, DetectionOff { .. }) => "a cleared turnout in a or b",
        (Refusal::Conflict, PartRestored { .. }) => "a standing movement names a turnout of a",
        (Refusal::Conflict, _) => "a standing movement names a turnout of the work",
        (Refusal::Unfit, _) => {
            "position, declaration and clamp must fit the route and the drive (Annex C, Art. 4.10); declarations 1 and \
             2 on a turnout of a group cover the whole group, no other clearance does (Art. 3.24)"
        }
        (Refusal::Channel, _) => "voice needs a working recorder, written one that is out (Art. 3.26)",
        (Refusal::Regime, DetectionOff { .. }) => "b not empty under verbal (Art. 3.19, 3.20)",
        (Refusal::Regime, PartRestored { .. }) => "part restored under M.45 (Art. 2.13)",
        (Refusal::Regime, Ordered(Aspect::Clear)) => "clear needs the regime clear",
        (Refusal::Regime, _) => "danger needs a regime that is not held",
        (Refusal::Key, _) => "a key is for a flank turnout, Es also for one in the exit zone (Art. 3.22)",
        _ => "a rule of the record or journal",
    }
}

/// The checks that an accepted message has met.
pub fn met(content: &Content) -> &'static str {
    match content {
        Content::WorkAsked { .. } => {
            "no other work in the zone; turnouts of the zone, no group split (Art. 2.16, 2.19)"
        }
        Content::Agreed => "work asked, not yet agreed; no standing movement names a turnout of the work",
        Content::Withdrawn => "work asked, not agreed",
        Content::DetectionOff { .. } => "work agreed; turnouts of the work, none of them cleared (Art. 3.19, 3.20)",
        Content::MovementAsked { .. } => "no other movement in the zone; a route of the zone",
        Content::Cleared(_) => {
            "under agreed work, named by the route, neither cleared nor with a key; position, declaration and clamp \
             fit (Annex C), and so does what it covers (Art. 3.24); the medium fits the recorder (Art. 3.26)"
        }
        Content::Ordered(Aspect::Clear) => "not yet ordered; clear needs the regime clear",
        Content::Ordered(Aspect::Danger) => "not yet ordered; danger needs a regime that is not held",
        Content::Passed => "movement ordered",
        Content::Cancelled => "movement not ordered",
        Content::PartRestored { .. } => {
            "work agreed under verbal (Art. 2.13); a proper part, no group split; no standing movement names it"
        }
        Content::AllRestored => "work agreed; no standing movement names a turnout of the work",
        Content::Recorder { .. } => "no check after the time",
        Content::KeyUsed { .. } => {
            "under agreed work, named by the route, neither cleared nor with a key; the key may be used for it \
             (Art. 3.22)"
        }
    }
}

/// What the message does when accepted: KIND-1.3, KIND-2.4, KIND-3.3, KIND-4.6, KIND-5.3, KIND-6.6, KIND-7.4, KIND-8.3,
/// KIND-9.3, KIND-10.6, KIND-11.4, KIND-12.1, KIND-13.5.
pub fn effect(content: &Content) -> String {
    match *content {
        Content::WorkAsked { .. } => "work asked".to_string(),
        Content::Agreed => "agreed, at this time".to_string(),
        Content::Withdrawn | Content::AllRestored => "no work".to_string(),
        Content::DetectionOff { lost, portable } => format!("{} open to work", set(lost | portable)),
        Content::MovementAsked { .. } => "movement asked".to_string(),
        Content::Cleared(clearance) => format!("turnout {} cleared, shut to work", clearance.turnout),
        Content::Ordered(_) => "ordered".to_string(),
        Content::Passed | Content::Cancelled => "no movement, clearance or key".to_string(),
        Content::PartRestored { turnouts } => format!("{} leaves the work, shut to work", set(turnouts)),
        Content::KeyUsed { turnout, .. } => {
            format!("turnout {turnout} lacks nothing; it is not cleared, and open or shut to work as before")
        }
        Content::Recorder { working } => format!("recorder {}", recorder(working)),
    }
}
