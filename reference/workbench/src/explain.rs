//! A journal explained record by record: what it says, its answer and the rule behind it, what it leaves in its zone.

use crate::{reasons, refused, state, words};
use reference::desk::Desk;
use reference::journal;
use reference::message::{self, Content, Message};
use reference::minutes;
use reference::refusal::{number, Refusal};
use reference::replay::Answer;
use reference::station::Station;
use reference::work::Work;
use reference::zone::Zone;

pub fn explain(station: &Station, journal: &[u8]) -> Result<String, Refusal> {
    let mut desk = Desk::fresh(station);
    let mut text = opening(station, journal::check(journal)?);
    for (n, record) in (1u32..).zip(journal::records(journal)?) {
        let before = desk.clone();
        let answer = desk.hear_record(record);
        text.push('\n');
        text += &match message::read(record) {
            Ok(message) => heard(n, &message, &answer, &before, &desk),
            Err(refusal) => unread(n, record, refusal),
        };
    }
    Ok(text)
}

fn opening(station: &Station, records: u32) -> String {
    format!(
        "Station of {}; journal of {}. Times in seconds.\n",
        words::station(station),
        words::count(records as usize, "record")
    )
}

fn unread(n: u32, record: &[u8], refusal: Refusal) -> String {
    format!(
        "Record {n}: {}.\n  Answer {}, 0 minutes: refused before any zone is looked at; nothing altered.\n",
        refused::record(record, refusal),
        refusal.number()
    )
}

fn heard(n: u32, message: &Message, answer: &Answer, before: &Desk, after: &Desk) -> String {
    let Ok(content) = message.content() else {
        return String::new();
    };
    let (time, zone) = (message.time, message.zone);
    let minutes = words::count(answer.unwrap_or(0) as usize, "minute");
    let verdict = match answer {
        Ok(_) => accepted(message, &content, before),
        Err(refusal) => {
            let (check, reason) =
                (words::check(&content, *refusal), reasons::reason(before, message, &content, *refusal));
            format!("refused: {check}. Here: {reason}. Nothing altered.")
        }
    };
    let mut text = format!("Record {n}, time {time}, zone {zone}: {}.\n", words::said(message, &content));
    text += &format!("  Answer {}, {minutes}: {verdict}\n", number(answer));
    if let Some(held) = after.zone(zone) {
        for line in state::zone(after.station(), zone, held) {
            text += &format!("  {line}\n");
        }
    }
    text
}

/// The checks met, the effect, and what the zone before it adds to them.
fn accepted(message: &Message, content: &Content, before: &Desk) -> String {
    let stated = format!("accepted: {}. Effect: {}.", words::met(content), words::effect(content));
    match before.zone(message.zone).and_then(|zone| detail(message, content, zone)) {
        Some(detail) => format!("{stated} {detail}"),
        None => stated,
    }
}

/// Where the minutes come from, the regime an order rests on, what a movement at its end leaves shut and which keys
/// lapse.
fn detail(message: &Message, content: &Content, zone: &Zone) -> Option<String> {
    match (content, zone.work) {
        (Content::AllRestored, Work::Agreed { since, .. }) => {
            let seconds = message.time.saturating_sub(since);
            Some(format!("Agreed at {since}: {seconds} seconds, {}.", rounding(seconds)))
        }
        (Content::Ordered(_), _) => state::regime(zone).ok().map(|regime| format!("The regime: {regime}.")),
        (Content::Passed | Content::Cancelled, work) => {
            let train = state::standing(zone)?;
            let parts = [
                (train.cleared & work.agreed_turnouts(), "stays shut to work until a new detection off."),
                (train.keys, "has no key any more."),
            ];
            let parts = parts.iter().filter(|(turnouts, _)| *turnouts != 0);
            let parts: Vec<String> =
                parts.map(|(turnouts, what)| format!("{} {what}", words::set(*turnouts))).collect();
            (!parts.is_empty()).then(|| parts.join(" "))
        }
        _ => None,
    }
}

/// MINUTES-1: "to the nearest whole minute, and an exact half minute goes to the even one".
fn rounding(seconds: u32) -> &'static str {
    if minutes::exact_half(seconds) {
        "an exact half minute, to the even whole minute"
    } else {
        "to the nearest whole minute"
    }
}
