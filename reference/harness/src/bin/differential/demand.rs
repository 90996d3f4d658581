//! Demand 3 on this implementation's own history: its four sentences, HIST-9, HIST-10, HIST-11 and HIST-12, after a
//! list. 'All efficient' is that of HIST-7, 'signals clear' that of HIST-11.

use reference::desk::Desk;
use reference::history::History;
use reference::message::{Message, RECORD};
use reference::movement::Regime;
use reference::replay::Answer;
use reference::set::members;

/// The accepted messages and their minutes, or the sentence that does not hold.
pub fn check(heard: &[([u8; RECORD], Answer)], desk: &Desk) -> Result<Vec<(Message, u32)>, String> {
    let accepted: Vec<(Message, u32)> = heard
        .iter()
        .filter_map(|(record, answer)| answer.ok().map(|minutes| (Message::from_bytes(record), minutes)))
        .collect();
    for zone in 0..desk.station().zones {
        let of_zone: Vec<Message> =
            accepted.iter().map(|(message, _)| *message).filter(|message| message.zone == zone).collect();
        zone_sentences(History(&of_zone), desk, zone)?;
    }
    struck(&accepted, desk)?;
    Ok(accepted)
}

fn zone_sentences(history: History, desk: &Desk, zone: u8) -> Result<(), String> {
    let station = desk.station();
    for turnout in 0..64 {
        let open = history.open_to_work(turnout);
        if open && history.cleared(turnout) {
            return Err(format!("sentence 1: turnout {turnout} is both open to work and cleared"));
        }
        let of_zone = station.turnout(turnout).is_some_and(|turnout| turnout.zone == zone);
        if of_zone && desk.work_question(turnout) != Ok(open) {
            return Err(format!("sentence 2: the work question for turnout {turnout}, open to work: {open}"));
        }
        if !of_zone && open {
            return Err(format!("sentence 2: turnout {turnout} is open to work in zone {zone}, not its own"));
        }
    }
    let (Some(asked), Some(route)) = (history.standing(), history.route(station)) else {
        return Ok(());
    };
    let answer = desk.movement_question(zone, asked.id);
    let clear = answer.map(|answer| answer.regime == Regime::Clear);
    let good = members(route.named())
        .filter(|&turnout| history.under_agreed_work(turnout))
        .all(|turnout| history.released(station, turnout));
    if clear != Ok(good) {
        return Err(format!("sentence 3: zone {zone}, train {}: {clear:?}, by the history {good}", asked.id));
    }
    let lacking = history.lacking(station);
    let stated = (members(lacking).next(), members(lacking).count());
    if answer.map(|answer| (answer.lowest, usize::from(answer.count))) != Ok(stated) {
        return Err(format!("lacking: zone {zone}, train {}: {answer:?}, by the history {stated:?}", asked.id));
    }
    Ok(())
}

/// Striking the refused messages gives the same desk and the same answers.
fn struck(accepted: &[(Message, u32)], desk: &Desk) -> Result<(), String> {
    let mut again = Desk::fresh(desk.station());
    for (n, (message, minutes)) in accepted.iter().enumerate() {
        if again.hear(message) != Ok(*minutes) {
            return Err(format!("sentence 4: accepted message {} (from 1) answered otherwise", n + 1));
        }
    }
    if again != *desk {
        return Err("sentence 4: another desk".into());
    }
    Ok(())
}
