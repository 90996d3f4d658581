//! What a zone holds, in words: its work and what is open, its movement, what is cleared or has a key, the regime.

use crate::words;
use reference::movement::{Movement, Regime, Train};
use reference::refusal::Refusal;
use reference::set::Set;
use reference::station::Station;
use reference::work::{Work, Works};
use reference::zone::Zone;

/// One line for the work, one for the movement.
pub fn zone(station: &Station, number: u8, zone: &Zone) -> [String; 2] {
    let recorder = if zone.recorder_working { "" } else { " Recorder: out." };
    [
        format!("Work in zone {number}: {}. Open to work: {}.{recorder}", work(zone), open(zone)),
        format!("Movement in zone {number}: {}.", movement(station, zone)),
    ]
}

fn work(zone: &Zone) -> String {
    let of =
        |works: Works| format!("on {}, form {}, {}", words::set(works.turnouts), works.id, words::form(works.form));
    match zone.work {
        Work::None => "none".to_string(),
        Work::Asked(works) => format!("asked {}", of(works)),
        Work::Agreed { works, since, .. } => format!("agreed at {since} {}", of(works)),
    }
}

/// What is open, and which others of the agreed work are not.
fn open(zone: &Zone) -> String {
    let open = zone.work.open();
    match zone.work.agreed_turnouts() & !open {
        shut if open != 0 && shut != 0 => format!("{}, not {}", words::set(open), words::set(shut)),
        _ => words::set_or_none(open),
    }
}

fn movement(station: &Station, zone: &Zone) -> String {
    let Some(train) = standing(zone) else {
        return "none. Cleared: none. Keys: none".to_string();
    };
    format!(
        "train {} on {}, {}. Cleared: {}. Keys: {}. Regime: {}",
        train.id,
        route(station, &train),
        if train.ordered() { "ordered" } else { "not ordered" },
        words::set_or_none(train.cleared),
        words::set_or_none(train.keys),
        regime(zone).unwrap_or_default()
    )
}

pub fn standing<'s>(zone: &Zone<'s>) -> Option<Train<'s>> {
    match zone.movement {
        Movement::Standing(train) => Some(train),
        Movement::None => None,
    }
}

/// `route 0`, by its place in the station.
pub fn route(station: &Station, train: &Train) -> String {
    match station.routes.iter().position(|route| std::ptr::eq(route, train.route)) {
        Some(n) => format!("route {n}"),
        None => "a route of no number".to_string(),
    }
}

/// The regime of the standing movement and the turnouts it comes from.
pub fn regime(zone: &Zone) -> Result<String, Refusal> {
    let train = standing(zone).ok_or(Refusal::UnknownId)?;
    let standing = zone.standing(train.id)?;
    let worked: Set = train.route.named() & zone.work.agreed_turnouts();
    let by_clearance = worked & !train.keys;
    Ok(match standing.regime {
        Regime::Held => format!("held, {} without a clearance or a key", words::set(standing.lacking)),
        Regime::Clear if worked == 0 => "clear, no turnout of the route under agreed work".to_string(),
        Regime::Clear => {
            let parts =
                [(by_clearance, "cleared as all efficient"), (worked & train.keys, "released by a key")].into_iter();
            let parts = parts.filter(|(turnouts, _)| *turnouts != 0);
            let parts: Vec<String> = parts.map(|(turnouts, how)| format!("{} {how}", words::set(turnouts))).collect();
            format!("clear, {}", words::list(&parts))
        }
        Regime::Danger => {
            format!("danger, {} cleared, but not as all efficient", words::set(by_clearance & !train.efficient))
        }
    })
}
