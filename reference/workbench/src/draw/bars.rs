//! The bars of a zone's lane: its work and what of it is open, its movement by its order, its recorder where it is out.
//! A bar goes over the rows after which the zone holds the same.

use super::columns::{Lane, Span};
use super::ink;
use super::placed::Placed;
use super::svg::{Area, Svg};
use crate::state;
use reference::message::Aspect;
use reference::work::Work;
use reference::zone::Zone;

pub fn draw(svg: &mut Svg, rows: &[Placed], zone: usize, lane: Lane) {
    for (top, bottom, works) in runs(rows, zone, works) {
        let ink = if works.agreed { ink::WORK_AGREED } else { ink::WORK_ASKED };
        svg.rect(bar(lane.work(), top, bottom), ink);
    }
    for (top, bottom, _) in runs(rows, zone, |zone| Some(zone.work.open()).filter(|open| *open != 0)) {
        svg.rect(inner(bar(lane.work(), top, bottom)), ink::OPEN);
    }
    for (top, bottom, (_, order)) in runs(rows, zone, order) {
        svg.rect(bar(lane.movement(), top, bottom), movement(order));
    }
    for (top, bottom, ()) in runs(rows, zone, |zone| (!zone.recorder_working).then_some(())) {
        svg.rect(bar(lane.recorder(), top, bottom), ink::BLACK);
    }
}

/// The bar of a movement by its order: 0 none, 1 clear, 2 danger.
fn movement(order: u8) -> &'static str {
    match order {
        0 => ink::MOVEMENT_ASKED,
        order if order == Aspect::Clear as u8 => ink::CLEAR,
        _ => ink::DANGER,
    }
}

/// The inner bar, for what is open.
pub fn inner(area: Area) -> Area {
    Area { x: area.x + 4, width: area.width - 8, ..area }
}

fn bar(span: Span, top: i32, bottom: i32) -> Area {
    Area { x: span.x, y: top, width: span.width, height: bottom - top }
}

#[derive(PartialEq)]
struct Shown {
    form: u32,
    turnouts: u64,
    agreed: bool,
}

fn works(zone: &Zone) -> Option<Shown> {
    let shown = |works: reference::work::Works, agreed| Shown { form: works.id, turnouts: works.turnouts, agreed };
    match zone.work {
        Work::None => None,
        Work::Asked(works) => Some(shown(works, false)),
        Work::Agreed { works, .. } => Some(shown(works, true)),
    }
}

/// The train and its order.
fn order(zone: &Zone) -> Option<(u32, u8)> {
    state::standing(zone).map(|train| (train.id, train.order))
}

/// The top, the bottom and what is held, for each run of rows after which the zone holds the same.
fn runs<T: PartialEq>(rows: &[Placed], zone: usize, held: impl Fn(&Zone) -> Option<T>) -> Vec<(i32, i32, T)> {
    let mut runs: Vec<(i32, i32, T)> = Vec::new();
    let mut going = false;
    for placed in rows {
        let (top, bottom) = (placed.y, placed.y + placed.height);
        let Some(now) = held(&placed.row.after[zone]) else {
            going = false;
            continue;
        };
        match runs.last_mut() {
            Some((_, end, same)) if going && *same == now => *end = bottom,
            _ => runs.push((top, bottom, now)),
        }
        going = true;
    }
    runs
}
