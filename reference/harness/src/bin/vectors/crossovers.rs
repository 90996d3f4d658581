//! Cases of sets that split a crossover of 64 turnouts or keep it whole, mostly that of turnout 63 or of turnout 0.
//! VALUE-1: "Its result is the same for every set and station."

use crate::cases::Cases;
use crate::scenes::*;
use reference::builders::*;
use reference::drafts::Sheet;
use reference::message::Message;
use reference::sheet::{ELECTRIC, HAND};

/// 64 turnouts in one zone: 0-1 and 62-63 are crossovers, the others alone.
fn first_and_last() -> Vec<u8> {
    let all_but_last = (2..62).fold(Sheet::new(1).crossover(0, ELECTRIC), |sheet, _| sheet.turnout(0, ELECTRIC));
    all_but_last.crossover(0, ELECTRIC).bytes()
}

/// 64 turnouts in one zone, all in crossovers: 0-63, 1-62 and so on to 31-32.
fn end_to_end() -> Vec<u8> {
    Sheet { turnouts: (0..64).map(|n| [0, 63 - n, HAND]).collect(), ..Sheet::new(1) }.bytes()
}

fn asked(turnouts: &[u8]) -> Message {
    work_asked(FORM, VERBAL, turnouts)
}

fn restored(turnouts: &[u8]) -> Message {
    part_restored(FORM, turnouts)
}

pub fn add(cases: &mut Cases) {
    let c = cases;
    let ends = first_and_last();
    let split = [&[63][..], &[62], &[0], &[1], &[0, 1, 63], &[0, 62, 63]].map(asked);
    let requests = then(split.to_vec(), &[asked(&[0, 1, 62, 63])]);
    // Kind 1: one end, one of two split, both whole.
    c.codes(&[17, 17, 17, 17, 17, 17, 0], &ends, &requests);
    let parts = [&[63][..], &[62], &[0], &[1, 62, 63], &[62, 63], &[0, 1]].map(restored);
    let parted = then(work(VERBAL, &[0, 1, 31, 62, 63]), &parts);
    // Kind 10: one end, one of two split, each whole; 31 is left.
    c.codes(&[0, 0, 17, 17, 17, 17, 0, 0], &ends, &parted);

    let all: Vec<u8> = (0..64).collect();
    let requests = [&all[..63], &all[1..], &[0], &[63], &[31, 32, 63], &all].map(asked);
    let parts = [&all[..63], &all[1..], &[63], &[0, 63], &[1, 32, 62], &all[1..63]].map(restored);
    let list = [&requests[..], &[agreed(FORM)], &parts].concat();
    let codes = [17, 17, 17, 17, 17, 0, 0, 17, 17, 17, 0, 17, 17];
    // All but one end, one end, another crossover split, whole. The last part is all that is left of the work.
    c.codes(&codes, &end_to_end(), &list);
}
