//! Numbers and opening messages that the cases of lists share.

use reference::builders::*;
use reference::message::Message;

pub const M45: u8 = 1;
pub const VERBAL: u8 = 2;
pub const HELD: u8 = 0;
pub const CLEAR: u8 = 1;
pub const DANGER: u8 = 2;
pub const VOICE: u8 = 1;
pub const WRITTEN: u8 = 2;
pub const FORM: u32 = 7;
pub const TRAIN: u32 = 512;
/// The lowest turnout lacking a clearance, where none does.
pub const NONE: u8 = 255;

/// Work asked and agreed.
pub fn work(form: u8, turnouts: &[u8]) -> Vec<Message> {
    vec![work_asked(FORM, form, turnouts), agreed(FORM)]
}

/// Work agreed, then a movement over a route.
pub fn work_and_train(form: u8, turnouts: &[u8], route: u8) -> Vec<Message> {
    then(work(form, turnouts), &[movement_asked(TRAIN, route)])
}

/// A list with more messages after it.
pub fn then(mut list: Vec<Message>, more: &[Message]) -> Vec<Message> {
    list.extend(more);
    list
}

/// One message of each kind whose fields are good; work on these turnouts.
pub fn one_of_each(turnouts: &[u8]) -> [Message; 13] {
    [
        work_asked(FORM, M45, turnouts),
        agreed(FORM),
        withdrawn(FORM),
        detection_off(FORM, turnouts, &[]),
        movement_asked(TRAIN, 0),
        cleared(TRAIN, [2, 1, 0, 0, VOICE]),
        ordered(TRAIN, CLEAR),
        passed(TRAIN),
        cancelled(TRAIN),
        part_restored(FORM, &[2]),
        all_restored(FORM),
        recorder(1),
        key_used(TRAIN, 2, 1),
    ]
}
