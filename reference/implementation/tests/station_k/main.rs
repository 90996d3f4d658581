//! Station K's cases, K-2 to K-9, and a few more of the rules before them, on the whole desk. Here: what they share.

mod cases;
mod journal;
mod minutes;
mod whole_group;

use reference::builders::*;
use reference::desk::Desk;
use reference::message::Message;
use reference::refusal::number;
use reference::sheet;
use reference::station::Station;

fn station() -> Station {
    sheet::read(&station_k().bytes()).expect("station K reads")
}

/// The code of the last message, on a fresh desk of station K; those before it are accepted.
fn last_code(messages: &[Message]) -> u8 {
    let station = station();
    let mut desk = Desk::fresh(&station);
    let (last, before) = messages.split_last().expect("a message");
    for message in before {
        assert_eq!(number(&desk.hear(message)), 0, "{message:?}");
    }
    number(&desk.hear(last))
}

fn verbal_work_on_2() -> Vec<Message> {
    vec![work_asked(7, 2, &[2]), agreed(7)]
}

fn with(mut list: Vec<Message>, more: &[Message]) -> Vec<Message> {
    list.extend(more);
    list
}
