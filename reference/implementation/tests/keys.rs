//! Release keys (KIND-13): station K's two scenes, a station with an exit zone, the order of checks,
//! on the whole desk. Keys in a unit's bytes stand in `unit`, in the history in `history`.

use reference::builders::*;
use reference::desk::Desk;
use reference::drafts::Sheet;
use reference::message::{self, Message};
use reference::movement::Regime;
use reference::refusal::{number, Refusal};
use reference::sheet;
use reference::station::Station;

const TCL: u8 = 1;
const ES: u8 = 2;
const FORM: u32 = 7;
const TRAIN: u32 = 512;

fn station(sheet: &Sheet) -> Station {
    sheet::read(&sheet.bytes()).expect("a good sheet")
}

fn asked_over(turnouts: &[u8]) -> Vec<Message> {
    vec![work_asked(FORM, 1, turnouts), agreed(FORM), detection_off(FORM, turnouts, &[]), movement_asked(TRAIN, 0)]
}

/// Station K: turnout 2, flank, at work.
fn scene_1() -> Vec<Message> {
    asked_over(&[2])
}

/// Station K: the crossover of turnout 0, run over, at work.
fn scene_2() -> Vec<Message> {
    asked_over(&[0, 1])
}

/// The station with an exit zone, all of it at work.
fn all_at_work() -> Vec<Message> {
    asked_over(&[0, 1, 2, 3, 4, 5])
}

fn with(mut list: Vec<Message>, more: &[Message]) -> Vec<Message> {
    list.extend(more);
    list
}

/// Turnout 0, a run-over crossover's end, cleared as all efficient; 5 likewise, alone.
fn run_over_cleared() -> [Message; 2] {
    [cleared(TRAIN, [0, 1, 0, 0, 1]).whole_group(), cleared(TRAIN, [5, 2, 0, 0, 1])]
}

/// The desk after a list of accepted messages.
fn heard<'s>(station: &'s Station, messages: &[Message]) -> Desk<'s> {
    let mut desk = Desk::fresh(station);
    for message in messages {
        assert_eq!(number(&desk.hear(message)), 0, "{message:?}");
    }
    desk
}

/// The code of each of these messages, each on the desk that the list left.
fn codes<const N: usize>(sheet: &Sheet, list: &[Message], tried: [Message; N]) -> [u8; N] {
    let station = station(sheet);
    let desk = heard(&station, list);
    tried.map(|message| number(&desk.clone().hear(&message)))
}

fn code(sheet: &Sheet, list: &[Message], message: Message) -> u8 {
    codes(sheet, list, [message])[0]
}

/// Regime, lowest and count.
fn answer(sheet: &Sheet, list: &[Message], train: u32) -> (Regime, Option<u8>, u8) {
    let station = station(sheet);
    let answer = heard(&station, list).movement_question(0, train).expect("stands");
    (answer.regime, answer.lowest, answer.count)
}

fn open(sheet: &Sheet, list: &[Message], turnout: u8) -> bool {
    heard(&station(sheet), list).work_question(turnout).expect("a turnout of the station")
}

#[test]
fn scene_1_of_station_k() {
    let k = station_k();
    assert_eq!(code(&k, &scene_1(), key_used(TRAIN, 0, ES)), 17); // not under work
    assert_eq!(code(&k, &scene_1(), ordered(TRAIN, 1)), 22);
    let keyed = with(scene_1(), &[key_used(TRAIN, 2, TCL)]);
    assert_eq!(answer(&k, &keyed, TRAIN), (Regime::Clear, None, 0));
    assert!(open(&k, &keyed, 2));
    assert_eq!(code(&k, &keyed, ordered(TRAIN, 1)), 0);
    assert_eq!(codes(&k, &keyed, [key_used(TRAIN, 2, TCL), key_used(TRAIN, 2, ES)]), [16, 16]);
    let clearances = [cleared(TRAIN, [2, 1, 0, 0, 1]), cleared(TRAIN, [2, 8, 0, 0, 1])];
    assert_eq!(codes(&k, &keyed, clearances), [16, 16]);
    let next = with(keyed, &[ordered(TRAIN, 1), passed(TRAIN), movement_asked(513, 0)]);
    assert_eq!(answer(&k, &next, 513), (Regime::Held, Some(2), 1));
    assert!(open(&k, &next, 2));
    assert_eq!(code(&k, &next, key_used(513, 2, ES)), 0);
}

#[test]
fn scene_2_of_station_k() {
    let k = station_k();
    assert_eq!(codes(&k, &scene_2(), [key_used(TRAIN, 0, ES), key_used(TRAIN, 0, TCL)]), [23, 23]);
    assert_eq!(answer(&k, &scene_2(), TRAIN), (Regime::Held, Some(0), 1));
    assert_eq!(code(&k, &scene_2(), cleared(TRAIN, [0, 3, 0, 0, 1])), 0); // the refused key left nothing
}

/// KIND-13.4: "unless the turnout is flank, or is in the exit zone and the key is Es".
#[test]
fn which_key_where() {
    let both = |turnout: u8| [key_used(TRAIN, turnout, TCL), key_used(TRAIN, turnout, ES)];
    let codes_of = |turnout: u8| codes(&exit_zone_station(), &all_at_work(), both(turnout));
    assert_eq!([0, 5].map(codes_of), [[23, 23]; 2]); // run over
    assert_eq!([2, 3].map(codes_of), [[0, 0]; 2]); // flank
    assert_eq!(codes_of(4), [23, 0]); // exit zone
    assert_eq!([1, 6, 63].map(codes_of), [[17, 17]; 3]); // not named
}

#[test]
fn keys_and_clearances_together() {
    let sheet = exit_zone_station();
    let keys = [key_used(TRAIN, 2, TCL), key_used(TRAIN, 3, ES), key_used(TRAIN, 4, ES)];
    // A key covers the turnout it names, not its partner.
    assert_eq!(answer(&sheet, &with(all_at_work(), &keys[..1]), TRAIN), (Regime::Held, Some(0), 4));
    let keyed = with(all_at_work(), &keys);
    assert_eq!(answer(&sheet, &keyed, TRAIN), (Regime::Held, Some(0), 2));
    let clear = with(keyed.clone(), &run_over_cleared());
    assert_eq!(answer(&sheet, &clear, TRAIN), (Regime::Clear, None, 0));
    // Another turnout declared 3 beside the keys.
    let lesser = with(keyed, &[run_over_cleared()[0], cleared(TRAIN, [5, 3, 0, 0, 1])]);
    assert_eq!(answer(&sheet, &lesser, TRAIN), (Regime::Danger, None, 0));
    assert_eq!(codes(&sheet, &lesser, [ordered(TRAIN, 1), ordered(TRAIN, 2)]), [22, 0]);
    // The other way round: a key after the clearances.
    let last = with(all_at_work(), &[run_over_cleared(), [keys[0], keys[1]]].concat());
    assert_eq!(answer(&sheet, &last, TRAIN), (Regime::Held, Some(4), 1));
    assert_eq!(answer(&sheet, &with(last, &keys[2..]), TRAIN), (Regime::Clear, None, 0));
}

/// A key on a cleared turnout is 16; it neither opens nor shuts, and kind 4 may name it.
#[test]
fn cleared_and_open() {
    let sheet = exit_zone_station();
    let flank_cleared = with(all_at_work(), &[cleared(TRAIN, [2, 3, 0, 0, 1])]);
    assert_eq!(codes(&sheet, &flank_cleared, [key_used(TRAIN, 2, TCL), key_used(TRAIN, 2, ES)]), [16, 16]);
    assert_eq!(code(&sheet, &flank_cleared, detection_off(FORM, &[2], &[])), 19);
    // Work agreed, no detection off: the key opens nothing, kind 4 does.
    let quiet = vec![work_asked(FORM, 1, &[2, 3]), agreed(FORM), movement_asked(TRAIN, 0), key_used(TRAIN, 2, TCL)];
    assert!(!open(&sheet, &quiet, 2));
    for off in [detection_off(FORM, &[2], &[]), detection_off(FORM, &[], &[2])] {
        assert_eq!(code(&sheet, &quiet, off), 0);
        assert!(open(&sheet, &with(quiet.clone(), &[off]), 2));
    }
}

/// KIND-8.3, KIND-9.3: "Keys lapse when the train passes or the movement is cancelled."
#[test]
fn keys_go_with_the_movement() {
    let keyed = with(scene_1(), &[key_used(TRAIN, 2, ES)]);
    let ends = [vec![ordered(TRAIN, 1), passed(TRAIN)], vec![ordered(TRAIN, 2), passed(TRAIN)], vec![cancelled(TRAIN)]];
    for end in ends {
        // The same train again.
        let next = with(with(keyed.clone(), &end), &[movement_asked(TRAIN, 0)]);
        assert_eq!(answer(&station_k(), &next, TRAIN), (Regime::Held, Some(2), 1));
        assert_eq!(code(&station_k(), &next, cleared(TRAIN, [2, 1, 0, 0, 1])), 0);
    }
    // Ordered or not does not matter.
    let danger = with(all_at_work(), &run_over_cleared());
    let settled = with(danger, &[2, 3, 4].map(|turnout| key_used(TRAIN, turnout, ES)));
    let ordered = with(settled, &[ordered(TRAIN, 1)]);
    assert_eq!(codes(&exit_zone_station(), &ordered, [key_used(TRAIN, 4, ES), key_used(TRAIN, 1, ES)]), [16, 17]);
}

/// RECORD-4: "Kinds now run to 13": 11 for 14; 13 for each field.
#[test]
fn fields() {
    let good = key_used(TRAIN, 2, TCL);
    assert_eq!(message::read(&good.to_bytes()), Ok(good));
    assert!(message::read(&key_used(1, 63, ES).at(u32::MAX).in_zone(255).to_bytes()).is_ok());
    let bad = [
        Message { id: 0, ..good },
        good.d(1, 0),
        good.d(1, 3),
        good.d(1, 255),
        good.d(0, 64),
        good.d(0, 255),
        good.a(&[2]),
        good.b(&[63]),
        good.d(2, 1),
        good.d(3, 1),
        good.d(4, 1),
        good.d(5, 1),
    ];
    for message in bad {
        assert_eq!(message::read(&message.to_bytes()), Err(Refusal::Field), "{message:?}");
        assert_eq!(code(&station_k(), &scene_1(), message), 13, "{message:?}");
        assert_eq!(message::write(&message, &mut [0; 32]), Err(Refusal::Field));
    }
    for kind in [0, 14, 15, 20, 255] {
        assert_eq!(code(&station_k(), &scene_1(), Message { kind, ..good }), 11);
    }
}

/// 11, 13, 12, 14, 15, 16, 17, 23.
#[test]
fn order_of_checks() {
    let list = with(all_at_work(), &[run_over_cleared()[0].at(10), key_used(TRAIN, 2, TCL).at(10)]);
    let tried = |message| code(&exit_zone_station(), &list, message);
    let run_over = key_used(TRAIN, 5, TCL).at(10);
    let no_kind = Message { kind: 14, id: 0, ..run_over.in_zone(1) };
    assert_eq!([no_kind, run_over.d(1, 3).in_zone(1), run_over.in_zone(1).at(9)].map(tried), [11, 13, 12]);
    let other = |turnout: u8| key_used(513, turnout, TCL).at(10);
    assert_eq!([other(5).at(9), other(2), other(0), other(1), other(5)].map(tried), [14, 15, 15, 15, 15]);
    // A cleared turnout that no key may be used for: 16. One not named, or not worked, that no key may be used for: 17.
    assert_eq!([run_over.d(0, 0), run_over.d(0, 2), run_over.d(0, 1), run_over].map(tried), [16, 16, 17, 23]);
    assert_eq!(code(&station_k(), &scene_1(), key_used(TRAIN, 0, TCL)), 17);
    // No 20, no 21: a key has no position, no medium, and no need of the recorder.
    assert_eq!(code(&station_k(), &with(scene_1(), &[recorder(0)]), key_used(TRAIN, 2, TCL)), 0);
}
