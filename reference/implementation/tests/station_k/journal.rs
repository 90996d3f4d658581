//! Station K's journal: what it prints, and both questions along it.

use crate::station;
use reference::builders::*;
use reference::desk::Desk;
use reference::movement::Regime;
use reference::refusal::Refusal;
use reference::replay;

/// The work question after the first `n` records of the journal.
fn open_after(n: usize, turnout: u8) -> bool {
    let station = station();
    let mut desk = Desk::fresh(&station);
    for message in &journal_k()[..n] {
        let _ = desk.hear(message);
    }
    desk.work_question(turnout).expect("a turnout of K")
}

#[test]
fn journal_gives_the_printed_output() {
    let mut buffer = [0xAA; 60];
    assert_eq!(replay::replay(&station_k().bytes(), &journal(&journal_k()), &mut buffer), 0);
    let printed: Vec<(u8, u32)> =
        buffer[..55].chunks(5).map(|answer| (answer[0], u32::from_be_bytes(answer[1..].try_into().unwrap()))).collect();
    let expected = [0, 0, 0, 0, 22, 0, 22, 0, 19, 0].map(|code| (code, 0));
    assert_eq!(printed[..10], expected);
    assert_eq!(printed[10], (0, 2));
    assert_eq!(buffer[55..], [0xAA; 5]);
}

#[test]
fn open_to_work_along_the_journal() {
    assert!(open_after(3, 0) && open_after(3, 1));
    assert!(!open_after(6, 0) && open_after(6, 1));
    assert!(!open_after(10, 0) && open_after(10, 1));
    assert!(!open_after(11, 0) && !open_after(11, 1));
    assert!((0..=11).all(|n| !open_after(n, 2)));
}

#[test]
fn movement_question_along_the_journal() {
    let station = station();
    let mut desk = Desk::fresh(&station);
    assert_eq!(desk.movement_question(1, 512), Err(Refusal::Zone));
    assert_eq!(desk.movement_question(0, 512), Err(Refusal::UnknownId));
    for (n, message) in journal_k().iter().enumerate() {
        let _ = desk.hear(message);
        match (n + 1, desk.movement_question(0, 512)) {
            (4 | 5, Ok(answer)) => {
                assert_eq!((answer.regime, answer.lowest, answer.count), (Regime::Held, Some(0), 1))
            }
            (6..=9, Ok(answer)) => {
                assert_eq!((answer.regime, answer.lowest, answer.count), (Regime::Danger, None, 0))
            }
            (_, answer) => assert_eq!(answer, Err(Refusal::UnknownId)),
        }
    }
}
