//! How much stack a call takes, found without looking into memory: the program runs itself again and again, each time
//! with more frames taken on a thread's stack before the call, until that run no longer ends well. A call that does
//! nothing leaves room for more frames; those more are the call's. A run that leaves its stack is ended by the guard
//! page beneath it: the library's calls touch each page on their way down.

use crate::inputs::{Inputs, RECORDS};
use harness::library;
use reference::replay::ANSWER;
use reference::unit::{self, DESK};
use std::hint::black_box;
use std::process::{Command, Stdio};
use std::{env, ptr, thread};

/// The stack of the thread on which a run makes the call.
const STACK: usize = 128 * 1024;

/// What each frame holds; it takes some bytes more.
const HELD: usize = 64;

const REPLAY: &str = "desk_replay";
const APPLY: &str = "unit_apply";
const NOTHING: &str = "nothing";

/// Prints the stack of each call: the deepest of a replay on the largest station, and of any of its messages heard by a
/// unit.
pub fn lines() {
    for call in [REPLAY, APPLY] {
        match most_taken(call) {
            Some(bytes) => println!("stack of {call}: at most {bytes} bytes"),
            None => println!("stack of {call}: not measured, the program could not run itself"),
        }
    }
}

/// The most bytes that the call can take beyond one that does nothing, known to a frame.
fn most_taken(call: &str) -> Option<usize> {
    let frames = most_frames(NOTHING)? + 1 - most_frames(call)?;
    Some(frames * frame_size())
}

/// The most frames with which the call ends well.
fn most_frames(call: &str) -> Option<usize> {
    if !ends_well(call, 0) {
        return None;
    }
    let (mut good, mut bad) = (0, STACK / HELD);
    while bad - good > 1 {
        let middle = (good + bad) / 2;
        match ends_well(call, middle) {
            true => good = middle,
            false => bad = middle,
        }
    }
    Some(good)
}

/// Runs this program for the call with so many frames before it.
fn ends_well(call: &str, frames: usize) -> bool {
    let run = |program| Command::new(program).args(["stack", call, &frames.to_string()]).stderr(Stdio::null()).status();
    env::current_exe().and_then(run).is_ok_and(|status| status.success())
}

/// Such a run: the call on a thread of its own, beneath so many frames. It is ended from outside where the stack is too
/// small.
pub fn run_beneath(call: &str, frames: usize) {
    let mut call = call_by_name(call);
    let on_thread = move || {
        beneath(frames, &mut *call);
    };
    let thread = thread::Builder::new().stack_size(STACK).spawn(on_thread).expect("a thread");
    thread.join().expect("the call ends");
}

fn call_by_name(name: &str) -> Box<dyn FnMut() + Send> {
    let Inputs { large, talk, records } = Inputs::largest();
    let mut answers = vec![0; RECORDS * ANSWER];
    let mut desk = [0; DESK];
    unit::fresh(&mut desk);
    match name {
        REPLAY => Box::new(move || {
            black_box(library::replay(&large, &talk, &mut answers));
        }),
        APPLY => Box::new(move || {
            for record in &records {
                black_box(library::unit_apply(&large, &mut desk, record));
            }
        }),
        NOTHING => Box::new(|| {}),
        _ => panic!("no call that is measured: {name}"),
    }
}

/// The call beneath so many frames and one; where the last of them holds its bytes.
#[inline(never)]
fn beneath(frames: usize, call: &mut dyn FnMut()) -> usize {
    let held = black_box([0u8; HELD]);
    let last = match frames.checked_sub(1) {
        Some(fewer) => beneath(fewer, call),
        None => {
            call();
            ptr::from_ref(&held).addr()
        }
    };
    black_box(&held);
    last
}

/// Bytes between a frame and the next.
fn frame_size() -> usize {
    let of = |frames: usize| beneath(frames, &mut || {});
    of(0).abs_diff(of(1))
}
