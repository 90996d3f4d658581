//! Verdicts for works on signals (Art. 3.5, 3.6, 3.13), SIGNAL-1 to SIGNAL-9, from the rule itself.

use crate::refusal::{refuse, Refusal};

#[derive(Clone, Copy, Debug, PartialEq, Eq)]
pub enum Verdict {
    /// M.45, at danger.
    AtDanger = 1,
    /// M.45, dark.
    Dark = 2,
    DarkBlockOut = 3,
    AnyAspectBlockOut = 4,
    ClosureOnly = 5,
    NoSuchSignal = 6,
}

impl Verdict {
    pub fn number(self) -> u8 {
        self as u8
    }
}

struct Flags {
    held: bool,
    day: bool,
    ssc: bool,
    ensured: bool,
    lights_touched: bool,
    lights_safe: bool,
}

impl Flags {
    /// SIGNAL-1: "Flags: 1 can be held at danger, 2 day, 4 SSC fitted, 8 its danger message ensured,
    /// 16 auxiliary lights touched, 32 those cannot light wrongly."
    fn of(byte: u8) -> Flags {
        let flag = |value: u8| byte & value != 0;
        Flags {
            held: flag(1),
            day: flag(2),
            ssc: flag(4),
            ensured: flag(8),
            lights_touched: flag(16),
            lights_safe: flag(32),
        }
    }
}

/// SIGNAL-2, 33: "line, signal or flags (above 63) out of range".
pub fn verdict(line: u8, signal: u8, flags: u8) -> Result<Verdict, Refusal> {
    let in_range = (1..=3).contains(&line) && signal <= 5 && flags <= 63;
    refuse(!in_range, Refusal::Range)?;
    Ok(rule(line, signal, &Flags::of(flags)))
}

/// SIGNAL-4, SIGNAL-5, SIGNAL-6, SIGNAL-7, SIGNAL-8, SIGNAL-9: "Line 1 signal 5: 6. Else lights touched and (line 3, or
/// not flag 32): 5. Else held: 1. Else line 3: 5. .."
fn rule(line: u8, signal: u8, flags: &Flags) -> Verdict {
    if line == 1 && signal == 5 {
        return Verdict::NoSuchSignal;
    }
    if flags.lights_touched && (line == 3 || !flags.lights_safe) {
        return Verdict::ClosureOnly;
    }
    if flags.held {
        return Verdict::AtDanger;
    }
    match (line, signal) {
        (3, _) => Verdict::ClosureOnly,
        (1, _) | (2, 2 | 3) if dark_allowed(flags) => dark(line, signal),
        (2, 5) => Verdict::AnyAspectBlockOut,
        _ => Verdict::ClosureOnly,
    }
}

/// SIGNAL-8: "by day, with SSC absent or ensured, dark".
fn dark_allowed(flags: &Flags) -> bool {
    flags.day && (!flags.ssc || flags.ensured)
}

/// SIGNAL-8: "3 on line 1 for signals 0, 1, 4, otherwise 2".
fn dark(line: u8, signal: u8) -> Verdict {
    match (line, signal) {
        (1, 0 | 1 | 4) => Verdict::DarkBlockOut,
        _ => Verdict::Dark,
    }
}

#[cfg(test)]
mod tests {
    use super::*;

    #[test]
    fn verdicts_by_day() {
        assert_eq!(verdict(1, 1, 2), Ok(Verdict::DarkBlockOut));
        assert_eq!(verdict(1, 2, 2), Ok(Verdict::Dark));
        assert_eq!(verdict(2, 1, 2), Ok(Verdict::ClosureOnly));
        assert_eq!(verdict(0, 1, 2), Err(Refusal::Range));
        assert_eq!(verdict(3, 5, 1), Ok(Verdict::AtDanger));
    }
}
