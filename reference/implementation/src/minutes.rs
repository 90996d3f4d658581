//! Minutes of a duration, as the works register has them. MINUTES-1.

const MINUTE: u32 = 60;
const HALF: u32 = 30;

/// MINUTES-1: "The minutes returned with kind 11 go to the nearest whole minute, and an exact half minute goes to the
/// even one: 30 seconds give 0, 90 give 2, 150 give 2."
pub fn nearest(seconds: u32) -> u32 {
    let (below, over) = (seconds / MINUTE, seconds % MINUTE);
    let above = below + 1;
    let up = over > HALF || over == HALF && above % 2 == 0;
    if up {
        above
    } else {
        below
    }
}

/// As near to the minute below as to the one above.
pub fn exact_half(seconds: u32) -> bool {
    seconds % MINUTE == HALF
}

#[cfg(test)]
mod tests {
    use super::*;

    /// The nearest minute is at most half a minute away, and even where it is half a minute.
    #[test]
    fn minutes_by_their_distance() {
        for seconds in (0..=100_000).chain(u32::MAX - 100_000..=u32::MAX) {
            let minutes = u64::from(nearest(seconds));
            let away = (60 * minutes).abs_diff(u64::from(seconds));
            assert!(away < 30 || away == 30 && minutes % 2 == 0, "{seconds} seconds as {minutes} minutes");
            assert_eq!(exact_half(seconds), away == 30);
        }
    }
}
