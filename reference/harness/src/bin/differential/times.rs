//! Times of the messages of a random list.

use crate::rng::Rng;

/// A time not before the last.
pub fn after(rng: &mut Rng, last: u32) -> u32 {
    let seconds = match rng.within(0..=99) {
        0..=29 => 0,
        30..=69 => rng.within(1..=59),
        70..=94 => rng.within(60..=600),
        95..=98 => rng.within(601..=200_000),
        _ => rng.within(0..=1 << 30),
    };
    last.saturating_add(seconds)
}

/// A time not before the last, so long after the agreement that the seconds over whole minutes are an exact half or
/// one beside it.
pub fn near_half(rng: &mut Rng, agreement: u32, last: u32) -> u32 {
    let minutes = after(rng, last).saturating_sub(agreement).div_ceil(60);
    let seconds = minutes.saturating_mul(60).saturating_add(rng.pick(&[29, 30, 30, 31]));
    agreement.saturating_add(seconds)
}
