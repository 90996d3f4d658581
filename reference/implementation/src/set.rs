//! Sets of turnouts. SET-2: "A set is a 64-bit word; bit n (value 2^n) is turnout n."

pub type Set = u64;

/// The set of turnout `n` alone; `n` is below 64.
pub fn only(n: u8) -> Set {
    1 << n
}

pub fn holds(set: Set, n: u8) -> bool {
    n < 64 && set & only(n) != 0
}

/// The turnouts of a set, lowest first.
pub fn members(set: Set) -> impl Iterator<Item = u8> {
    (0..64).filter(move |&n| holds(set, n))
}

/// The set of the turnouts listed.
pub fn of(turnouts: &[u8]) -> Set {
    turnouts.iter().fold(0, |set, &n| set | only(n))
}

#[cfg(test)]
mod tests {
    use super::*;

    #[test]
    fn first_and_last_turnout() {
        assert_eq!([of(&[]), of(&[0]), of(&[63]), of(&[0, 63])], [0, 1, 1 << 63, 1 << 63 | 1]);
        assert_eq!(members(of(&[63, 0, 7])).collect::<Vec<_>>(), [0, 7, 63]);
        assert_eq!([0, 7, 8, 63, 64, 255].map(|n| holds(of(&[0, 7, 63]), n)), [true, true, false, true, false, false]);
        assert!(members(Set::MAX).eq(0..64));
    }
}
