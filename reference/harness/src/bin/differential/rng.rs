//! A small deterministic generator of random numbers (splitmix64).

use reference::set::{members, only, Set};
use std::ops::RangeInclusive;

pub struct Rng(u64);

impl Rng {
    pub fn new(seed: u64) -> Rng {
        Rng(seed)
    }

    pub fn next(&mut self) -> u64 {
        self.0 = self.0.wrapping_add(0x9E37_79B9_7F4A_7C15);
        let mut word = self.0;
        word = (word ^ word >> 30).wrapping_mul(0xBF58_476D_1CE4_E5B9);
        word = (word ^ word >> 27).wrapping_mul(0x94D0_49BB_1331_11EB);
        word ^ word >> 31
    }

    /// A number of the range.
    pub fn within(&mut self, range: RangeInclusive<u32>) -> u32 {
        let (low, high) = range.into_inner();
        low + (self.next() % (u64::from(high - low) + 1)) as u32
    }

    pub fn index(&mut self, length: usize) -> usize {
        (self.next() % length as u64) as usize
    }

    pub fn byte(&mut self) -> u8 {
        self.next() as u8
    }

    pub fn chance(&mut self, percent: u32) -> bool {
        self.within(1..=100) <= percent
    }

    pub fn pick<T: Copy>(&mut self, list: &[T]) -> T {
        list[self.index(list.len())]
    }

    /// One of the places, to be written to.
    pub fn place<'p, T, const N: usize>(&mut self, places: [&'p mut T; N]) -> &'p mut T {
        let n = self.index(N);
        places.into_iter().nth(n).expect("an index of the places")
    }

    /// One of the weighted choices.
    pub fn weighted<T: Copy>(&mut self, choices: &[(u32, T)]) -> T {
        let total: u32 = choices.iter().map(|(weight, _)| weight).sum();
        let mut left = self.within(1..=total);
        for &(weight, choice) in choices {
            if left <= weight {
                return choice;
            }
            left -= weight;
        }
        unreachable!("the weights sum to the total")
    }

    /// A turnout of a set that is not empty.
    pub fn member(&mut self, set: Set) -> u8 {
        let turnouts: Vec<u8> = members(set).collect();
        self.pick(&turnouts)
    }

    /// Each turnout of the set by chance.
    pub fn part(&mut self, set: Set, percent: u32) -> Set {
        members(set).filter(|_| self.chance(percent)).fold(0, |part, n| part | only(n))
    }

    pub fn bytes(&mut self, length: usize) -> Vec<u8> {
        (0..length).map(|_| self.byte()).collect()
    }
}
