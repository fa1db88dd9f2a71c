//! What a trace comes to for two systems: skipped, split on a ground, or neither.

use crate::traces::{Known, Macrostate};

#[derive(Clone, Copy, Debug, PartialEq, Eq)]
pub enum Side {
    Left,
    Right,
}

#[derive(Clone, Copy, Debug, PartialEq, Eq)]
pub enum Ground {
    Reach,
    Settle,
    Offer(u32),
}

/// The ground on which a trace splits two systems, and the system that passes its test.
#[derive(Clone, Copy, Debug, PartialEq, Eq)]
pub struct Split {
    pub ground: Ground,
    pub passer: Side,
}

#[derive(Clone, Copy, Debug, PartialEq, Eq)]
pub enum Outcome {
    Skipped,
    Splits(Split),
    Meets,
}

/// The side that has something which the other has not; none if both or neither have it.
fn alone(left: bool, right: bool) -> Option<Side> {
    match (left, right) {
        (true, false) => Some(Side::Left),
        (false, true) => Some(Side::Right),
        _ => None,
    }
}

/// The lowest set of a family that contains no set of the other.
fn lowest_uncovered(family: &[u32], other: &[u32]) -> Option<u32> {
    family.iter().copied().filter(|set| !other.iter().any(|inner| inner & set == *inner)).min()
}

/// What two minimal families show.
pub fn split_on_offers(left: &[u32], right: &[u32]) -> Option<Split> {
    if left == right {
        return None;
    }
    if let Some(set) = lowest_uncovered(left, right) {
        return Some(Split { ground: Ground::Offer(!set), passer: Side::Right });
    }
    let set = lowest_uncovered(right, left).expect("one of two different families has such a set");
    Some(Split { ground: Ground::Offer(!set), passer: Side::Left })
}

/// What a trace comes to that leads the two systems to these macrostates.
pub fn outcome(left: (&Known, Macrostate), right: (&Known, Macrostate)) -> Outcome {
    let (left, here) = left;
    let (right, there) = right;
    if here.states == 0 && there.states == 0 {
        return Outcome::Skipped;
    }
    if let Some(passer) = alone(here.states != 0, there.states != 0) {
        return Outcome::Splits(Split { ground: Ground::Reach, passer });
    }
    if let Some(passer) = alone(here.convergent, there.convergent) {
        return Outcome::Splits(Split { ground: Ground::Settle, passer });
    }
    if !here.convergent {
        return Outcome::Meets;
    }
    match split_on_offers(&left.minimal(here.states), &right.minimal(there.states)) {
        Some(split) => Outcome::Splits(split),
        None => Outcome::Meets,
    }
}

#[cfg(test)]
mod tests {
    use super::*;
    use crate::system::System;

    #[test]
    fn offers() {
        let split = |set: u32, passer| Some(Split { ground: Ground::Offer(!set), passer });
        assert_eq!(split_on_offers(&[3], &[3]), None);
        // the example of WHY.md
        assert_eq!(split_on_offers(&[0b110], &[0b010, 0b100]), split(0b010, Side::Left));
        assert_eq!(split_on_offers(&[0b010, 0b100], &[0b110]), split(0b010, Side::Right));
        // both have one: the left one is taken, though the right one is lower
        assert_eq!(split_on_offers(&[0b100], &[0b001]), split(0b100, Side::Right));
        assert_eq!(split_on_offers(&[0b100, 0b1000], &[0b100, 0b0011]), split(0b1000, Side::Right));
        // the left one's sets all contain right ones
        assert_eq!(split_on_offers(&[0b101, 0b1010], &[0b1, 0b10, 0b100]), split(0b1, Side::Left));
        assert_eq!(split_on_offers(&[0], &[1]), split(0, Side::Right));
    }

    #[test]
    fn grounds_in_their_order() {
        let blank = Known::of(&System::blank());
        let ring = Known::of(&System::blank().with_transitions(&[(0, None, 0)]));
        let settle = |passer| Outcome::Splits(Split { ground: Ground::Settle, passer });
        let reach = |passer| Outcome::Splits(Split { ground: Ground::Reach, passer });
        assert_eq!(outcome((&blank, blank.first()), (&ring, ring.first())), settle(Side::Left));
        assert_eq!(outcome((&ring, ring.first()), (&blank, blank.first())), settle(Side::Right));
        assert_eq!(outcome((&ring, ring.first()), (&ring, ring.first())), Outcome::Meets);
        assert_eq!(outcome((&blank, blank.after(&[1])), (&ring, ring.after(&[1]))), Outcome::Skipped);
        assert_eq!(outcome((&blank, blank.first()), (&ring, ring.after(&[1]))), reach(Side::Left));
        assert_eq!(outcome((&blank, blank.after(&[1])), (&ring, ring.first())), reach(Side::Right));
    }
}
