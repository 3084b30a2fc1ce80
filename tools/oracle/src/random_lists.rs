//! Random lists of calls on sessions, and random cards: mostly good arguments, now and then others.

use crate::cases::{Group, Operation, Sweep};
use crate::random_cases::Random;
use crate::{random_cards, random_makings, random_readings};

/// The most bytes of output in a list.
pub const OUTPUT: usize = 6000;

/// Three groups: lists of makings and of readings, and cards.
pub fn groups(seed: u64, lists: usize, cards: usize) -> Vec<Group> {
    let mut random = Random::new(seed);
    let mut group = |name, operation, count: usize, list: fn(&mut Random) -> Vec<u8>| Group {
        name,
        operation,
        sweeps: (0..count).map(|_| Sweep::one(list(&mut random))).collect(),
    };
    let (making, reading) = (Operation::MakingList, Operation::ReadingList);
    let mut groups = vec![
        group("making lists random", making, lists, random_makings::list),
        group(
            "reading lists random",
            reading,
            lists,
            random_readings::list,
        ),
        group("cards random", Operation::Card, cards, random_cards::card),
    ];
    groups.retain(|group| !group.sweeps.is_empty());
    groups
}

/// The length of a call's output: none, a few bytes, or plenty.
pub fn room(random: &mut Random) -> usize {
    let room = match random.below(6) {
        0 => 0,
        1 => 1,
        5 => random.below(200),
        _ => random.below(9),
    };
    room as usize
}
