//! Inputs drawn seed by seed: small and large ones, without and with coupled tracks, sound and damaged.

use crate::damage::damaged;
use crate::generator::{crowded, sound, Chance, Files, Size};
use crate::meeting::{crossing, long_branch, meeting};

/// How many inputs without couples are drawn from one seed.
const WITHOUT_COUPLES: usize = 50;
/// How many inputs with couples are drawn from one seed, after those.
const WITH_COUPLES: usize = 16;
/// How many inputs are drawn from one seed.
pub const OF_A_SEED: usize = WITHOUT_COUPLES + WITH_COUPLES;
/// The seeds of the fixed comparison: 1 up to this one.
pub const FIXED_SEEDS: u64 = 120;
/// Of these, the seeds whose inputs are counted by what they reach: 1 up to this one.
pub const COUNTED_SEEDS: u64 = 24;
/// The most trains that an asking train can meet on an element, and so the highest count at which a piece can be held.
pub const MOST_MET: usize = 6;

/// Small cases: at most 4 trains with at most 3 delays, and now and then a small room.
pub const SMALL: Size = Size {
    trains: (1, 4),
    delays: (1, 3),
    small_room: 20,
    stretch: 1,
};

/// Many trains with few delays.
const MANY: Size = Size {
    trains: (5, 7),
    delays: (1, 2),
    small_room: 20,
    stretch: 1,
};

/// Few trains with many delays.
const LATE: Size = Size {
    trains: (2, 3),
    delays: (4, 8),
    small_room: 20,
    stretch: 1,
};

/// Long windows, delays and safety times.
const LONG: Size = Size {
    trains: (1, 3),
    delays: (1, 3),
    small_room: 20,
    stretch: 14,
};

/// The inputs of one seed; those with couples are drawn apart, so that the others are as they were before tracks could be coupled.
pub fn drawn(chance: &mut Chance) -> Vec<Files> {
    let mut apart = chance.apart();
    let mut inputs: Vec<Files> = (0..WITHOUT_COUPLES).map(|_| draw(chance)).collect();
    inputs.extend((0..WITH_COUPLES).map(|_| draw_meeting(&mut apart)));
    inputs
}

/// Draws an input: of each ten six small, one with many trains, one with many delays, one long, one crowded; one third is damaged.
fn draw(chance: &mut Chance) -> Files {
    let files = match chance.below(10) {
        0 => sound(chance, MANY),
        1 => sound(chance, LATE),
        2 => sound(chance, LONG),
        3 => {
            let capacity = chance.between(1, MOST_MET);
            crowded(chance, capacity)
        }
        _ => sound(chance, SMALL),
    };
    third_damaged(chance, files)
}

/// Draws an input with couples: of each ten five small, one with many trains, one with many delays, one long, one crossing, one long branch;
/// one third is damaged.
fn draw_meeting(chance: &mut Chance) -> Files {
    let files = match chance.below(10) {
        0 => meeting(chance, MANY),
        1 => meeting(chance, LATE),
        2 => meeting(chance, LONG),
        3 => {
            let capacity = chance.between(1, MOST_MET - 1);
            crossing(chance, capacity)
        }
        4 => long_branch(chance),
        _ => meeting(chance, SMALL),
    };
    third_damaged(chance, files)
}

/// Damages an input in one of three draws.
fn third_damaged(chance: &mut Chance, files: Files) -> Files {
    match chance.below(3) {
        0 => damaged(chance, &files),
        _ => files,
    }
}
