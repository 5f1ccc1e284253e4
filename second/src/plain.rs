//! The plain engine: it runs every choice by itself to a stop minute and adds its weight to the minute of each arrival. It keeps no list.

use crate::calls::MINUTES;
use crate::enumeration::choice_weight;
use crate::plan::Plan;
use crate::single;
use std::ops::Range;

/// How many choices there are: the product, over the trains, of the sizes of their tables.
pub fn choices(plan: &Plan) -> u64 {
    let sizes = plan.tables.iter().map(|table| table.delays.len() as u64);
    sizes.product()
}

/// The choice of a number: number 0 takes every train's first delay, the last train's delay changes fastest and the first train's slowest.
pub fn choice(plan: &Plan, number: u64) -> Vec<u8> {
    let mut left = number;
    let mut choice = Vec::new();
    for table in plan.tables.iter().rev() {
        let size = table.delays.len() as u64;
        choice.push((left % size) as u8);
        left /= size;
    }
    choice.reverse();
    choice
}

/// The numbers of all choices.
pub fn whole(plan: &Plan) -> Range<u64> {
    0..choices(plan)
}

/// The numbers of a part: from the first on, at most so many, and none past the last choice.
pub fn part(plan: &Plan, first: u64, count: u64) -> Range<u64> {
    first..choices(plan).min(first.saturating_add(count))
}

/// Runs the choices of these numbers up to and including a stop minute, adds to the weights, and gives how many were run.
pub fn run(plan: &Plan, stop: u32, numbers: Range<u64>, weights: &mut [u64]) -> u64 {
    let mut done = 0;
    for number in numbers {
        run_choice(plan, stop, &choice(plan, number), weights);
        done += 1;
    }
    done
}

/// Runs one choice by itself and adds its weight to the minute of each train's arrival.
fn run_choice(plan: &Plan, stop: u32, choice: &[u8], weights: &mut [u64]) {
    let weight = choice_weight(plan, choice);
    let arrivals = single::arrivals_by(plan, choice, stop);
    for (train, arrival) in arrivals.iter().enumerate() {
        if let Some(minute) = arrival {
            add(&mut weights[train * MINUTES + *minute as usize], weight);
        }
    }
}

/// Adds to a sum; one that would pass 2^64 − 1 becomes that and stays there.
fn add(sum: &mut u64, weight: u64) {
    *sum = sum.saturating_add(weight);
}
