//! Parts of the plain engine's run: one after another they give the whole; past the last choice there is nothing; and sums never wrap.

#[path = "common/example.rs"]
mod example;

use example::shift_example;
use inputs::branches::longest;
use inputs::generator::{sound, Chance, Files, Size};
use second::calls::{plain, plain_part, MINUTES, WEIGHTS};
use second::enumeration::choice_weight;
use second::plain::{choice, choices};
use second::plan::Plan;
use second::refusal::Refusal;
use second::single;

/// The number of a train's weight for a minute.
fn at(train: usize, minute: usize) -> usize {
    train * MINUTES + minute
}

/// A part of the shift example to its last minute, added to these weights.
fn part_of_shift(first: u64, count: u64, weights: &mut [u64]) -> Result<u64, Refusal> {
    plain_part(&shift_example(), &[], 20, first, count, weights)
}

#[test]
fn one_choice_adds_its_weight_to_the_minute_of_each_arrival() {
    // The delays (0,0), (0,3), (3,0), (3,3), their weights, and the minutes of trains 0 and 1.
    let alone = [
        (3_600, 6, 11),
        (2_400, 6, 14),
        (2_400, 9, 13),
        (1_600, 9, 14),
    ];
    for (number, (weight, of_0, of_1)) in alone.into_iter().enumerate() {
        let mut weights = vec![7; WEIGHTS + 2];
        let mut expected = weights.clone();
        expected[at(0, of_0)] += weight;
        expected[at(1, of_1)] += weight;
        assert_eq!(part_of_shift(number as u64, 1, &mut weights), Ok(1));
        assert_eq!(weights, expected);
    }
}

#[test]
fn a_stopped_part_adds_only_what_has_arrived_by_then() {
    let mut weights = vec![0; WEIGHTS];
    for stop in [0, 5] {
        let answer = plain_part(&shift_example(), &[], stop, 1, 2, &mut weights);
        assert_eq!(answer, Ok(2));
        assert!(weights.iter().all(|weight| *weight == 0));
    }
    let answer = plain_part(&shift_example(), &[], 9, 1, 2, &mut weights);
    assert_eq!(answer, Ok(2));
    assert_eq!((weights[at(0, 6)], weights[at(0, 9)]), (2_400, 2_400));
    assert_eq!(weights.iter().sum::<u64>(), 4_800);
}

#[test]
fn parts_one_after_another_give_the_whole_wherever_they_are_cut() {
    let mut whole = vec![9; WEIGHTS];
    assert_eq!(plain(&shift_example(), &[], 20, &mut whole), Ok(4));
    for one in 0..=4 {
        for other in one..=4 {
            let mut weights = vec![0; WEIGHTS];
            let parts = [(0, one), (one, other - one), (other, 4 - other)];
            for (first, count) in parts {
                assert_eq!(part_of_shift(first, count, &mut weights), Ok(count));
            }
            assert_eq!(weights, whole);
        }
    }
}

#[test]
fn drawn_cases_in_drawn_parts_give_the_whole_too() {
    let size = Size {
        trains: (1, 5),
        delays: (1, 3),
        small_room: 0,
        stretch: 1,
    };
    let mut parts = 0;
    for seed in 8_101..8_161 {
        let mut chance = Chance::new(seed);
        let Files { case, book } = sound(&mut chance, size);
        let plan = Plan::read(&case, &book).expect("a drawn case is sound");
        let stop = chance.between(0, plan.head.last_minute as usize);
        let (mut whole, mut weights) = (vec![9; WEIGHTS], vec![0; WEIGHTS]);
        let all = plain(&case, &book, stop, &mut whole).expect("accepted");
        let mut done = 0;
        while done < all {
            let count = chance.between(0, 30) as u64;
            let run = plain_part(&case, &book, stop, done, count, &mut weights);
            assert_eq!(run, Ok(count.min(all - done)));
            done += count;
            parts += 1;
        }
        assert_eq!(weights, whole);
    }
    assert!(parts > 100);
}

#[test]
fn past_the_last_choice_there_is_nothing_to_run() {
    let last = u64::MAX;
    // From 1 on, three choices are there; from 3 on, one; the number after the last of a part may pass 2^64 and does not wrap.
    let parts = [
        (0, 0, 0),
        (0, 5, 4),
        (0, last, 4),
        (1, last, 3),
        (3, 2, 1),
        (3, last - 3, 1),
        (3, last - 2, 1),
        (3, last, 1),
        (4, 0, 0),
        (4, 1, 0),
        (4, last, 0),
        (5, last, 0),
        (5, last - 4, 0),
        (1 << 32, 4, 0),
        (last - 1, 4, 0),
        (last, 0, 0),
        (last, 1, 0),
        (last, 5, 0),
        (last, last, 0),
    ];
    for (first, count, run) in parts {
        let (mut weights, mut expected) = (vec![7; WEIGHTS + 2], vec![7; WEIGHTS + 2]);
        assert_eq!(part_of_shift(first, count, &mut weights), Ok(run));
        assert_eq!(part_of_shift(first, run, &mut expected), Ok(run));
        assert_eq!(weights, expected);
        assert_eq!(weights == vec![7; WEIGHTS + 2], run == 0);
    }
}

#[test]
fn a_sum_that_would_pass_2_to_the_64_less_1_becomes_that_and_stays() {
    let most = u64::MAX;
    // Train 0 adds 6,000 in minute 6 and 4,000 in minute 9, and train 1 adds 3,600 in minute 11, 2,400 in minute 13 and 4,000 in minute 14, the last in two
    // steps.
    let lent = [
        (at(0, 6), most - 6_000, most),
        (at(0, 9), most - 3_999, most),
        (at(1, 11), most, most),
        (at(1, 13), most - 2_401, most - 1),
        (at(1, 14), most - 4_001, most - 1),
        (at(0, 5), most - 1, most - 1),
        (at(6, 719), most, most),
    ];
    let mut weights = vec![0; WEIGHTS];
    for (at, before, _) in lent {
        weights[at] = before;
    }
    assert_eq!(part_of_shift(0, 4, &mut weights), Ok(4));
    for (at, _, after) in lent {
        assert_eq!(weights[at], after);
    }
    for _ in 0..2 {
        assert_eq!(part_of_shift(0, 4, &mut weights), Ok(4));
        assert_eq!(weights[at(1, 13)], most);
        assert_eq!(weights[at(1, 14)], most);
        assert_eq!(weights[at(0, 6)], most);
    }
    assert_eq!(weights[at(0, 5)], most - 1);
}

#[test]
fn parts_of_two_million_choices_run_only_what_they_name() {
    let case = longest();
    let plan = Plan::read(&case, &[]).expect("accepted");
    let all = choices(&plan);
    for first in [0, 1_234_567, all - 3, all] {
        let run = (all - first).min(3);
        let (mut weights, mut expected) = (vec![0; WEIGHTS], vec![0; WEIGHTS]);
        for number in first..first + run {
            let choice = choice(&plan, number);
            let arrivals = single::run(&plan, &choice).arrivals;
            for (train, minute) in arrivals.iter().enumerate() {
                let minute = minute.expect("all arrive in 719 minutes") as usize;
                expected[at(train, minute)] += choice_weight(&plan, &choice);
            }
        }
        assert_eq!(plain_part(&case, &[], 719, first, 3, &mut weights), Ok(run));
        assert_eq!(weights, expected);
    }
}
