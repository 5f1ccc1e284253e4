//! Refusal 13 is retired: no number of the table is 13, and what 01 had it for, an entry that weighs more than 10^14, never comes.

use inputs::generator::{sound, Chance, Size};
use inputs::questions::counted;
use inputs::trace::{trace, MOST_WEIGHT};
use second::cover::{covers, weight};
use second::enumeration::{all_choices, choice_weight};
use second::joint::{Entry, JointRun};
use second::plan::Plan;
use std::collections::BTreeMap;

/// The most that an entry weighed, by the number of trains.
type Heaviest = BTreeMap<usize, u64>;

/// Asserts that in no list of a run an entry weighs more than 10^14 or more than all choices together.
fn weigh(plan: &Plan, heaviest: &mut Heaviest) {
    let most = trace(plan).heaviest;
    assert!(most <= MOST_WEIGHT, "{most}");
    assert!(most <= plan.total(), "{most} of {}", plan.total());
    let before = heaviest.entry(plan.trains()).or_insert(0);
    *before = most.max(*before);
}

/// Sound cases of seven trains with so many delays, one for each seed.
fn seven_trains(delays: (usize, usize), seeds: std::ops::Range<u64>) -> Vec<Plan> {
    let size = Size {
        trains: (7, 7),
        delays,
        small_room: 0,
        stretch: 1,
    };
    let drawn = seeds.map(|seed| sound(&mut Chance::new(seed), size));
    drawn
        .map(|files| Plan::read(&files.case, &files.book).expect("a drawn case is sound"))
        .collect()
}

#[test]
fn no_entry_weighs_more_than_all_choices_and_for_each_number_of_trains_one_weighs_as_much() {
    let mut heaviest = Heaviest::new();
    for files in counted().iter().map(|asked| &asked.files) {
        if let Ok(plan) = Plan::read(&files.case, &files.book) {
            weigh(&plan, &mut heaviest);
        }
    }
    let all: Heaviest = (1..=7).map(|n| (n, 100u64.pow(n as u32))).collect();
    assert_eq!(heaviest, all);
    assert_eq!(heaviest[&7], MOST_WEIGHT);
}

#[test]
fn no_entry_of_seven_trains_weighs_more_than_10_to_the_14_and_some_weigh_just_that() {
    let mut heaviest = Heaviest::new();
    for plan in seven_trains((1, 8), 5_001..5_061) {
        weigh(&plan, &mut heaviest);
    }
    assert_eq!(heaviest, Heaviest::from([(7, MOST_WEIGHT)]));
}

#[test]
fn with_whole_tables_of_eight_delays_an_entry_of_seven_trains_weighs_less() {
    let mut heaviest = Heaviest::new();
    for plan in seven_trains((8, 8), 5_101..5_121) {
        assert!(plan.tables.iter().all(|table| table.delays.len() == 8));
        weigh(&plan, &mut heaviest);
    }
    // Of its own train an entry has one delay, and each of the table's other seven weighs at least 1.
    assert!(heaviest[&7] <= MOST_WEIGHT / 100 * 93);
}

/// All choices, each with its weight.
type Weighed = Vec<(Vec<u8>, u64)>;

/// Asserts that each entry of a list weighs the sum of the weights of the choices it covers.
fn compare(plan: &Plan, list: &[Entry], weighed: &Weighed) {
    for Entry { cover, .. } in list {
        let covered = weighed.iter().filter(|(choice, _)| covers(cover, choice));
        let summed: u64 = covered.map(|(_, weight)| weight).sum();
        assert_eq!(weight(plan, cover), summed);
    }
}

#[test]
fn an_entry_weighs_what_the_choices_weigh_that_it_covers() {
    for plan in seven_trains((1, 2), 5_201..5_221) {
        let with_weight = |choice: Vec<u8>| {
            let weight = choice_weight(&plan, &choice);
            (choice, weight)
        };
        let weighed: Weighed = all_choices(&plan).into_iter().map(with_weight).collect();
        let all: u64 = weighed.iter().map(|(_, weight)| weight).sum();
        assert_eq!((all, plan.total()), (MOST_WEIGHT, MOST_WEIGHT));
        let mut joint = JointRun::start(&plan).expect("the first list is short");
        compare(&plan, &joint.list, &weighed);
        for t in 0..=plan.head.last_minute {
            if joint.visit(&plan, t).is_err() {
                break;
            }
            compare(&plan, &joint.list, &weighed);
        }
    }
}

#[test]
fn the_table_of_refusals_has_the_numbers_of_01_but_13_and_18_of_02_each_once() {
    let constants = include_str!("../src/refusal.rs").lines();
    let numbers = constants
        .filter_map(|line| line.strip_prefix("pub const "))
        .filter(|line| !line.starts_with("IN_"))
        .filter_map(|line| line.split_once(": u8 = ")?.1.strip_suffix(';'));
    let mut numbers: Vec<u8> = numbers.map(|n| n.parse().expect("a number")).collect();
    numbers.sort();
    assert!(!numbers.contains(&13));
    let expected: Vec<u8> = (1..=12).chain(14..=18).collect();
    assert_eq!(numbers, expected);
}
