//! The errors this trade makes (01): each example of examples/errors/ has its listing, and with the error built in another one. The fifth error of 01,
//! freeing an element in the last minute of its block, is the rule since request 3 of 02, and the rule that it broke is the error.

#[path = "common/examples.rs"]
mod examples;

use examples::{case_of, differs, listing_with};
use second::enumeration::arrivals;
use second::joint;
use second::plan::Plan;
use std::collections::BTreeMap;

#[test]
fn entries_counted_instead_of_trains_hold_a_train_that_may_enter() {
    let name = "errors/counting-entries";
    let wrong = listing_with!(counting_entries, case_of(name));
    differs(name, &wrong, 1, &["1 13 10000", "1 - 0"]);
}

#[test]
fn tracks_visited_first_make_a_stop_of_no_length_a_minute_long() {
    let name = "errors/tracks-first";
    let wrong = listing_with!(tracks_first, case_of(name));
    differs(name, &wrong, 0, &["0 10 100", "0 - 0"]);
}

#[test]
fn a_block_that_is_cut_lets_a_train_in_too_early() {
    let name = "errors/cutting-blocks";
    let wrong = listing_with!(cutting_blocks, case_of(name));
    differs(name, &wrong, 2, &["2 9 400000", "2 12 600000", "2 - 0"]);
}

#[test]
fn an_element_kept_in_the_minute_that_is_the_end_of_its_block_is_entered_a_minute_late() {
    let name = "errors/freeing-late";
    let wrong = listing_with!(freeing_late, case_of(name));
    differs(name, &wrong, 1, &["1 9 7000", "1 11 3000", "1 - 0"]);
}

/// The weight of each minute of arrival.
type Distribution = BTreeMap<u32, u64>;

/// A train's distribution of arrivals.
fn distribution(plan: &Plan, train: usize) -> Distribution {
    let of_train = arrivals(plan)
        .into_iter()
        .filter(|((of, _), _)| *of == train);
    of_train
        .map(|((_, minute), weight)| (minute, weight))
        .collect()
}

/// The error of multiplying: the third train is as late as the later of two trains, which are taken to be late apart from each other.
fn multiplied(plan: &Plan, one: usize, other: usize, third: usize) -> Distribution {
    let mut wrong = Distribution::new();
    for (minute, weight) in distribution(plan, one) {
        for (other_minute, other_weight) in distribution(plan, other) {
            let late = minute - plan.planned_arrival(one);
            let other_late = other_minute - plan.planned_arrival(other);
            let arrives = plan.planned_arrival(third) + late.max(other_late);
            *wrong.entry(arrives).or_insert(0) += weight * other_weight / plan.total();
        }
    }
    wrong
}

/// Asserts that train 3 of the level of dependence has these hundredths from minute 12 on, and by multiplying those.
fn depends(name: &str, exact: &[u64], wrong: &[u64]) {
    let plan = Plan::read(&case_of(name), &[]).expect("accepted");
    let hundredths = |shares: &[u64]| -> Distribution {
        let weights = shares.iter().map(|share| share * plan.total() / 100);
        (12..).zip(weights).collect()
    };
    let joint = joint::run(&plan, plan.head.last_minute).expect("room enough");
    assert_eq!(joint.arrivals, arrivals(&plan));
    assert_eq!(distribution(&plan, 3), hundredths(exact));
    assert_eq!(multiplied(&plan, 1, 2, 3), hundredths(wrong));
    assert_ne!(exact, wrong);
}

#[test]
fn example_one_of_document_002_is_half_and_half_and_not_a_quarter() {
    depends("dependence", &[50, 50], &[25, 75]);
}

#[test]
fn the_delays_of_example_two_of_document_002_are_handed_on_and_not_multiplied() {
    depends("errors/multiplying", &[10, 50, 40], &[1, 35, 64]);
}
