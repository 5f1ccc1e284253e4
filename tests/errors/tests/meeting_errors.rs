//! The errors of meeting on one track (request 1 of 02): each case has the listing worked out by hand, and with the error built in another one.

use inputs::answers::listed;
use inputs::branches::two_stations;
use second::enumeration::arrivals;
use second::joint;
use second::plan::Plan;

/// The listing of a case by the program with an error.
macro_rules! listing_with {
    ($error:ident, $case:expr) => {{
        let plan = errors::$error::plan::Plan::read(&$case, &[]).expect("accepted");
        let last = plan.head.last_minute;
        let joint = errors::$error::joint::run(&plan, last).expect("room enough");
        let bytes = errors::$error::listing::listing(&plan, &joint);
        String::from_utf8(bytes).expect("plain text")
    }};
}

/// Train 0 goes there from minute 0 to 3 and train 1 back from minute 1 to 4, or each 2 minutes later, with a safety time of 2; the couple's numbers stand as
/// they are given.
fn there_and_back(capacity: u8, coupled: (u8, u8)) -> Vec<u8> {
    let trains = [[(0, 0, 0), (1, 3, 3)], [(1, 1, 1), (0, 4, 4)]];
    two_stations(2, capacity, &trains, &[(0, 60), (2, 40)], coupled)
}

/// The lines of a train in a listing.
fn lines_of(text: &str, train: usize) -> Vec<&str> {
    let of_train = format!("{train} ");
    text.lines()
        .filter(|line| line.starts_with(&of_train))
        .collect()
}

/// Asserts what the second program prints of a train, and that its joint run has the arrivals of all single runs.
fn prints(case: &[u8], train: usize, lines: &[&str]) {
    let plan = Plan::read(case, &[]).expect("accepted");
    let joint = joint::run(&plan, plan.head.last_minute).expect("room enough");
    assert_eq!(joint.arrivals, arrivals(&plan));
    let text = listed(case, &[]).expect("accepted");
    assert_eq!(lines_of(&text, train), lines);
}

/// What train 1 does: train 0 on time leaves a block with the end 5, and train 1 goes back from 5 to 8; train 0 late leaves one with the end 7, and train 1
/// late goes back from 7 to 10; but if only train 0 is late, train 1 goes first, from 1 to 4.
const BACK: [&str; 4] = ["1 4 2400", "1 8 6000", "1 10 1600", "1 - 0"];

/// And train 0: on time it goes first; late, it does so if train 1 is late too, and otherwise waits to the end, 6, of the block of train 1 and drives to 9.
const THERE: [&str; 4] = ["0 3 6000", "0 5 1600", "0 9 2400", "0 - 0"];

#[test]
fn either_train_waits_for_the_other_whatever_the_capacity_and_the_couple() {
    for capacity in [1, 2] {
        for coupled in [(0, 1), (1, 0)] {
            prints(&there_and_back(capacity, coupled), 0, &THERE);
            prints(&there_and_back(capacity, coupled), 1, &BACK);
        }
    }
}

#[test]
fn a_block_of_the_partner_that_is_overlooked_lets_a_train_in_against_it() {
    let text = listing_with!(partner_blocks, there_and_back(1, (0, 1)));
    // Each goes in the minute in which the other comes in.
    assert_eq!(
        lines_of(&text, 0),
        ["0 3 6000", "0 5 1600", "0 7 2400", "0 - 0"]
    );
    assert_eq!(
        lines_of(&text, 1),
        ["1 4 2400", "1 6 6000", "1 8 1600", "1 - 0"]
    );
}

#[test]
fn an_inside_piece_that_is_counted_enters_against_a_train_on_a_track_for_two() {
    let text = listing_with!(counting_partner, there_and_back(2, (0, 1)));
    // No train waits.
    assert_eq!(lines_of(&text, 0), ["0 3 6000", "0 5 4000", "0 - 0"]);
    assert_eq!(lines_of(&text, 1), ["1 4 6000", "1 6 4000", "1 - 0"]);
    // On a track for one the error is not seen.
    let text = listing_with!(counting_partner, there_and_back(1, (0, 1)));
    assert_eq!(lines_of(&text, 0), THERE);
    assert_eq!(lines_of(&text, 1), BACK);
}

#[test]
fn a_couple_that_works_one_way_lets_the_other_train_in() {
    // Where track 0 stands first, only train 0 waits; where track 1 does, only train 1.
    let text = listing_with!(coupled_one_way, there_and_back(1, (0, 1)));
    assert_eq!(lines_of(&text, 0), THERE);
    assert_eq!(lines_of(&text, 1), ["1 4 6000", "1 6 4000", "1 - 0"]);
    let text = listing_with!(coupled_one_way, there_and_back(1, (1, 0)));
    assert_eq!(lines_of(&text, 0), ["0 3 6000", "0 5 4000", "0 - 0"]);
    assert_eq!(lines_of(&text, 1), BACK);
}
