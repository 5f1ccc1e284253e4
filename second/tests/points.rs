//! The marked points P1 to P12 of 01, from the bytes of the shift example; P3, P6, P7 and P8 as request 3 of 02 has them.
//!
//! P3, by hand: train 0 comes 3 minutes late, stands in station 0 from minute 5 to 6 and leaves a block there with the end 7. Train 1, due at 5, enters it in
//! minute 7, stands for 3 minutes and drives for 3, and arrives in minute 13. The track is free when it asks for it in minute 10: train 0 has left it in minute
//! 9, with a block whose end is 10. P6 and P7: after minute 6 the list has 7 entries, the most that it ever has (rows.rs). P8: the weight of minute 14.

#[path = "common/example.rs"]
mod example;

use example::shift_example;
use inputs::answers::listed;
use second::calls::{run, single, ROWS, WEIGHTS};
use second::joint::{Entry, Kind};
use second::plan::Place;
use second::refusal::Refusal;

const PRINTED: &str = "total 10000
0 6 6000
0 9 4000
0 - 0
1 11 3600
1 13 2400
1 14 4000
1 - 0
";

/// The shift example with one byte changed.
fn with_byte(at: usize, value: u8) -> Vec<u8> {
    let mut case = shift_example();
    case[at] = value;
    case
}

/// Offset of the low byte of T.
const LAST_MINUTE: usize = 4;
/// Offset of the room.
const ROOM: usize = 6;
/// Offset of the second weight of the delay table.
const SECOND_WEIGHT: usize = 59;

/// The shift example with another room.
fn with_room(room: u8) -> Vec<u8> {
    let mut case = with_byte(ROOM, 0);
    case[ROOM + 1] = room;
    case
}

#[test]
fn the_example_prints_its_listing() {
    assert_eq!(listed(&shift_example(), &[]), Ok(PRINTED.to_string()));
}

#[test]
fn p1_to_p4_train_1_arrives_at_11_14_13_14() {
    let case = shift_example();
    for (choice, minute) in [([0, 0], 11), ([0, 1], 14), ([1, 0], 13), ([1, 1], 14)] {
        assert_eq!(single(&case, &[], &choice, 1), Ok(Some(minute)));
    }
}

#[test]
fn p5_after_minute_5_the_list_has_5_entries_three_of_train_1() {
    let mut rows = vec![None; ROWS];
    let mut weights = vec![0; WEIGHTS];
    let length = run(&shift_example(), &[], 5, &mut rows, &mut weights);
    assert_eq!(length, Ok(5));
    let list: Vec<Entry> = rows.into_iter().flatten().collect();
    assert_eq!(list.iter().filter(|entry| entry.train == 1).count(), 3);
    let stands = |train, place, minute, first, second| Entry {
        train,
        place,
        kind: Kind::Stands,
        minute,
        cover: vec![first, second],
    };
    // The same list worked out by hand: the held piece has taken the asking entry's row.
    let by_hand = vec![
        stands(1, Place::Outside, 5, 0b10, 0b01),
        stands(1, Place::Outside, 8, 0b11, 0b10),
        stands(0, Place::Track(0), 6, 0b01, 0b11),
        stands(0, Place::Station(0), 6, 0b10, 0b11),
        stands(1, Place::Station(0), 8, 0b01, 0b01),
    ];
    assert_eq!(list, by_hand);
    assert!(weights.iter().all(|weight| *weight == 0));
}

#[test]
fn p6_room_7_is_answered() {
    assert_eq!(listed(&with_room(7), &[]), Ok(PRINTED.to_string()));
}

#[test]
fn p7_room_6_is_refused_12() {
    assert_eq!(listed(&with_room(6), &[]), Err(Refusal::at(12, 0, 0)));
}

#[test]
fn p8_last_minute_13_gives_4000_not_arrived() {
    let text = listed(&with_byte(LAST_MINUTE, 13), &[]).expect("the case is accepted");
    assert!(text.lines().any(|line| line == "1 - 4000"));
    assert!(text.ends_with("1 11 3600\n1 13 2400\n1 - 4000\n"));
}

#[test]
fn p9_last_minute_12_is_accepted() {
    assert!(listed(&with_byte(LAST_MINUTE, 12), &[]).is_ok());
}

#[test]
fn p10_last_minute_11_is_refused_9_at_37() {
    let answer = listed(&with_byte(LAST_MINUTE, 11), &[]);
    assert_eq!(answer, Err(Refusal::at(9, 0, 37)));
}

#[test]
fn p11_weights_60_and_41_are_refused_10() {
    let answer = listed(&with_byte(SECOND_WEIGHT, 41), &[]);
    assert_eq!(answer, Err(Refusal::at(10, 0, 52)));
}

#[test]
fn p12_the_empty_case_is_refused_5_at_0() {
    assert_eq!(listed(&[], &[]), Err(Refusal::at(5, 0, 0)));
}
