//! Lists of the joint run worked out by hand, row by row.

#[path = "common/example.rs"]
mod example;

use example::shift_example;
use inputs::writer::{head, station, table, track, train};
use second::joint;
use second::plan::Plan;
use second::rows::row_text;

/// The rows after a minute as text.
fn rows(case: &[u8], minute: u32) -> Vec<String> {
    let plan = Plan::read(case, &[]).expect("a sound case");
    let joint = joint::run(&plan, minute).expect("the list stays within the room");
    joint.list.iter().map(row_text).collect()
}

#[test]
fn shift_example_after_minutes_6_7_and_8() {
    let after_6 = [
        "1,out,stands,5,2.1",
        "1,out,stands,8,3.2",
        "1,s0,stands,8,1.1",
        "0,s1,stands,7,1.3",
        "0,t0,blocks,7,1.3",
        "0,t0,stands,9,2.3",
        "0,s0,blocks,7,2.3",
    ];
    assert_eq!(rows(&shift_example(), 6), after_6);
    // Both blocks go at the start of minute 7, so that the held piece of train 1 enters station 0.
    let after_7 = [
        "1,out,stands,8,3.2",
        "1,s0,stands,8,1.1",
        "0,t0,stands,9,2.3",
        "1,s0,stands,10,2.1",
        "0,gone,stands,7,1.3",
        "0,s1,blocks,8,1.3",
    ];
    assert_eq!(rows(&shift_example(), 7), after_7);
    let after_8 = [
        "0,t0,stands,9,2.3",
        "1,s0,stands,10,2.1",
        "0,gone,stands,7,1.3",
        "1,s0,stands,11,3.2",
        "1,t0,stands,11,1.1",
        "1,s0,blocks,9,1.1",
    ];
    assert_eq!(rows(&shift_example(), 8), after_8);
}

#[test]
fn shift_example_after_minutes_10_11_and_14() {
    // Train 0, late, has left the track in minute 9. The block goes at the start of minute 10, and train 1 enters.
    let after_10 = [
        "0,gone,stands,7,1.3",
        "1,s0,stands,11,3.2",
        "1,t0,stands,11,1.1",
        "1,t0,stands,13,2.1",
        "1,s0,blocks,11,2.1",
        "0,gone,stands,10,2.3",
        "0,s1,blocks,11,2.3",
    ];
    assert_eq!(rows(&shift_example(), 10), after_10);
    let after_11 = [
        "0,gone,stands,7,1.3",
        "1,t0,stands,13,2.1",
        "0,gone,stands,10,2.3",
        "1,s1,stands,12,1.1",
        "1,t0,blocks,12,1.1",
        "1,t0,stands,14,3.2",
        "1,s0,blocks,12,3.2",
    ];
    assert_eq!(rows(&shift_example(), 11), after_11);
    let after_14 = [
        "0,gone,stands,7,1.3",
        "0,gone,stands,10,2.3",
        "1,gone,stands,12,1.1",
        "1,s1,stands,15,3.2",
        "1,t0,blocks,15,3.2",
        "1,gone,stands,14,2.1",
        "1,s1,blocks,15,2.1",
    ];
    assert_eq!(rows(&shift_example(), 14), after_14);
}

#[test]
fn shift_example_after_minutes_15_16_and_20() {
    let after_15 = [
        "0,gone,stands,7,1.3",
        "0,gone,stands,10,2.3",
        "1,gone,stands,12,1.1",
        "1,gone,stands,14,2.1",
        "1,gone,stands,15,3.2",
        "1,s1,blocks,16,3.2",
    ];
    assert_eq!(rows(&shift_example(), 15), after_15);
    for minute in [16, 20] {
        assert_eq!(rows(&shift_example(), minute), after_15[..5]);
    }
}

#[test]
fn the_shift_examples_list_has_at_most_7_entries() {
    let lengths: Vec<usize> = (0..=20).map(|m| rows(&shift_example(), m).len()).collect();
    let by_hand = [
        4, 4, 4, 5, 4, 5, 7, 6, 6, 6, 7, 7, 6, 6, 7, 6, 5, 5, 5, 5, 5,
    ];
    assert_eq!(lengths, by_hand);
}

#[test]
fn entries_ask_by_priority_then_train_then_list_order() {
    let fields = [
        head(20, 0, 1024),
        station(255),
        station(255),
        track(0, 1, 255),
        train(5, 1, &[(0, 0, 5), (1, 6, 6)]),
        train(0, 1, &[(0, 0, 5), (1, 6, 6)]),
        train(5, 1, &[(0, 0, 5), (1, 6, 6)]),
        table(1, &[(0, 60), (1, 40)]),
    ];
    let case = fields.concat();
    let after_0 = [
        "0,out,stands,1,2.3.3",
        "1,out,stands,1,3.2.3",
        "2,out,stands,1,3.3.2",
        "1,s0,stands,5,3.1.3",
        "0,s0,stands,5,1.3.3",
        "2,s0,stands,5,3.3.1",
    ];
    assert_eq!(rows(&case, 0), after_0);
    let after_1 = [
        "1,s0,stands,5,3.1.3",
        "0,s0,stands,5,1.3.3",
        "2,s0,stands,5,3.3.1",
        "1,s0,stands,6,3.2.3",
        "0,s0,stands,6,2.3.3",
        "2,s0,stands,6,3.3.2",
    ];
    assert_eq!(rows(&case, 1), after_1);
}

#[test]
fn entries_of_the_asking_train_are_not_among_those_still_to_meet() {
    let fields = [
        head(20, 0, 1024),
        station(2),
        station(2),
        track(0, 1, 2),
        train(5, 1, &[(0, 0, 5), (1, 6, 6)]),
        train(0, 2, &[(0, 0, 5), (1, 6, 6)]),
        table(1, &[(0, 60), (1, 40)]),
        table(2, &[(0, 60), (5, 40)]),
    ];
    // In minute 1 the late entry of train 0 has one entry to meet, not two, and so enters uncut.
    let after_1 = [
        "1,out,stands,5,3.2",
        "1,s0,stands,5,3.1",
        "0,s0,stands,5,1.3",
        "0,s0,stands,6,2.3",
    ];
    assert_eq!(rows(&fields.concat(), 1), after_1);
}
