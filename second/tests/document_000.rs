//! What document 000 gives in a form that can be compared: table 4.1 and example 2.2.5 up to minute 5.
//!
//! Example 2.2.5 in this format: station 0 is v0, station 1 is v1, track 0 is e = (v0, v1), all of capacity 1 (the
//! example's sentence on capacities numbers the stations from 1, its paths from 0); both trains have the
//! delays 0, 1, 2. The example gives no probabilities, priorities or last minute: weights 50, 30, 20, equal priorities
//! and T = 20 are added here, and none of them is compared.
//!
//! Where 01 differs from document 000, and what that means here:
//! - 01 visits every minute, document 000 only some. The minutes 1 to 5 are all among the example's time points.
//! - The example blocks for one minute, and clears a block when its time is strictly before the minute, "which makes the effective blocking time more so two
//!   minutes": a train that leaves at minute 2 blocks up to and including minute 3. By request 3 of 02 that is a safety time of 2, and the block's minute is
//!   not the last that is blocked but the first that is free: 4. So each block's minute is here one more than in the example. 01 drops old blocks of all
//!   elements at the start of a minute, document 000 those of one element when it is visited.
//! - Nothing outside is blocked in 01; the example leaves the blocks on the edge (s, v0) out of its account too.
//! - 01 leaves one held piece per entry met, document 000 one held instance with the whole complement. At minute 4 the
//!   example has one held instance {p0 in {1, 2}, p1 = 0}, 01 has two rows, {p0 = 1, p1 = 0} and {p0 = 2, p1 = 0}: their
//!   covers together are compared with the complement. So the example's second split at minute 5 is already made in 01;
//!   its two results are compared one by one.
//! - The drawings of the example are not in the text, so due minutes that only they show are not compared.

use inputs::made::{example_2_2_5, TABLE_4_1};
use inputs::writer::{head, station, table, track, train};
use second::cover::covers;
use second::joint::{Entry, JointRun, Kind};
use second::plan::{Place, Plan};
use second::reader::{read_book, read_case};

/// The example as a case.
fn example() -> Plan {
    Plan::read(&example_2_2_5(), &[]).expect("the example is a sound case")
}

/// The list after a minute of the example.
fn list_after(minute: u32) -> Vec<Entry> {
    let plan = example();
    second::joint::run(&plan, minute)
        .expect("the list stays within the room")
        .list
}

/// The set of all three delays.
const ANY: u8 = 0b111;
const V0: Place = Place::Station(0);
const V1: Place = Place::Station(1);
const E: Place = Place::Track(0);

/// A standing instance (train, scenario, minute) at a place.
fn stands(train: usize, p0: u8, p1: u8, minute: u32, place: Place) -> Entry {
    let cover = vec![p0, p1];
    Entry {
        train,
        place,
        kind: Kind::Stands,
        minute,
        cover,
    }
}

/// A blocking instance (train, scenario, minute) at a place, with the minute that document 000 gives it: the last that is blocked.
fn blocks(train: usize, p0: u8, p1: u8, minute: u32, place: Place) -> Entry {
    let kind = Kind::Blocks;
    Entry {
        kind,
        ..stands(train, p0, p1, minute + 1, place)
    }
}

/// Asserts that a list has an instance in exactly one row.
fn has(list: &[Entry], instance: Entry) {
    let rows = list.iter().filter(|entry| **entry == instance).count();
    assert_eq!(rows, 1, "{instance:?} in {list:?}");
}

/// Asserts that a train with this scenario stands at a place, whatever its due minute.
fn is_at(list: &[Entry], train: usize, p0: u8, p1: u8, place: Place) {
    let there = |entry: &&Entry| {
        entry.train == train
            && entry.kind == Kind::Stands
            && entry.place == place
            && entry.cover == [p0, p1]
    };
    assert_eq!(list.iter().filter(there).count(), 1);
}

#[test]
fn minute_0_has_six_instances_outside() {
    let plan = example();
    let start = JointRun::start(&plan).expect("six entries").list;
    for list in [start, list_after(0)] {
        assert_eq!(list.len(), 6);
        assert!(list.iter().all(|entry| entry.place == Place::Outside));
        // The four of the six that the text names later, before they have moved.
        has(&list, stands(0, 0b010, ANY, 2, Place::Outside));
        has(&list, stands(0, 0b100, ANY, 3, Place::Outside));
        has(&list, stands(1, ANY, 0b001, 4, Place::Outside));
        has(&list, stands(1, ANY, 0b010, 5, Place::Outside));
    }
}

#[test]
fn minute_1_moves_one_instance_and_blocks_nothing() {
    let (before, list) = (list_after(0), list_after(1));
    let due: Vec<&Entry> = before.iter().filter(|entry| entry.minute <= 1).collect();
    assert_eq!(due.len(), 1);
    assert_eq!((due[0].train, due[0].cover[0]), (0, 0b001));
    // (0, {p0 = 0}, 2), which at minute 2 stands on v0.
    has(&list, stands(0, 0b001, ANY, 2, V0));
    assert_eq!(list.len(), 6);
    assert_eq!(list.iter().filter(|e| e.place == Place::Outside).count(), 5);
    assert!(list.iter().all(|entry| entry.kind == Kind::Stands));
}

#[test]
fn minute_2_moves_into_v0_then_onto_the_edge() {
    let list = list_after(2);
    // (0, {p0 = 1}, 2) moves to v0; minute 3 names it (0, {p0 = 1}, 3).
    has(&list, stands(0, 0b010, ANY, 3, V0));
    // (0, {p0 = 0}, 2) moves onto the edge; minute 3 names it (0, {p0 = 0}, 3).
    has(&list, stands(0, 0b001, ANY, 3, E));
    // (0, {p0 = 0}, 3) blocks v0 up to and including minute 3.
    has(&list, blocks(0, 0b001, ANY, 3, V0));
    assert_eq!(list.iter().filter(|e| e.kind == Kind::Blocks).count(), 1);
}

#[test]
fn minute_3_moves_three_instances_and_keeps_the_block() {
    let list = list_after(3);
    // (0, {p0 = 2}, 3) moves to v0; minute 4 names it (0, {p0 = 2}, 4).
    has(&list, stands(0, 0b100, ANY, 4, V0));
    // (0, {p0 = 0}, 3) moves to v1 and (0, {p0 = 1}, 3) to the edge; their new minutes are not in the text.
    is_at(&list, 0, 0b001, ANY, V1);
    is_at(&list, 0, 0b010, ANY, E);
    // (0, {p0 = 0}, 3) is still blocking v0; minute 4 names the block (0, {p0 = 1}, 4) at v0.
    has(&list, blocks(0, 0b001, ANY, 3, V0));
    has(&list, blocks(0, 0b010, ANY, 4, V0));
}

#[test]
fn minute_4_splits_the_first_instance_of_train_1() {
    let list = list_after(4);
    // The block (0, {p0 = 0}, 3) is erased, (0, {p0 = 1}, 4) is not.
    assert!(!list.contains(&blocks(0, 0b001, ANY, 3, V0)));
    has(&list, blocks(0, 0b010, ANY, 4, V0));
    // Of (1, {p1 = 0}, 4) only what is incompatible with {p0 = 2} and {p0 = 1} moves into v0; its new minute is not given.
    is_at(&list, 1, 0b001, 0b001, V0);
    let on_v0 = |e: &&Entry| e.train == 1 && e.place == V0;
    assert_eq!(list.iter().filter(on_v0).count(), 1);
    // The complement is left behind with minute 4: here in two rows.
    let behind: Vec<&Entry> = list
        .iter()
        .filter(|e| e.train == 1 && e.place == Place::Outside && e.minute == 4)
        .collect();
    for p0 in 0..3 {
        let rows = behind.iter().filter(|e| covers(&e.cover, &[p0, 0])).count();
        assert_eq!(rows, usize::from(p0 > 0));
    }
    assert!(behind.iter().all(|e| e.cover[1] == 0b001));
}

#[test]
fn minute_5_lets_one_of_the_held_in() {
    let list = list_after(5);
    // The two results of the second split, and the blocker.
    has(&list, stands(1, 0b010, 0b001, 6, V0));
    has(&list, stands(1, 0b100, 0b001, 4, Place::Outside));
    has(&list, blocks(0, 0b100, ANY, 5, V0));
    // (1, {p1 = 1}, 5) is split due to that blocker: what shares a choice with it stays behind, the rest moves to v0.
    let of_it: Vec<&Entry> = list
        .iter()
        .filter(|e| e.train == 1 && e.kind == Kind::Stands && e.cover[1] == 0b010)
        .collect();
    assert!(of_it.len() > 1);
    for entry in of_it {
        let held = entry.place == Place::Outside && entry.minute == 5;
        assert_eq!(held, entry.cover[0] & 0b100 != 0);
        assert_eq!(!held, entry.place == V0);
    }
}

/// The rows of table 4.1 that 01 names: the first and the sixth.
const NAMED: [&[(u8, u8)]; 2] = [TABLE_4_1[0], TABLE_4_1[5]];

/// A case whose one train has type 7, followed by these tables.
fn case_with(tables: &[u8]) -> Vec<u8> {
    let fields = [
        head(20, 1, 1024),
        station(1),
        station(1),
        track(0, 1, 1),
        train(0, 7, &[(0, 1, 2), (1, 3, 4)]),
    ];
    [&fields.concat(), tables].concat()
}

#[test]
fn the_two_tables_that_01_names_are_the_first_and_the_sixth_row() {
    assert_eq!(NAMED[0], [(0, 50), (1, 17), (4, 18), (10, 15)]);
    assert_eq!(NAMED[1], [(0, 80), (1, 16), (4, 4)]);
}

#[test]
fn the_two_tables_named_by_01_are_accepted_in_a_case_and_in_a_book() {
    for row in NAMED {
        let bytes = table(7, row);
        let in_case = Plan::read(&case_with(&bytes), &[]).expect("accepted in a case");
        let in_book = Plan::read(&case_with(&[]), &bytes).expect("accepted in a book");
        assert_eq!(in_case.tables, in_book.tables);
        let pairs: Vec<(u32, u64)> = row.iter().map(|p| (p.0.into(), p.1.into())).collect();
        let read = in_case.tables[0].delays.iter();
        assert_eq!(
            read.map(|d| (d.minutes, d.weight)).collect::<Vec<_>>(),
            pairs
        );
    }
}

#[test]
fn all_of_table_4_1_is_accepted_in_a_case_and_in_a_book() {
    let numbered = TABLE_4_1.iter().enumerate();
    let bytes: Vec<u8> = numbered
        .flat_map(|(number, row)| table(number as u8, row))
        .collect();
    assert_eq!(read_book(&bytes).map(|tables| tables.len()), Ok(8));
    let case = read_case(&case_with(&bytes)).map(|(_, case)| case.tables.len());
    assert_eq!(case, Ok(8));
}
