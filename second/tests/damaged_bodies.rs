//! Damaged bodies made by hand: refusals 6 to 11, and files with faults in several fields.

use inputs::writer::{field, head, station, table, track, train};
use second::plan::Plan;
use second::refusal::Refusal;

/// Asserts the refusal of a case with a book.
fn refused(case: &[u8], book: &[u8], number: u8, file: u8, place: usize) {
    let read = Plan::read(case, book).map(|plan| plan.trains());
    let expected = Refusal::at(number, file, place);
    assert_eq!(read, Err(expected), "{case:02x?} {book:02x?}");
}

/// Asserts the refusal of a field put after these fields of a case.
fn refused_after(before: &[u8], last: &[u8], number: u8) {
    refused(&[before, last].concat(), &[], number, 0, before.len());
}

/// Asserts that a case with a book is accepted.
fn accepted(case: &[u8], book: &[u8]) {
    assert!(Plan::read(case, book).is_ok(), "{case:02x?} {book:02x?}");
}

/// A head and three stations.
fn stations() -> Vec<u8> {
    [head(20, 1, 1024), station(1).repeat(3)].concat()
}

/// The same with tracks 0 to 1, 1 to 0 and 1 to 2.
fn tracks() -> Vec<u8> {
    [stations(), track(0, 1, 1), track(1, 0, 1), track(1, 2, 1)].concat()
}

/// A sound train of a type.
fn train_of(train_type: u8) -> Vec<u8> {
    train(0, train_type, &[(0, 2, 3), (1, 6, 7)])
}

/// The same with a train of type 1.
fn trains() -> Vec<u8> {
    [tracks(), train_of(1)].concat()
}

/// The rest of a sound case after its head.
fn after_head() -> Vec<u8> {
    [&trains()[8..], &table(1, &[(0, 100)])].concat()
}

#[test]
fn refusal_6_head() {
    let heads = [
        (0, 1, 1024),
        (720, 1, 1024),
        (65_535, 1, 1024),
        (20, 31, 1024),
        (20, 255, 1024),
        (20, 1, 0),
        (20, 1, 1025),
        (20, 1, 65_535),
        (0, 31, 0),
        (65_535, 255, 65_535),
    ];
    for (last_minute, safety, room) in heads {
        refused_after(&[], &head(last_minute, safety, room), 6);
        let case = [head(last_minute, safety, room), after_head()].concat();
        refused(&case, &[], 6, 0, 0);
    }
    for (last_minute, safety, room) in [(719, 30, 1024), (7, 0, 1)] {
        accepted(
            &[head(last_minute, safety, room), after_head()].concat(),
            &[],
        );
    }
}

#[test]
fn refusal_6_capacity() {
    refused_after(&stations(), &station(0), 6);
    for (from, to) in [(0, 1), (0, 0), (9, 1), (1, 255), (9, 9)] {
        refused_after(&stations(), &track(from, to, 0), 6);
    }
    refused_after(&tracks(), &track(0, 1, 0), 6);
    let most = [stations(), station(255), track(0, 1, 255)].concat();
    let rest = [train_of(1), table(1, &[(0, 100)])].concat();
    accepted(&[most, rest].concat(), &[]);
}

#[test]
fn refusal_7_ends_of_a_track() {
    for (from, to) in [(3, 0), (0, 3), (255, 0), (0, 255), (0, 0), (2, 2), (9, 9)] {
        refused_after(&stations(), &track(from, to, 1), 7);
    }
    for (from, to) in [(0, 1), (1, 0), (1, 2)] {
        refused_after(&tracks(), &track(from, to, 9), 7);
    }
    let more = [tracks(), track(2, 1, 1), track(0, 2, 1)].concat();
    accepted(&[more, train_of(1), table(1, &[(0, 100)])].concat(), &[]);
}

#[test]
fn refusal_8_path() {
    let bad_paths: [&[u8]; 8] = [
        &[0, 3],
        &[255, 0],
        &[0, 0],
        &[0, 1, 0],
        &[0, 2],
        &[2, 1],
        &[1, 2, 0],
        &[0, 1, 2, 255],
    ];
    for path in bad_paths {
        let ordered = path.iter().zip(0..).map(|(s, i)| (*s, 2 * i, 2 * i));
        let unordered = path.iter().map(|s| (*s, 65_535, 3));
        refused_after(&tracks(), &train(0, 1, &ordered.collect::<Vec<_>>()), 8);
        refused_after(&tracks(), &train(0, 1, &unordered.collect::<Vec<_>>()), 8);
    }
}

#[test]
fn refusal_9_times() {
    let bad_times: [[(u16, u16); 2]; 11] = [
        [(3, 2), (6, 7)],
        [(2, 3), (7, 6)],
        [(2, 6), (6, 7)],
        [(2, 7), (6, 7)],
        [(2, 3), (6, 21)],
        [(2, 3), (21, 21)],
        [(2, 3), (6, 65_535)],
        [(65_535, 65_535), (65_535, 65_535)],
        [(2, 65_535), (0, 7)],
        [(65_535, 0), (1, 2)],
        [(0, 0), (0, 0)],
    ];
    for [one, two] in bad_times {
        let stops = [(0, one.0, one.1), (1, two.0, two.1)];
        refused_after(&tracks(), &train(0, 1, &stops), 9);
        refused_after(&trains(), &train(0, 1, &stops), 9);
    }
    for [one, two] in [[(0, 0), (1, 1)], [(0, 19), (20, 20)]] {
        let stops = [(0, one.0, one.1), (1, two.0, two.1)];
        let case = [tracks(), train(0, 1, &stops), table(1, &[(0, 100)])];
        accepted(&case.concat(), &[]);
    }
}

#[test]
fn refusal_10_table() {
    let bad_tables: [&[(u8, u8)]; 12] = [
        &[(0, 99)],
        &[(0, 101)],
        &[(0, 0)],
        &[(0, 255)],
        &[(0, 60), (3, 41)],
        &[(0, 255), (1, 101)],
        &[(0, 100), (1, 0)],
        &[(3, 60), (3, 40)],
        &[(3, 60), (2, 40)],
        &[(0, 50), (9, 25), (9, 25)],
        &[(0, 255), (1, 255), (2, 102)],
        &[(9, 0), (9, 0)],
    ];
    for pairs in bad_tables {
        refused_after(&trains(), &table(1, pairs), 10);
        // An unused table must be sound too.
        let used = [trains(), table(1, &[(0, 100)])].concat();
        refused_after(&used, &table(2, pairs), 10);
        refused(&used, &table(2, pairs), 10, 1, 0);
        let before = table(0, &[(0, 100)]);
        refused(&used, &[before.clone(), table(1, pairs)].concat(), 10, 1, 6);
    }
    let eight: [(u8, u8); 8] =
        [0, 1, 2, 3, 4, 5, 254, 255].map(|d| (d, if d < 255 { 1 } else { 93 }));
    accepted(&[trains(), table(1, &eight)].concat(), &table(1, &eight));
}

#[test]
fn refusal_10_type_that_does_not_rise() {
    let used = [trains(), table(1, &[(0, 100)])].concat();
    for train_type in [0, 1] {
        refused_after(&used, &table(train_type, &[(0, 100)]), 10);
        let book = [table(1, &[(5, 100)]), table(train_type, &[(0, 100)])].concat();
        refused(&used, &book, 10, 1, 6);
    }
    accepted(
        &[used, table(255, &[(0, 100)])].concat(),
        &table(1, &[(5, 100)]),
    );
}

#[test]
fn refusal_11_type_without_table() {
    let three = [tracks(), train_of(1), train_of(2), train_of(3)].concat();
    let first = tracks().len();
    let sound = |train_type| table(train_type, &[(0, 100)]);
    refused(&three, &[], 11, 0, first);
    refused(&three, &sound(1), 11, 0, first + 15);
    refused(&three, &[sound(1), sound(2)].concat(), 11, 0, first + 30);
    refused(&three, &[sound(2), sound(3)].concat(), 11, 0, first);
    let with_two = [three, sound(2)].concat();
    refused(&with_two, &sound(3), 11, 0, first);
    refused(&with_two, &sound(1), 11, 0, first + 30);
    accepted(&with_two, &[sound(1), sound(3)].concat());
}

#[test]
fn the_table_in_the_case_is_used_before_the_one_in_the_book() {
    let case = [tracks(), train_of(1), train_of(2), table(2, &[(7, 100)])].concat();
    let book = [table(1, &[(8, 100)]), table(2, &[(9, 100)])].concat();
    let plan = Plan::read(&case, &book).expect("accepted");
    let delays: Vec<u32> = plan.tables.iter().map(|t| t.delays[0].minutes).collect();
    assert_eq!(delays, [8, 7]);
}

#[test]
fn the_first_unsound_field_wins_then_the_book_then_11() {
    let bad_table = table(1, &[(0, 99)]);
    let bad_train = train(0, 1, &[(0, 3, 2), (1, 6, 7)]);
    refused(
        &[tracks(), bad_train, bad_table.clone()].concat(),
        &[7],
        9,
        0,
        38,
    );
    refused(
        &[stations(), track(0, 0, 1), station(0)].concat(),
        &[7],
        7,
        0,
        20,
    );
    refused(&[trains(), bad_table].concat(), &[0], 10, 0, 53);
    refused(&trains(), &[0, 0, 0], 2, 1, 0);
    refused(&trains(), &table(2, &[(0, 99)]), 10, 1, 0);
    refused(&trains(), &table(2, &[(0, 100)]), 11, 0, 38);
}

#[test]
fn the_longest_case_without_couples_has_819_bytes_and_only_a_couple_may_follow() {
    let path: Vec<(u8, u16, u16)> = (0..8)
        .map(|s| (s, 2 * u16::from(s), 2 * u16::from(s)))
        .collect();
    let along = (0..23u8).flat_map(|from| track(from, from + 1, 1));
    let past = (0..17u8).flat_map(|from| track(from, from + 2, 1));
    let pairs: Vec<(u8, u8)> = (0..8).map(|d| (d, if d == 0 { 93 } else { 1 })).collect();
    let mut case = [head(719, 30, 1024), station(1).repeat(24)].concat();
    case.extend(along.chain(past));
    case.extend(train(0, 1, &path).repeat(7));
    case.extend((1..9).flat_map(|train_type| table(train_type, &pairs)));
    assert_eq!(case.len(), 819);
    accepted(&case, &[]);
    for tag in 0..=255u8 {
        let expected = match tag {
            1..=4 => 3,
            5 => 5,
            6 => 4,
            _ => 2,
        };
        refused_after(&case, &field(tag, &[9, 0, 100]), expected);
        let far = [field(tag, &[9, 0, 100]), vec![7; 4_000]].concat();
        refused_after(&case, &far, expected);
    }
    // None of its tracks mirrors another.
    refused_after(&case, &field(6, &[0, 1]), 18);
}
