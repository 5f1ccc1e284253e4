//! Damaged couples made by hand: refusals 1, 3, 4, 5 and 18, and their order.

use inputs::answers::listed;
use inputs::branches::{longest, most_couples};
use inputs::writer::{couple, field, head, station, table, track, train};
use second::plan::Plan;
use second::refusal::Refusal;

/// Asserts the refusal of a case with a book, by the reading and by the listing.
fn refused(case: &[u8], book: &[u8], number: u8, file: u8, place: usize) {
    let expected = Refusal::at(number, file, place);
    let read = Plan::read(case, book).map(|plan| plan.trains());
    assert_eq!(read, Err(expected), "{case:02x?} {book:02x?}");
    assert_eq!(listed(case, book), Err(expected));
}

/// Asserts the refusal of a field put after these fields of a case.
fn refused_after(before: &[u8], last: &[u8], number: u8) {
    refused(&[before, last].concat(), &[], number, 0, before.len());
}

/// The couples of an accepted case.
fn couples(case: &[u8]) -> Vec<[usize; 2]> {
    let plan = Plan::read(case, &[]).expect("a sound case");
    plan.case.couples
}

/// Three stations; tracks 0 to 5 are 0 to 1 and back, 1 to 2 and back with unequal capacities, and 0 to 2 and back; a train of type 1.
fn trains() -> Vec<u8> {
    let fields = [
        head(20, 1, 1_024),
        station(1).repeat(3),
        [track(0, 1, 2), track(1, 0, 2)].concat(),
        [track(1, 2, 1), track(2, 1, 2)].concat(),
        [track(0, 2, 1), track(2, 0, 1)].concat(),
        train(0, 1, &[(0, 2, 3), (1, 6, 7)]),
    ];
    fields.concat()
}

/// A sound table of a type.
fn sound_table(train_type: u8) -> Vec<u8> {
    table(train_type, &[(0, 100)])
}

/// A whole sound case without couples.
fn whole() -> Vec<u8> {
    [trains(), sound_table(1)].concat()
}

#[test]
fn couples_are_accepted_in_either_order_and_on_tracks_that_nobody_uses() {
    for pair in [[0, 1], [1, 0], [4, 5], [5, 4]] {
        let case = [whole(), couple(pair[0], pair[1])].concat();
        assert_eq!(couples(&case), [pair.map(usize::from)]);
    }
    let two = [whole(), couple(5, 4), couple(0, 1)].concat();
    assert_eq!(couples(&two), [[5, 4], [0, 1]]);
    assert_eq!(couples(&whole()), [[0; 2]; 0]);
    // The table may stand in the book.
    let without_table = [trains(), couple(0, 1)].concat();
    assert!(Plan::read(&without_table, &sound_table(1)).is_ok());
}

#[test]
fn refusal_18_unknown_track() {
    for (one, other) in [(0, 6), (6, 0), (6, 7), (6, 6), (255, 1), (1, 255)] {
        refused_after(&whole(), &couple(one, other), 18);
    }
    let no_tracks = [head(20, 1, 1_024), station(1)].concat();
    refused_after(&no_tracks, &couple(0, 1), 18);
    refused_after(&head(20, 1, 1_024), &couple(0, 0), 18);
}

#[test]
fn refusal_18_ends_that_do_not_mirror() {
    // The same track, tracks that share one end, and tracks that lead on; of equal capacities.
    for (one, other) in [(0, 0), (4, 4), (0, 3), (2, 4), (2, 5), (5, 2), (1, 3)] {
        refused_after(&whole(), &couple(one, other), 18);
    }
}

#[test]
fn refusal_18_unequal_capacities() {
    for (one, other) in [(2, 3), (3, 2)] {
        refused_after(&whole(), &couple(one, other), 18);
    }
}

#[test]
fn refusal_18_track_already_coupled() {
    let coupled = [whole(), couple(0, 1)].concat();
    for (one, other) in [(0, 1), (1, 0), (0, 0), (1, 5), (4, 0), (1, 255)] {
        refused_after(&coupled, &couple(one, other), 18);
    }
    let more = [coupled, couple(4, 5)].concat();
    assert_eq!(couples(&more).len(), 2);
    refused_after(&more, &couple(5, 4), 18);
    refused_after(&more, &couple(1, 0), 18);
}

#[test]
fn refusal_18_comes_after_the_tables_and_before_the_book_and_11() {
    let bad = couple(9, 9);
    let place = trains().len();
    let bad_table = table(1, &[(0, 99)]);
    refused(
        &[trains(), bad_table, bad.clone()].concat(),
        &[],
        10,
        0,
        place,
    );
    refused(&[trains(), bad.clone()].concat(), &[], 18, 0, place);
    refused(&[trains(), bad.clone()].concat(), &[0, 0, 0], 18, 0, place);
    refused(&[trains(), couple(0, 1)].concat(), &[0, 0, 0], 2, 1, 0);
    // Without a table the train's field has the place of 11.
    refused(&[trains(), couple(0, 1)].concat(), &[], 11, 0, place - 15);
    let later = [trains(), bad, couple(0, 1)].concat();
    refused(&later, &sound_table(1), 18, 0, place);
    // The end of the case is judged after its fields.
    let without_train = &trains()[..place - 15];
    refused(
        &[without_train, &couple(9, 9)].concat(),
        &[],
        18,
        0,
        place - 15,
    );
    refused(
        &[without_train, &couple(0, 1)].concat(),
        &[],
        5,
        0,
        place - 10,
    );
}

#[test]
fn refusal_3_a_couple_out_of_order_and_in_a_book() {
    refused_after(&[], &couple(0, 1), 3);
    refused_after(&[], &[6, 255, 255], 3);
    let coupled = [whole(), couple(0, 1)].concat();
    let fields = [
        head(20, 1, 1_024),
        station(1),
        track(2, 0, 1),
        train(0, 1, &[(0, 2, 3), (1, 6, 7)]),
        sound_table(2),
    ];
    for falling in fields {
        refused_after(&coupled, &falling, 3);
        refused_after(&coupled, &falling[..3], 3);
    }
    for book in [couple(0, 1), vec![6, 0, 0], vec![6, 255, 255]] {
        refused(&whole(), &book, 3, 1, 0);
        refused(&coupled, &book, 3, 1, 0);
        let after_table = [sound_table(1), book].concat();
        refused(&whole(), &after_table, 3, 1, 6);
    }
    refused(&whole(), &[6, 0], 1, 1, 0);
}

#[test]
fn refusal_4_and_1_length_and_body_of_a_couple() {
    for before in [whole(), [whole(), couple(0, 1)].concat()] {
        for length in [0, 1, 3, 4, 5, 12, 255, 256, 258, 65_535] {
            refused_after(&before, &field(6, &vec![9; length]), 4);
            let header = [6, (length / 256) as u8, (length % 256) as u8];
            refused_after(&before, &header, 4);
        }
        for cut in 1..5 {
            refused_after(&before, &couple(9, 9)[..cut], 1);
        }
    }
}

#[test]
fn refusal_5_a_couple_too_many() {
    let full = most_couples();
    assert_eq!(couples(&full).len(), 20);
    // Every track is coupled already, and yet the count is judged first.
    for (one, other) in [(0, 1), (38, 39), (0, 0), (40, 41), (255, 255), (0, 2)] {
        refused_after(&full, &couple(one, other), 5);
    }
    refused_after(&full, &couple(0, 1)[..4], 1);
    refused_after(&full, &couple(0, 1)[..2], 1);
    refused_after(&full, &field(6, &[0, 1, 2]), 4);
    refused_after(&full, &sound_table(9), 3);
    let nineteen = &full[..full.len() - 5];
    assert_eq!(couples(nineteen).len(), 19);
    refused_after(nineteen, &couple(0, 1), 18);
}

#[test]
fn the_longest_case_has_919_bytes_and_nothing_may_follow() {
    let case = longest();
    assert_eq!(case.len(), 919);
    assert_eq!(couples(&case).len(), 20);
    for tag in 0..=255u8 {
        let (two, three) = match tag {
            1..=5 => (3, 3),
            6 => (5, 4),
            _ => (2, 2),
        };
        refused_after(&case, &field(tag, &[9, 0]), two);
        refused_after(&case, &field(tag, &[9, 0, 100]), three);
        let far = [field(tag, &[9, 0]), vec![7; 4_000]].concat();
        refused_after(&case, &far, two);
    }
}
