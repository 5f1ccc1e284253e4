//! Damaged files made by hand: for each refusal 1 to 11 the expected number, file and place.

use inputs::answers::listed;
use inputs::writer::{field, head, station, table, track, train};
use second::plan::Plan;
use second::refusal::Refusal;

/// Asserts the refusal of a case with a book, by the reading and by the listing.
fn refused(case: &[u8], book: &[u8], number: u8, file: u8, place: usize) {
    let expected = Refusal::at(number, file, place);
    let read = Plan::read(case, book).map(|plan| plan.trains());
    assert_eq!(read, Err(expected), "{case:02x?} {book:02x?}");
    assert_eq!(listed(case, book), Err(expected));
}

/// Asserts that a case with a book is accepted.
fn accepted(case: &[u8], book: &[u8]) {
    assert!(Plan::read(case, book).is_ok(), "{case:02x?} {book:02x?}");
}

/// A head and two stations: offsets 0, 8 and 12, so that the next field has offset 16.
fn stations() -> Vec<u8> {
    [head(20, 1, 1024), station(1), station(1)].concat()
}

/// The same with the tracks 0 to 1 and 1 to 0, so that the next field has offset 28.
fn tracks() -> Vec<u8> {
    [stations(), track(0, 1, 1), track(1, 0, 1)].concat()
}

/// A sound train of type 1: 15 bytes.
fn sound_train() -> Vec<u8> {
    train(0, 1, &[(0, 2, 3), (1, 6, 7)])
}

/// The same with the train, so that the next field has offset 43.
fn trains() -> Vec<u8> {
    [tracks(), sound_train()].concat()
}

/// A sound table of a type: 6 bytes.
fn sound_table(train_type: u8) -> Vec<u8> {
    table(train_type, &[(0, 100)])
}

/// A whole sound case of 49 bytes.
fn whole() -> Vec<u8> {
    [trains(), sound_table(1)].concat()
}

/// Asserts the refusal of a field put after these fields of a case.
fn refused_after(before: &[u8], last: &[u8], number: u8) {
    refused(&[before, last].concat(), &[], number, 0, before.len());
}

/// Asserts the refusal of a field put into a book after these fields.
fn refused_in_book(before: &[u8], last: &[u8], number: u8) {
    let book = [before, last].concat();
    refused(&whole(), &book, number, 1, before.len());
}

#[test]
fn the_undamaged_files_are_accepted() {
    accepted(&whole(), &[]);
    accepted(&trains(), &sound_table(1));
    accepted(&whole(), &[sound_table(1), sound_table(2)].concat());
}

#[test]
fn refusal_1_headers_and_bodies_past_the_end() {
    for tag in [0, 1, 2, 5, 6, 7, 255] {
        refused_after(&[], &[tag], 1);
        refused_after(&[], &[tag, 0], 1);
        refused_after(&whole(), &[tag], 1);
        refused_after(&whole(), &[tag, 255], 1);
        refused_in_book(&[], &[tag], 1);
        refused_in_book(&sound_table(1), &[tag, 0], 1);
    }
    refused_after(&[], &[1, 0, 5], 1);
    refused_after(&[], &[1, 0, 5, 0, 0, 0, 0], 1);
    refused_after(&stations(), &[3, 0, 3, 9, 9], 1);
    refused_after(&trains(), &[5, 0, 17, 1, 0, 100], 1);
    refused_in_book(&sound_table(1), &[5, 0, 5, 2, 0, 100], 1);
}

#[test]
fn refusal_1_5_and_11_at_every_cut_of_a_sound_case() {
    let case = whole();
    let starts = [0, 8, 12, 16, 22, 28, 43];
    for cut in 0..case.len() {
        let field = starts.iter().rev().find(|start| **start <= cut);
        let place = *field.expect("a field starts at 0");
        match (place == cut, cut) {
            (false, _) => refused(&case[..cut], &[], 1, 0, place),
            (true, 43) => refused(&case[..cut], &[], 11, 0, 28),
            (true, _) => refused(&case[..cut], &[], 5, 0, cut),
        }
    }
}

#[test]
fn refusal_2_unknown_tags() {
    for tag in [0, 7, 8, 128, 255] {
        for length in [[0, 0], [0, 1], [0, 5], [255, 255]] {
            let header = [tag, length[0], length[1]];
            refused_after(&[], &header, 2);
            refused_after(&stations(), &header, 2);
            refused_after(&whole(), &header, 2);
            refused_in_book(&[], &header, 2);
            refused_in_book(&sound_table(3), &header, 2);
        }
        refused_after(&whole(), &field(tag, &[1, 0, 100]), 2);
    }
}

#[test]
fn refusal_3_first_field_no_head() {
    for first in [station(1), track(0, 1, 1), sound_train(), sound_table(1)] {
        refused_after(&[], &first, 3);
        refused_after(&[], &first[..3], 3);
    }
    refused_after(&[], &[5, 255, 255], 3);
    refused(&whole()[8..], &[], 3, 0, 0);
}

#[test]
fn refusal_3_second_head_and_falling_tag() {
    let one = head(20, 1, 1024);
    for before in [one.clone(), stations(), tracks(), trains(), whole()] {
        refused_after(&before, &one, 3);
        refused_after(&before, &head(0, 255, 0), 3);
        refused_after(&before, &[1, 0, 4], 3);
        refused_after(&before, &[1, 255, 255], 3);
    }
    refused_after(&tracks(), &station(1), 3);
    refused_after(&tracks(), &station(0), 3);
    refused_after(&trains(), &track(0, 1, 1), 3);
    refused_after(&trains(), &[2, 0, 9], 3);
    refused_after(&whole(), &sound_train(), 3);
    refused_after(&whole(), &[4, 255, 255], 3);
}

#[test]
fn refusal_3_other_fields_in_a_book() {
    for tag in 1..5 {
        for length in [[0, 0], [0, 1], [0, 3], [0, 5], [0, 12], [255, 255]] {
            let header = [tag, length[0], length[1]];
            refused_in_book(&[], &header, 3);
            refused_in_book(&sound_table(0), &header, 3);
        }
    }
    refused_in_book(&sound_table(1), &station(1), 3);
    refused(&whole(), &whole(), 3, 1, 0);
}

/// Asserts that after some fields a tag takes exactly these body lengths, whether the body is there or not.
fn only_lengths(before: &[u8], tag: u8, possible: &[usize]) {
    for length in (0..70).chain([255, 256, 261, 268, 65_535]) {
        if !possible.contains(&length) {
            refused_after(before, &field(tag, &vec![0; length]), 4);
            let header = [tag, (length / 256) as u8, (length % 256) as u8];
            refused_after(before, &header, 4);
        } else {
            let cut_short = field(tag, &vec![0; length]);
            refused_after(before, &cut_short[..2 + length], 1);
        }
    }
}

#[test]
fn refusal_4_impossible_lengths() {
    only_lengths(&[], 1, &[5]);
    only_lengths(&head(20, 1, 1024), 2, &[1]);
    only_lengths(&stations(), 3, &[3]);
    only_lengths(&tracks(), 4, &[12, 17, 22, 27, 32, 37, 42]);
    only_lengths(&trains(), 5, &[3, 5, 7, 9, 11, 13, 15, 17]);
    for length in [0, 1, 2, 4, 18, 19, 65_535] {
        refused_in_book(&[], &field(5, &vec![1; length]), 4);
    }
    refused_in_book(&sound_table(1), &[5, 255, 255], 4);
}

#[test]
fn refusal_5_one_too_many() {
    let full = [head(20, 1, 1024), station(1).repeat(24)].concat();
    assert_eq!(full.len(), 104);
    refused_after(&full, &station(1), 5);
    refused_after(&full, &station(0), 5);
    refused_after(&full, &[2, 0, 1], 1);
    refused_after(&full, &[2, 0, 2, 0, 0], 4);
    let pairs = (0..24u8).flat_map(|from| [(from, (from + 1) % 24), (from, (from + 2) % 24)]);
    let forty: Vec<u8> = pairs.take(40).flat_map(|(a, b)| track(a, b, 1)).collect();
    let full = [full, forty].concat();
    assert_eq!(full.len(), 344);
    refused_after(&full, &track(23, 5, 1), 5);
    refused_after(&full, &track(99, 99, 0), 5);
    refused_after(&full, &[3, 0, 3, 1, 2], 1);
    let full = [full, sound_train().repeat(7)].concat();
    assert_eq!(full.len(), 449);
    refused_after(&full, &sound_train(), 5);
    refused_after(&full, &train(0, 0, &[(99, 9, 8), (99, 7, 65_535)]), 5);
    refused_after(&full, &sound_train()[..14], 1);
    let eight: Vec<u8> = (0..8).flat_map(sound_table).collect();
    let full = [full, eight.clone()].concat();
    accepted(&full, &eight);
    refused_after(&full, &sound_table(9), 5);
    refused_after(&full, &table(0, &[(3, 0), (3, 0)]), 5);
    refused_after(&full, &[5, 0, 3, 9, 0], 1);
    refused_in_book(&eight, &sound_table(9), 5);
    refused_in_book(&eight, &table(0, &[(3, 0), (3, 0)]), 5);
    refused_in_book(&eight, &[5, 0, 3, 9, 0], 1);
}

#[test]
fn refusal_5_at_the_end_of_a_case() {
    refused(&[], &[], 5, 0, 0);
    refused(&[], &[0], 5, 0, 0);
    refused(&head(20, 1, 1024), &[], 5, 0, 8);
    refused(&stations(), &[], 5, 0, 16);
    refused(&tracks(), &sound_table(1), 5, 0, 28);
    refused(&[tracks(), sound_table(1)].concat(), &[], 5, 0, 34);
    refused(&[head(20, 1, 1024), sound_table(1)].concat(), &[], 5, 0, 14);
    refused_after(&head(20, 1, 1024), &track(0, 1, 1), 7);
    refused_after(&head(20, 1, 1024), &sound_train(), 8);
}
