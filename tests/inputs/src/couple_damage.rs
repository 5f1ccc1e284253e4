//! Damaging what a case says of couples: unknown and other tracks, unequal capacities, couples twice, too long, cut short or out of place.

use crate::generator::{Chance, Files};
use crate::writer::{couple, table};
use second::reader::{COUPLE_TAG, TRACK_TAG};
use second::viewer::{View, Viewer};

/// The offsets of the fields of a tag, as far as the viewer gives fields.
fn offsets(file: &[u8], tag: u8) -> Vec<usize> {
    let mut viewer = Viewer::new(file);
    let mut offsets = Vec::new();
    while let View::Field(field) = viewer.give() {
        if field.tag == tag {
            offsets.push(field.offset);
        }
    }
    offsets
}

/// Whether a case has couples.
pub fn has_couples(case: &[u8]) -> bool {
    !offsets(case, COUPLE_TAG).is_empty()
}

/// Does one drawn damage to the couples of a case; to a case without whole couples or tracks one more couple is added.
pub fn damage_couples(chance: &mut Chance, files: &mut Files) {
    let tracks = offsets(&files.case, TRACK_TAG);
    let couples: Vec<usize> = offsets(&files.case, COUPLE_TAG)
        .into_iter()
        .filter(|at| at + 5 <= files.case.len())
        .collect();
    if tracks.is_empty() || couples.is_empty() {
        files.case.extend(couple(0, 1));
        return;
    }
    let at = couples[chance.below(couples.len())];
    match chance.below(12) {
        0 | 1 => name_unknown(chance, &mut files.case, at, tracks.len()),
        2 => files.case[at + 3] = files.case[at + 4],
        3 | 4 => name_other(chance, &mut files.case, at, tracks.len()),
        5 => change_capacity(chance, &mut files.case, at, &tracks),
        6 => repeat(chance, &mut files.case, at),
        7 => change_length(chance, &mut files.case, at),
        8 => files
            .case
            .extend(table(chance.below(256) as u8, &[(0, 100)])),
        9 => put_into_book(chance, &mut files.book),
        10 => files.case.truncate(at + chance.between(1, 4)),
        _ => add(chance, &mut files.case, tracks.len()),
    }
}

/// One of the numbers takes the value of a track that the case has not.
fn name_unknown(chance: &mut Chance, case: &mut [u8], at: usize, tracks: usize) {
    case[at + chance.between(3, 4)] = [tracks, tracks + 1, 255][chance.below(3)] as u8;
}

/// One of the numbers takes the value of a drawn track.
fn name_other(chance: &mut Chance, case: &mut [u8], at: usize, tracks: usize) {
    case[at + chance.between(3, 4)] = chance.below(tracks) as u8;
}

/// One of the coupled tracks takes a train more or less.
fn change_capacity(chance: &mut Chance, case: &mut [u8], at: usize, tracks: &[usize]) {
    let named = usize::from(case[at + chance.between(3, 4)]);
    if let Some(track) = tracks.get(named) {
        case[track + 5] = case[track + 5].wrapping_add([1, 255][chance.below(2)]);
    }
}

/// The couple stands again after the last field, perhaps with its numbers in the other order.
fn repeat(chance: &mut Chance, case: &mut Vec<u8>, at: usize) {
    let (one, other) = (case[at + 3], case[at + 4]);
    let again = [couple(one, other), couple(other, one)][chance.below(2)].clone();
    case.extend(again);
}

/// The couple's body gets another length, and perhaps so many bytes.
fn change_length(chance: &mut Chance, case: &mut Vec<u8>, at: usize) {
    let length = [0, 1, 3, 4][chance.below(4)];
    case[at + 2] = length;
    if chance.percent(50) {
        case.splice(at + 3..at + 5, vec![0; usize::from(length)]);
    }
}

/// A couple stands before or after the tables of the book.
fn put_into_book(chance: &mut Chance, book: &mut Vec<u8>) {
    let at = [0, book.len()][chance.below(2)];
    book.splice(at..at, couple(0, 1));
}

/// One more couple of drawn tracks stands after the last field.
fn add(chance: &mut Chance, case: &mut Vec<u8>, tracks: usize) {
    let (one, other) = (chance.below(tracks + 1), chance.below(tracks + 1));
    case.extend(couple(one as u8, other as u8));
}
