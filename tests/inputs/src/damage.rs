//! Damaging files: byte changes, cuts, changed lengths, and fields dropped, repeated, swapped or heaped up.

use crate::couple_damage::{damage_couples, has_couples};
use crate::generator::{Chance, Files};
use second::reader::TABLE_TAG;
use second::viewer::{View, Viewer};

/// Damages the case or, less often, the book, once or twice; of a case with couples mostly these.
pub fn damaged(chance: &mut Chance, files: &Files) -> Files {
    let coupled = has_couples(&files.case);
    let mut files = files.clone();
    for _ in 0..chance.between(1, 2) {
        if coupled && chance.percent(60) {
            damage_couples(chance, &mut files);
            continue;
        }
        let in_book = !files.book.is_empty() && chance.percent(30);
        let file = if in_book {
            &mut files.book
        } else {
            &mut files.case
        };
        damage(chance, file);
    }
    files
}

/// Does one drawn damage to a file.
fn damage(chance: &mut Chance, file: &mut Vec<u8>) {
    if file.is_empty() {
        file.push(chance.below(256) as u8);
        return;
    }
    match chance.below(10) {
        0 | 1 => change_byte(chance, file),
        2 | 3 => nudge_byte(chance, file),
        4 => file.truncate(chance.below(file.len())),
        5 => change_length(chance, file),
        6 => drop_or_repeat(chance, file),
        7 => swap_fields(chance, file),
        8 => heap_up(chance, file),
        _ => add_bytes(chance, file),
    }
}

/// The starts of the fields as the viewer gives them, and the place where it stays.
fn starts(file: &[u8]) -> Vec<usize> {
    let mut viewer = Viewer::new(file);
    let mut starts = vec![0];
    while let View::Field(_) = viewer.give() {
        starts.push(viewer.place());
    }
    starts
}

/// One byte takes a drawn value.
fn change_byte(chance: &mut Chance, file: &mut [u8]) {
    let at = chance.below(file.len());
    file[at] = [0, 1, 255, chance.below(256) as u8][chance.below(4)];
}

/// One byte goes up or down by one.
fn nudge_byte(chance: &mut Chance, file: &mut [u8]) {
    let at = chance.below(file.len());
    file[at] = file[at].wrapping_add([1, 255][chance.below(2)]);
}

/// One field's length takes another value, near or far.
fn change_length(chance: &mut Chance, file: &mut [u8]) {
    let starts = starts(file);
    let start = starts[chance.below(starts.len())];
    if start + 2 < file.len() {
        let far = chance.percent(30);
        file[start + 1] = if far { chance.below(256) as u8 } else { 0 };
        file[start + 2] = chance.below(if far { 256 } else { 48 }) as u8;
    }
}

/// One field is left out or stands twice.
fn drop_or_repeat(chance: &mut Chance, file: &mut Vec<u8>) {
    let starts = starts(file);
    if starts.len() > 1 {
        let which = chance.below(starts.len() - 1);
        let (start, end) = (starts[which], starts[which + 1]);
        let twice = [file[start..end].to_vec(), file[start..end].to_vec()].concat();
        let instead = if chance.percent(50) {
            twice
        } else {
            Vec::new()
        };
        file.splice(start..end, instead);
    }
}

/// Two neighbouring fields change places.
fn swap_fields(chance: &mut Chance, file: &mut [u8]) {
    let starts = starts(file);
    if starts.len() > 2 {
        let which = chance.below(starts.len() - 2);
        let (start, middle, end) = (starts[which], starts[which + 1], starts[which + 2]);
        file[start..end].rotate_left(middle - start);
    }
}

/// One field stands so often that there may be too many of its kind; repeated tables get rising types.
fn heap_up(chance: &mut Chance, file: &mut Vec<u8>) {
    let starts = starts(file);
    if starts.len() > 1 {
        let which = chance.below(starts.len() - 1);
        let (start, end) = (starts[which], starts[which + 1]);
        let mut heap = Vec::new();
        for copy in 1..=[7, 8, 23, 24][chance.below(4)] {
            let mut field = file[start..end].to_vec();
            if field[0] == TABLE_TAG && field.len() > 3 {
                field[3] = field[3].wrapping_add(copy);
            }
            heap.extend(field);
        }
        file.splice(end..end, heap);
    }
}

/// A few drawn bytes follow the end.
fn add_bytes(chance: &mut Chance, file: &mut Vec<u8>) {
    for _ in 0..chance.between(1, 4) {
        file.push([chance.below(7) as u8, 0, chance.below(256) as u8][chance.below(3)]);
    }
}
