//! Inputs made for a purpose.

use crate::branches::{each_waits, longest, most_couples, passing_station, two_abreast};
use crate::drawn::MOST_MET;
use crate::faulty::{faulty, sound_case};
use crate::generator::{crowded, Chance, Files};
use crate::meeting::crossing;
use crate::writer::{head, station, table, track, train};

/// The inputs made for a purpose: each fault and each two in one field, each end of a range, refusals 11 and 12, each capacity, the examples,
/// and trains that meet.
pub fn made() -> Vec<Files> {
    let mut made = faulty();
    made.extend(ends_of_cases());
    made.extend((0..7).map(without_table_of));
    made.extend([7, 6, 4, 3].map(shift_in_room));
    let mut chance = Chance::new(0);
    for capacity in 1..=MOST_MET {
        made.extend((0..4).map(|_| crowded(&mut chance, capacity)));
    }
    made.extend(examples());
    made.extend(document_000());
    made.extend(meetings());
    made
}

/// Branches on which trains meet, the longest case, and trains that cross on a coupled track of each capacity.
fn meetings() -> Vec<Files> {
    let cases = [
        passing_station(2),
        each_waits(),
        two_abreast(),
        most_couples(),
        longest(),
    ];
    let files = |case| Files {
        case,
        book: Vec::new(),
    };
    let mut made = cases.map(files).to_vec();
    let mut chance = Chance::new(0);
    for capacity in 1..MOST_MET {
        made.extend((0..2).map(|_| crossing(&mut chance, capacity)));
    }
    made
}

/// Cases without a fault in any field that end too early, and one that is sound.
fn ends_of_cases() -> Vec<Files> {
    let only = |case: Vec<u8>| Files {
        case,
        book: Vec::new(),
    };
    let ground = [head(20, 1, 1024), station(1), station(1)].concat();
    vec![
        only(Vec::new()),
        only(head(20, 1, 1024)),
        only([head(20, 1, 1024), table(1, &[(0, 100)])].concat()),
        only(ground.clone()),
        only([ground, track(0, 1, 1)].concat()),
        only(sound_case()),
    ]
}

/// Seven trains of seven types, of which the given train's alone has no table in either file; two tables are in the book.
fn without_table_of(missing: u8) -> Files {
    let mut case = [head(60, 0, 1024), station(7), station(7), track(0, 1, 7)].concat();
    for number in 0..7u8 {
        let minute = u16::from(number);
        let stops = [(0, minute, minute), (1, minute + 3, minute + 4)];
        case.extend(train(0, number + 1, &stops));
    }
    let tables = |types: std::ops::Range<u8>| {
        let had = types.filter(|number| *number != missing);
        had.flat_map(|number| table(number + 1, &[(0, 100)]))
            .collect::<Vec<u8>>()
    };
    case.extend(tables(0..5));
    let book = tables(5..7);
    Files { case, book }
}

/// The shift example with another room: 7 is enough, 6 and 4 are passed in the run, 3 by the first list.
fn shift_in_room(room: u8) -> Files {
    let mut case = SHIFT.to_vec();
    (case[6], case[7]) = (0, room);
    let book = Vec::new();
    Files { case, book }
}

/// The case of the shift example.
const SHIFT: &[u8] = include_bytes!("../../../examples/shift.case");

/// The cases of examples/, with no book.
fn examples() -> Vec<Files> {
    let cases: [&[u8]; 7] = [
        SHIFT,
        include_bytes!("../../../examples/dependence.case"),
        include_bytes!("../../../examples/errors/counting-entries.case"),
        include_bytes!("../../../examples/errors/multiplying.case"),
        include_bytes!("../../../examples/errors/tracks-first.case"),
        include_bytes!("../../../examples/errors/cutting-blocks.case"),
        include_bytes!("../../../examples/errors/freeing-late.case"),
    ];
    let files = |case: &[u8]| Files {
        case: case.to_vec(),
        book: Vec::new(),
    };
    cases.into_iter().map(files).collect()
}

/// Table 4.1 of document 000, in hundredths: support and weight, row by row.
pub const TABLE_4_1: [&[(u8, u8)]; 8] = [
    &[(0, 50), (1, 17), (4, 18), (10, 15)],
    &[(0, 50), (1, 32), (4, 18)],
    &[(0, 60), (10, 20), (30, 20)],
    &[(0, 50), (10, 25), (30, 25)],
    &[(0, 50), (10, 25), (30, 25)],
    &[(0, 80), (1, 16), (4, 4)],
    &[(0, 50), (10, 25), (30, 25)],
    &[(0, 50), (10, 25), (30, 25)],
];

/// Example 2.2.5 of document 000 as a case; what the document leaves open is added: weights, equal priorities and a last minute. Its one minute of blocking
/// is, as it says itself, in effect two, which is the safety time here.
pub fn example_2_2_5() -> Vec<u8> {
    let rides = [
        train(0, 0, &[(0, 1, 2), (1, 3, 4)]),
        train(0, 0, &[(0, 4, 5), (1, 6, 7)]),
    ];
    let delays = table(0, &[(0, 50), (1, 30), (2, 20)]);
    let level = [head(20, 2, 1024), station(1), station(1), track(0, 1, 1)];
    [level.concat(), rides.concat(), delays].concat()
}

/// Document 000's example, and two trains in turn over one track with the tables of each two neighbouring rows of table 4.1, in the case and in the book.
fn document_000() -> Vec<Files> {
    let mut made = vec![Files {
        case: example_2_2_5(),
        book: Vec::new(),
    }];
    for first in 0..8 {
        let types = (1, 2);
        let level = [head(60, 1, 1024), station(1), station(1), track(0, 1, 1)];
        let rides = [
            train(0, types.0, &[(0, 1, 2), (1, 4, 5)]),
            train(0, types.1, &[(0, 3, 4), (1, 7, 8)]),
        ];
        let in_case = table(types.0, TABLE_4_1[first]);
        let case = [level.concat(), rides.concat(), in_case].concat();
        let book = table(types.1, TABLE_4_1[(first + 1) % 8]);
        made.push(Files { case, book });
    }
    made
}
