//! The shift example through the exports: the marked points, its weights, its listing, its figures to the bit and its fields; and the layout of the answers.

use crate::called::{Exports, Linked};
use crate::memory::Lent;
use crate::tally::Tally;
use exports::{Answer, TrainFigures, Viewed, ALWAYS, NEVER, NONE, ROWS, SHARE, TEXT, WEIGHTS};
use inputs::generator::Files;
use inputs::questions::{Memory, MEMORIES, ROW_BYTES, WEIGHT_BYTES};
use std::mem::size_of;
use std::ptr::addr_of;

/// The files of the shift example, changed, with no book.
pub fn shift(change: impl FnOnce(&mut Vec<u8>)) -> Files {
    let mut case = include_bytes!("../../../examples/shift.case").to_vec();
    change(&mut case);
    let book = Vec::new();
    Files { case, book }
}

pub fn the_example(tally: &mut Tally) {
    let checks = [
        layouts(),
        single_runs(),
        runs(),
        listings(),
        figures(),
        fields(),
    ];
    for (what, holds) in checks.concat() {
        tally.expect(holds, || format!("failed: {what}"));
    }
}

/// What is checked, and whether it holds.
pub type Checks = Vec<(&'static str, bool)>;

/// The offset of each field of a struct.
macro_rules! offsets {
    ($of:expr, $($field:ident)*) => {{
        let of = $of;
        let start = addr_of!(of) as usize;
        vec![$(addr_of!(of.$field) as usize - start,)*]
    }};
}

/// Sizes and offsets as docs/FORMATS.md has them.
fn layouts() -> Checks {
    let answer = offsets!(Answer::default(), refusal file place value);
    let first = offsets!(TrainFigures::default(), refusal file place punctuality zero share);
    let last = offsets!(TrainFigures::default(), on_time late not_arrived lateness arrived kept);
    let viewed = offsets!(Viewed::default(), refusal given tag size next);
    let required = MEMORIES.map(Memory::required);
    vec![
        ("an answer has 16 bytes", size_of::<Answer>() == 16),
        ("an answer's fields", answer == [0, 2, 4, 8]),
        ("figures have 96 bytes", size_of::<TrainFigures>() == 96),
        ("the figures' first fields", first == [0, 2, 4, 8, 12, 16]),
        ("the figures' last fields", last == [24, 32, 40, 48, 56, 64]),
        ("what is viewed has 16 bytes", size_of::<Viewed>() == 16),
        ("what is viewed", viewed == [0, 2, 4, 6, 8]),
        ("the required lengths", required == [ROWS, WEIGHTS, TEXT]),
    ]
}

fn single_runs() -> Checks {
    let arrives = |files: &Files, choice: [u8; 2], minute: u64| {
        let answer = Linked.single(files, &choice, 1);
        let value = Answer {
            value: minute,
            ..Answer::default()
        };
        answer == value
    };
    let whole = shift(|_| {});
    let short = shift(|case| case[4] = 13);
    vec![
        ("P1", arrives(&whole, [0, 0], 11)),
        ("P2", arrives(&whole, [0, 1], 14)),
        ("P3", arrives(&whole, [1, 0], 13)),
        ("P4", arrives(&whole, [1, 1], 14)),
        ("none by T", arrives(&short, [0, 1], NONE)),
        ("P1 where T is 13", arrives(&short, [0, 0], 11)),
    ]
}

/// The weight of a train in a minute.
pub fn weight(lent: &Lent, train: usize, minute: usize) -> u64 {
    let at = (train * 720 + minute) * WEIGHT_BYTES;
    let longer = |sum: u64, byte: &u8| sum * 256 + u64::from(*byte);
    let bytes = &lent.weights.part()[at..at + WEIGHT_BYTES];
    bytes.iter().fold(0, longer)
}

fn runs() -> Checks {
    let (whole, mut early, mut late) = (shift(|_| {}), Lent::exact(), Lent::exact());
    let five = Linked.run(&whole, 5, &mut early);
    let entries: Vec<&[u8]> = early.rows.part()[..5 * ROW_BYTES]
        .chunks(ROW_BYTES)
        .collect();
    let second = entries.iter().filter(|row| row[0] == 1).count();
    let first_row = [1, 1, 0, 0, 0, 5, 0, 0, 2, 1, 0, 0, 0, 0, 0, 0];
    let unused = &early.rows.part()[5 * ROW_BYTES..];
    let no_weight = early.weights.holds(&[]);
    let end = Linked.run(&whole, 20, &mut late);
    let arrivals = [(0, 6), (0, 9), (1, 11), (1, 13), (1, 14)];
    let weights = arrivals.map(|(k, t)| weight(&late, k, t));
    let ends = (0..7).flat_map(|k| (0..720).map(move |t| (k, t)));
    let sum: u64 = ends.map(|(k, t)| weight(&late, k, t)).sum();
    vec![
        (
            "P5: five entries",
            five == Answer {
                value: 5,
                ..Answer::default()
            },
        ),
        ("P5: three of train 1", second == 3),
        ("a row, byte by byte", entries.contains(&&first_row[..])),
        ("unused rows are 0", unused.iter().all(|byte| *byte == 0)),
        ("no weight by minute 5", no_weight),
        (
            "the run to the end",
            end.refusal == 0 && late.text.untouched(),
        ),
        (
            "the weights",
            weights == [6_000, 4_000, 3_600, 2_400, 4_000],
        ),
        ("no other weights", sum == 20_000),
    ]
}

/// The listing of files, or its refusal's number.
fn listed(files: &Files) -> Result<Vec<u8>, u16> {
    let mut lent = Lent::exact();
    let answer = Linked.listing(files, &mut lent);
    let length = answer.value as usize;
    let text = lent.text.part();
    match answer.refusal {
        0 if text[length..].iter().all(|byte| *byte == 0) => Ok(text[..length].to_vec()),
        number => Err(number),
    }
}

fn listings() -> Checks {
    let printed = include_bytes!("../../../examples/shift.listing").to_vec();
    let room = |room| listed(&shift(|case| case[6..8].copy_from_slice(&[0, room])));
    let minute = |last| listed(&shift(|case| case[4] = last));
    let ends = |text: &[u8], line: &[u8]| text.ends_with(line);
    let mut in_book = shift(|_| {});
    in_book.book = in_book.case.split_off(52);
    vec![
        ("the listing", listed(&shift(|_| {})) == Ok(printed.clone())),
        ("P6: room 7", room(7) == Ok(printed.clone())),
        ("P7: room 6", room(6) == Err(12)),
        (
            "P8: T = 13",
            minute(13).map_or(false, |text| ends(&text, b"\n1 - 4000\n")),
        ),
        ("P9: T = 12", minute(12).is_ok()),
        ("P10: T = 11", minute(11) == Err(9)),
        ("the table in the book", listed(&in_book) == Ok(printed)),
    ]
}

/// The figures of a train for a limit: punctuality, the four doubles by their bits, and the lateness.
fn of_train(files: &Files, train: u64, limit: u16) -> (u32, [u64; 4], [u64; 2]) {
    let f = Linked.figures(files, train, limit, &mut Lent::exact());
    let doubles = [f.share, f.on_time, f.late, f.not_arrived].map(f64::to_bits);
    (f.punctuality, doubles, [f.lateness, f.arrived])
}

fn figures() -> Checks {
    let bits = |doubles: [f64; 4]| doubles.map(f64::to_bits);
    let (whole, short) = (shift(|_| {}), shift(|case| case[4] = 13));
    let delayed = shift(|case| case[56] = 1);
    let late = [2 * 2_400 + 3 * 4_000, 10_000];
    let share = (SHARE, bits([0.36, 0.36, 0.64, 0.0]), late);
    let more = (SHARE, bits([0.6, 0.6, 0.4, 0.0]), late);
    let always = (ALWAYS, bits([0.0, 1.0, 0.0, 0.0]), late);
    let missing_late = [2 * 2_400, 6_000];
    let missing = (SHARE, bits([0.36, 0.36, 0.24, 0.4]), missing_late);
    let never_late = [6_000 + 3 * 4_000, 10_000];
    let never = (NEVER, bits([0.0, 0.0, 1.0, 0.0]), never_late);
    vec![
        ("a share", of_train(&whole, 1, 0) == share),
        ("a share, a minute", of_train(&whole, 1, 1) == share),
        ("a share, two minutes", of_train(&whole, 1, 2) == more),
        ("always", of_train(&whole, 1, 3) == always),
        (
            "always, the highest limit",
            of_train(&whole, 1, 65_535) == always,
        ),
        ("never", of_train(&delayed, 0, 0) == never),
        ("not arrived", of_train(&short, 1, 0) == missing),
        (
            "0.36 by its bits",
            bits([0.36; 4]) == [0x3FD7_0A3D_70A3_D70A; 4],
        ),
    ]
}

/// The fields of a file from its start on, as tag, length and place of the next, and what the viewer gives where it stays.
fn walk(file: &[u8]) -> (Vec<(u16, u16, u64)>, Viewed) {
    let (mut given, mut place) = (Vec::new(), 0);
    loop {
        let viewed = Linked.field(file, place);
        if viewed.given == 0 {
            return (given, viewed);
        }
        given.push((viewed.tag, viewed.size, viewed.next));
        place = viewed.next;
    }
}

fn fields() -> Checks {
    let whole = shift(|_| {}).case;
    let stays = |refusal, next| Viewed {
        refusal,
        next,
        ..Viewed::default()
    };
    let walked = vec![
        (1, 5, 8),
        (2, 1, 12),
        (2, 1, 16),
        (3, 3, 22),
        (4, 12, 37),
        (4, 12, 52),
        (5, 5, 60),
    ];
    let cut = walk(&whole[..59]);
    vec![
        ("the fields", walk(&whole) == (walked.clone(), stays(0, 60))),
        ("a body cut", cut == (walked[..6].to_vec(), stays(1, 52))),
        ("a header cut", Linked.field(&[5, 0], 0) == stays(1, 0)),
        ("no field of no bytes", walk(&[]) == (vec![], stays(0, 0))),
        (
            "no field past the end",
            Linked.field(&whole, u64::MAX) == stays(0, u64::MAX),
        ),
    ]
}
