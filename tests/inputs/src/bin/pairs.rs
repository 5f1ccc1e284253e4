//! The program `pairs`: pairs of files for a reader to judge, and the second program's judgement of each.
//!
//! `pairs SEED DRAWS` writes hand-made pairs and, of DRAWS drawn ones, the first few of each kind of refusal: a kind is the number, the file and the
//! tag at the place. After these stand pairs with couples, hand-made and drawn, and of the drawn ones only what has to do with couples.
//! A pair is the case's length (2), the book's length (2), the case and the book.
//! `pairs every SEED COUNT` writes every input that is drawn from COUNT seeds, from SEED on, sound and damaged.
//! `pairs` alone reads such pairs and prints a line for each: `accepted`, or the refusal's number, file and place.

use inputs::branches::{longest, most_couples};
use inputs::damage::damaged;
use inputs::drawn;
use inputs::generator::{sound, Chance, Files, Size};
use inputs::meeting::{long_branch, meeting};
use inputs::writer::{couple, field, head, station, table, track, train};
use second::plan::Plan;
use second::reader::{COUPLE_TAG, TABLE_TAG};
use second::refusal::Refusal;
use std::collections::HashMap;
use std::io::{self, Read, Write};
use std::process::ExitCode;

/// How many pairs of one kind are kept.
const OF_A_KIND: usize = 6;

const SMALL: Size = Size {
    trains: (1, 4),
    delays: (1, 3),
    small_room: 0,
    stretch: 1,
};

type Pair = (Vec<u8>, Vec<u8>);

fn main() -> ExitCode {
    let mut words: Vec<String> = std::env::args().skip(1).collect();
    let every = words.first().map_or(false, |word| word == "every");
    if every {
        words.remove(0);
    }
    let numbers: Vec<Option<u64>> = words.iter().map(|word| word.parse().ok()).collect();
    let written = match numbers.as_slice() {
        [] if !every => judge(),
        [Some(seed), Some(seeds)] if every => io::stdout().write_all(&every_drawn(*seed, *seeds)),
        [Some(seed), Some(draws)] => io::stdout().write_all(&of_each_kind(*seed, *draws)),
        _ => {
            eprintln!("use: pairs [[every] SEED COUNT]");
            return ExitCode::from(2);
        }
    };
    match written {
        Ok(()) => ExitCode::SUCCESS,
        Err(_) => ExitCode::FAILURE,
    }
}

/// Every input of so many seeds, as bytes.
fn every_drawn(seed: u64, seeds: u64) -> Vec<u8> {
    let mut bytes = Vec::new();
    for seed in seed..seed + seeds {
        for files in drawn::drawn(&mut Chance::new(seed)) {
            add(&mut bytes, &(files.case, files.book));
        }
    }
    bytes
}

/// The hand-made pairs and the first few of each kind, as bytes.
fn of_each_kind(seed: u64, draws: u64) -> Vec<u8> {
    let mut chance = Chance::new(seed);
    let mut apart = chance.apart();
    let mut bytes = Vec::new();
    for pair in hand_made() {
        add(&mut bytes, &pair);
    }
    let draw = |chance: &mut Chance| sound(chance, SMALL);
    add_drawn(&mut bytes, &mut chance, draws, draw, |_| true);
    for pair in coupled() {
        add(&mut bytes, &pair);
    }
    add_drawn(&mut bytes, &mut apart, draws / 10, draw_coupled, of_couples);
    bytes
}

/// A kind of judgement: number, file and the tag at the place; all 0 if accepted.
type Kind = (u16, u16, u8);

/// Adds the first few of each kind that is asked for, drawn sound and then damaged.
fn add_drawn(
    bytes: &mut Vec<u8>,
    chance: &mut Chance,
    draws: u64,
    draw: impl Fn(&mut Chance) -> Files,
    asked: impl Fn(Kind) -> bool,
) {
    let mut kept: HashMap<Kind, usize> = HashMap::new();
    for _ in 0..draws {
        let files = draw(chance);
        let files = damaged(chance, &files);
        let pair = (files.case, files.book);
        let of_kind = kept.entry(kind(&pair)).or_default();
        *of_kind += 1;
        if *of_kind <= OF_A_KIND && asked(kind(&pair)) {
            add(bytes, &pair);
        }
    }
}

/// Draws a case with couples; of each twenty one has as many as there may be, or one less.
fn draw_coupled(chance: &mut Chance) -> Files {
    match chance.below(20) {
        0 => long_branch(chance),
        _ => meeting(chance, SMALL),
    }
}

/// Whether a judgement has to do with couples: one is refused, or a table after one, or the files are accepted.
fn of_couples((number, file, tag): Kind) -> bool {
    tag == COUPLE_TAG || (number, file, tag) == (3, 0, TABLE_TAG) || number == 0
}

/// The kind of a pair's judgement.
fn kind((case, book): &Pair) -> Kind {
    match Plan::read(case, book) {
        Ok(_) => (0, 0, 0),
        Err(Refusal {
            number,
            file,
            place,
        }) => {
            let of = if file == 0 { case } else { book };
            let tag = of.get(place).copied().unwrap_or(7).min(7);
            (number.into(), file.into(), tag)
        }
    }
}

fn add(bytes: &mut Vec<u8>, (case, book): &Pair) {
    for file in [case, book] {
        bytes.extend((file.len() as u16).to_be_bytes());
    }
    bytes.extend(case);
    bytes.extend(book);
}

/// A case with an empty book.
fn only(case: Vec<u8>) -> Pair {
    (case, Vec::new())
}

/// The ends of the ranges: empty files, one byte, long lengths, one too many of each kind, times and weights at their ends.
fn hand_made() -> Vec<Pair> {
    [first_fields(), whole_cases()].concat()
}

/// Cases that end in their first fields.
fn first_fields() -> Vec<Pair> {
    vec![
        only(Vec::new()),
        only(vec![1]),
        only(vec![9]),
        only(vec![1, 0]),
        only(vec![1, 0, 5]),
        only(vec![1, 255, 255]),
        only(vec![4, 255, 255]),
        only(head(20, 1, 1024)),
        only([head(20, 1, 1024), head(20, 1, 1024)].concat()),
        only([head(20, 1, 1024), station(1)].concat()),
    ]
}

/// Cases with stations and a track, and books.
fn whole_cases() -> Vec<Pair> {
    let ground = [head(20, 1, 1024), station(1), station(1), track(0, 1, 1)].concat();
    let ride = train(1, 1, &[(0, 2, 3), (1, 6, 7)]);
    let delays = table(1, &[(0, 60), (3, 40)]);
    let with = |fields: &[&[u8]]| [&[&ground[..]], fields].concat().concat();
    let many = |field: Vec<u8>, n: usize| field.repeat(n);
    let tables: Vec<u8> = (0..9).flat_map(|kind| table(kind, &[(0, 100)])).collect();
    let tracks: Vec<u8> = (0..41)
        .flat_map(|n| track(n / 7, if n % 7 < n / 7 { n % 7 } else { n % 7 + 1 }, 1))
        .collect();
    let late = train(1, 1, &[(0, 65535, 65535), (1, 65535, 65535)]);
    let heavy = table(1, &[(0, 255), (1, 101)]);
    let case = with(&[&ride, &delays]);
    vec![
        only(with(&[&[2, 255, 255]])),
        only(with(&[&station(1)])),
        only([head(20, 1, 1024), many(station(1), 25)].concat()),
        only([head(20, 1, 1024), many(station(1), 24), vec![2, 0, 1]].concat()),
        only([head(20, 1, 1024), many(station(1), 8), tracks].concat()),
        only(with(&[&many(ride.clone(), 8), &delays])),
        only(with(&[&ride, &tables])),
        only(with(&[&late, &delays])),
        only(with(&[&ride, &heavy])),
        only(case.clone()),
        (with(&[&ride]), delays.clone()),
        (case.clone(), tables),
        (case.clone(), vec![5]),
        (case.clone(), vec![6, 0, 0]),
        (case.clone(), ride.clone()),
        (case.clone(), heavy),
        (with(&[&ride]), Vec::new()),
        (case.clone(), [delays.clone(), delays.clone()].concat()),
        (case, [delays, vec![5, 255, 255]].concat()),
    ]
}

/// Couples of each kind: accepted, out of order, too long, cut short, one too many, and unsound in each way.
fn coupled() -> Vec<Pair> {
    let level = [head(20, 1, 1024), station(1).repeat(2), station(2)].concat();
    let there_and_back = [track(0, 1, 1), track(1, 0, 1)].concat();
    let unequal = [track(1, 2, 1), track(2, 1, 2)].concat();
    let ride = train(1, 1, &[(0, 2, 3), (1, 6, 7)]);
    let ground = [level, there_and_back, unequal, ride].concat();
    let delays = table(1, &[(0, 60), (3, 40)]);
    let with = |fields: &[&[u8]]| [&[&ground[..]], fields].concat().concat();
    let one = couple(0, 1);
    let twice = |other: Vec<u8>| only(with(&[&delays, &one, &other]));
    let mut pairs = vec![
        twice(one.clone()),
        twice(couple(1, 0)),
        twice(couple(2, 0)),
        twice(delays.clone()),
        only(with(&[&one])),
        (with(&[&one]), delays.clone()),
        (with(&[&delays]), one.clone()),
        (with(&[&delays]), [delays.clone(), one.clone()].concat()),
        only(one.clone()),
    ];
    pairs.extend(last_couples().map(|last| only(with(&[&delays, &last]))));
    pairs.extend(most_coupled());
    pairs
}

/// Couples as the last field of a case with four tracks, of which the first two mirror each other, and the last two but for their capacities.
fn last_couples() -> [Vec<u8>; 13] {
    [
        couple(0, 1),
        couple(1, 0),
        couple(0, 4),
        couple(4, 0),
        couple(0, 0),
        couple(0, 2),
        couple(2, 3),
        couple(3, 2),
        field(COUPLE_TAG, &[0]),
        field(COUPLE_TAG, &[0, 1, 0]),
        couple(0, 1)[..4].to_vec(),
        couple(0, 1)[..3].to_vec(),
        couple(0, 1)[..2].to_vec(),
    ]
}

/// Cases with as many couples as there may be, and with one more.
fn most_coupled() -> Vec<Pair> {
    let and = |last: &[u8]| only([&most_couples(), last].concat());
    vec![
        and(&[]),
        and(&couple(0, 1)),
        and(&couple(40, 40)),
        and(&couple(0, 1)[..4]),
        only(longest()),
        only([longest(), couple(0, 1)].concat()),
    ]
}

/// Reads pairs and prints what the second program says of each.
fn judge() -> io::Result<()> {
    let mut bytes = Vec::new();
    io::stdin().read_to_end(&mut bytes)?;
    let mut rest = &bytes[..];
    let mut lines = String::new();
    while let [a, b, c, d, files @ ..] = rest {
        let case = usize::from(u16::from_be_bytes([*a, *b]));
        let book = usize::from(u16::from_be_bytes([*c, *d]));
        let line = match Plan::read(&files[..case], &files[case..case + book]) {
            Ok(_) => "accepted".to_string(),
            Err(refusal) => format!("{} {} {}", refusal.number, refusal.file, refusal.place),
        };
        lines.push_str(&line);
        lines.push('\n');
        rest = &files[case + book..];
    }
    io::stdout().write_all(lines.as_bytes())
}
