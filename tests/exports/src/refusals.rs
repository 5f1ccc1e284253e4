//! Every refusal with its number, file and place, worked out by hand on the shift example, and their order.

use crate::called::{bits, Exports, Linked};
use crate::compare::figures_refused;
use crate::example::shift;
use crate::memory::Lent;
use crate::plain::plain_refuses;
use crate::tally::Tally;
use exports::{Answer, TrainFigures};
use inputs::generator::Files;
use inputs::questions::{Memory, MEMORIES};

/// The rows' and the weights' memory, which the run and the figures are lent.
const TWO: [Memory; 2] = [Memory::Rows, Memory::Weights];

/// Number, file and place of a refusal.
type Refused = (u16, u16, u32);

pub fn every_refusal(tally: &mut Tally) {
    let of_files = [of_fields(), of_levels(), of_trains(), of_couples()].concat();
    for (what, files, refused) in of_files {
        let holds = all_refuse(&files, refused);
        tally.expect(holds, || format!("failed: refusal {what}"));
    }
    for (what, holds) in of_calls() {
        tally.expect(holds, || format!("failed: refusal {what}"));
    }
}

/// The shift example with a book.
fn with_book(book: &[u8]) -> Files {
    let case = shift(|_| {}).case;
    let book = book.to_vec();
    Files { case, book }
}

/// A fault of the files: what it is, the files, and the refusal.
type Faulty = (&'static str, Files, Refused);

/// Faults of a field's header, tag, place and length.
fn of_fields() -> Vec<Faulty> {
    vec![
        ("1, a header", shift(|case| case.push(5)), (1, 0, 60)),
        ("1, a body", shift(|case| case.truncate(59)), (1, 0, 52)),
        ("1, the book", with_book(&[5, 0]), (1, 1, 0)),
        (
            "2, above 6",
            shift(|case| case.extend([7, 0, 0])),
            (2, 0, 60),
        ),
        ("2, tag 0", shift(|case| case[0] = 0), (2, 0, 0)),
        ("2, the book", with_book(&[7, 0, 0]), (2, 1, 0)),
        (
            "3, no head first",
            shift(|case| drop(case.drain(..8))),
            (3, 0, 0),
        ),
        ("3, a second head", shift(|case| case[8] = 1), (3, 0, 8)),
        (
            "3, a falling tag",
            shift(|case| case.extend([2, 0, 1, 1])),
            (3, 0, 60),
        ),
        ("3, the book", with_book(&[2, 0, 1, 1]), (3, 1, 0)),
        ("4", shift(|case| case[2] = 6), (4, 0, 0)),
        (
            "4, the book",
            with_book(&[5, 0, 4, 1, 0, 100, 1]),
            (4, 1, 0),
        ),
    ]
}

/// Faults of counts, ranges and tracks.
fn of_levels() -> Vec<Faulty> {
    let tables: Vec<u8> = (0..9).flat_map(|of| [5, 0, 3, of, 0, 100]).collect();
    vec![
        (
            "5, P12: the empty case",
            shift(|case| case.clear()),
            (5, 0, 0),
        ),
        ("5, no station", shift(|case| case.truncate(8)), (5, 0, 8)),
        ("5, no train", shift(|case| case.truncate(22)), (5, 0, 22)),
        ("5, one too many", shift(stations), (5, 0, 104)),
        ("5, the book", with_book(&tables), (5, 1, 48)),
        ("6, the last minute", shift(|case| case[4] = 0), (6, 0, 0)),
        ("6, the safety time", shift(|case| case[5] = 31), (6, 0, 0)),
        ("6, the room", shift(|case| case[7] = 1), (6, 0, 0)),
        ("6, a station", shift(|case| case[15] = 0), (6, 0, 12)),
        ("6, a track", shift(|case| case[21] = 0), (6, 0, 16)),
        ("7, an unknown end", shift(|case| case[20] = 2), (7, 0, 16)),
        ("7, equal ends", shift(|case| case[20] = 0), (7, 0, 16)),
    ]
}

/// Faults of trains and tables.
fn of_trains() -> Vec<Faulty> {
    vec![
        (
            "8, an unknown station",
            shift(|case| case[27] = 2),
            (8, 0, 22),
        ),
        (
            "8, no track",
            shift(|case| (case[42], case[47]) = (1, 0)),
            (8, 0, 37),
        ),
        ("9, P10: T = 11", shift(|case| case[4] = 11), (9, 0, 37)),
        ("9, a stop", shift(|case| case[29] = 4), (9, 0, 22)),
        (
            "10, P11: 60 and 41",
            shift(|case| case[59] = 41),
            (10, 0, 52),
        ),
        ("10, the book", with_book(&[5, 0, 3, 1, 0, 99]), (10, 1, 0)),
        ("11, train 0", shift(|case| case.truncate(52)), (11, 0, 22)),
        ("11, train 1", shift(|case| case[41] = 2), (11, 0, 37)),
    ]
}

/// Faults of couples. The example gets a track back, of the capacity 1, and ends at 66.
fn of_couples() -> Vec<Faulty> {
    let with = |capacity, more: &[u8]| {
        shift(|case| {
            case.splice(22..22, [3, 0, 3, 1, 0, capacity]);
            case.extend(more);
        })
    };
    let (couple, again) = ([6, 0, 2, 0, 1], [6, 0, 2, 1, 0]);
    let twice = [couple, again].concat();
    let table = [&couple[..], &[5, 0, 3, 2, 0, 100]].concat();
    vec![
        ("3, a couple in the book", with_book(&couple), (3, 1, 0)),
        ("3, a table after a couple", with(1, &table), (3, 0, 71)),
        ("4, a couple", with(1, &[6, 0, 3, 0, 1, 0]), (4, 0, 66)),
        ("1, a couple", with(1, &[6, 0, 2, 0]), (1, 0, 66)),
        (
            "5, a 21st couple",
            shift(|case| couples(case, 21)),
            (5, 0, 414),
        ),
        ("18, no such track", with(1, &[6, 0, 2, 0, 2]), (18, 0, 66)),
        ("18, one end in common", shift(one_end), (18, 0, 70)),
        ("18, with itself", with(1, &[6, 0, 2, 1, 1]), (18, 0, 66)),
        ("18, capacities", with(2, &couple), (18, 0, 66)),
        ("18, already coupled", with(1, &twice), (18, 0, 71)),
    ]
}

/// A third station, a track from station 1 to it, and a couple of the two tracks, which have one end in common.
fn one_end(case: &mut Vec<u8>) {
    case.splice(22..22, [3, 0, 3, 1, 2, 1]);
    case.splice(16..16, [2, 0, 1, 1]);
    case.extend([6, 0, 2, 0, 1]);
}

/// Seven stations, the first 40 of the tracks there and back between two of them, and so many couples, of which those past the twentieth name tracks
/// that are coupled.
fn couples(case: &mut Vec<u8>, count: u8) {
    let ends = (0..7).flat_map(|from| (from + 1..7).map(move |to| (from, to)));
    let tracks = ends
        .take(20)
        .flat_map(|(from, to)| [3, 0, 3, from, to, 1, 3, 0, 3, to, from, 1]);
    let tracks: Vec<u8> = tracks.collect();
    case.splice(16..22, [2, 0, 1, 1].repeat(5).into_iter().chain(tracks));
    case.extend((0..count).flat_map(|of| [6, 0, 2, of % 20 * 2, of % 20 * 2 + 1]));
}

/// Twenty-five stations.
fn stations(case: &mut Vec<u8>) {
    let more = [2, 0, 1, 1].repeat(23);
    case.splice(16..16, more);
}

/// Whether each call is refused so, whatever its arguments, and sets what it is lent to zero.
fn all_refuse(files: &Files, (refusal, file, place): Refused) -> bool {
    let refused = Answer {
        refusal,
        file,
        place,
        value: 0,
    };
    let (mut run, mut listing, mut figures) = (Lent::exact(), Lent::exact(), Lent::exact());
    let of_figures = Linked.figures(files, u64::MAX, 3, &mut figures);
    Linked.single(files, &[9; 300], u64::MAX) == refused
        && Linked.run(files, u64::MAX, &mut run) == refused
        && run.zero(&TWO)
        && Linked.listing(files, &mut listing) == refused
        && listing.zero(&MEMORIES)
        && bits(&of_figures) == bits(&figures_refused(&refused))
        && figures.zero(&TWO)
        && plain_refuses(files, refused)
}

/// Refusals of the arguments and of the run, which have file and place 0, and the order in which they come.
fn of_calls() -> Vec<(&'static str, bool)> {
    let (whole, small) = (
        shift(|_| {}),
        shift(|case| case[6..8].copy_from_slice(&[0, 6])),
    );
    let broken = shift(|case| case.truncate(59));
    let single = |choice: &[u8], train| refusal(Linked.single(&whole, choice, train));
    vec![
        ("15, too few", single(&[0], 0) == Some(15)),
        ("15, too many", single(&[0, 0, 0], 0) == Some(15)),
        ("15, 256 too many", single(&[0; 258], 0) == Some(15)),
        ("15, past the table", single(&[0, 2], 0) == Some(15)),
        ("15 before 16", single(&[0, 2], 2) == Some(15)),
        ("16, single", single(&[0, 0], 2) == Some(16)),
        ("16, single, far", single(&[0, 0], 1 << 32) == Some(16)),
        ("16, figures", figures(&whole, 2) == Some(16)),
        ("16, figures, far", figures(&whole, 1 << 32) == Some(16)),
        ("16 before 12", figures(&small, 2) == Some(16)),
        ("17", run(&whole, 21) == Some(17)),
        ("17, far", run(&whole, 1 << 32) == Some(17)),
        ("17 before 12", run(&small, 21) == Some(17)),
        ("12, run", run(&small, 20) == Some(12)),
        ("12, listing", listing(&small) == Some(12)),
        ("12, figures", figures(&small, 0) == Some(12)),
        (
            "14 before the files, run",
            short(&broken, 0) == Some([14; 3]),
        ),
        (
            "14 before the files, weights",
            short(&broken, 1) == Some([14; 3]),
        ),
        ("14 before the arguments", short(&whole, 0) == Some([14; 3])),
        ("14 before 12", short(&small, 1) == Some([14; 3])),
    ]
}

/// The number of a refusal, if the answer is nothing but that.
pub fn refusal(answer: Answer) -> Option<u16> {
    let alone = (answer.file, answer.place, answer.value) == (0, 0, 0);
    alone.then_some(answer.refusal)
}

/// The same of figures.
pub fn refusal_of(figures: &TrainFigures) -> Option<u16> {
    let refused = Answer {
        refusal: figures.refusal,
        ..Answer::default()
    };
    let alone = bits(figures) == bits(&figures_refused(&refused));
    alone.then_some(figures.refusal)
}

/// The refusal of a run that has set its memory to zero.
pub fn run(files: &Files, stop: u64) -> Option<u16> {
    let mut lent = Lent::exact();
    let number = refusal(Linked.run(files, stop, &mut lent));
    number.filter(|_| lent.zero(&TWO))
}

fn listing(files: &Files) -> Option<u16> {
    let mut lent = Lent::exact();
    let number = refusal(Linked.listing(files, &mut lent));
    number.filter(|_| lent.zero(&MEMORIES))
}

fn figures(files: &Files, train: u64) -> Option<u16> {
    let mut lent = Lent::exact();
    let number = refusal_of(&Linked.figures(files, train, 0, &mut lent));
    number.filter(|_| lent.zero(&TWO))
}

/// The refusals of the run, the listing and the figures, with arguments past all and one memory a byte too short, if they write nothing.
fn short(files: &Files, memory: usize) -> Option<[u16; 3]> {
    let mut lengths = MEMORIES.map(Memory::required);
    lengths[memory] -= 1;
    let mut lent = Lent::new(lengths, 0x5A);
    let numbers = [
        refusal(Linked.run(files, u64::MAX, &mut lent))?,
        refusal(Linked.listing(files, &mut lent))?,
        refusal_of(&Linked.figures(files, u64::MAX, 0, &mut lent))?,
    ];
    lent.untouched().then_some(numbers)
}
