//! Exports that are spoiled in a named way, to see that the comparison catches it.

use crate::called::{Exports, Linked, Part};
use crate::memory::{Lent, Watched};
use exports::{Answer, TrainFigures, Viewed, ROWS, WEIGHTS};
use inputs::generator::Files;
use inputs::parts::Before;
use inputs::questions::WEIGHT_BYTES;
use second::refusal::{MEMORY, ROOM, STOP};

/// The ways in which exports are spoiled.
pub const WAYS: [&str; 50] = [
    "single: the choice's length cut to a byte",
    "single: the train cut to two bytes",
    "single: another place",
    "single: another minute",
    "run: the stop minute cut to two bytes",
    "run: the stop minute cut to four bytes",
    "run: a byte before the rows",
    "run: a byte past the rows",
    "run: a byte past the weights",
    "run: a byte of the last row",
    "run: a byte of a row that is always 0",
    "run: a weight left when 17 is given",
    "run: memory that is too short is touched",
    "listing: a byte before the text",
    "listing: a row",
    "listing: a weight",
    "listing: a byte past its end",
    "listing: text left when 12 is given",
    "listing: memory that is too short is touched",
    "figures: the train cut to four bytes",
    "figures: the last bit of a share",
    "figures: a number left when refused",
    "figures: a row",
    "figures: memory that is too short is touched",
    "plain: the stop minute cut to two bytes",
    "plain: the stop minute cut to four bytes",
    "plain: another number of choices",
    "plain: a byte before the weights",
    "plain: a byte past the weights",
    "plain: a weight",
    "plain: added to the weights as they are lent",
    "plain: refused 12 where the run is",
    "plain: a weight left when 17 is given",
    "plain: memory that is too short is touched",
    "part: the stop minute cut to four bytes",
    "part: the first choice cut to two bytes",
    "part: the first choice cut to four bytes",
    "part: the count cut to four bytes",
    "part: its end wraps",
    "part: the count for the number of choices run",
    "part: the weights set to zero first",
    "part: sums that wrap",
    "part: a weight where no choice is run",
    "part: a weight left when 17 is given",
    "part: memory that is too short is touched",
    "field: the place cut to two bytes",
    "field: the place cut to four bytes",
    "field: its length cut to a byte",
    "field: not passed",
    "field: a tag left when refused",
];

/// Of these ways, those in which the plain engine is caught beside the run, or its parts beside the whole, without the second program.
pub const BESIDE_THE_RUN: [&str; 7] = [
    "plain: another number of choices",
    "plain: a weight",
    "plain: added to the weights as they are lent",
    "plain: refused 12 where the run is",
    "part: its end wraps",
    "part: the count for the number of choices run",
    "part: the weights set to zero first",
];

/// The linked exports, spoiled in one of the ways.
pub struct Spoiled(pub &'static str);

impl Spoiled {
    /// Whether it is this way.
    fn is(&self, way: &str) -> bool {
        assert!(WAYS.contains(&way), "no such way: {way}");
        self.0 == way
    }

    /// A number of which only low bits are left, if it is this way.
    fn cut(&self, way: &str, number: u64, low: u64) -> u64 {
        match self.is(way) {
            true => number & low,
            false => number,
        }
    }

    /// Spoils the byte at an offset, if it is this way and the answer is one for it.
    fn spoil(&self, way: &str, for_it: bool, memory: &mut Watched, offset: isize) {
        if self.is(way) && for_it {
            memory.spoil(offset);
        }
    }
}

const LAST_ROW_BYTE: isize = ROWS as isize - 1;
const PAST_ROWS: isize = ROWS as isize;
const PAST_WEIGHTS: isize = WEIGHTS as isize;

impl Exports for Spoiled {
    fn single(&self, files: &Files, choice: &[u8], train: u64) -> Answer {
        let length = choice.len() as u64;
        let length = self.cut("single: the choice's length cut to a byte", length, 0xFF);
        let train = self.cut("single: the train cut to two bytes", train, 0xFFFF);
        let mut answer = Linked.single(files, &choice[..length as usize], train);
        if (1..12).contains(&answer.refusal) && self.is("single: another place") {
            answer.place += 1;
        }
        if answer.refusal == 0 && self.is("single: another minute") {
            answer.value += 1;
        }
        answer
    }

    fn run(&self, files: &Files, stop: u64, lent: &mut Lent) -> Answer {
        let stop = self.cut("run: the stop minute cut to two bytes", stop, 0xFFFF);
        let stop = self.cut("run: the stop minute cut to four bytes", stop, 0xFFFF_FFFF);
        let answer = Linked.run(files, stop, lent);
        let answered = answer.refusal == 0;
        let (late, short) = (refuses(answer, STOP), refuses(answer, MEMORY));
        let Lent { rows, weights, .. } = lent;
        self.spoil("run: a byte before the rows", true, rows, -1);
        self.spoil("run: a byte past the rows", true, rows, PAST_ROWS);
        self.spoil("run: a byte past the weights", true, weights, PAST_WEIGHTS);
        self.spoil("run: a byte of the last row", answered, rows, LAST_ROW_BYTE);
        self.spoil("run: a byte of a row that is always 0", answered, rows, 7);
        self.spoil("run: a weight left when 17 is given", late, weights, 5);
        self.spoil(
            "run: memory that is too short is touched",
            short,
            weights,
            0,
        );
        answer
    }

    fn listing(&self, files: &Files, lent: &mut Lent) -> Answer {
        let answer = Linked.listing(files, lent);
        let answered = answer.refusal == 0;
        let (full, short) = (refuses(answer, ROOM), refuses(answer, MEMORY));
        let Lent {
            rows,
            weights,
            text,
        } = lent;
        let end = answer.value as isize;
        self.spoil("listing: a byte before the text", true, text, -1);
        self.spoil("listing: a row", answered, rows, 5);
        self.spoil("listing: a weight", answered, weights, 4_000);
        self.spoil("listing: a byte past its end", answered, text, end);
        self.spoil("listing: text left when 12 is given", full, text, 9);
        self.spoil(
            "listing: memory that is too short is touched",
            short,
            text,
            0,
        );
        answer
    }

    fn figures(&self, files: &Files, train: u64, limit: u16, lent: &mut Lent) -> TrainFigures {
        let train = self.cut("figures: the train cut to four bytes", train, 0xFFFF_FFFF);
        let mut figures = Linked.figures(files, train, limit, lent);
        let answered = figures.refusal == 0;
        let short = figures.refusal == u16::from(MEMORY);
        if answered && figures.late > 0.0 && self.is("figures: the last bit of a share") {
            figures.late = f64::from_bits(figures.late.to_bits() ^ 1);
        }
        if !answered && self.is("figures: a number left when refused") {
            figures.kept[2] ^= 1;
        }
        let rows = &mut lent.rows;
        self.spoil("figures: a row", answered, rows, 5);
        self.spoil(
            "figures: memory that is too short is touched",
            short,
            rows,
            3,
        );
        figures
    }

    fn plain(&self, files: &Files, stop: u64, lent: &mut Lent) -> Answer {
        let stop = self.cut("plain: the stop minute cut to two bytes", stop, 0xFFFF);
        let four = 0xFFFF_FFFF;
        let stop = self.cut("plain: the stop minute cut to four bytes", stop, four);
        let mut answer = match self.is("plain: added to the weights as they are lent") {
            true => Linked.part(files, all_from(stop), lent),
            false => Linked.plain(files, stop, lent),
        };
        let answered = answer.refusal == 0;
        let (late, short) = (refuses(answer, STOP), refuses(answer, MEMORY));
        if answered && self.is("plain: another number of choices") {
            answer.value -= 1;
        }
        if answered && self.is("plain: refused 12 where the run is") {
            let run = Linked.run(files, stop, &mut Lent::exact());
            answer = [answer, run][usize::from(refuses(run, ROOM))];
        }
        let weights = &mut lent.weights;
        self.spoil("plain: a byte before the weights", true, weights, -1);
        let past = "plain: a byte past the weights";
        self.spoil(past, true, weights, PAST_WEIGHTS);
        self.spoil("plain: a weight", answered, weights, 4_000);
        self.spoil("plain: a weight left when 17 is given", late, weights, 5);
        let touched = "plain: memory that is too short is touched";
        self.spoil(touched, short, weights, 0);
        answer
    }

    fn part(&self, files: &Files, part: Part, lent: &mut Lent) -> Answer {
        let Part { stop, first, count } = part;
        let four = 0xFFFF_FFFF;
        let first = self.cut("part: the first choice cut to two bytes", first, 0xFFFF);
        let part = Part {
            stop: self.cut("part: the stop minute cut to four bytes", stop, four),
            first: self.cut("part: the first choice cut to four bytes", first, four),
            count: self.cut("part: the count cut to four bytes", count, four),
        };
        let part = match first.checked_add(count) {
            None if self.is("part: its end wraps") => Part { count: 0, ..part },
            _ => part,
        };
        if enough(lent) && self.is("part: the weights set to zero first") {
            lent.weights.lend()[..WEIGHTS].fill(0);
        }
        let mut answer = match self.is("part: sums that wrap") {
            true => wrapping(files, part, lent),
            false => Linked.part(files, part, lent),
        };
        let (late, short) = (refuses(answer, STOP), refuses(answer, MEMORY));
        let none = answer == Answer::default();
        if answer.refusal == 0 && self.is("part: the count for the number of choices run") {
            answer.value = count;
        }
        let weights = &mut lent.weights;
        self.spoil("part: a weight where no choice is run", none, weights, 9);
        self.spoil("part: a weight left when 17 is given", late, weights, 5);
        let touched = "part: memory that is too short is touched";
        self.spoil(touched, short, weights, 0);
        answer
    }

    fn field(&self, file: &[u8], place: u64) -> Viewed {
        let at = self.cut("field: the place cut to two bytes", place, 0xFFFF);
        let at = self.cut("field: the place cut to four bytes", at, 0xFFFF_FFFF);
        let mut viewed = Linked.field(file, at);
        let size = self.cut("field: its length cut to a byte", viewed.size.into(), 0xFF);
        viewed.size = size as u16;
        if viewed.given == 1 && self.is("field: not passed") {
            viewed.next = place;
        }
        if viewed.refusal != 0 && self.is("field: a tag left when refused") {
            viewed.tag = 1;
        }
        viewed
    }
}

/// All choices, to a stop minute.
fn all_from(stop: u64) -> Part {
    let (first, count) = (0, u64::MAX);
    Part { stop, first, count }
}

/// Whether enough weights are lent.
fn enough(lent: &mut Lent) -> bool {
    lent.weights.lend().len() >= WEIGHTS
}

/// A part whose sums wrap.
fn wrapping(files: &Files, part: Part, lent: &mut Lent) -> Answer {
    let mut added = Lent::exact().with_weights(Before::All(0));
    let answer = Linked.part(files, part, &mut added);
    if answer.refusal != 0 || !enough(lent) {
        return Linked.part(files, part, lent);
    }
    let number = |bytes: &[u8]| u64::from_be_bytes(bytes.try_into().expect("eight bytes"));
    let added = added.weights.part().chunks(WEIGHT_BYTES);
    let weights = lent.weights.lend().chunks_mut(WEIGHT_BYTES);
    for (weight, more) in weights.zip(added) {
        let sum = number(weight).wrapping_add(number(more));
        weight.copy_from_slice(&sum.to_be_bytes());
    }
    answer
}

/// Whether an answer is this refusal.
fn refuses(answer: Answer, number: u8) -> bool {
    answer.refusal == u16::from(number)
}
