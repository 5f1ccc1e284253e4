//! The exports as the tests call them: the linked ones, or spoiled ones in their place.

use crate::memory::Lent;
use exports::{Answer, TrainFigures, Viewed};
use inputs::generator::Files;

/// The calls on watched memory, and the field viewer.
pub trait Exports {
    fn single(&self, files: &Files, choice: &[u8], train: u64) -> Answer;
    fn run(&self, files: &Files, stop: u64, lent: &mut Lent) -> Answer;
    fn listing(&self, files: &Files, lent: &mut Lent) -> Answer;
    fn figures(&self, files: &Files, train: u64, limit: u16, lent: &mut Lent) -> TrainFigures;
    fn plain(&self, files: &Files, stop: u64, lent: &mut Lent) -> Answer;
    fn part(&self, files: &Files, part: Part, lent: &mut Lent) -> Answer;
    fn field(&self, file: &[u8], place: u64) -> Viewed;
}

/// A part of the plain engine's run: to a stop minute, from this choice on, and so many.
#[derive(Clone, Copy, Debug)]
pub struct Part {
    pub stop: u64,
    pub first: u64,
    pub count: u64,
}

/// The exports of the static library.
pub struct Linked;

impl Exports for Linked {
    fn single(&self, files: &Files, choice: &[u8], train: u64) -> Answer {
        exports::single(&files.case, &files.book, choice, train)
    }

    fn run(&self, files: &Files, stop: u64, lent: &mut Lent) -> Answer {
        let (rows, weights) = (lent.rows.lend(), lent.weights.lend());
        exports::run(&files.case, &files.book, stop, rows, weights)
    }

    fn listing(&self, files: &Files, lent: &mut Lent) -> Answer {
        let (rows, weights) = (lent.rows.lend(), lent.weights.lend());
        exports::listing(&files.case, &files.book, rows, weights, lent.text.lend())
    }

    fn figures(&self, files: &Files, train: u64, limit: u16, lent: &mut Lent) -> TrainFigures {
        let (rows, weights) = (lent.rows.lend(), lent.weights.lend());
        exports::figures(&files.case, &files.book, train, limit, rows, weights)
    }

    fn plain(&self, files: &Files, stop: u64, lent: &mut Lent) -> Answer {
        exports::plain(&files.case, &files.book, stop, lent.weights.lend())
    }

    fn part(&self, files: &Files, part: Part, lent: &mut Lent) -> Answer {
        let Part { stop, first, count } = part;
        let weights = lent.weights.lend();
        exports::plain_part(&files.case, &files.book, stop, first, count, weights)
    }

    fn field(&self, file: &[u8], place: u64) -> Viewed {
        exports::field(file, place)
    }
}

/// The figures as whole numbers, doubles by their bits.
pub fn bits(figures: &TrainFigures) -> [u64; 15] {
    let [a, b, c, d] = figures.kept;
    [
        figures.refusal.into(),
        figures.file.into(),
        figures.place.into(),
        figures.punctuality.into(),
        figures.zero.into(),
        figures.share.to_bits(),
        figures.on_time.to_bits(),
        figures.late.to_bits(),
        figures.not_arrived.to_bits(),
        figures.lateness,
        figures.arrived,
        a,
        b,
        c,
        d,
    ]
}
