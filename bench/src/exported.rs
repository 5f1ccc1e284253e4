//! The exported run, and the plain engine's part, with the memory that they are lent.

use crate::cases::Files;
use exports::{Answer, ROWS, WEIGHTS};

/// Lent memory, and what the last calls left in it.
pub struct Desk {
    rows: Vec<u8>,
    weights: Vec<u8>,
}

impl Desk {
    pub fn new() -> Desk {
        Desk {
            rows: vec![0; ROWS],
            weights: vec![0; WEIGHTS],
        }
    }

    /// The run to a stop minute: the number of entries, or the refusal's number.
    pub fn run(&mut self, case: &[u8], book: &[u8], stop: u32) -> Result<u64, u16> {
        let (rows, weights) = (&mut self.rows, &mut self.weights);
        value(exports::run(case, book, stop.into(), rows, weights))
    }

    /// The plain engine's part to a stop minute, of the choices numbered from the first on, at most so many: adds to the weights, and gives the number of choices run,
    /// or the refusal's number.
    pub fn part(&mut self, files: &Files, stop: u32, first: u64, count: u64) -> Result<u64, u16> {
        let (case, book, weights) = (&files.case, &files.book, &mut self.weights);
        let stop = stop.into();
        value(exports::plain_part(case, book, stop, first, count, weights))
    }

    /// The weights that the last calls left, train by train, one a minute.
    pub fn weights(&self) -> Vec<u64> {
        let longer = |sum: u64, byte: &u8| sum * 256 + u64::from(*byte);
        let weight = |bytes: &[u8]| bytes.iter().fold(0, longer);
        self.weights.chunks(8).map(weight).collect()
    }
}

/// What a call answered, or the refusal's number.
fn value(answer: Answer) -> Result<u64, u16> {
    match answer.refusal {
        0 => Ok(answer.value),
        number => Err(number),
    }
}
