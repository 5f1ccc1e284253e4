//! What the second program answers to a question, and what it leaves in lent memory.

use crate::generator::Files;
use crate::questions::{Call, Memory, Question, ROW_BYTES, WEIGHT_BYTES};
use second::calls::{
    figures, listing, plain, plain_part, run, single, Row, LISTING, ROWS, WEIGHTS,
};
use second::figures::Figures;
use second::refusal::Refusal;

/// What an answered call says: a minute of arrival, the number of entries or of bytes, figures, or the number of choices run.
#[derive(Clone, Copy, Debug, PartialEq)]
pub enum Value {
    Arrival(Option<u32>),
    Length(usize),
    Figures(Figures),
    Choices(u64),
}

/// A call's answer, and the memory that it was lent.
pub struct Answer {
    pub value: Result<Value, Refusal>,
    pub rows: Vec<Row>,
    pub weights: Vec<u64>,
    pub text: Vec<u8>,
}

/// Puts a question to the second program, whose rows and weights are no bytes: it is lent as many whole ones as there are bytes for.
pub fn answer(files: &Files, question: &Question) -> Answer {
    let lent = |memory: Memory| question.lent[memory as usize];
    let mut rows = vec![None; lent(Memory::Rows) / ROW_BYTES];
    let before = question.call.before();
    let mut weights = before.weights(lent(Memory::Weights) / WEIGHT_BYTES);
    let mut text = vec![0; lent(Memory::Text)];
    let Files { case, book } = files;
    let value = match &question.call {
        Call::Single { choice, train } => single(case, book, choice, *train).map(Value::Arrival),
        Call::Run { stop } => run(case, book, *stop, &mut rows, &mut weights).map(Value::Length),
        Call::Listing => listing(case, book, &mut rows, &mut weights, &mut text).map(Value::Length),
        Call::Figures { train, limit } => {
            figures(case, book, *train, *limit, &mut rows, &mut weights).map(Value::Figures)
        }
        Call::Plain { stop } => plain(case, book, *stop, &mut weights).map(Value::Choices),
        Call::Part {
            stop, first, count, ..
        } => plain_part(case, book, *stop, *first, *count, &mut weights).map(Value::Choices),
    };
    Answer {
        value,
        rows,
        weights,
        text,
    }
}

/// The listing of a case with its book as text, or the refusal.
pub fn listed(case: &[u8], book: &[u8]) -> Result<String, Refusal> {
    let mut rows = vec![None; ROWS];
    let mut weights = vec![0; WEIGHTS];
    let mut bytes = vec![0; LISTING];
    let length = listing(case, book, &mut rows, &mut weights, &mut bytes)?;
    Ok(String::from_utf8(bytes[..length].to_vec()).expect("a listing is plain text"))
}
