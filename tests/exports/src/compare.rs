//! Compares the exports with the second program: each answer, and every byte of lent memory.

use crate::called::{bits, Exports, Part};
use crate::fields::differing_place;
use crate::memory::{weights_image, Lent};
use crate::same::same_weights;
use crate::tally::Tally;
use exports::{Answer, TrainFigures, ALWAYS, NEVER, NONE, SHARE};
use inputs::answers::{self, answer, Value};
use inputs::generator::Files;
use inputs::questions::{Asked, Call, Memory, Question, MEMORIES, ROW_BYTES};
use inputs::vectors::vector;
use second::calls::Row;
use second::figures::{Figures, Punctuality};
use second::joint::Kind;
use second::plan::Place;
use second::refusal::{Refusal, MEMORY};

/// Puts all questions to the exports and to the second program.
pub fn compare(exports: &dyn Exports, asked: &[Asked], tally: &mut Tally) {
    for Asked { files, questions } in asked {
        for (number, question) in questions.iter().enumerate() {
            let pattern = [0xA5, 0x5A][number % 2];
            let agrees = agrees(exports, files, question, pattern);
            tally.expect(agrees, || differs(files, question));
        }
        if let Some(same) = same_weights(exports, files, questions) {
            tally.expect(same, || {
                format!("the plain engine has other weights: {files:?}")
            });
        }
        for file in [&files.case, &files.book] {
            let differing = differing_place(exports, file);
            tally.expect(differing.is_none(), || {
                format!("the field at {differing:?} differs in {file:?}")
            });
        }
    }
}

/// What differs: the second program's answer, and the bytes that were lent.
fn differs(files: &Files, question: &Question) -> String {
    let lent = question.lent;
    format!("differs, lent {lent:?}: {}", vector(files, &question.call))
}

/// Whether an exported call answers a question as the second program does, and leaves the same memory.
pub fn agrees(exports: &dyn Exports, files: &Files, question: &Question, pattern: u8) -> bool {
    let expected = answer(files, question);
    let mut lent = lent_to(question, pattern);
    let same = match &question.call {
        Call::Single { choice, train } => {
            exports.single(files, choice, *train as u64) == expected_answer(&expected)
        }
        Call::Run { stop } => {
            exports.run(files, *stop as u64, &mut lent) == expected_answer(&expected)
        }
        Call::Listing => exports.listing(files, &mut lent) == expected_answer(&expected),
        Call::Figures { train, limit } => {
            let figures = exports.figures(files, *train as u64, *limit, &mut lent);
            bits(&figures) == bits(&expected_figures(&expected))
        }
        Call::Plain { stop } => {
            exports.plain(files, *stop as u64, &mut lent) == expected_answer(&expected)
        }
        Call::Part {
            stop, first, count, ..
        } => {
            let part = Part {
                stop: *stop as u64,
                first: *first,
                count: *count,
            };
            exports.part(files, part, &mut lent) == expected_answer(&expected)
        }
    };
    same && lent_holds(question, &expected, &lent)
}

/// Memory of a pattern as it is lent; to a part the weights that it adds to.
fn lent_to(question: &Question, pattern: u8) -> Lent {
    let lent = Lent::new(question.lent, pattern);
    match question.call {
        Call::Part { before, .. } => lent.with_weights(before),
        _ => lent,
    }
}

/// Whether each memory holds what the second program left in its own; refusal 14 leaves all as it was.
fn lent_holds(question: &Question, expected: &answers::Answer, lent: &Lent) -> bool {
    let short = matches!(expected.value, Err(refusal) if refusal.number == MEMORY);
    let fits = |memory: &Memory| match question.call.memories().contains(memory) && !short {
        true => lent.of(*memory).holds(&image(expected, *memory)),
        false => lent.of(*memory).untouched(),
    };
    MEMORIES.iter().all(fits)
}

/// The second program's memory as bytes, as long as the required part.
fn image(expected: &answers::Answer, memory: Memory) -> Vec<u8> {
    let mut bytes: Vec<u8> = match memory {
        Memory::Rows => expected.rows.iter().flat_map(row_image).collect(),
        Memory::Weights => weights_image(&expected.weights),
        Memory::Text => expected.text.clone(),
    };
    bytes.truncate(memory.required());
    bytes
}

/// A row as docs/FORMATS.md has it.
fn row_image(row: &Row) -> [u8; ROW_BYTES] {
    let mut image = [0; ROW_BYTES];
    if let Some(entry) = row {
        let (place, number) = match entry.place {
            Place::Outside => (0, 0),
            Place::Station(station) => (1, station as u8),
            Place::Track(track) => (2, track as u8),
            Place::Gone => (3, 0),
        };
        let kind = match entry.kind {
            Kind::Stands => 1,
            Kind::Blocks => 2,
        };
        image[..4].copy_from_slice(&[entry.train as u8, kind, place, number]);
        image[4..6].copy_from_slice(&(entry.minute as u16).to_be_bytes());
        image[8..8 + entry.cover.len()].copy_from_slice(&entry.cover);
    }
    image
}

/// The second program's answer as the exports give it.
fn expected_answer(expected: &answers::Answer) -> Answer {
    let answered = |value: u64| Answer {
        value,
        ..Answer::default()
    };
    match expected.value {
        Ok(Value::Arrival(minute)) => answered(minute.map_or(NONE, u64::from)),
        Ok(Value::Length(length)) => answered(length as u64),
        Ok(Value::Choices(count)) => answered(count),
        Ok(Value::Figures(_)) => unreachable!("no answer of figures"),
        Err(refusal) => refused(&refusal),
    }
}

/// A refusal as an answer.
pub fn refused(refusal: &Refusal) -> Answer {
    Answer {
        refusal: refusal.number.into(),
        file: refusal.file.into(),
        place: refusal.place as u32,
        value: 0,
    }
}

/// The second program's figures as the exports give them.
fn expected_figures(expected: &answers::Answer) -> TrainFigures {
    match expected.value {
        Ok(Value::Figures(figures)) => figures_of(&figures),
        Ok(_) => unreachable!("the answer of figures"),
        Err(refusal) => figures_refused(&refused(&refusal)),
    }
}

/// The figures of a refused call: all 0 but the refusal.
pub fn figures_refused(answer: &Answer) -> TrainFigures {
    TrainFigures {
        refusal: answer.refusal,
        file: answer.file,
        place: answer.place,
        ..TrainFigures::default()
    }
}

fn figures_of(figures: &Figures) -> TrainFigures {
    let (punctuality, share) = match figures.punctuality {
        Punctuality::Never => (NEVER, 0.0),
        Punctuality::Always => (ALWAYS, 0.0),
        Punctuality::Share(share) => (SHARE, share),
    };
    TrainFigures {
        punctuality,
        share,
        on_time: figures.shares.on_time,
        late: figures.shares.late,
        not_arrived: figures.shares.missing,
        lateness: figures.lateness.sum,
        arrived: figures.lateness.weight,
        ..TrainFigures::default()
    }
}
