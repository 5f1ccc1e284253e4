//! Vectors: the answers of the second program to one input as text, one a line, for the definitions to be compared with.

use crate::answers::{answer, Answer, Value};
use crate::generator::{Chance, Files};
use crate::parts::Before;
use crate::questions::{few, Call, Question};
use crate::writer::{from_hex, to_hex};
use second::calls::MINUTES;
use second::figures::{Figures, Lateness, Punctuality, Weights};
use second::plan::Plan;
use second::refusal::Refusal;
use second::rows::row_text;

/// The vectors of one input: what the reading says and, if it accepts, a few calls.
pub fn vectors(chance: &mut Chance, files: &Files) -> Vec<String> {
    let mut lines = vec![reading(files)];
    if let Ok(plan) = Plan::read(&files.case, &files.book) {
        let calls = few(chance, &plan);
        lines.extend(calls.iter().map(|call| vector(files, call)));
    }
    lines
}

/// Both files as hexadecimal text.
fn names(files: &Files) -> String {
    format!("{}|{}", to_hex(&files.case), to_hex(&files.book))
}

/// What the reading says of an input.
pub fn reading(files: &Files) -> String {
    let names = names(files);
    match Plan::read(&files.case, &files.book) {
        Ok(_) => format!("accepted|{names}"),
        Err(Refusal {
            number,
            file,
            place,
        }) => format!("reading|{names}|{number}|{file}|{place}"),
    }
}

/// The vector of a call.
pub fn vector(files: &Files, call: &Call) -> String {
    let (name, names) = (call.name(), names(files));
    let arguments = match call {
        Call::Single { choice, train } => format!("{}|{train}|", to_hex(choice)),
        Call::Run { stop } => format!("{stop}|"),
        Call::Listing => String::new(),
        Call::Figures { train, limit } => format!("{train}|{limit}|"),
        Call::Plain { stop } => format!("{stop}|"),
        Call::Part {
            stop,
            first,
            count,
            before,
        } => format!("{stop}|{first}|{count}|{before:?}|"),
    };
    let answered = answer(files, &Question::exact(call.clone()));
    format!("{name}|{names}|{arguments}{}", answer_text(call, &answered))
}

/// The input and the call of a vector; a line that is about the reading has no call.
pub fn asked(line: &str) -> Option<(Files, Option<Call>)> {
    let fields: Vec<&str> = line.split('|').collect();
    let number = |at: usize| fields.get(at)?.parse::<usize>().ok();
    let files = Files {
        case: from_hex(fields.get(1)?),
        book: from_hex(fields.get(2)?),
    };
    let call = match fields[0] {
        "accepted" | "reading" => return Some((files, None)),
        "single" => Call::Single {
            choice: from_hex(fields.get(3)?),
            train: number(4)?,
        },
        "run" => Call::Run { stop: number(3)? },
        "listing" => Call::Listing,
        "figures" => Call::Figures {
            train: number(3)?,
            limit: number(4)? as u16,
        },
        "plain" => Call::Plain { stop: number(3)? },
        "part" if fields.get(6) == Some(&"All(0)") => Call::Part {
            stop: number(3)?,
            first: number(4)? as u64,
            count: number(5)? as u64,
            before: Before::All(0),
        },
        _ => return None,
    };
    Some((files, Some(call)))
}

/// An answer as text; of a listing's refusal file and place are said too.
fn answer_text(call: &Call, answer: &Answer) -> String {
    match (answer.value, call) {
        (Err(refusal), Call::Listing) => {
            let Refusal {
                number,
                file,
                place,
            } = refusal;
            format!("refused {number} {file} {place}")
        }
        (Err(refusal), _) => format!("refused {}", refusal.number),
        (Ok(Value::Arrival(None)), _) => "none".to_string(),
        (Ok(Value::Arrival(Some(minute))), _) => minute.to_string(),
        (Ok(Value::Length(length)), Call::Listing) => to_hex(&answer.text[..length]),
        (Ok(Value::Length(length)), _) => run_text(answer, length),
        (Ok(Value::Figures(figures)), _) => figures_text(&figures),
        (Ok(Value::Choices(count)), _) => format!("{count}|{}", arrivals_text(answer)),
    }
}

/// A run: the list's length, its rows and the arrivals.
fn run_text(answer: &Answer, length: usize) -> String {
    let rows: Vec<String> = answer.rows.iter().flatten().map(row_text).collect();
    format!("{length}|{}|{}", rows.join(";"), arrivals_text(answer))
}

/// The weights that are not 0, by train, then minute.
fn arrivals_text(answer: &Answer) -> String {
    let weights = answer.weights.iter().enumerate();
    let arrivals: Vec<String> = weights
        .filter(|(_, weight)| **weight > 0)
        .map(|(at, weight)| format!("{},{},{weight}", at / MINUTES, at % MINUTES))
        .collect();
    arrivals.join(";")
}

/// Never, always or share, the whole numbers behind the doubles, and the lateness.
fn figures_text(figures: &Figures) -> String {
    let number = match figures.punctuality {
        Punctuality::Never => 1,
        Punctuality::Always => 2,
        Punctuality::Share(_) => 3,
    };
    let Weights {
        on_time,
        late,
        missing,
        whole,
    } = figures.weights;
    let Lateness { sum, weight } = figures.lateness;
    format!("{number}|{on_time}|{whole}|{on_time}|{late}|{missing}|{sum}|{weight}")
}
