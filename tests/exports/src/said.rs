//! What the exports answer, as a vector has it: lines that each end with a line feed. Rows and weights are taken apart as docs/FORMATS.md says; bytes that
//! stand for no answer are said so, and no vector has that.

use crate::called::{bits, Exports, Linked};
use crate::compare::figures_refused;
use crate::example::weight;
use crate::memory::Lent;
use exports::{Answer, TrainFigures, ALWAYS, NEVER, NONE, SHARE};
use inputs::generator::Files;
use inputs::questions::{Call, ROW_BYTES};
use second::calls::{MINUTES, WEIGHTS};
use std::collections::BTreeMap;

/// What the exports have answered; nothing is kept between calls, so no question has to be put twice.
#[derive(Default)]
pub struct Heard {
    answers: BTreeMap<(Files, Call), String>,
}

impl Heard {
    /// The answer of a call, which is put to the exports unless it was before.
    pub fn said(&mut self, files: &Files, call: &Call) -> &str {
        let question = (files.clone(), call.clone());
        let answers = self.answers.entry(question);
        answers.or_insert_with(|| said(files, call))
    }
}

/// The answer of a call that is lent just what it needs.
fn said(files: &Files, call: &Call) -> String {
    let mut lent = Lent::exact();
    let told = match call {
        Call::Single { choice, train } => {
            let answer = Linked.single(files, choice, *train as u64);
            told(answer, |minute| Some(arrival(minute)))
        }
        Call::Run { stop } => {
            let answer = Linked.run(files, *stop as u64, &mut lent);
            told(answer, |length| list_and_arrivals(&lent, length))
        }
        Call::Listing => {
            let answer = Linked.listing(files, &mut lent);
            told(answer, |length| listing(&lent, length))
        }
        Call::Figures { train, limit } => {
            figures(&Linked.figures(files, *train as u64, *limit, &mut lent))
        }
        Call::Plain { stop } => {
            let answer = Linked.plain(files, *stop as u64, &mut lent);
            told(answer, |count| {
                Some(format!("choices {count}\n{}", arrivals(&lent)))
            })
        }
        Call::Part { .. } => unreachable!("no vector has a part"),
    };
    told.unwrap_or_else(|| "bytes that stand for no answer\n".to_string())
}

/// A refusal, or what the value of an answer stands for.
fn told(answer: Answer, text: impl FnOnce(u64) -> Option<String>) -> Option<String> {
    match answer {
        Answer {
            refusal: 0,
            file: 0,
            place: 0,
            value,
        } => text(value),
        Answer {
            refusal: 1..,
            value: 0,
            ..
        } => Some(refused(&answer)),
        _ => None,
    }
}

fn refused(answer: &Answer) -> String {
    let Answer {
        refusal,
        file,
        place,
        ..
    } = answer;
    format!("refused {refusal} {file} {place}\n")
}

fn arrival(minute: u64) -> String {
    match minute {
        NONE => "none\n".to_string(),
        minute => format!("minute {minute}\n"),
    }
}

/// The listing's text, past which there is nothing.
fn listing(lent: &Lent, length: u64) -> Option<String> {
    let (text, unused) = split(lent.text.part(), length as usize)?;
    let nothing = unused.iter().all(|byte| *byte == 0);
    String::from_utf8(text.to_vec()).ok().filter(|_| nothing)
}

/// The entries in list order, the list's length, and the arrivals.
fn list_and_arrivals(lent: &Lent, length: u64) -> Option<String> {
    let (rows, unused) = split(lent.rows.part(), length as usize * ROW_BYTES)?;
    let rows: Option<String> = rows.chunks(ROW_BYTES).map(entry).collect();
    let nothing = unused.iter().all(|byte| *byte == 0);
    rows.filter(|_| nothing)
        .map(|rows| format!("{rows}length {length}\n{}", arrivals(lent)))
}

/// The arrivals by train, then minute, without weights of 0.
fn arrivals(lent: &Lent) -> String {
    let minutes = (0..WEIGHTS).map(|at| (at / MINUTES, at % MINUTES));
    let arrivals = minutes.map(|(train, minute)| (train, minute, weight(lent, train, minute)));
    arrivals
        .filter(|(_, _, weight)| *weight > 0)
        .map(|(train, minute, weight)| format!("arrived {train} {minute} {weight}\n"))
        .collect()
}

/// An entry of a row: train, place, kind, minute, and a set for each train, none of which is empty.
fn entry(row: &[u8]) -> Option<String> {
    let place = match (row[2], row[3]) {
        (0, 0) => "out".to_string(),
        (1, station) => format!("s{station}"),
        (2, track) => format!("t{track}"),
        (3, 0) => "gone".to_string(),
        _ => return None,
    };
    let kind = match row[1] {
        1 => "S",
        2 => "B",
        _ => return None,
    };
    let trains = row[8..].iter().take_while(|set| **set != 0).count();
    let (sets, none) = row[8..].split_at(trains);
    let zero = [&row[6..8], none].concat().iter().all(|byte| *byte == 0);
    let sets: String = sets.iter().map(|set| format!(" {set:02x}")).collect();
    let (train, minute) = (row[0], u16::from_be_bytes([row[4], row[5]]));
    zero.then(|| format!("{train} {place} {kind} {minute}{sets}\n"))
}

/// Punctuality and shares by the bits of the doubles, and the lateness; all else is 0.
fn figures(figures: &TrainFigures) -> Option<String> {
    let answer = Answer {
        refusal: figures.refusal,
        file: figures.file,
        place: figures.place,
        value: 0,
    };
    if answer != Answer::default() {
        let nothing_else = bits(figures) == bits(&figures_refused(&answer));
        return (figures.refusal > 0 && nothing_else).then(|| refused(&answer));
    }
    let punctuality = match (figures.punctuality, figures.share.to_bits()) {
        (NEVER, 0) => "never".to_string(),
        (ALWAYS, 0) => "always".to_string(),
        (SHARE, share) => format!("share {share:016x}"),
        _ => return None,
    };
    let shares = [figures.on_time, figures.late, figures.not_arrived].map(f64::to_bits);
    let shares: String = shares.map(|share| format!(" {share:016x}")).concat();
    let (sum, arrived) = (figures.lateness, figures.arrived);
    let zero = (figures.zero, figures.kept) == (0, [0; 4]);
    zero.then(|| format!("punct {punctuality} | shares{shares} | late {sum} {arrived}\n"))
}

/// Bytes up to an offset, and those from there on.
fn split(bytes: &[u8], at: usize) -> Option<(&[u8], &[u8])> {
    (at <= bytes.len()).then(|| bytes.split_at(at))
}
