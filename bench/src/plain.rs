//! The plain engine beside the second program's and its enumeration, a choice.

use crate::cases::Files;
use crate::clock::quickest;
use crate::exported::Desk;
use crate::measured::{enumeration, reckoned, some, spread, SECONDS, SOME_CHOICES};
use crate::tables::{figure, time};
use second::calls::WEIGHTS;
use second::plain::{choices, run};
use second::plan::Plan;

/// The choices of a part: a call on so many takes some thousand times as long as what it does besides, reading the files and writing the weights.
const OF_A_PART: u64 = 32_768;
/// The most parts that are run.
const MOST_PARTS: u64 = 8;

/// The microseconds of one choice: of the exported plain engine, of the second program's, and of its enumeration; and those of an exported call on one choice.
struct Measured {
    exported: f64,
    second: f64,
    enumeration: f64,
    call: f64,
}

pub fn print_head() {
    println!("| case | choices | plain engine, a choice | all choices | a call on one choice | second program, plain engine, a choice | enumeration, a choice | second / plain engine | enumeration / plain engine |");
    println!("|---|---|---|---|---|---|---|---|---|");
}

/// A line of the table.
pub fn print(files: &Files) {
    eprintln!("{}", files.name);
    let plan = files.plan();
    let (all, of) = (choices(&plan), measure(files, &plan));
    let of_parts = about(all > MOST_PARTS * OF_A_PART);
    let of_some = about(reckoned(all));
    println!(
        "| {} | {all} | {of_parts}{} ns | {of_parts}{} | {} | {of_some}{} | {of_some}{} | {of_some}{} | {of_some}{} |",
        files.name,
        figure(of.exported * 1e3),
        time(of.exported * all as f64),
        time(of.call),
        time(of.second),
        time(of.enumeration),
        figure(of.second / of.exported),
        figure(of.enumeration / of.exported),
    );
}

/// The mark of a figure that is reckoned.
fn about(reckoned: bool) -> &'static str {
    match reckoned {
        true => "~ ",
        false => "",
    }
}

pub fn print_foot() {
    println!("\n`~`: of the plain engine, reckoned from {MOST_PARTS} parts of {OF_A_PART} choices; of the second program, from {SOME_CHOICES} choices.");
    println!("A choice of the plain engine is without what a call does besides its choices, such as reading the files: that is most of a call on one choice.");
}

/// Times a choice by each of the three; the two plain engines have to agree.
fn measure(files: &Files, plan: &Plan) -> Measured {
    let all = choices(plan);
    let numbers = if reckoned(all) {
        some(all)
    } else {
        (0..all).collect()
    };
    agree(files, plan, &numbers);
    let (exported, call) = exported(files, plan);
    Measured {
        exported,
        second: second(plan, &numbers),
        enumeration: enumeration(plan, all) / all as f64,
        call,
    }
}

/// The exported plain engine and the second program's come to the same weights on these choices.
fn agree(files: &Files, plan: &Plan, numbers: &[u64]) {
    let (last, mut desk, mut weights) = (plan.head.last_minute, Desk::new(), vec![0; WEIGHTS]);
    for number in numbers {
        desk.part(files, last, *number, 1).expect("an answer");
        run(plan, last, *number..*number + 1, &mut weights);
    }
    let name = &files.name;
    assert!(desk.weights() == weights, "{name}: the weights differ");
}

/// The microseconds of one choice by the exported plain engine, and of a call on one choice. Parts are run, of all choices or spread over them; what a call does
/// besides its choices is taken off, by the call on one choice.
fn exported(files: &Files, plan: &Plan) -> (f64, f64) {
    let (all, last, mut desk) = (choices(plan), plan.head.last_minute, Desk::new());
    let parts = spread(MOST_PARTS, (all - 1) / OF_A_PART + 1);
    let mut part = |first: u64, count: u64| {
        quickest(SECONDS / parts.len() as f64, || {
            desk.part(files, last, first, count).expect("an answer");
        })
    };
    let call = part(0, 1);
    let (mut run, mut spent) = (0, 0.0);
    for number in &parts {
        let first = number * OF_A_PART;
        run += OF_A_PART.min(all - first) - 1;
        spent += part(first, OF_A_PART) - call;
    }
    (spent / run as f64, call)
}

/// The microseconds of one choice by the second program's plain engine.
fn second(plan: &Plan, numbers: &[u64]) -> f64 {
    let (last, mut weights) = (plan.head.last_minute, vec![0; WEIGHTS]);
    let spent = quickest(SECONDS, || {
        for number in numbers {
            run(plan, last, *number..*number + 1, &mut weights);
        }
    });
    spent / numbers.len() as f64
}
