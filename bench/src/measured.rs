//! What is measured of a case: the exported run, and the second program's joint run and its enumeration of all choices.

use crate::cases::Files;
use crate::clock::quickest;
use crate::counts::{counts, Counts};
use crate::exported::Desk;
use second::calls::{run, ROWS, WEIGHTS};
use second::enumeration::arrivals;
use second::plain::{choice, choices};
use second::plan::Plan;
use second::single;

/// The seconds within which each figure is taken.
pub const SECONDS: f64 = 1.0;
/// The most choices that are all run.
const MOST_CHOICES: u64 = 1_024;
/// The choices that are run where there are more; the time of all is reckoned from them.
pub const SOME_CHOICES: u64 = 256;

/// What was measured of a case: microseconds of the three runs, and what was counted of the joint run.
pub struct Measured {
    pub exported: f64,
    pub joint: f64,
    pub enumeration: f64,
    pub choices: u64,
    pub counts: Counts,
}

/// Measures the cases one after another, and says at which one it is.
pub fn measured(cases: Vec<Files>) -> Vec<(Files, Plan, Measured)> {
    let one = |files: Files| {
        let plan = files.plan();
        eprintln!("{}", files.name);
        let measured = measure(&files, &plan);
        (files, plan, measured)
    };
    cases.into_iter().map(one).collect()
}

/// Times the three runs of a case; the two joint runs have to agree.
fn measure(files: &Files, plan: &Plan) -> Measured {
    let (mut desk, last) = (Desk::new(), plan.head.last_minute);
    let (mut rows, mut weights) = (vec![None; ROWS], vec![0; WEIGHTS]);
    let exported = exported_run(&mut desk, files, last);
    let joint = quickest(SECONDS, || {
        run(
            &files.case,
            &files.book,
            last as usize,
            &mut rows,
            &mut weights,
        )
        .expect("an answer");
    });
    assert!(
        desk.weights() == weights,
        "{}: the weights differ",
        files.name
    );
    let choices = choices(plan);
    Measured {
        exported: exported.min(exported_run(&mut desk, files, last)),
        joint,
        enumeration: enumeration(plan, choices),
        choices,
        counts: counts(plan),
    }
}

/// The microseconds of the exported run to the last minute.
pub fn exported_run(desk: &mut Desk, files: &Files, last: u32) -> f64 {
    quickest(SECONDS, || {
        desk.run(&files.case, &files.book, last).expect("an answer");
    })
}

/// The microseconds of the single runs of all choices; of too many, some are run and the time of all is reckoned.
pub fn enumeration(plan: &Plan, choices: u64) -> f64 {
    if !reckoned(choices) {
        return quickest(SECONDS, || drop(arrivals(plan)));
    }
    let numbers = some(choices);
    let spent = quickest(SECONDS, || {
        for number in &numbers {
            drop(single::run(plan, &choice(plan, *number)));
        }
    });
    spent * choices as f64 / SOME_CHOICES as f64
}

/// Whether there are too many choices for the second program to run them all.
pub fn reckoned(choices: u64) -> bool {
    choices > MOST_CHOICES
}

/// The numbers of some choices of so many.
pub fn some(choices: u64) -> Vec<u64> {
    spread(SOME_CHOICES, choices)
}

/// So many numbers, or all that there are, spread evenly from 0 to the last below the end.
pub fn spread(count: u64, end: u64) -> Vec<u64> {
    if end <= count {
        return (0..end).collect();
    }
    (0..count).map(|i| i * (end - 1) / (count - 1)).collect()
}
