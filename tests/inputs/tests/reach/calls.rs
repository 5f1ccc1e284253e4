//! The refusals of arguments and memory that the calls reach, and their kinds of answers.

use crate::counts::Counts;
use inputs::answers::{answer, Value};
use inputs::generator::Files;
use inputs::questions::{counted, Call, Memory, Question, MEMORIES};
use second::figures::Punctuality;
use second::joint;
use second::plan::Plan;
use second::refusal::*;

#[test]
fn calls_reach_each_refusal_of_their_arguments_and_memory() {
    let mut counts = Counts::default();
    for asked in counted() {
        let plan = Plan::read(&asked.files.case, &asked.files.book).ok();
        for question in &asked.questions {
            for name in kinds(&asked.files, plan.as_ref(), question) {
                counts.add(name, 1);
            }
        }
    }
    let lent: [(&str, &[Memory]); 5] = [
        ("run", &MEMORIES[..2]),
        ("listing", &MEMORIES),
        ("figures", &MEMORIES[..2]),
        ("plain", &[Memory::Weights]),
        ("part", &[Memory::Weights]),
    ];
    for (call, memories) in lent {
        for memory in memories {
            for lent in ["none", "one byte", "some", "all but a byte"] {
                counts.ask(short_name(call, *memory, lent));
            }
        }
    }
    for name in CALLS {
        counts.ask(name);
    }
    counts.show();
}

/// The other kinds of calls.
const CALLS: [&str; 22] = [
    "single: a minute",
    "single: none by T",
    "refusal 15: single: too few indices",
    "refusal 15: single: too many indices",
    "refusal 15: single: an index past the table",
    "refusal 15 before 16: single",
    "refusal 16: single",
    "run: answered before the last minute",
    "run: answered after the last minute",
    "run: answered where the listing is refused 12",
    "refusal 17: run: one minute too late",
    "refusal 17: run: far too late",
    "refusal 17 before 12: run",
    "refusal 12: run",
    "listing: answered",
    "refusal 12: listing",
    "figures: never",
    "figures: always",
    "figures: a share",
    "refusal 16: figures",
    "refusal 16 before 12: figures",
    "refusal 12: figures",
];

fn short_name(call: &str, memory: Memory, lent: &str) -> String {
    format!("refusal 14: {call}: of {memory:?} is lent: {lent}")
}

/// The kinds that a question belongs to by its answer; of refused readings, and of the plain engine with enough memory, none.
fn kinds(files: &Files, plan: Option<&Plan>, question: &Question) -> Vec<String> {
    if let Some(memory) = question.short_of() {
        let refusal = answer(files, question).value.err();
        assert_eq!(refusal, Some(Refusal::of_call(MEMORY)));
        let lent = match question.lent[memory as usize] {
            0 => "none",
            1 => "one byte",
            most if most + 1 == memory.required() => "all but a byte",
            _ => "some",
        };
        return vec![short_name(question.call.name(), memory, lent)];
    }
    let kinds = match (plan, &question.call) {
        (None, _) | (_, Call::Plain { .. } | Call::Part { .. }) => Vec::new(),
        (Some(plan), _) => kinds_of_call(files, plan, question),
    };
    kinds.into_iter().map(str::to_string).collect()
}

/// The kinds of an accepted input's call.
fn kinds_of_call(files: &Files, plan: &Plan, question: &Question) -> Vec<&'static str> {
    let answered = answer(files, question).value;
    let refused = answered.err().map(|refusal| refusal.number);
    match &question.call {
        Call::Single { choice, train } => match answered {
            Ok(Value::Arrival(None)) => vec!["single: none by T"],
            Ok(_) => vec!["single: a minute"],
            Err(_) => single_refused(plan, choice, *train, refused),
        },
        Call::Run { stop } => run_kinds(plan, *stop as u64, refused),
        Call::Listing if refused == Some(ROOM) => vec!["refusal 12: listing"],
        Call::Listing => vec!["listing: answered"],
        Call::Figures { .. } => match answered {
            Ok(Value::Figures(figures)) => vec![match figures.punctuality {
                Punctuality::Never => "figures: never",
                Punctuality::Always => "figures: always",
                Punctuality::Share(_) => "figures: a share",
            }],
            _ => figures_refused(plan, refused),
        },
        Call::Plain { .. } | Call::Part { .. } => unreachable!("parts.rs tells their kinds"),
    }
}

fn single_refused(
    plan: &Plan,
    choice: &[u8],
    train: usize,
    refused: Option<u8>,
) -> Vec<&'static str> {
    if refused == Some(NO_TRAIN) {
        return vec!["refusal 16: single"];
    }
    let mut kinds = match choice.len() {
        few if few < plan.trains() => vec!["refusal 15: single: too few indices"],
        many if many > plan.trains() => vec!["refusal 15: single: too many indices"],
        _ => vec!["refusal 15: single: an index past the table"],
    };
    kinds.extend((train >= plan.trains()).then_some("refusal 15 before 16: single"));
    kinds
}

/// Whether the run to the last minute is refused 12.
fn without_room(plan: &Plan) -> bool {
    joint::run(plan, plan.head.last_minute).is_err()
}

fn run_kinds(plan: &Plan, stop: u64, refused: Option<u8>) -> Vec<&'static str> {
    let last = u64::from(plan.head.last_minute);
    match refused {
        Some(ROOM) => vec!["refusal 12: run"],
        Some(_) => {
            let mut kinds = match stop == last + 1 {
                true => vec!["refusal 17: run: one minute too late"],
                false => vec!["refusal 17: run: far too late"],
            };
            kinds.extend(without_room(plan).then_some("refusal 17 before 12: run"));
            kinds
        }
        None if stop == last => vec!["run: answered after the last minute"],
        None if without_room(plan) => vec![
            "run: answered before the last minute",
            "run: answered where the listing is refused 12",
        ],
        None => vec!["run: answered before the last minute"],
    }
}

fn figures_refused(plan: &Plan, refused: Option<u8>) -> Vec<&'static str> {
    match refused {
        Some(ROOM) => vec!["refusal 12: figures"],
        _ if without_room(plan) => vec!["refusal 16: figures", "refusal 16 before 12: figures"],
        _ => vec!["refusal 16: figures"],
    }
}
