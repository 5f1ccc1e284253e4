//! What the questions to the plain engine reach: stops, numbers of choices, cases in which the joint run has no room, and parts of every kind.

use crate::counts::Counts;
use inputs::answers::answer;
use inputs::generator::Files;
use inputs::parts::{MOST_CHOICES, OF_A_PART};
use inputs::questions::{counted, Call, Question};
use second::calls::{plain_part, WEIGHTS};
use second::joint::{self, JointRun};
use second::plain::choices;
use second::plan::Plan;

#[test]
fn the_plain_engine_is_asked_whole_and_in_parts_of_every_kind() {
    let mut counts = Counts::default();
    for asked in counted() {
        let plan = match Plan::read(&asked.files.case, &asked.files.book) {
            Ok(plan) => plan,
            Err(_) => continue,
        };
        let room = room(&plan);
        for question in &asked.questions {
            for name in kinds(&asked.files, &plan, room, question) {
                counts.add(name, 1);
            }
        }
    }
    for name in [&PLAIN[..], &PARTS, &SUMS, &REFUSED].concat() {
        counts.ask(name);
    }
    counts.show();
}

#[test]
fn no_question_runs_more_choices_than_its_limit() {
    for asked in counted() {
        let plan = match Plan::read(&asked.files.case, &asked.files.book) {
            Ok(plan) => plan,
            Err(_) => continue,
        };
        let (last, all) = (plan.head.last_minute as usize, choices(&plan));
        for question in &asked.questions {
            match question.call {
                Call::Plain { stop } => assert!(stop > last || all <= MOST_CHOICES),
                Call::Part { first, count, .. } => {
                    assert!(count.min(all.saturating_sub(first)) <= OF_A_PART as u64)
                }
                _ => {}
            }
        }
    }
}

/// Kinds of the whole run.
const PLAIN: [&str; 14] = [
    "plain: answered after minute 0",
    "plain: answered before the last minute",
    "plain: answered after the last minute",
    "plain: answered where the run is refused 12 in the first list",
    "plain: answered where the run is refused 12 in a minute",
    "plain: of one choice",
    "plain: of more than 100 choices",
    "plain: of more than 255 choices",
    "plain: of seven trains",
    "plain: some weight is 2^32 or more",
    "refusal 17: plain: one minute too late",
    "refusal 17: plain: far too late",
    "refusal 17: plain: near 2^64",
    "refusal 17: plain: where the run is refused 12",
];

/// Kinds of parts by their choices.
const PARTS: [&str; 14] = [
    "part: from the first choice on",
    "part: from another choice on",
    "part: stopped before the last minute",
    "part: of no choice, within",
    "part: of one choice or more, all there",
    "part: of more than are there",
    "part: from the end on",
    "part: from past the end on",
    "part: from near 2^64 on",
    "part: to 2^64 - 1, some run",
    "part: past 2^64, some run",
    "part: past 2^64, none run",
    "part: of a case with more choices than are asked whole",
    "part: answered where the run is refused 12",
];

/// Kinds of parts by what they add to.
const SUMS: [&str; 5] = [
    "part: the weights lent are 0",
    "part: the weights lent are not 0",
    "part: a weight lent is 2^64 - 1 and is added to",
    "part: a sum stops at 2^64 - 1",
    "part: a sum of more than 2^63 does not",
];

/// Kinds of parts that are refused.
const REFUSED: [&str; 3] = [
    "refusal 17: part",
    "refusal 17: part: the weights lent are not 0",
    "refusal 17: part: from past the end on or of no choice",
];

/// Where the joint run to the last minute has no room.
#[derive(Clone, Copy, PartialEq, Eq)]
enum Room {
    Enough,
    NoneAtFirst,
    NoneLater,
}

fn room(plan: &Plan) -> Room {
    match (
        JointRun::start(plan),
        joint::run(plan, plan.head.last_minute),
    ) {
        (Err(_), _) => Room::NoneAtFirst,
        (_, Err(_)) => Room::NoneLater,
        _ => Room::Enough,
    }
}

/// The kinds that a question to the plain engine with enough memory is of; of other questions none.
fn kinds(files: &Files, plan: &Plan, room: Room, question: &Question) -> Vec<&'static str> {
    if question.short_of().is_some() {
        return Vec::new();
    }
    let held = match question.call {
        Call::Plain { stop } => plain_kinds(files, plan, room, question, stop),
        Call::Part {
            stop, first, count, ..
        } => match stop > plan.head.last_minute as usize {
            true => part_refused(plan, question, first, count),
            false => {
                let sums = sum_kinds(files, question);
                [part_kinds(plan, room, stop, first, count), sums].concat()
            }
        },
        _ => Vec::new(),
    };
    let held = held.into_iter().filter(|(holds, _)| *holds);
    held.map(|(_, name)| name).collect()
}

/// Names of kinds, and whether a question is of them.
type Kinds = Vec<(bool, &'static str)>;

fn plain_kinds(files: &Files, plan: &Plan, room: Room, asked: &Question, stop: usize) -> Kinds {
    let last = plan.head.last_minute as usize;
    let (all, answered) = (choices(plan), stop <= last);
    let weights = match answered {
        true => answer(files, asked).weights,
        false => Vec::new(),
    };
    let no_room = room != Room::Enough;
    let held = [
        answered && stop == 0,
        answered && stop < last,
        stop == last,
        stop == last && room == Room::NoneAtFirst,
        stop == last && room == Room::NoneLater,
        answered && all == 1,
        answered && all > 100,
        answered && all > 255,
        answered && plan.trains() == 7,
        weights.iter().any(|weight| *weight >= 1 << 32),
        stop == last + 1,
        stop > last + 1,
        stop > usize::MAX - 720,
        !answered && no_room,
    ];
    held.into_iter().zip(PLAIN).collect()
}

fn part_kinds(plan: &Plan, room: Room, stop: usize, first: u64, count: u64) -> Kinds {
    let all = choices(plan);
    let there = all.saturating_sub(first);
    let wraps = first.checked_add(count).is_none();
    let held = [
        first == 0,
        first > 0 && there > 0,
        stop < plan.head.last_minute as usize,
        there > 0 && count == 0,
        count > 0 && count <= there,
        there > 0 && count > there,
        first == all,
        first > all,
        first > u64::MAX - 4,
        there > 0 && first.checked_add(count) == Some(u64::MAX),
        there > 0 && wraps,
        there == 0 && wraps,
        all > MOST_CHOICES,
        room != Room::Enough,
    ];
    held.into_iter().zip(PARTS).collect()
}

/// What an answered part does to the sums, beside what it adds to weights of 0.
fn sum_kinds(files: &Files, asked: &Question) -> Kinds {
    let mut added = vec![0; WEIGHTS];
    if let Call::Part {
        stop, first, count, ..
    } = asked.call
    {
        let answer = plain_part(&files.case, &files.book, stop, first, count, &mut added);
        assert!(answer.is_ok());
    }
    let before = asked.call.before().weights(WEIGHTS);
    let sums: Vec<(u64, u64)> = before.into_iter().zip(added).collect();
    let grown = |is: fn(u64, u64) -> bool| sums.iter().any(|(a, b)| *b > 0 && is(*a, *b));
    let zero = sums.iter().all(|(before, _)| *before == 0);
    let held = [
        zero,
        !zero,
        grown(|before, _| before == u64::MAX),
        grown(|before, more| before < u64::MAX && before.checked_add(more).is_none()),
        grown(|before, more| before.checked_add(more).map_or(false, |sum| sum > 1 << 63)),
    ];
    held.into_iter().zip(SUMS).collect()
}

fn part_refused(plan: &Plan, asked: &Question, first: u64, count: u64) -> Kinds {
    let before = asked.call.before().weights(WEIGHTS);
    let nothing = first >= choices(plan) || count == 0;
    let held = [true, before.iter().any(|weight| *weight > 0), nothing];
    held.into_iter().zip(REFUSED).collect()
}
