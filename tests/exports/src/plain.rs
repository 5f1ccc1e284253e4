//! The plain engine through the exports, worked out by hand on the shift example: its choices one by one, parts, sums that stop at 2^64 − 1, and refusals.

use crate::called::{Exports, Linked, Part};
use crate::example::{shift, weight, Checks};
use crate::memory::Lent;
use crate::refusals::{refusal, run};
use crate::tally::Tally;
use exports::Answer;
use inputs::generator::Files;
use inputs::parts::Before;
use inputs::questions::Memory;

/// The weights' memory, which the plain engine is lent.
const ONE: [Memory; 1] = [Memory::Weights];

pub fn the_plain_engine(tally: &mut Tally) {
    let checks = [plain_runs(), parts(), sums(), refusals()];
    for (what, holds) in checks.concat() {
        tally.expect(holds, || format!("failed: {what}"));
    }
}

/// The trains and minutes in which they can arrive.
const ARRIVALS: [(usize, usize); 5] = [(0, 6), (0, 9), (1, 11), (1, 13), (1, 14)];

/// The weights of both trains in the minutes in which they can arrive, if all others are 0.
fn arrived(lent: &Lent) -> Option<[u64; 5]> {
    let weights = ARRIVALS.map(|(k, t)| weight(lent, k, t));
    let all = (0..7).flat_map(|k| (0..720).map(move |t| (k, t)));
    let others = all.filter(|(k, t)| weight(lent, *k, *t) > 0).count();
    let these = weights.iter().filter(|weight| **weight > 0).count();
    (others == these).then_some(weights)
}

fn plain_runs() -> Checks {
    let plain = |files: &Files, stop: u64| {
        let mut lent = Lent::exact();
        let answer = Linked.plain(files, stop, &mut lent);
        let four = Answer {
            value: 4,
            ..Answer::default()
        };
        let alone = lent.rows.untouched() && lent.text.untouched();
        arrived(&lent).filter(|_| answer == four && alone)
    };
    let (whole, small) = (shift(|_| {}), shift(|case| (case[6], case[7]) = (0, 3)));
    let all = Some([6_000, 4_000, 3_600, 2_400, 4_000]);
    vec![
        (
            "plain: nothing by minute 5",
            plain(&whole, 5) == Some([0; 5]),
        ),
        (
            "plain: by minute 6",
            plain(&whole, 6) == Some([6_000, 0, 0, 0, 0]),
        ),
        (
            "plain: by minute 13",
            plain(&whole, 13) == Some([6_000, 4_000, 3_600, 2_400, 0]),
        ),
        ("plain: by minute 14", plain(&whole, 14) == all),
        ("plain: to the end", plain(&whole, 20) == all),
        ("plain: without room for the run", plain(&small, 20) == all),
    ]
}

fn parts() -> Checks {
    let stop = 20;
    let part = |first: u64, count: u64, value: u64| {
        let mut lent = Lent::exact().with_weights(Before::All(0));
        let answer = Linked.part(&shift(|_| {}), Part { stop, first, count }, &mut lent);
        let run = Answer {
            value,
            ..Answer::default()
        };
        arrived(&lent).filter(|_| answer == run)
    };
    let one = |choice, weights| part(choice, 1, 1) == Some(weights);
    let (none, all) = (Some([0; 5]), Some([6_000, 4_000, 3_600, 2_400, 4_000]));
    let last = Some([0, 1_600, 0, 0, 1_600]);
    vec![
        ("P1 as a part", one(0, [3_600, 0, 3_600, 0, 0])),
        ("P2 as a part", one(1, [2_400, 0, 0, 0, 2_400])),
        ("P3 as a part", one(2, [0, 2_400, 0, 2_400, 0])),
        ("P4 as a part", part(3, 1, 1) == last),
        ("all choices as a part", part(0, 4, 4) == all),
        ("a part that overruns", part(3, 2, 1) == last),
        ("a part to 2^64 − 1", part(3, u64::MAX - 3, 1) == last),
        ("a part to 2^64", part(3, u64::MAX - 2, 1) == last),
        ("a part past 2^64", part(3, u64::MAX, 1) == last),
        ("a part of none", part(1, 0, 0) == none),
        ("a part from the end on", part(4, 1, 0) == none),
        ("a part from 2^32 on", part(1 << 32, 4, 0) == none),
        (
            "a part from 2^64 − 1 on",
            part(u64::MAX, u64::MAX, 0) == none,
        ),
        (
            "a part twice",
            twice() == Some([4_800, 4_800, 0, 4_800, 4_800]),
        ),
    ]
}

/// The weights of the second and the third choice, added twice.
fn twice() -> Option<[u64; 5]> {
    let (stop, first, count) = (20, 1, 2);
    let mut lent = Lent::exact().with_weights(Before::All(0));
    for _ in 0..2 {
        Linked.part(&shift(|_| {}), Part { stop, first, count }, &mut lent);
    }
    arrived(&lent)
}

/// Sums that would pass 2^64 − 1.
fn sums() -> Checks {
    let most = u64::MAX;
    let added_to = |before: u64| {
        let mut lent = Lent::exact().with_weights(Before::All(before));
        Linked.part(&shift(|_| {}), every_choice(20), &mut lent);
        let weights = ARRIVALS.map(|(k, t)| weight(&lent, k, t));
        let others = [(0, 5), (0, 7), (2, 6), (6, 719)].map(|(k, t)| weight(&lent, k, t));
        (others == [before; 4]).then_some(weights)
    };
    let just_fit = [6_000, 4_000, 3_600, 2_400, 4_000].map(|weight| most - 6_000 + weight);
    let one_passes = [5_999, 4_000, 3_600, 2_400, 4_000].map(|weight| most - 5_999 + weight);
    vec![
        (
            "sums that just fit",
            added_to(most - 6_000) == Some(just_fit),
        ),
        (
            "sums of which one would pass 2^64 − 1",
            added_to(most - 5_999) == Some(one_passes),
        ),
        (
            "sums that would all pass 2^64 − 1",
            added_to(most - 1) == Some([most; 5]),
        ),
        (
            "sums that have stopped stay",
            added_to(most) == Some([most; 5]),
        ),
    ]
}

/// Whether the plain engine is refused so, whole and in parts, with a stop minute past all, and sets the weights to zero.
pub fn plain_refuses(files: &Files, refused: Answer) -> bool {
    let (mut plain, mut part) = (Lent::exact(), lent_to_part());
    Linked.plain(files, u64::MAX, &mut plain) == refused
        && plain.zero(&ONE)
        && Linked.part(files, every_choice(u64::MAX), &mut part) == refused
        && part.zero(&ONE)
}

/// Memory with weights for a part to add to.
fn lent_to_part() -> Lent {
    Lent::exact().with_weights(Before::Drawn(1))
}

/// All choices to a stop minute, as one part.
fn every_choice(stop: u64) -> Part {
    let (first, count) = (0, u64::MAX);
    Part { stop, first, count }
}

/// Refusals of the plain engine, whole and in parts, which is never refused 12, and their order.
fn refusals() -> Checks {
    let (whole, small) = (
        shift(|_| {}),
        shift(|case| case[6..8].copy_from_slice(&[0, 3])),
    );
    let broken = shift(|case| case.truncate(59));
    let untold = shift(|case| case.truncate(52));
    let both = |number| Some([number; 2]);
    vec![
        ("17, plain", plain(&whole, 21) == both(17)),
        ("17, plain, 2^16", plain(&whole, 1 << 16) == both(17)),
        ("17, plain, far", plain(&whole, 1 << 32) == both(17)),
        (
            "17, plain, the highest",
            plain(&whole, u64::MAX) == both(17),
        ),
        ("17, plain, no room", plain(&small, 21) == both(17)),
        ("17 of a part of none", part_of_none(&whole, 21) == Some(17)),
        ("no 12, run", run(&small, 20) == Some(12)),
        ("no 12, plain", answers(&small, 20) == Some([4, 4])),
        ("no 12, plain, at once", answers(&small, 0) == Some([4, 4])),
        (
            "14 before the files, plain",
            short_plain(&broken) == both(14),
        ),
        ("14 before 11, plain", short_plain(&untold) == both(14)),
        ("14 before 17, plain", short_plain(&whole) == both(14)),
    ]
}

/// The refusals of the plain engine, whole and in one part, that have set the weights to zero.
fn plain(files: &Files, stop: u64) -> Option<[u16; 2]> {
    let (mut plain, mut part) = (Lent::exact(), lent_to_part());
    let numbers = [
        refusal(Linked.plain(files, stop, &mut plain))?,
        refusal(Linked.part(files, every_choice(stop), &mut part))?,
    ];
    (plain.zero(&ONE) && part.zero(&ONE)).then_some(numbers)
}

/// The refusal of a part from past the last choice on, which has set the weights to zero.
fn part_of_none(files: &Files, stop: u64) -> Option<u16> {
    let (first, count) = (u64::MAX, 0);
    let mut lent = lent_to_part();
    let number = refusal(Linked.part(files, Part { stop, first, count }, &mut lent));
    number.filter(|_| lent.zero(&ONE))
}

/// The numbers of choices that the plain engine runs, whole and in one part, if neither is refused.
fn answers(files: &Files, stop: u64) -> Option<[u64; 2]> {
    let answers = [
        Linked.plain(files, stop, &mut Lent::exact()),
        Linked.part(files, every_choice(stop), &mut lent_to_part()),
    ];
    let answered = answers.iter().all(|answer| answer.refusal == 0);
    answered.then_some(answers.map(|answer| answer.value))
}

/// The refusals of the plain engine, whole and in one part, with a stop minute past all and a byte of the weights too few, if they write nothing.
fn short_plain(files: &Files) -> Option<[u16; 2]> {
    let mut lent = lent_to_part();
    lent.shorten(Memory::Weights, Memory::Weights.required() - 1);
    let numbers = [
        refusal(Linked.plain(files, u64::MAX, &mut lent))?,
        refusal(Linked.part(files, every_choice(u64::MAX), &mut lent))?,
    ];
    lent.untouched().then_some(numbers)
}
