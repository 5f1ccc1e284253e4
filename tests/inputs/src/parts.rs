//! The plain engine's calls that are asked of an input, whole and in parts, and what the weights hold when they are lent to a part.

use crate::generator::Chance;
use crate::questions::{far, Call};
use second::plain::choices;
use second::plan::Plan;

/// The most choices of an input of which the plain engine's whole run is asked, since each is run by itself; of one that has more, only parts are.
pub const MOST_CHOICES: u64 = 4_096;

/// The most choices of an input of which the whole run is asked of the definitions, which take long to compute.
const TO_COMPUTE: u64 = 27;

/// The most choices that an asked part runs.
pub const OF_A_PART: usize = 6;

/// What the weights hold when they are lent to a part.
#[derive(Clone, Copy, Debug, PartialEq, Eq, PartialOrd, Ord)]
pub enum Before {
    /// The same number everywhere; 0 before the first part.
    All(u64),
    /// Numbers drawn from a seed: 0, small ones, any, and such that are less than 2^64 − 1 by little.
    Drawn(u64),
}

impl Before {
    /// So many weights.
    pub fn weights(self, count: usize) -> Vec<u64> {
        match self {
            Before::All(weight) => vec![weight; count],
            Before::Drawn(seed) => {
                let mut chance = Chance::new(seed);
                (0..count).map(|_| draw_weight(&mut chance)).collect()
            }
        }
    }
}

/// A weight as it may be lent to a part.
fn draw_weight(chance: &mut Chance) -> u64 {
    let little = [1, 100, 10_000, 1_000_000, 1 << 31][chance.below(5)];
    let little = chance.below(little) as u64;
    let any = |chance: &mut Chance| (chance.below(1 << 31) as u64) << chance.below(33);
    [0, little, any(chance), u64::MAX - little][chance.below(4)]
}

/// Whether the plain engine's whole run is asked of an input.
pub fn few_choices(plan: &Plan) -> bool {
    choices(plan) <= MOST_CHOICES
}

/// The plain engine's calls on a sound input: the whole run to the first, a drawn and the last minute and to two that are past it, and parts.
pub fn answered(chance: &mut Chance, plan: &Plan) -> Vec<Call> {
    let last = plan.head.last_minute as usize;
    let mut stops = vec![far(chance, last), usize::MAX - chance.below(last)];
    if few_choices(plan) {
        stops.extend([0, chance.between(0, last), last]);
    }
    let mut calls: Vec<Call> = stops.into_iter().map(|stop| Call::Plain { stop }).collect();
    calls.extend(parts(chance, plan));
    calls
}

/// The plain engine's calls on which definitions are compared with the second program: a part and, of few enough choices, the whole run, to a drawn or the last
/// minute, and now and then to the next.
pub fn few(chance: &mut Chance, plan: &Plan) -> Vec<Call> {
    let (last, all) = (plan.head.last_minute as usize, choices(plan));
    let draw_stop = |chance: &mut Chance| {
        let past = usize::from(chance.percent(10));
        [chance.between(0, last), last + past][chance.below(2)]
    };
    let (first, count) = draw_part(chance, all);
    let part = Call::Part {
        stop: draw_stop(chance),
        first,
        count,
        before: Before::All(0),
    };
    let stop = draw_stop(chance);
    let whole = (all <= TO_COMPUTE).then_some(Call::Plain { stop });
    [part].into_iter().chain(whole).collect()
}

/// Parts of a sound input: two from a drawn choice on, one that reaches past the last choice, two that start there, and one with a stop minute past the last.
fn parts(chance: &mut Chance, plan: &Plan) -> Vec<Call> {
    let last = plan.head.last_minute as usize;
    let all = choices(plan);
    let within = [draw_part(chance, all), draw_part(chance, all)];
    let past = draw_past(chance, all);
    let at_end = [0, 1, u64::MAX - all, u64::MAX][chance.below(4)];
    let placed = [
        (chance.between(0, last), within[0]),
        (last, within[1]),
        (last, draw_overrun(chance, all)),
        (last, (all, at_end)),
        (last, (past, draw_count(chance, past))),
        (far(chance, last), draw_part(chance, all)),
    ];
    placed
        .map(|(stop, part)| part_of(chance, stop, part))
        .to_vec()
}

/// A part: its first choice, and how many.
type Part = (u64, u64);

/// The call of a part, with the weights as they are lent.
fn part_of(chance: &mut Chance, stop: usize, (first, count): Part) -> Call {
    let before = match chance.below(6) {
        0 => Before::All(0),
        1 => Before::All(u64::MAX),
        _ => Before::Drawn(chance.below(1 << 31) as u64),
    };
    Call::Part {
        stop,
        first,
        count,
        before,
    }
}

/// A part from a drawn choice on, or from the first.
fn draw_part(chance: &mut Chance, all: u64) -> Part {
    let first = [0, chance.below(all as usize) as u64][chance.below(2)];
    (first, chance.between(0, OF_A_PART) as u64)
}

/// A part from one of the last choices on, of more than there are.
fn draw_overrun(chance: &mut Chance, all: u64) -> Part {
    let left = chance.between(1, OF_A_PART) as u64;
    let first = all.saturating_sub(left);
    let more = all - first + chance.between(1, 3) as u64;
    let counts = [more, more, draw_count(chance, first)];
    (first, counts[chance.below(3)])
}

/// A count whose part, from the first on, ends before, at or past 2^64, or a small one whose low bytes are 0.
fn draw_count(chance: &mut Chance, first: u64) -> u64 {
    let most = u64::MAX - first;
    let past = most.saturating_add(chance.between(1, 4) as u64);
    [1 << 32, most, past, u64::MAX][chance.below(4)]
}

/// The number of a choice past the last: the next but one, or one that has the same low bytes as a choice that is there.
fn draw_past(chance: &mut Chance, all: u64) -> u64 {
    let low = chance.below(all as usize) as u64;
    let high = u64::MAX - chance.below(3) as u64;
    [all + 1, low + (1 << 24), low + (1 << 32), high][chance.below(4)]
}

/// The plain engine's calls on an input whose reading is refused; their arguments may be out of range too, which is judged later.
pub fn refused(chance: &mut Chance) -> Vec<Call> {
    let stop = [0, far(chance, 719)][chance.below(2)];
    let part = [(0, 1), (0, u64::MAX), (1 << 32, 0), (u64::MAX, u64::MAX)][chance.below(4)];
    vec![Call::Plain { stop }, part_of(chance, stop, part)]
}

/// A call of the plain engine that is to get too few weights.
pub fn draw_call(chance: &mut Chance) -> Call {
    let stop = 0;
    match chance.below(2) {
        0 => Call::Plain { stop },
        _ => part_of(chance, stop, (0, 1)),
    }
}
