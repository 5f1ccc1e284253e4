//! Punctuality of a train for a limit of minutes, three shares beside it, and its lateness.

use crate::joint::JointRun;
use crate::plan::Plan;

/// Whether the train is on time never, always, or with a share of all weight.
#[derive(Clone, Copy, Debug, PartialEq)]
pub enum Punctuality {
    Never,
    Always,
    Share(f64),
}

/// The three shares of all weight: on time, late, not arrived.
#[derive(Clone, Copy, Debug, PartialEq)]
pub struct Shares {
    pub on_time: f64,
    pub late: f64,
    pub missing: f64,
}

/// The whole numbers behind the shares; `whole` is 100^n.
#[derive(Clone, Copy, Debug, PartialEq, Eq)]
pub struct Weights {
    pub on_time: u64,
    pub late: u64,
    pub missing: u64,
    pub whole: u64,
}

/// The mean lateness of the arrived as two whole numbers.
#[derive(Clone, Copy, Debug, PartialEq, Eq)]
pub struct Lateness {
    pub sum: u64,
    pub weight: u64,
}

/// All figures of one train for one limit.
#[derive(Clone, Copy, Debug, PartialEq)]
pub struct Figures {
    pub punctuality: Punctuality,
    pub shares: Shares,
    pub weights: Weights,
    pub lateness: Lateness,
}

/// The figures of a train from a joint run that went to T.
pub fn figures(plan: &Plan, joint: &JointRun, train: usize, limit: u16) -> Figures {
    let weights = weigh(plan, joint, train, limit);
    Figures {
        punctuality: punctuality(&weights),
        shares: Shares {
            on_time: division(weights.on_time, weights.whole),
            late: division(weights.late, weights.whole),
            missing: division(weights.missing, weights.whole),
        },
        weights,
        lateness: lateness(plan, joint, train),
    }
}

/// The weight of a train on time (at most the limit after plan), late, and not arrived.
fn weigh(plan: &Plan, joint: &JointRun, train: usize, limit: u16) -> Weights {
    let latest = plan.planned_arrival(train) + u32::from(limit);
    let whole = plan.total();
    let (mut on_time, mut late) = (0, 0);
    for (minute, weight) in arrivals_of(joint, train) {
        if minute <= latest {
            on_time += weight;
        } else {
            late += weight;
        }
    }
    Weights {
        on_time,
        late,
        missing: whole - on_time - late,
        whole,
    }
}

/// Never: no weight is on time; always: all weight is; else the share.
fn punctuality(weights: &Weights) -> Punctuality {
    if weights.on_time == 0 {
        Punctuality::Never
    } else if weights.on_time == weights.whole {
        Punctuality::Always
    } else {
        Punctuality::Share(division(weights.on_time, weights.whole))
    }
}

/// One division of two whole numbers, both exact as doubles, rounded once.
fn division(part: u64, whole: u64) -> f64 {
    part as f64 / whole as f64
}

/// Lateness is minute less plan: its weighted sum over the arrived, and the weight arrived.
fn lateness(plan: &Plan, joint: &JointRun, train: usize) -> Lateness {
    let planned = plan.planned_arrival(train);
    let mut lateness = Lateness { sum: 0, weight: 0 };
    for (minute, weight) in arrivals_of(joint, train) {
        lateness.sum += weight * u64::from(minute - planned);
        lateness.weight += weight;
    }
    lateness
}

/// The minutes and weights of a train's arrivals.
fn arrivals_of(joint: &JointRun, train: usize) -> Vec<(u32, u64)> {
    let all = joint.arrivals.iter();
    all.filter(|((of, _), _)| *of == train)
        .map(|((_, minute), weight)| (*minute, *weight))
        .collect()
}
