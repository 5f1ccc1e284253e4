//! What a joint run has been through, seen from its lists minute by minute: how often held entries were split, at which counts pieces were held,
//! and how much an entry weighed.

use crate::waits::holder;
use second::cover::weight;
use second::joint::{Entry, JointRun, Kind};
use second::plan::{Place, Plan};

/// A held entry that was split: the generation of what is left of it, 1 after the first split.
pub type Generation = usize;

/// The most that an entry can weigh, 10^14: all choices of seven trains.
pub const MOST_WEIGHT: u64 = 100_000_000_000_000;

/// What was met in a run; a run that is refused has a trace up to there.
#[derive(Clone, Debug, Default, PartialEq, Eq)]
pub struct Trace {
    /// What splits have left of held entries, by generation; place 0 is not used.
    pub splits: Vec<usize>,
    /// Entries held after a minute, but not at the partner, by the count at which a piece is held: the capacity of what they wait for.
    pub held: Vec<usize>,
    /// Refusal 12 in the first list.
    pub refused_at_first: bool,
    /// Refusal 12 in a minute.
    pub refused_later: bool,
    pub longest_list: usize,
    /// The most that an entry weighed, in the first list or after a minute.
    pub heaviest: u64,
}

/// Traces a joint run to the last minute, or up to its refusal.
pub fn trace(plan: &Plan) -> Trace {
    let mut seen = Trace {
        splits: vec![0; 256],
        held: vec![0; 256],
        ..Trace::default()
    };
    let mut joint = match JointRun::start(plan) {
        Ok(joint) => joint,
        Err(_) => {
            seen.refused_at_first = true;
            return seen;
        }
    };
    seen.heaviest = heaviest(plan, &joint.list);
    let mut generations = vec![0; joint.list.len()];
    for t in 0..=plan.head.last_minute {
        let before = joint.list.clone();
        if joint.visit(plan, t).is_err() {
            seen.refused_later = true;
            return seen;
        }
        generations = split_further(&before, &generations, &joint.list, &mut seen.splits);
        for count in held_counts(plan, &joint.list, t) {
            seen.held[count] += 1;
        }
        seen.longest_list = seen.longest_list.max(joint.list.len());
        seen.heaviest = seen.heaviest.max(heaviest(plan, &joint.list));
    }
    seen
}

/// The most that an entry of a list weighs.
fn heaviest(plan: &Plan, list: &[Entry]) -> u64 {
    let weights = list.iter().map(|entry| weight(plan, &entry.cover));
    weights.max().unwrap_or(0)
}

/// The generation of each row: one more than that of the row it is left of if its cover has shrunk since, which is counted.
pub fn split_further(
    before: &[Entry],
    generations: &[Generation],
    list: &[Entry],
    splits: &mut [usize],
) -> Vec<Generation> {
    let mut now = Vec::new();
    for entry in list {
        let generation = match before.iter().position(|old| is_rest_of(entry, old)) {
            None => 0,
            Some(row) if before[row].cover == entry.cover => generations[row],
            Some(row) => {
                splits[generations[row] + 1] += 1;
                generations[row] + 1
            }
        };
        now.push(generation);
    }
    now
}

/// Whether a standing entry is what is left of an older one that waits at the same place since the same minute.
pub fn is_rest_of(entry: &Entry, old: &Entry) -> bool {
    let same_wait = (entry.train, entry.place, entry.minute) == (old.train, old.place, old.minute);
    let standing = entry.kind == Kind::Stands && old.kind == Kind::Stands;
    let within = entry.cover.iter().zip(&old.cover).all(|(a, b)| a & !b == 0);
    same_wait && standing && within && entry.place != Place::Gone
}

/// For each entry held after a minute the capacity of the element that it waits for, unless it is held at the partner, where nothing is counted.
pub fn held_counts(plan: &Plan, list: &[Entry], t: u32) -> Vec<usize> {
    let due = list
        .iter()
        .filter(|entry| entry.kind == Kind::Stands && entry.minute <= t)
        .filter(|entry| holder(plan, list, entry).is_none());
    due.filter_map(|entry| plan.capacity(plan.next(entry.train, entry.place)?))
        .collect()
}
