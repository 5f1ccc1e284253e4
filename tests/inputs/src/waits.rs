//! What the entries of a joint run wait for at coupled tracks, seen from its lists minute by minute.

use crate::trace::is_rest_of;
use second::cover::common;
use second::joint::{Entry, JointRun, Kind};
use second::plan::{Place, Plan};

/// What was met at coupled tracks in a run; a run that is refused has it up to there.
#[derive(Clone, Debug, Default, PartialEq, Eq)]
pub struct Waits {
    /// Entries held after a minute by an entry that stands on the partner.
    pub by_standing: usize,
    /// Entries held after a minute by a block of the partner.
    pub by_block: usize,
    /// Entries held after a minute on the coupled track itself, by its capacity.
    pub by_capacity: Vec<usize>,
    /// Entries of which a part was held at the partner and another part went on to the track.
    pub part_entered: usize,
    /// Entries of which parts were held at the partner and on the track itself.
    pub part_at_both: usize,
    /// Entries of which parts were held at two entries of the partner or more.
    pub at_two_entries: usize,
    /// Whether two trains wait for each other after the last minute.
    pub each_other: bool,
}

/// Follows a joint run to the last minute, or up to its refusal.
pub fn waits(plan: &Plan) -> Waits {
    let mut seen = Waits {
        by_capacity: vec![0; 256],
        ..Waits::default()
    };
    let mut joint = match JointRun::start(plan) {
        Ok(joint) => joint,
        Err(_) => return seen,
    };
    for t in 0..=plan.head.last_minute {
        let before = joint.list.clone();
        if joint.visit(plan, t).is_err() {
            return seen;
        }
        for entry in &joint.list {
            count_hold(plan, &joint.list, entry, t, &mut seen);
        }
        for old in &before {
            count_parts(plan, old, &joint.list, t, &mut seen);
        }
    }
    seen.each_other = wait_for_each_other(plan, &joint.list);
    seen
}

/// The coupled track that an entry is due on, if it waits for one.
fn coupled_next(plan: &Plan, entry: &Entry, t: u32) -> Option<Place> {
    let waits = entry.kind == Kind::Stands && entry.minute <= t;
    let next = plan.next(entry.train, entry.place)?;
    let partner = plan.partner(next);
    partner.filter(|_| waits).and(Some(next))
}

/// The entry of the partner, if there is one, that holds an entry which waits for an element: of another train, and with a common choice.
pub fn holder<'a>(plan: &Plan, list: &'a [Entry], entry: &Entry) -> Option<&'a Entry> {
    let partner = plan.partner(plan.next(entry.train, entry.place)?)?;
    let holds = |other: &&Entry| {
        other.place == partner
            && other.train != entry.train
            && common(&other.cover, &entry.cover).is_some()
    };
    list.iter().find(holds)
}

/// Counts by what an entry is held, if it waits for a coupled track.
fn count_hold(plan: &Plan, list: &[Entry], entry: &Entry, t: u32, seen: &mut Waits) {
    let next = match coupled_next(plan, entry, t) {
        Some(next) => next,
        None => return,
    };
    match holder(plan, list, entry).map(|holder| holder.kind) {
        Some(Kind::Stands) => seen.by_standing += 1,
        Some(Kind::Blocks) => seen.by_block += 1,
        None => seen.by_capacity[plan.capacity(next).unwrap_or(0)] += 1,
    }
}

/// Counts what has become in a minute of an entry that asked for a coupled track.
fn count_parts(plan: &Plan, old: &Entry, list: &[Entry], t: u32, seen: &mut Waits) {
    let next = match coupled_next(plan, old, t) {
        Some(next) => next,
        None => return,
    };
    let entered = Entry {
        place: next,
        minute: t + plan.planned_length(old.train, next),
        ..old.clone()
    };
    let held: Vec<&Entry> = list.iter().filter(|now| is_rest_of(now, old)).collect();
    let at_partner = |now: &&&Entry| holder(plan, list, now).is_some();
    let at_partner = held.iter().filter(at_partner).count();
    let some_entered = list.iter().any(|now| is_rest_of(now, &entered));
    seen.part_entered += usize::from(at_partner > 0 && some_entered);
    seen.part_at_both += usize::from(at_partner > 0 && at_partner < held.len());
    seen.at_two_entries += usize::from(at_partner > 1);
}

/// Whether some entry is held by one that stands on the partner and is itself due at the place of the first.
fn wait_for_each_other(plan: &Plan, list: &[Entry]) -> bool {
    let t = plan.head.last_minute;
    let standing = list.iter().filter(|entry| entry.kind == Kind::Stands);
    let waiting: Vec<&Entry> = standing.filter(|entry| entry.minute <= t).collect();
    waiting.iter().any(|entry| {
        let holder = holder(plan, list, entry);
        holder.map_or(false, |holder| {
            let wants = plan.next(holder.train, holder.place);
            waiting.contains(&holder) && wants == Some(entry.place)
        })
    })
}
