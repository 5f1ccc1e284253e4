//! Elements that are entered in the very minute in which they become free, seen from a single run minute by minute.

use second::plan::{Place, Plan};
use second::single::{run, Block, State};
use std::collections::BTreeSet;

/// How an element became free in the minute in which it was entered.
#[derive(Clone, Copy, Debug, PartialEq, Eq, PartialOrd, Ord)]
pub enum Freed {
    /// It was full, and a block on it ended.
    ByEnd,
    /// It was full, and with a safety time of 0 a train left it.
    ByLeaving,
    /// A block on the partner of the coupled track ended.
    PartnerByEnd,
    /// With a safety time of 0 a train left the partner of the coupled track.
    PartnerByLeaving,
}

/// In which ways elements became free in the minute in which they were entered, in the single run of a choice.
pub fn freed(plan: &Plan, choice: &[u8]) -> BTreeSet<Freed> {
    let after = run(plan, choice).after;
    let mut ways = BTreeSet::new();
    for (states, minute) in after.windows(2).zip(1..) {
        let (before, now) = (&states[0], &states[1]);
        for train in 0..plan.trains() {
            let place = now.standing[train].place;
            if place != before.standing[train].place {
                ways.extend(ways_of(plan, (before, minute), train, place));
            }
        }
    }
    ways
}

/// A state, and the minute that comes next.
type Before<'a> = (&'a State, u32);

/// In which ways a place became free in the minute in which a train entered it.
fn ways_of(plan: &Plan, before: Before, train: usize, place: Place) -> Vec<Freed> {
    let capacity = plan.capacity(place).unwrap_or(usize::MAX);
    let mut ways = match taken(before, train, place) {
        (trains, _) if trains < capacity => Vec::new(),
        (_, true) => vec![Freed::ByEnd],
        (_, false) => vec![Freed::ByLeaving],
    };
    if let Some(partner) = plan.partner(place) {
        ways.extend(match taken(before, train, partner) {
            (0, _) => None,
            (_, true) => Some(Freed::PartnerByEnd),
            (_, false) => Some(Freed::PartnerByLeaving),
        });
    }
    assert!(plan.head.safety == 0 || !ways.iter().any(|way| way.by_leaving()));
    ways
}

impl Freed {
    /// Whether it is by a train that left, which needs a safety time of 0.
    fn by_leaving(self) -> bool {
        matches!(self, Freed::ByLeaving | Freed::PartnerByLeaving)
    }
}

/// How many other trains stood on or blocked a place, and whether one of their blocks has its end in the minute that comes.
fn taken((state, minute): Before, train: usize, place: Place) -> (usize, bool) {
    let of_others = |block: &&Block| block.train != train && block.place == place;
    let blocks: Vec<&Block> = state.blocks.iter().filter(of_others).collect();
    let on = |other: &usize| {
        let stands = *other != train && state.standing[*other].place == place;
        stands || blocks.iter().any(|block| block.train == *other)
    };
    let trains = (0..state.standing.len()).filter(on).count();
    (trains, blocks.iter().any(|block| block.end == minute))
}
