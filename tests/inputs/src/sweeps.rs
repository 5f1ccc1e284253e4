//! The blocks that go from the list at the start of a minute of a joint run: how many, and where among the entries that are kept.

use second::joint::{Entry, JointRun, Kind};
use second::plan::{still_blocks, Plan};

/// The list at the start of a minute in which blocks go.
#[derive(Clone, Debug, PartialEq, Eq)]
pub struct Sweep {
    /// Whether each entry goes, in list order.
    pub goes: Vec<bool>,
    /// How many blocks stay that go in the next minute.
    pub next: usize,
}

/// The minutes of a run in which blocks go, to the last minute or up to its refusal.
pub fn sweeps(plan: &Plan) -> Vec<Sweep> {
    let mut seen = Vec::new();
    let mut joint = match JointRun::start(plan) {
        Ok(joint) => joint,
        Err(_) => return seen,
    };
    for t in 0..=plan.head.last_minute {
        seen.extend(sweep(&joint.list, t));
        if joint.visit(plan, t).is_err() {
            return seen;
        }
    }
    seen
}

/// What goes from a list at the start of a minute; none if nothing goes.
pub fn sweep(list: &[Entry], t: u32) -> Option<Sweep> {
    let goes = |entry: &Entry, t| entry.kind == Kind::Blocks && !still_blocks(entry.minute, t);
    let next = |entry: &&Entry| goes(entry, t + 1) && !goes(entry, t);
    let next = list.iter().filter(next).count();
    let goes: Vec<bool> = list.iter().map(|entry| goes(entry, t)).collect();
    goes.contains(&true).then_some(Sweep { goes, next })
}

impl Sweep {
    /// How many blocks go.
    pub fn gone(&self) -> usize {
        self.goes.iter().filter(|goes| **goes).count()
    }

    /// How many groups they form: blocks that stand side by side are one.
    pub fn groups(&self) -> usize {
        let starts = self.goes.windows(2).filter(|two| !two[0] && two[1]);
        usize::from(self.goes[0]) + starts.count()
    }

    /// How many entries are kept before the first that goes.
    pub fn before(&self) -> usize {
        self.goes.iter().take_while(|goes| !**goes).count()
    }

    /// How many entries are kept after the first that goes, and so move.
    pub fn moved(&self) -> usize {
        let after = self.goes[self.before()..].iter();
        after.filter(|goes| !**goes).count()
    }

    /// Whether the last entry of the list goes.
    pub fn takes_last(&self) -> bool {
        self.goes.ends_with(&[true])
    }
}
