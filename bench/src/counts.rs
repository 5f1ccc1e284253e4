//! What is counted of a case's joint run, by the second program's lists.

use inputs::sweeps::{sweep, Sweep};
use second::joint::JointRun;
use second::plan::Plan;

/// Counts over all minutes of a run.
#[derive(Default)]
pub struct Counts {
    /// The most rows after a minute, and the rows after all minutes together.
    pub most_rows: usize,
    pub rows: usize,
    /// The most blocks that go at the start of one minute.
    pub most_ends: usize,
    /// The rows that move if the blocks of a minute go in one sweep: those kept after the first that goes.
    pub swept: usize,
    /// The rows that move if the list is closed up once for each block: those after it.
    pub closed_up: usize,
}

/// Runs a case to its last minute and counts.
pub fn counts(plan: &Plan) -> Counts {
    let mut joint = JointRun::start(plan).expect("room for the first list");
    let mut counts = Counts::default();
    for t in 0..=plan.head.last_minute {
        if let Some(sweep) = sweep(&joint.list, t) {
            counts.add(&sweep);
        }
        joint.visit(plan, t).expect("room");
        counts.most_rows = counts.most_rows.max(joint.list.len());
        counts.rows += joint.list.len();
    }
    counts
}

impl Counts {
    /// Adds the blocks that go at the start of a minute.
    fn add(&mut self, sweep: &Sweep) {
        let goes = sweep.goes.iter().rev().enumerate();
        let behind = goes.filter_map(|(behind, goes)| goes.then_some(behind));
        self.most_ends = self.most_ends.max(sweep.gone());
        self.swept += sweep.moved();
        self.closed_up += behind.sum::<usize>();
    }
}
