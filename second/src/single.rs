//! The single run of one choice of delays, minute by minute from 0 to T.

use crate::plan::{still_blocks, Place, Plan};

/// Where a train stands and the minute it is due; a train gone keeps the minute it left.
#[derive(Clone, Copy, Debug, PartialEq, Eq)]
pub struct Standing {
    pub place: Place,
    pub due: u32,
}

/// A train that left an element blocks it up to the end minute; in that minute the element is free.
#[derive(Clone, Copy, Debug, PartialEq, Eq, PartialOrd, Ord)]
pub struct Block {
    pub train: usize,
    pub place: Place,
    pub end: u32,
}

/// The state between two minutes: each train's standing by train number, and the blocks.
#[derive(Clone, Debug, PartialEq, Eq)]
pub struct State {
    pub standing: Vec<Standing>,
    pub blocks: Vec<Block>,
}

/// A whole single run: the state after every minute, and each train's minute of arrival.
#[derive(Clone, Debug, PartialEq, Eq)]
pub struct SingleRun {
    pub after: Vec<State>,
    pub arrivals: Vec<Option<u32>>,
}

/// Runs one choice (one index per train, counted from 0 in its table) from minute 0 to T.
pub fn run(plan: &Plan, choice: &[u8]) -> SingleRun {
    let mut state = start(plan, choice);
    let mut after = Vec::new();
    let mut arrivals = vec![None; plan.trains()];
    for t in 0..=plan.head.last_minute {
        visit(plan, &mut state, t, &mut arrivals);
        after.push(state.clone());
    }
    SingleRun { after, arrivals }
}

/// Each train's minute of arrival in the run of one choice up to and including a stop minute.
pub fn arrivals_by(plan: &Plan, choice: &[u8], stop: u32) -> Vec<Option<u32>> {
    let mut state = start(plan, choice);
    let mut arrivals = vec![None; plan.trains()];
    for t in 0..=stop {
        visit(plan, &mut state, t, &mut arrivals);
    }
    arrivals
}

/// At the start each train waits outside, due at its first arrival plus its delay.
fn start(plan: &Plan, choice: &[u8]) -> State {
    let waiting = |train: usize| Standing {
        place: Place::Outside,
        due: plan.first_due(train, usize::from(choice[train])),
    };
    State {
        standing: (0..plan.trains()).map(waiting).collect(),
        blocks: Vec::new(),
    }
}

/// Visits one minute: the blocks that end go, then the elements are visited and their askers served.
fn visit(plan: &Plan, state: &mut State, t: u32, arrivals: &mut [Option<u32>]) {
    state.blocks.retain(|block| still_blocks(block.end, t));
    for element in plan.elements() {
        for train in askers(plan, state, element, t) {
            if partner_is_free(plan, state, train, element) && has_room(plan, state, element) {
                enter(plan, state, train, element, t);
                if element == plan.last_station(train) {
                    arrivals[train] = Some(t);
                }
            }
        }
    }
}

/// The trains whose next element it is and whose due minute has come, by priority, then train number.
fn askers(plan: &Plan, state: &State, element: Place, t: u32) -> Vec<usize> {
    let asks = |train: &usize| {
        let standing = state.standing[*train];
        plan.next(*train, standing.place) == Some(element) && standing.due <= t
    };
    let mut trains: Vec<usize> = (0..plan.trains()).filter(asks).collect();
    trains.sort_by_key(|train| plan.rank(*train));
    trains
}

/// Whether fewer trains stand on or block the element than its capacity.
fn has_room(plan: &Plan, state: &State, element: Place) -> bool {
    let there = |train: &usize| is_on(state, *train, element);
    match plan.capacity(element) {
        None => true,
        Some(capacity) => (0..plan.trains()).filter(there).count() < capacity,
    }
}

/// Whether no other train stands on or blocks the partner of the element, if it has one.
fn partner_is_free(plan: &Plan, state: &State, train: usize, element: Place) -> bool {
    let mut others = (0..plan.trains()).filter(|other| *other != train);
    match plan.partner(element) {
        None => true,
        Some(partner) => !others.any(|other| is_on(state, other, partner)),
    }
}

/// Whether a train stands on or blocks an element.
fn is_on(state: &State, train: usize, element: Place) -> bool {
    let stands = state.standing[train].place == element;
    let blocks = |block: &Block| block.train == train && block.place == element;
    stands || state.blocks.iter().any(blocks)
}

/// The train leaves its element, with the block that there is to leave, stands on the next and is due after its planned length there.
fn enter(plan: &Plan, state: &mut State, train: usize, element: Place, t: u32) {
    let place = state.standing[train].place;
    if let Some(end) = plan.block_left(place, t) {
        state.blocks.push(Block { train, place, end });
    }
    state.standing[train] = Standing {
        place: element,
        due: t + plan.planned_length(train, element),
    };
}
