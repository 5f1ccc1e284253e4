//! The four calls of 01 and the two of the plain engine, with their order of refusals and the memory lent to them.

use crate::figures::{figures as figures_of, Figures};
use crate::joint::{self, Entry, JointRun};
use crate::listing::listing as listing_of;
use crate::plain as plain_engine;
use crate::plan::Plan;
use crate::refusal::{Refusal, CHOICE, MEMORY, NO_TRAIN, STOP};
use crate::single as single_run;

/// Required rows of entries.
pub const ROWS: usize = 1_024;
/// Required weights: 7 trains by 720 minutes.
pub const WEIGHTS: usize = 5_040;
/// Minutes of one train in the weights.
pub const MINUTES: usize = 720;
/// Required bytes for the listing.
pub const LISTING: usize = 32_768;

/// A row of lent memory; none is the zero row.
pub type Row = Option<Entry>;

/// The single run: a train's minute of arrival under one choice, or none by T.
pub fn single(
    case: &[u8],
    book: &[u8],
    choice: &[u8],
    train: usize,
) -> Result<Option<u32>, Refusal> {
    let plan = Plan::read(case, book)?;
    let past_table = |of: usize| usize::from(choice[of]) >= plan.tables[of].delays.len();
    if choice.len() != plan.trains() || (0..plan.trains()).any(past_table) {
        return Err(Refusal::of_call(CHOICE));
    }
    if train >= plan.trains() {
        return Err(Refusal::of_call(NO_TRAIN));
    }
    Ok(single_run::run(&plan, choice).arrivals[train])
}

/// The joint run up to a stop minute: fills rows and weights and answers the list's length.
pub fn run(
    case: &[u8],
    book: &[u8],
    stop: usize,
    rows: &mut [Row],
    weights: &mut [u64],
) -> Result<usize, Refusal> {
    clear(rows, weights)?;
    let plan = judge_stop(Plan::read(case, book)?, stop)?;
    let joint = joint::run(&plan, stop as u32).map_err(Refusal::of_call)?;
    fill(&joint, rows, weights);
    Ok(joint.list.len())
}

/// The figures of a train for a limit, over the whole window: fills rows and weights too.
pub fn figures(
    case: &[u8],
    book: &[u8],
    train: usize,
    limit: u16,
    rows: &mut [Row],
    weights: &mut [u64],
) -> Result<Figures, Refusal> {
    clear(rows, weights)?;
    let plan = Plan::read(case, book)?;
    if train >= plan.trains() {
        return Err(Refusal::of_call(NO_TRAIN));
    }
    let joint = joint::run(&plan, plan.head.last_minute).map_err(Refusal::of_call)?;
    fill(&joint, rows, weights);
    Ok(figures_of(&plan, &joint, train, limit))
}

/// The listing: fills rows, weights and bytes and answers the listing's length.
pub fn listing(
    case: &[u8],
    book: &[u8],
    rows: &mut [Row],
    weights: &mut [u64],
    bytes: &mut [u8],
) -> Result<usize, Refusal> {
    if bytes.len() < LISTING {
        return Err(Refusal::of_call(MEMORY));
    }
    clear(rows, weights)?;
    bytes[..LISTING].fill(0);
    let plan = Plan::read(case, book)?;
    let joint = joint::run(&plan, plan.head.last_minute).map_err(Refusal::of_call)?;
    fill(&joint, rows, weights);
    let text = listing_of(&plan, &joint);
    bytes[..text.len()].copy_from_slice(&text);
    Ok(text.len())
}

/// The plain engine up to a stop minute: fills the weights and answers how many choices were run, which is all of them at every stop.
pub fn plain(case: &[u8], book: &[u8], stop: usize, weights: &mut [u64]) -> Result<u64, Refusal> {
    let plan = plain_plan(case, book, stop, weights)?;
    weights[..WEIGHTS].fill(0);
    let numbers = plain_engine::whole(&plan);
    Ok(plain_engine::run(&plan, stop as u32, numbers, weights))
}

/// A part of it: runs the choices numbered from the first on, at most so many, adds to the weights as they are lent, and answers how many were run.
pub fn plain_part(
    case: &[u8],
    book: &[u8],
    stop: usize,
    first: u64,
    count: u64,
    weights: &mut [u64],
) -> Result<u64, Refusal> {
    let plan = plain_plan(case, book, stop, weights)?;
    let numbers = plain_engine::part(&plan, first, count);
    Ok(plain_engine::run(&plan, stop as u32, numbers, weights))
}

/// What the plain engine runs, whole or in part, or its refusal: 14, which writes nothing; then the files' and 17, which set the required weights to zero.
fn plain_plan(case: &[u8], book: &[u8], stop: usize, weights: &mut [u64]) -> Result<Plan, Refusal> {
    if weights.len() < WEIGHTS {
        return Err(Refusal::of_call(MEMORY));
    }
    let plan = Plan::read(case, book).and_then(|plan| judge_stop(plan, stop));
    if plan.is_err() {
        weights[..WEIGHTS].fill(0);
    }
    plan
}

/// Refusal 17: the stop minute is above the last minute.
fn judge_stop(plan: Plan, stop: usize) -> Result<Plan, Refusal> {
    match stop > plan.head.last_minute as usize {
        true => Err(Refusal::of_call(STOP)),
        false => Ok(plan),
    }
}

/// Refusal 14 if rows or weights are too few, which writes nothing; else their required part is set to zero.
fn clear(rows: &mut [Row], weights: &mut [u64]) -> Result<(), Refusal> {
    if rows.len() < ROWS || weights.len() < WEIGHTS {
        return Err(Refusal::of_call(MEMORY));
    }
    rows[..ROWS].fill(None);
    weights[..WEIGHTS].fill(0);
    Ok(())
}

/// Writes the list into the rows and the weights arrived train by train, one a minute.
fn fill(joint: &JointRun, rows: &mut [Row], weights: &mut [u64]) {
    for (row, entry) in rows.iter_mut().zip(&joint.list) {
        *row = Some(entry.clone());
    }
    for ((train, minute), weight) in &joint.arrivals {
        weights[train * MINUTES + *minute as usize] = *weight;
    }
}
