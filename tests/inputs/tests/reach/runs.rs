//! What the runs of sound inputs go through.

use crate::counts::Counts;
use inputs::drawn::MOST_MET;
use inputs::questions::counted;
use inputs::trace::{trace, MOST_WEIGHT};
use second::plan::Plan;

/// The runs of seven trains in which one entry has all choices.
const HEAVIEST: &str = "runs with an entry that weighs 10^14, the most that one can weigh";

#[test]
fn runs_split_held_entries_again_and_hold_pieces_at_every_count() {
    let mut counts = Counts::default();
    for files in counted().iter().map(|asked| &asked.files) {
        if let Ok(plan) = Plan::read(&files.case, &files.book) {
            count_run(&mut counts, &plan);
        }
    }
    for generation in 1..=4 {
        counts.ask(format!("held entries split, time {generation}"));
    }
    for count in 1..=MOST_MET {
        counts.ask(format!("entries held at count {count}"));
    }
    counts.ask("refusal 12 in the first list");
    counts.ask("refusal 12 in the middle of a run");
    counts.ask("runs with a list of more than 500 entries");
    counts.ask(HEAVIEST);
    counts.show();
}

/// Adds what one accepted case reaches in its run.
fn count_run(counts: &mut Counts, plan: &Plan) {
    let seen = trace(plan);
    for (generation, splits) in seen.splits.iter().enumerate() {
        counts.add(format!("held entries split, time {generation}"), *splits);
    }
    for (count, held) in seen.held.iter().enumerate() {
        counts.add(format!("entries held at count {count}"), *held);
    }
    counts.add("refusal 12 in the first list", seen.refused_at_first.into());
    counts.add(
        "refusal 12 in the middle of a run",
        seen.refused_later.into(),
    );
    let long = usize::from(seen.longest_list > 500);
    counts.add("runs with a list of more than 500 entries", long);
    counts.add(HEAVIEST, (seen.heaviest == MOST_WEIGHT).into());
}
