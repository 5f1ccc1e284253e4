//! The enumeration of all choices by the single run, the measure of the joint run.

use crate::plan::Plan;
use crate::single;
use std::collections::BTreeMap;

/// All choices: one index per train, the last train's index moving fastest.
pub fn all_choices(plan: &Plan) -> Vec<Vec<u8>> {
    let mut choices = vec![Vec::new()];
    for table in &plan.tables {
        let mut longer = Vec::new();
        for choice in &choices {
            for delay in 0..table.delays.len() as u8 {
                let mut next = choice.clone();
                next.push(delay);
                longer.push(next);
            }
        }
        choices = longer;
    }
    choices
}

/// The weight of a choice: the product of the weights of its pairs.
pub fn choice_weight(plan: &Plan, choice: &[u8]) -> u64 {
    let pairs = plan.tables.iter().zip(choice);
    pairs
        .map(|(table, delay)| table.delays[usize::from(*delay)].weight)
        .product()
}

/// The weight arrived by train and minute, summed over the single runs of all choices.
pub fn arrivals(plan: &Plan) -> BTreeMap<(usize, u32), u64> {
    let mut arrivals = BTreeMap::new();
    for choice in all_choices(plan) {
        let run = single::run(plan, &choice);
        for (train, arrival) in run.arrivals.iter().enumerate() {
            if let Some(minute) = arrival {
                *arrivals.entry((train, *minute)).or_insert(0) += choice_weight(plan, &choice);
            }
        }
    }
    arrivals
}
