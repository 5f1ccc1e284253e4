//! The bytes of the arrival listing, and the line of a refused case.

use crate::joint::JointRun;
use crate::plan::Plan;
use crate::refusal::Refusal;

/// The listing of a joint run that went to T: the total, then per train its minutes and what has not arrived.
pub fn listing(plan: &Plan, joint: &JointRun) -> Vec<u8> {
    let mut text = format!("total {}\n", plan.total());
    for train in 0..plan.trains() {
        let mut missing = plan.total();
        for minute in 0..=plan.head.last_minute {
            let weight = joint.arrivals.get(&(train, minute)).copied().unwrap_or(0);
            if weight > 0 {
                text.push_str(&format!("{train} {minute} {weight}\n"));
                missing -= weight;
            }
        }
        text.push_str(&format!("{train} - {missing}\n"));
    }
    text.into_bytes()
}

/// The line that the program prints for a refused case: number, file, place.
pub fn refused_line(refusal: &Refusal) -> Vec<u8> {
    let Refusal {
        number,
        file,
        place,
    } = refusal;
    format!("refused {number} {file} {place}\n").into_bytes()
}
