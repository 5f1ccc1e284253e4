//! Covers: for each train a non-empty set of its delays, and the cutting rule on them.

use crate::plan::Plan;

/// One set of delays per train, by train number; delay d is bit d of the set.
pub type Cover = Vec<u8>;

/// The set of all delays of a train.
pub fn whole_set(plan: &Plan, train: usize) -> u8 {
    let delays = plan.tables[train].delays.len();
    (0..delays).fold(0, |set, delay| set | 1 << delay)
}

/// The cover in which one train has one delay and the other trains' sets are whole.
pub fn first_cover(plan: &Plan, train: usize, delay: usize) -> Cover {
    let set = |other: usize| match other == train {
        true => 1 << delay,
        false => whole_set(plan, other),
    };
    (0..plan.trains()).map(set).collect()
}

/// Whether a cover has a choice among those it covers.
pub fn covers(cover: &Cover, choice: &[u8]) -> bool {
    let pairs = cover.iter().zip(choice);
    pairs.into_iter().all(|(set, delay)| set >> delay & 1 == 1)
}

/// The sum of the weights of the choices covered, which is the product of the sets' weights.
pub fn weight(plan: &Plan, cover: &Cover) -> u64 {
    (0..plan.trains())
        .map(|train| set_weight(plan, train, cover[train]))
        .product()
}

/// The sum of the weights of a train's delays in a set.
fn set_weight(plan: &Plan, train: usize, set: u8) -> u64 {
    let delays = plan.tables[train].delays.iter().enumerate();
    delays
        .filter(|(delay, _)| set >> delay & 1 == 1)
        .map(|(_, delay)| delay.weight)
        .sum()
}

/// The common part of two covers, if they have a common choice.
pub fn common(one: &Cover, other: &Cover) -> Option<Cover> {
    let sets: Cover = one.iter().zip(other).map(|(a, b)| a & b).collect();
    match sets.contains(&0) {
        true => None,
        false => Some(sets),
    }
}

/// The outside pieces by rising train number k: common sets before k, set k without the common delays, own sets after k.
pub fn outside_pieces(piece: &Cover, common: &Cover) -> Vec<Cover> {
    let mut pieces = Vec::new();
    for k in 0..piece.len() {
        let left = piece[k] & !common[k];
        if left != 0 {
            let mut outside = common[..k].to_vec();
            outside.push(left);
            outside.extend_from_slice(&piece[k + 1..]);
            pieces.push(outside);
        }
    }
    pieces
}

/// What the cutting rule makes of an asking cover: held and entering pieces, each in cutting order.
#[derive(Clone, Debug, Default, PartialEq, Eq)]
pub struct Cut {
    pub held: Vec<Cover>,
    pub entering: Vec<Cover>,
}

/// Cuts an asking cover at an element of this capacity that holds these entries' covers, in list order.
pub fn cut(asking: &Cover, capacity: usize, to_meet: &[Cover]) -> Cut {
    cut_coupled(asking, &[], capacity, to_meet)
}

/// Cuts an asking cover at a coupled track of this capacity: first it meets the partner's entries, then the track's own, both in list order.
pub fn cut_coupled(
    asking: &Cover,
    on_partner: &[Cover],
    capacity: usize,
    to_meet: &[Cover],
) -> Cut {
    let mut done = Cut::default();
    pass(asking.clone(), on_partner, capacity, to_meet, &mut done);
    done
}

/// Carries a piece past the partner's entries: what is inside one is held at once, and what is outside all goes on with count 0.
fn pass(piece: Cover, on_partner: &[Cover], capacity: usize, to_meet: &[Cover], done: &mut Cut) {
    let (met, rest) = match on_partner.split_first() {
        None => return carry(piece, 0, capacity, to_meet, done),
        Some(split) => split,
    };
    match common(&piece, met) {
        None => pass(piece, rest, capacity, to_meet, done),
        Some(inside) => {
            done.held.push(inside.clone());
            for outside in outside_pieces(&piece, &inside) {
                pass(outside, rest, capacity, to_meet, done);
            }
        }
    }
}

/// Carries a piece with its count through the entries still to meet: held, or enters uncut, or meets the next.
fn carry(piece: Cover, count: usize, capacity: usize, to_meet: &[Cover], done: &mut Cut) {
    if count == capacity {
        done.held.push(piece);
        return;
    }
    if count + to_meet.len() < capacity {
        done.entering.push(piece);
        return;
    }
    let rest = &to_meet[1..];
    match common(&piece, &to_meet[0]) {
        None => carry(piece, count, capacity, rest, done),
        Some(inside) => {
            carry(inside.clone(), count + 1, capacity, rest, done);
            for outside in outside_pieces(&piece, &inside) {
                carry(outside, count, capacity, rest, done);
            }
        }
    }
}
