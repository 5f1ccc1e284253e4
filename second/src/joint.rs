//! The joint run of all choices, entry by entry.

use crate::cover::{cut_coupled, first_cover, weight, Cover, Cut};
use crate::plan::{still_blocks, Place, Plan};
use crate::refusal;
use std::collections::BTreeMap;

/// Whether an entry's train stands at the place or blocks it.
#[derive(Clone, Copy, Debug, PartialEq, Eq)]
pub enum Kind {
    Stands,
    Blocks,
}

/// An entry of the list; its minute is the due minute of a standing entry and the end of a block.
#[derive(Clone, Debug, PartialEq, Eq)]
pub struct Entry {
    pub train: usize,
    pub place: Place,
    pub kind: Kind,
    pub minute: u32,
    pub cover: Cover,
}

/// A joint run under way: the list of entries, and the weight arrived by train and minute.
#[derive(Clone, Debug, PartialEq, Eq)]
pub struct JointRun {
    pub list: Vec<Entry>,
    pub arrivals: BTreeMap<(usize, u32), u64>,
}

/// Runs up to and including a stop minute, or gives refusal 12 as the run meets it.
pub fn run(plan: &Plan, stop: u32) -> Result<JointRun, u8> {
    let mut joint = JointRun::start(plan)?;
    for t in 0..=stop {
        joint.visit(plan, t)?;
    }
    Ok(joint)
}

impl JointRun {
    /// The first list: one entry per train and delay, by train, then delay.
    pub fn start(plan: &Plan) -> Result<JointRun, u8> {
        let mut list = Vec::new();
        for train in 0..plan.trains() {
            for delay in 0..plan.tables[train].delays.len() {
                list.push(Entry {
                    train,
                    place: Place::Outside,
                    kind: Kind::Stands,
                    minute: plan.first_due(train, delay),
                    cover: first_cover(plan, train, delay),
                });
            }
        }
        let joint = JointRun {
            list,
            arrivals: BTreeMap::new(),
        };
        joint.judge_room(plan)?;
        Ok(joint)
    }

    /// Visits one minute: the blocks that end go, then the elements are visited and their asking entries served.
    pub fn visit(&mut self, plan: &Plan, t: u32) -> Result<(), u8> {
        self.list
            .retain(|entry| entry.kind == Kind::Stands || still_blocks(entry.minute, t));
        for element in plan.elements() {
            for asker in self.askers(plan, element, t) {
                self.serve(plan, &asker, element, t)?;
            }
        }
        Ok(())
    }

    /// The entries that ask for an element, fixed before the first is served: by priority, train, then list order.
    fn askers(&self, plan: &Plan, element: Place, t: u32) -> Vec<Entry> {
        let asks = |entry: &&Entry| {
            entry.kind == Kind::Stands
                && plan.next(entry.train, entry.place) == Some(element)
                && entry.minute <= t
        };
        let mut askers: Vec<Entry> = self.list.iter().filter(asks).cloned().collect();
        askers.sort_by_key(|entry| plan.rank(entry.train));
        askers
    }

    /// Serves one asking entry: held pieces take its row, entering pieces go to the end.
    fn serve(&mut self, plan: &Plan, asker: &Entry, element: Place, t: u32) -> Result<(), u8> {
        let Cut { held, entering } = self.cut_asker(plan, asker, element);
        let row = self.row_of(asker);
        let waiting = held.into_iter().map(|cover| Entry {
            cover,
            ..asker.clone()
        });
        self.list.splice(row..=row, waiting);
        for cover in entering {
            self.enter(plan, asker, element, t, cover);
        }
        self.judge_room(plan)
    }

    /// An entering piece adds its standing entry and then the block that there is to leave; it may arrive.
    fn enter(&mut self, plan: &Plan, asker: &Entry, element: Place, t: u32, cover: Cover) {
        let train = asker.train;
        self.list.push(Entry {
            train,
            place: element,
            kind: Kind::Stands,
            minute: t + plan.planned_length(train, element),
            cover: cover.clone(),
        });
        if let Some(end) = plan.block_left(asker.place, t) {
            self.list.push(Entry {
                train,
                place: asker.place,
                kind: Kind::Blocks,
                minute: end,
                cover: cover.clone(),
            });
        }
        if element == plan.last_station(train) {
            *self.arrivals.entry((train, t)).or_insert(0) += weight(plan, &cover);
        }
    }

    /// The pieces of an asking entry, which first meets the other trains' entries on the partner, if the element has one, and then those on the element.
    fn cut_asker(&self, plan: &Plan, asker: &Entry, element: Place) -> Cut {
        let capacity = match plan.capacity(element) {
            Some(capacity) => capacity,
            None => {
                return Cut {
                    held: Vec::new(),
                    entering: vec![asker.cover.clone()],
                }
            }
        };
        let on_partner = match plan.partner(element) {
            None => Vec::new(),
            Some(partner) => self.others_on(asker, partner),
        };
        let to_meet = self.others_on(asker, element);
        cut_coupled(&asker.cover, &on_partner, capacity, &to_meet)
    }

    /// The covers of the other trains' entries that stand on or block a place, in list order.
    fn others_on(&self, asker: &Entry, place: Place) -> Vec<Cover> {
        self.list
            .iter()
            .filter(|entry| entry.train != asker.train && entry.place == place)
            .map(|entry| entry.cover.clone())
            .collect()
    }

    /// The row of an asking entry; no two entries are alike, since one train's standing entries share no choice.
    fn row_of(&self, asker: &Entry) -> usize {
        let row = self.list.iter().position(|entry| entry == asker);
        row.expect("an asking entry keeps its row until it is served")
    }

    /// Refusal 12: the list has more entries than the room.
    fn judge_room(&self, plan: &Plan) -> Result<(), u8> {
        match self.list.len() > plan.head.room {
            true => Err(refusal::ROOM),
            false => Ok(()),
        }
    }
}
