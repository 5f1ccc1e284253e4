//! What both runs need of an accepted pair of files: places, the way of each train, capacities and planned lengths.

use crate::reader::{read, Accepted, Case, Couple, Head, Table, Train};
use crate::refusal::Refusal;

/// Where a train is: outside, on an element (station or track), or gone by the way out.
#[derive(Clone, Copy, Debug, PartialEq, Eq, PartialOrd, Ord)]
pub enum Place {
    Outside,
    Station(usize),
    Track(usize),
    Gone,
}

/// One place on a train's way and the planned minutes there.
#[derive(Clone, Copy, Debug, PartialEq, Eq)]
struct Step {
    place: Place,
    planned: u32,
}

/// An accepted pair of files as the runs use it; `tables` holds each train's own table by train number.
#[derive(Clone, Debug)]
pub struct Plan {
    pub head: Head,
    pub case: Case,
    pub tables: Vec<Table>,
    ways: Vec<Vec<Step>>,
}

impl Plan {
    /// Reads both files, or gives the first refusal of the reading (1 to 11 and 18).
    pub fn read(case: &[u8], book: &[u8]) -> Result<Plan, Refusal> {
        let Accepted { head, case, tables } = read(case, book)?;
        let ways = case.trains.iter().map(|train| way(&case, train)).collect();
        Ok(Plan {
            head,
            case,
            tables,
            ways,
        })
    }

    /// The number of trains.
    pub fn trains(&self) -> usize {
        self.case.trains.len()
    }

    /// The elements in visiting order: stations by number, tracks by number, then the way out.
    pub fn elements(&self) -> Vec<Place> {
        let stations = (0..self.case.stations.len()).map(Place::Station);
        let tracks = (0..self.case.tracks.len()).map(Place::Track);
        stations.chain(tracks).chain([Place::Gone]).collect()
    }

    /// How many trains an element takes; the way out has no limit, and outside neither.
    pub fn capacity(&self, place: Place) -> Option<usize> {
        match place {
            Place::Station(station) => Some(self.case.stations[station]),
            Place::Track(track) => Some(self.case.tracks[track].capacity),
            Place::Outside | Place::Gone => None,
        }
    }

    /// The track that is coupled with a track; nothing else has a partner.
    pub fn partner(&self, place: Place) -> Option<Place> {
        let of_couple = |couple: &Couple| match (Place::Track(couple[0]), Place::Track(couple[1])) {
            (one, other) if one == place => Some(other),
            (other, one) if one == place => Some(other),
            _ => None,
        };
        self.case.couples.iter().find_map(of_couple)
    }

    /// The next element of a train on its way; a train gone has none.
    pub fn next(&self, train: usize, place: Place) -> Option<Place> {
        let way = &self.ways[train];
        let step = way.iter().position(|step| step.place == place)?;
        way.get(step + 1).map(|step| step.place)
    }

    /// The full planned length of a train's stop or drive on an element; a train gone has 0.
    pub fn planned_length(&self, train: usize, place: Place) -> u32 {
        let step = self.ways[train].iter().find(|step| step.place == place);
        step.map_or(0, |step| step.planned)
    }

    /// The station whose entering is the train's arrival.
    pub fn last_station(&self, train: usize) -> Place {
        let stops = &self.case.trains[train].stops;
        Place::Station(stops[stops.len() - 1].station)
    }

    /// The planned minute of arrival at the last station.
    pub fn planned_arrival(&self, train: usize) -> u32 {
        let stops = &self.case.trains[train].stops;
        stops[stops.len() - 1].arrival
    }

    /// The minute a train is due outside: its first arrival plus its delay.
    pub fn first_due(&self, train: usize, delay: usize) -> u32 {
        self.case.trains[train].stops[0].arrival + self.tables[train].delays[delay].minutes
    }

    /// The end of the block that a train leaves behind in minute t: t plus the safety time. Outside nothing is blocked, and a block that would be gone in
    /// minute t itself, as with a safety time of 0, is never left.
    pub fn block_left(&self, left: Place, t: u32) -> Option<u32> {
        let end = t + self.head.safety;
        (left != Place::Outside && still_blocks(end, t)).then_some(end)
    }

    /// Askers are served by priority, then by train number.
    pub fn rank(&self, train: usize) -> (u8, usize) {
        (self.case.trains[train].priority, train)
    }

    /// The weight of all choices together: 100^n.
    pub fn total(&self) -> u64 {
        100u64.pow(self.trains() as u32)
    }
}

/// Whether a block with this end stands in minute t: it goes at the start of the minute that is its end, so that the element is free in that minute.
pub fn still_blocks(end: u32, t: u32) -> bool {
    end > t
}

/// The way of a train: outside, then stations and tracks in turn, then gone.
fn way(case: &Case, train: &Train) -> Vec<Step> {
    let step = |place, planned| Step { place, planned };
    let mut way = vec![step(Place::Outside, 0)];
    for (index, stop) in train.stops.iter().enumerate() {
        let stay = stop.departure - stop.arrival;
        way.push(step(Place::Station(stop.station), stay));
        if let Some(next) = train.stops.get(index + 1) {
            let track = track_between(case, stop.station, next.station);
            way.push(step(track, next.arrival - stop.departure));
        }
    }
    way.push(step(Place::Gone, 0));
    way
}

/// The track of a step; an accepted path has one for each of its steps.
fn track_between(case: &Case, from: usize, to: usize) -> Place {
    let track = case
        .tracks
        .iter()
        .position(|track| track.from == from && track.to == to);
    Place::Track(track.expect("each step of an accepted path has a track"))
}
