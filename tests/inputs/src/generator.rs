//! A small deterministic generator of sound cases with contention: trains that share a line of stations and tracks, one way or both.

use crate::writer::{couple, head, station, table, track, train};

/// A simple linear generator of numbers.
pub struct Chance {
    state: u64,
}

impl Chance {
    /// A generator that gives the same numbers for the same seed.
    pub fn new(seed: u64) -> Chance {
        let mut chance = Chance {
            state: seed.wrapping_mul(0x9E37_79B9_7F4A_7C15) ^ 0x5DEE_CE66,
        };
        chance.below(2);
        chance.below(2);
        chance
    }

    /// Another generator, which this one's state decides; this one's numbers stay the same.
    pub fn apart(&self) -> Chance {
        Chance::new(self.state)
    }

    /// A number from 0 to one below the limit.
    pub fn below(&mut self, limit: usize) -> usize {
        self.state = self
            .state
            .wrapping_mul(6_364_136_223_846_793_005)
            .wrapping_add(1_442_695_040_888_963_407);
        (self.state >> 33) as usize % limit
    }

    /// A number from low to high, both included.
    pub fn between(&mut self, low: usize, high: usize) -> usize {
        low + self.below(high - low + 1)
    }

    /// True in so many of a hundred times.
    pub fn percent(&mut self, share: usize) -> bool {
        self.below(100) < share
    }

    /// Puts things into a drawn order.
    pub fn shuffle<T>(&mut self, things: &mut [T]) {
        for last in (1..things.len()).rev() {
            things.swap(last, self.between(0, last));
        }
    }
}

/// How large a drawn case may be: fewest and most trains and delays, how often in a hundred the room is small, and
/// the factor of all its times.
#[derive(Clone, Copy, Debug)]
pub struct Size {
    pub trains: (usize, usize),
    pub delays: (usize, usize),
    pub small_room: usize,
    pub stretch: usize,
}

/// The bytes of a case and its book.
#[derive(Clone, Debug, PartialEq, Eq, PartialOrd, Ord)]
pub struct Files {
    pub case: Vec<u8>,
    pub book: Vec<u8>,
}

/// A planned stop: station, arrival, departure.
type PlannedStop = (u8, u16, u16);

/// A line of stations in the order in which trains pass them, the tracks by their ends, the coupled tracks, and how many
/// trains in a hundred go back where there is a track.
pub(crate) struct Line {
    pub stations: Vec<u8>,
    pub tracks: Vec<(u8, u8)>,
    pub couples: Vec<(u8, u8)>,
    pub back: usize,
}

/// Draws a sound case and its book; no tracks are coupled.
pub fn sound(chance: &mut Chance, size: Size) -> Files {
    let line = draw_line(chance);
    draw_case(chance, size, &line)
}

/// Draws a sound case on a line, and its book.
pub(crate) fn draw_case(chance: &mut Chance, size: Size, line: &Line) -> Files {
    let count = chance.between(size.trains.0, size.trains.1);
    let plans: Vec<Vec<PlannedStop>> = (0..count)
        .map(|_| draw_stops(chance, line, size.stretch))
        .collect();
    let departures = plans.iter().flatten().map(|stop| stop.2);
    let spare = chance.between(1, 14) * size.stretch;
    let last_minute = departures.max().unwrap_or(0) + spare as u16;
    let safety = draw_safety(chance, size);
    let mut case = head(last_minute, safety, draw_room(chance, size));
    for _ in &line.stations {
        case.extend(station(draw_capacity(chance)));
    }
    for ((from, to), capacity) in line.tracks.iter().zip(draw_capacities(chance, line)) {
        case.extend(track(*from, *to, capacity));
    }
    let types = chance.between(1, 3);
    for stops in &plans {
        let priority = [0, 1, 1, 2, 255][chance.below(5)];
        let train_type = 10 * chance.below(types) as u8;
        case.extend(train(priority, train_type, stops));
    }
    let (in_case, book) = draw_tables(chance, size, types);
    case.extend(in_case);
    let couples = line.couples.iter();
    case.extend(couples.flat_map(|(one, other)| couple(*one, *other)));
    Files { case, book }
}

/// Draws a sound case whose trains crowd into one station: with this capacity, and more trains than that. The safety time is 0, 1 or 2.
pub fn crowded(chance: &mut Chance, capacity: usize) -> Files {
    let count = chance.between(capacity + 1, 7);
    let mut case = head(40, chance.below(3) as u8, 1_024);
    case.extend(station(capacity as u8));
    case.extend(station(chance.between(1, 3) as u8));
    case.extend(track(0, 1, chance.between(1, 3) as u8));
    let types = chance.between(1, 2);
    for _ in 0..count {
        let (arrival, stay) = (chance.below(4) as u16, chance.between(2, 7) as u16);
        let departure = arrival + stay;
        let end = departure + chance.between(1, 3) as u16;
        let train_type = 10 * chance.below(types) as u8;
        let stops = [(0, arrival, departure), (1, end, end + 1)];
        case.extend(train(chance.below(3) as u8, train_type, &stops));
    }
    let most = if count > 4 { 2 } else { 3 };
    let size = Size {
        trains: (count, count),
        delays: (1, most),
        small_room: 0,
        stretch: 1,
    };
    for number in 0..types as u8 {
        case.extend(draw_table(chance, size, 10 * number));
    }
    let book = Vec::new();
    Files { case, book }
}

/// A line of 2 to 8 stations in a drawn order, with tracks along it and some back and some past a station.
fn draw_line(chance: &mut Chance) -> Line {
    let count = [2, 2, 3, 3, 3, 4, 4, 5, 6, 8][chance.below(10)];
    let mut stations: Vec<u8> = (0..count).collect();
    chance.shuffle(&mut stations);
    let mut tracks: Vec<(u8, u8)> = stations.windows(2).map(|step| (step[0], step[1])).collect();
    if chance.percent(40) {
        let back: Vec<(u8, u8)> = tracks.iter().map(|(from, to)| (*to, *from)).collect();
        tracks.extend(back);
    }
    for step in stations.windows(3) {
        if chance.percent(20) {
            tracks.push((step[0], step[2]));
        }
    }
    chance.shuffle(&mut tracks);
    Line {
        stations,
        tracks,
        couples: Vec::new(),
        back: 25,
    }
}

/// Mostly 1, often 2, seldom more.
fn draw_capacity(chance: &mut Chance) -> u8 {
    [1, 1, 1, 1, 1, 2, 2, 2, 3, 255][chance.below(10)]
}

/// The capacities of the tracks; of two that are coupled the second has the first's.
fn draw_capacities(chance: &mut Chance, line: &Line) -> Vec<u8> {
    let tracks = line.tracks.iter();
    let mut capacities: Vec<u8> = tracks.map(|_| draw_capacity(chance)).collect();
    for (one, other) in &line.couples {
        capacities[usize::from(*other)] = capacities[usize::from(*one)];
    }
    capacities
}

/// A safety time: two in seven are 0, with which no block is left, two are 1 and three are more; where all times are long, none is 1.
fn draw_safety(chance: &mut Chance, size: Size) -> u8 {
    let kinds = [0, 0, 1, 1, 2, 2, 3];
    (kinds[chance.below(kinds.len())] * size.stretch.min(10)) as u8
}

/// The full room, or a small one that the list may pass.
fn draw_room(chance: &mut Chance, size: Size) -> u16 {
    match chance.percent(size.small_room) {
        true => chance.between(1, 40) as u16,
        false => 1_024,
    }
}

/// A path along the line or back, from a drawn station on, and its times; long paths have short stops and drives.
fn draw_stops(chance: &mut Chance, line: &Line, stretch: usize) -> Vec<PlannedStop> {
    let path = draw_path(chance, line);
    let long = path.len() > 4;
    let mut minute = chance.below(7) * stretch;
    let mut stops = Vec::new();
    for station in path {
        let arrival = minute;
        let stay = [0, 0, 1, 1, 2][chance.below(if long { 4 } else { 5 })];
        let departure = arrival + stay * stretch;
        stops.push((station, arrival as u16, departure as u16));
        minute = departure + chance.between(1, if long { 2 } else { 4 }) * stretch;
    }
    stops
}

/// The stations of a path, at most eight: each step has a track, and none is repeated.
fn draw_path(chance: &mut Chance, line: &Line) -> Vec<u8> {
    let mut order = line.stations.clone();
    if line.tracks.contains(&(order[1], order[0])) && chance.percent(line.back) {
        order.reverse();
    }
    let mut at = match chance.percent(60) {
        true => 0,
        false => chance.below(order.len() - 1),
    };
    let mut path = vec![order[at]];
    while at + 1 < order.len() && path.len() < 8 && (path.len() < 2 || chance.percent(80)) {
        let short_cut = at + 2 < order.len() && line.tracks.contains(&(order[at], order[at + 2]));
        at += if short_cut && chance.percent(40) {
            2
        } else {
            1
        };
        path.push(order[at]);
    }
    path
}

/// The tables of the types in use, each in the case, in the book or in both, and some unused ones.
fn draw_tables(chance: &mut Chance, size: Size, types: usize) -> (Vec<u8>, Vec<u8>) {
    let (mut in_case, mut in_book) = (Vec::new(), Vec::new());
    for number in 0..types as u8 {
        let where_to = chance.below(4);
        if where_to != 3 {
            in_case.extend(draw_table(chance, size, 10 * number));
        }
        if where_to >= 2 {
            in_book.extend(draw_table(chance, size, 10 * number));
        }
        if chance.percent(10) {
            in_book.extend(draw_table(chance, size, 10 * number + 5));
        }
    }
    (in_case, in_book)
}

/// A table with rising delays and weights that sum to 100.
pub(crate) fn draw_table(chance: &mut Chance, size: Size, train_type: u8) -> Vec<u8> {
    let count = chance.between(size.delays.0, size.delays.1);
    let mut delay = [0, 0, 0, 1, 3][chance.below(5)];
    let mut cuts: Vec<usize> = (1..100).collect();
    chance.shuffle(&mut cuts);
    cuts.truncate(count - 1);
    cuts.extend([0, 100]);
    cuts.sort();
    let mut pairs = Vec::new();
    for ends in cuts.windows(2) {
        pairs.push(((delay * size.stretch) as u8, (ends[1] - ends[0]) as u8));
        delay += [1, 1, 2, 3, 5][chance.below(5)];
    }
    table(train_type, &pairs)
}
