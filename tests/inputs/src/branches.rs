//! Branches made by hand on which trains meet, worked out in the tests.

use crate::writer::{couple, head, station, table, track, train};
use second::bodies::MOST_COUPLES;

/// A planned stop: station, arrival, departure.
type PlannedStop = (u8, u16, u16);

/// Two stations that take seven trains each, with a track there and back of this capacity; trains of equal priority, and one table for all.
pub fn two_stations(
    safety: u8,
    capacity: u8,
    trains: &[[PlannedStop; 2]],
    delays: &[(u8, u8)],
    coupled: (u8, u8),
) -> Vec<u8> {
    let rides = trains.iter().flat_map(|stops| train(1, 1, stops));
    let fields = [
        head(20, safety, 1_024),
        station(7).repeat(2),
        track(0, 1, capacity),
        track(1, 0, capacity),
        rides.collect(),
        table(1, delays),
        couple(coupled.0, coupled.1),
    ];
    fields.concat()
}

/// Two trains that meet at the passing station 1 between two single tracks, with this safety time: whichever is late lets the other wait there.
pub fn passing_station(safety: u8) -> Vec<u8> {
    let fields = [
        head(20, safety, 1_024),
        [station(1), station(2), station(1)].concat(),
        [track(0, 1, 1), track(1, 0, 1)].concat(),
        [track(1, 2, 1), track(2, 1, 1)].concat(),
        train(1, 1, &[(0, 2, 3), (1, 6, 7), (2, 10, 11)]),
        train(1, 2, &[(2, 2, 3), (1, 6, 7), (0, 10, 11)]),
        table(1, &[(0, 60), (3, 40)]),
        table(2, &[(0, 70), (3, 30)]),
        couple(0, 1),
        couple(3, 2),
    ];
    fields.concat()
}

/// Two trains between two stations for one train each: if train 1 is on time, it stands in the station that train 0 is driving to, and each waits for
/// the other.
pub fn each_waits() -> Vec<u8> {
    let fields = [
        head(12, 0, 1_024),
        station(1).repeat(2),
        [track(0, 1, 1), track(1, 0, 1)].concat(),
        train(1, 1, &[(0, 0, 1), (1, 4, 5)]),
        train(1, 2, &[(1, 2, 3), (0, 6, 7)]),
        table(1, &[(0, 100)]),
        table(2, &[(0, 50), (5, 50)]),
        couple(1, 0),
    ];
    fields.concat()
}

/// Three trains there and one back over a track for two: the third waits for room, and the one back until the track there is empty.
pub fn two_abreast() -> Vec<u8> {
    let there = |minute: u16| [(0, minute, minute), (1, minute + 4, minute + 4)];
    let back = [(1, 3, 3), (0, 7, 7)];
    let trains = [there(0), there(1), there(2), back];
    two_stations(1, 2, &trains, &[(0, 100)], (0, 1))
}

/// Twenty-one stations in a row with tracks there and back, all of them coupled, and one train.
pub fn most_couples() -> Vec<u8> {
    let ride = train(0, 1, &[(0, 0, 0), (1, 2, 2)]);
    let level = [head(20, 0, 1_024), station(1).repeat(MOST_COUPLES + 1)];
    let rides = [ride, table(1, &[(0, 100)])].concat();
    [level.concat(), there_and_back(), rides, all_coupled()].concat()
}

/// The longest case, of 919 bytes: as many fields of each kind as there may be, each as long as it may be.
pub fn longest() -> Vec<u8> {
    let stop = |number: u8| (number, 2 * u16::from(number), 2 * u16::from(number));
    let path: Vec<PlannedStop> = (0..8).map(stop).collect();
    let pairs: Vec<(u8, u8)> = (0..8).map(|d| (d, if d == 0 { 93 } else { 1 })).collect();
    let level = [head(719, 30, 1_024), station(1).repeat(24)];
    let rides = train(0, 1, &path).repeat(7);
    let tables = (1..9).flat_map(|train_type| table(train_type, &pairs));
    let fields = [
        level.concat(),
        there_and_back(),
        rides,
        tables.collect(),
        all_coupled(),
    ];
    fields.concat()
}

/// Tracks there and back between the first twenty-one stations: 2k and 2k + 1 mirror each other.
fn there_and_back() -> Vec<u8> {
    let steps = 0..MOST_COUPLES as u8;
    steps
        .flat_map(|a| [track(a, a + 1, 1), track(a + 1, a, 1)].concat())
        .collect()
}

/// All of these tracks coupled.
fn all_coupled() -> Vec<u8> {
    let pairs = 0..MOST_COUPLES as u8;
    pairs.flat_map(|k| couple(2 * k, 2 * k + 1)).collect()
}
