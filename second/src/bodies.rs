//! Judging the body of a field whose tag, order and length are sound: refusals 5 to 10 and 18, lowest first.

use crate::reader::*;
use crate::refusal::*;

pub const MOST_STATIONS: usize = 24;
pub const MOST_TRACKS: usize = 40;
pub const MOST_TRAINS: usize = 7;
pub const MOST_TABLES: usize = 8;
pub const MOST_COUPLES: usize = 20;

/// A big-endian number.
pub fn number(bytes: &[u8]) -> u32 {
    bytes
        .iter()
        .fold(0, |value, byte| value * 256 + u32::from(*byte))
}

/// Takes the body of a field into the case, or gives the refusal number.
pub fn take_field(case: &mut Case, tag: u8, body: &[u8], offset: usize) -> Result<(), u8> {
    match tag {
        HEAD_TAG => take_head(case, body),
        STATION_TAG => take_station(case, body),
        TRACK_TAG => take_track(case, body),
        TRAIN_TAG => take_train(case, body, offset),
        TABLE_TAG => take_table(&mut case.tables, body),
        _ => take_couple(case, body),
    }
}

/// The head: T 1 to 719, safety time 0 to 30, room 1 to 1,024.
fn take_head(case: &mut Case, body: &[u8]) -> Result<(), u8> {
    let head = Head {
        last_minute: number(&body[0..2]),
        safety: number(&body[2..3]),
        room: number(&body[3..5]) as usize,
    };
    let in_range = (1..=719).contains(&head.last_minute)
        && head.safety <= 30
        && (1..=1024).contains(&head.room);
    if !in_range {
        return Err(RANGE);
    }
    case.head = Some(head);
    Ok(())
}

/// A station: its capacity.
fn take_station(case: &mut Case, body: &[u8]) -> Result<(), u8> {
    if case.stations.len() == MOST_STATIONS {
        return Err(COUNT);
    }
    if body[0] == 0 {
        return Err(RANGE);
    }
    case.stations.push(usize::from(body[0]));
    Ok(())
}

/// A track: two different known ends that no earlier track has in this order, and its capacity.
fn take_track(case: &mut Case, body: &[u8]) -> Result<(), u8> {
    let track = Track {
        from: usize::from(body[0]),
        to: usize::from(body[1]),
        capacity: usize::from(body[2]),
    };
    if case.tracks.len() == MOST_TRACKS {
        return Err(COUNT);
    }
    if track.capacity == 0 {
        return Err(RANGE);
    }
    let known = track.from < case.stations.len() && track.to < case.stations.len();
    if !known || track.from == track.to || has_track(case, track.from, track.to) {
        return Err(ENDS);
    }
    case.tracks.push(track);
    Ok(())
}

/// Whether some track leads from one station to the other.
pub fn has_track(case: &Case, from: usize, to: usize) -> bool {
    case.tracks
        .iter()
        .any(|track| track.from == from && track.to == to)
}

/// A train: priority, type and its planned stops.
fn take_train(case: &mut Case, body: &[u8], offset: usize) -> Result<(), u8> {
    if case.trains.len() == MOST_TRAINS {
        return Err(COUNT);
    }
    let stops: Vec<Stop> = body[2..].chunks(5).map(read_stop).collect();
    if !path_is_sound(case, &stops) {
        return Err(PATH);
    }
    let last_minute = case.head.as_ref().map_or(0, |head| head.last_minute);
    if !times_are_sound(&stops, last_minute) {
        return Err(TIMES);
    }
    case.trains.push(Train {
        priority: body[0],
        train_type: body[1],
        stops,
        offset,
    });
    Ok(())
}

/// A stop: station, arrival, departure.
pub fn read_stop(bytes: &[u8]) -> Stop {
    Stop {
        station: usize::from(bytes[0]),
        arrival: number(&bytes[1..3]),
        departure: number(&bytes[3..5]),
    }
}

/// A path has known stations, repeats none, and each step of it has a track.
fn path_is_sound(case: &Case, stops: &[Stop]) -> bool {
    let known = stops.iter().all(|stop| stop.station < case.stations.len());
    let repeated = (0..stops.len()).any(|later| {
        stops[..later]
            .iter()
            .any(|earlier| earlier.station == stops[later].station)
    });
    let tracks = stops
        .windows(2)
        .all(|step| has_track(case, step[0].station, step[1].station));
    known && !repeated && tracks
}

/// Arrival ≤ departure at a stop, departure < next arrival, last departure ≤ T.
fn times_are_sound(stops: &[Stop], last_minute: u32) -> bool {
    let stays = stops.iter().all(|stop| stop.arrival <= stop.departure);
    let drives = stops
        .windows(2)
        .all(|step| step[0].departure < step[1].arrival);
    stays && drives && stops[stops.len() - 1].departure <= last_minute
}

/// A delay table: its type rises within the file, delays rise strictly, weights are at least 1 and sum to 100.
pub fn take_table(tables: &mut Vec<Table>, body: &[u8]) -> Result<(), u8> {
    if tables.len() == MOST_TABLES {
        return Err(COUNT);
    }
    let train_type = body[0];
    let delays: Vec<Delay> = body[1..].chunks(2).map(read_delay).collect();
    let type_rises = match tables.last() {
        None => true,
        Some(before) => before.train_type < train_type,
    };
    let delays_rise = delays
        .windows(2)
        .all(|pair| pair[0].minutes < pair[1].minutes);
    let all_weigh = delays.iter().all(|delay| delay.weight >= 1);
    let sum: u64 = delays.iter().map(|delay| delay.weight).sum();
    if !(type_rises && delays_rise && all_weigh && sum == 100) {
        return Err(TABLE);
    }
    tables.push(Table { train_type, delays });
    Ok(())
}

/// A pair of a delay table: delay and weight.
pub fn read_delay(bytes: &[u8]) -> Delay {
    Delay {
        minutes: u32::from(bytes[0]),
        weight: u64::from(bytes[1]),
    }
}

/// A couple: two known tracks whose ends mirror, of equal capacity, neither of them in an earlier couple.
fn take_couple(case: &mut Case, body: &[u8]) -> Result<(), u8> {
    let couple = [usize::from(body[0]), usize::from(body[1])];
    if case.couples.len() == MOST_COUPLES {
        return Err(COUNT);
    }
    let known = couple.iter().all(|track| *track < case.tracks.len());
    if !known || couple.iter().any(|track| is_coupled(case, *track)) {
        return Err(COUPLE);
    }
    let (one, other) = (&case.tracks[couple[0]], &case.tracks[couple[1]]);
    if !mirrors(one, other) || one.capacity != other.capacity {
        return Err(COUPLE);
    }
    case.couples.push(couple);
    Ok(())
}

/// Whether some couple has the track.
pub fn is_coupled(case: &Case, track: usize) -> bool {
    case.couples.iter().any(|couple| couple.contains(&track))
}

/// Whether one track leads from a to b and the other from b to a.
pub fn mirrors(one: &Track, other: &Track) -> bool {
    one.from == other.to && one.to == other.from
}
