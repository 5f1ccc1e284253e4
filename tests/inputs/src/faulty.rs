//! Files made to have given faults in one field, and sound fields before it.

use crate::faults::{in_book, in_case, Fault, Fault::*, ALL};
use crate::generator::Files;
use crate::writer::{couple, field, head, station, table, track, train};
use second::reader::*;

/// The number of a station or track that no case has.
const UNKNOWN: u8 = 200;

/// Files in whose case or book one field has one fault or two, for each two that can be made to meet there.
pub fn faulty() -> Vec<Files> {
    let mut made = Vec::new();
    for tag in 0..=COUPLE_TAG + 1 {
        for (at, one) in ALL.iter().enumerate() {
            for other in &ALL[at..] {
                made.extend(case_with(tag, &[*one, *other]));
                made.extend(book_with(tag, &[*one, *other]));
            }
        }
    }
    made
}

/// A case that ends in a field with these faults, if they can meet in it.
fn case_with(tag: u8, faults: &[Fault]) -> Option<Files> {
    let before = fields_before(tag, faults);
    let case = [before.clone(), faulty_field(tag, faults)].concat();
    let has = in_case(&case, before.len());
    let book = Vec::new();
    faults
        .iter()
        .all(|fault| has.contains(fault))
        .then_some(Files { case, book })
}

/// A sound case with a book that ends in a field with these faults, if they can meet in it.
fn book_with(tag: u8, faults: &[Fault]) -> Option<Files> {
    let before = tables_before(faults);
    let book = [before.clone(), faulty_field(tag, faults)].concat();
    let has = in_book(&book, before.len());
    let case = sound_case();
    faults
        .iter()
        .all(|fault| has.contains(fault))
        .then_some(Files { case, book })
}

/// A sound case with one train.
pub fn sound_case() -> Vec<u8> {
    let ride = train(0, 5, &sound_stops());
    [ground(), line(), ride, table(5, &[(0, 100)])].concat()
}

/// A head and ten stations.
fn ground() -> Vec<u8> {
    [head(719, 0, 1024), station(1).repeat(10)].concat()
}

/// Tracks from station 0 to station 7, one after another.
fn line() -> Vec<u8> {
    (0..7).flat_map(|from| track(from, from + 1, 1)).collect()
}

/// Tracks back along the line: track 7 mirrors track 0, and so on to 13 and 6.
fn line_back() -> Vec<u8> {
    (0..7).flat_map(|to| track(to + 1, to, 1)).collect()
}

/// A sound case whose tracks 0 and 7 are coupled; or, as full as it may be, all of its forty tracks. Track 15 mirrors track 14 and takes two trains,
/// and so does track 14 if they are coupled.
fn coupled_case(full: bool) -> Vec<u8> {
    let last = [track(8, 9, 1 + u8::from(full)), track(9, 8, 2)].concat();
    let ride = [train(0, 5, &sound_stops()), table(5, &[(0, 100)])].concat();
    let ends = (0..8u8).flat_map(|one| (one + 2..10).map(move |other| (one, other)));
    let there_and_back = |(a, b)| [track(a, b, 1), track(b, a, 1)].concat();
    let others: Vec<u8> = ends.take(12).flat_map(there_and_back).collect();
    let (more, couples) = match full {
        false => (Vec::new(), couple(0, 7)),
        true => {
            let along = (0..7).flat_map(|there| couple(there, there + 7));
            let rest = (7..20).flat_map(|pair| couple(2 * pair, 2 * pair + 1));
            (others, along.chain(rest).collect())
        }
    };
    [ground(), line(), line_back(), last, more, ride, couples].concat()
}

/// A path of eight stops along the line.
fn sound_stops() -> Vec<(u8, u16, u16)> {
    (0..8u8)
        .map(|stop| (stop, 10 * u16::from(stop), 10 * u16::from(stop) + 2))
        .collect()
}

/// Sound fields before the field: as many as there may be for one too many, and one of a higher tag for a falling tag.
fn fields_before(tag: u8, faults: &[Fault]) -> Vec<u8> {
    let (full, falls) = (faults.contains(&TooMany), faults.contains(&FallingTag));
    let ride = train(0, 5, &sound_stops());
    let first_head = tag == HEAD_TAG && !falls && !faults.contains(&SecondHead);
    if faults.contains(&NoHeadFirst) || first_head {
        return Vec::new();
    }
    let (before, higher) = match tag {
        HEAD_TAG => (head(719, 0, 1024), station(1)),
        STATION_TAG if full => ([head(719, 0, 1024), station(1).repeat(24)].concat(), line()),
        STATION_TAG => (ground(), line()),
        TRACK_TAG if full => ([ground(), forty_tracks()].concat(), ride),
        TRACK_TAG => ([ground(), line()].concat(), ride),
        TRAIN_TAG => {
            let rides = ride.repeat(if full { 7 } else { 1 });
            ([ground(), line(), rides].concat(), table(5, &[(0, 100)]))
        }
        TABLE_TAG => {
            let tracks = [line(), line_back().repeat(falls.into())].concat();
            let tables = tables_before(faults);
            ([ground(), tracks, ride, tables].concat(), couple(0, 7))
        }
        COUPLE_TAG => (coupled_case(full), Vec::new()),
        _ => (sound_case(), Vec::new()),
    };
    match falls {
        true => [before, higher].concat(),
        false => before,
    }
}

/// Tables of the types up to 7: eight of them for one too many, otherwise one.
fn tables_before(faults: &[Fault]) -> Vec<u8> {
    let first = if faults.contains(&TooMany) { 0 } else { 7 };
    (first..8)
        .flat_map(|train_type| table(train_type, &[(0, 100)]))
        .collect()
}

/// The line and other tracks between the ten stations, forty in all, and none from station 8 to 9.
fn forty_tracks() -> Vec<u8> {
    let ends = (0..8u8).flat_map(|from| (0..10u8).map(move |to| (from, to)));
    let others = ends.filter(|(from, to)| from != to && from + 1 != *to);
    let tracks = others.take(33).flat_map(|(from, to)| track(from, to, 1));
    line().into_iter().chain(tracks).collect()
}

/// A field with these faults, as far as they can stand in it.
fn faulty_field(tag: u8, faults: &[Fault]) -> Vec<u8> {
    let has = |fault: Fault| faults.contains(&fault);
    let mut bytes = field(tag, &faulty_body(tag, faults));
    match (has(Length), has(BodyCut)) {
        (true, true) => bytes[2] = 200,
        (true, false) => {
            bytes[2] += 1;
            bytes.push(0);
        }
        (false, true) => {
            bytes.pop();
        }
        (false, false) => {}
    }
    if has(HeaderCut) {
        bytes.truncate(2);
    }
    bytes
}

/// A body with these faults, sound otherwise.
fn faulty_body(tag: u8, faults: &[Fault]) -> Vec<u8> {
    let has = |fault: Fault| faults.contains(&fault);
    let either = |fault: Fault, wrong: u8, right: u8| if has(fault) { wrong } else { right };
    let bytes = match tag {
        HEAD_TAG => {
            let last_minute =
                u16::from(!has(LastMinuteZero)) * 719 + u16::from(has(LastMinuteHigh));
            let room = u16::from(!has(RoomZero)) * 1_024 + u16::from(has(RoomHigh));
            head(last_minute, either(SafetyHigh, 31, 30), room)
        }
        STATION_TAG => station(either(CapacityZero, 0, 255)),
        TRACK_TAG => faulty_track(faults),
        TRAIN_TAG => train(0, 5, &faulty_stops(faults)),
        TABLE_TAG => faulty_table(faults),
        COUPLE_TAG => faulty_couple(faults),
        _ => vec![0; 6],
    };
    bytes[3..].to_vec()
}

fn faulty_track(faults: &[Fault]) -> Vec<u8> {
    let has = |fault: Fault| faults.contains(&fault);
    let (mut from, mut to) = if has(EarlierEnds) { (0, 1) } else { (8, 9) };
    if has(UnknownFrom) {
        from = UNKNOWN;
    }
    if has(UnknownTo) {
        to = UNKNOWN;
    }
    if has(EqualEnds) {
        (from, to) = (from.max(to), from.max(to));
    }
    track(from, to, u8::from(!has(CapacityZero)))
}

/// Eight stops with these faults; each fault has a stop of its own where it can.
fn faulty_stops(faults: &[Fault]) -> Vec<(u8, u16, u16)> {
    let mut stops = sound_stops();
    for fault in ALL.iter().filter(|fault| faults.contains(fault)) {
        match fault {
            UnknownFirstStop => stops[0].0 = UNKNOWN,
            UnknownStopBetween => stops[3].0 = UNKNOWN,
            UnknownLastStop => stops[7].0 = UNKNOWN,
            StopTwiceRunning => stops[5].0 = stops[4].0,
            StopAgainLater => stops[6].0 = stops[1].0,
            NoTrackFromFirst => stops[0].0 = stops[0].0.max(8),
            NoTrackBetween => stops[2].0 = 8,
            NoTrackToLast => stops[7].0 = stops[7].0.max(9),
            FirstStayNegative => stops[0].1 = stops[0].2 + 1,
            StayBetweenNegative => stops[3].1 = stops[3].2 + 1,
            DriveOfNoLength => stops[1].2 = stops[2].1,
            DriveNegative => stops[4].2 = stops[5].1 + 1,
            PastLastMinute => stops[7].2 = 720,
            _ => {}
        }
    }
    if faults.contains(&LastStayNegative) {
        stops[7].1 = stops[7].2 + 1;
    }
    stops
}

fn faulty_table(faults: &[Fault]) -> Vec<u8> {
    let mut train_type = 9;
    let mut pairs = [(0, 25), (1, 25), (2, 25), (3, 25)];
    for fault in faults {
        match fault {
            TypeEqual => train_type = 7,
            TypeFalls => train_type = 6,
            DelaysEqual => pairs[1].0 = 0,
            DelaysFall => pairs[3].0 = 1,
            WeightZero => (pairs[0].1, pairs[1].1) = (0, 50),
            SumLow => pairs[2].1 = 24,
            SumHigh => pairs[2].1 = 26,
            _ => {}
        }
    }
    table(train_type, &pairs)
}

/// Two tracks of the coupled case with these faults; without any, tracks 1 and 8.
fn faulty_couple(faults: &[Fault]) -> Vec<u8> {
    let has = |fault: Fault| faults.contains(&fault);
    let unmirrored = has(EndsNotMirrored) || has(TooMany);
    let (mut one, mut other) = match (has(CapacitiesUnequal), unmirrored) {
        (false, false) => (1, 8),
        (false, true) => (1, 9),
        (true, false) => (14, 15),
        (true, true) => (1, 15),
    };
    if has(FirstTrackCoupled) {
        one = 0;
    }
    if has(SecondTrackCoupled) {
        (one, other) = (if has(CapacitiesUnequal) { 15 } else { one }, 7);
    }
    if has(FirstTrackUnknown) {
        one = UNKNOWN;
    }
    if has(SecondTrackUnknown) {
        other = UNKNOWN + 1;
    }
    match has(TrackWithItself) {
        true if has(SecondTrackUnknown) || has(SecondTrackCoupled) => couple(other, other),
        true => couple(one, one),
        false => couple(one, other),
    }
}
