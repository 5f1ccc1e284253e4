//! Every fault that one field has, whatever the reading says of it: so that it can be counted which faults, and which two in one field, the
//! inputs have reached.

use second::bodies::*;
use second::reader::*;
use second::refusal;
use Fault::*;

/// The faults, as a type and as a list, in one order.
macro_rules! faults {
    ($($fault:ident,)*) => {
        /// A way in which a field, or the end of a case, is not sound; in the order in which they are judged.
        #[derive(Clone, Copy, Debug, PartialEq, Eq, PartialOrd, Ord)]
        pub enum Fault {
            $($fault,)*
        }

        /// All faults, in the order in which they are judged.
        pub const ALL: [Fault; 51] = [$($fault,)*];
    };
}

faults! {
    HeaderCut,
    TagZero,
    TagAbove,
    NoHeadFirst,
    SecondHead,
    FallingTag,
    NoTableInBook,
    Length,
    BodyCut,
    TooMany,
    EndWithoutHead,
    EndWithoutStation,
    EndWithoutTrain,
    LastMinuteZero,
    LastMinuteHigh,
    SafetyHigh,
    RoomZero,
    RoomHigh,
    CapacityZero,
    UnknownFrom,
    UnknownTo,
    EqualEnds,
    EarlierEnds,
    UnknownFirstStop,
    UnknownStopBetween,
    UnknownLastStop,
    StopTwiceRunning,
    StopAgainLater,
    NoTrackFromFirst,
    NoTrackBetween,
    NoTrackToLast,
    FirstStayNegative,
    StayBetweenNegative,
    LastStayNegative,
    DriveOfNoLength,
    DriveNegative,
    PastLastMinute,
    TypeEqual,
    TypeFalls,
    DelaysEqual,
    DelaysFall,
    WeightZero,
    SumLow,
    SumHigh,
    FirstTrackUnknown,
    SecondTrackUnknown,
    TrackWithItself,
    EndsNotMirrored,
    CapacitiesUnequal,
    FirstTrackCoupled,
    SecondTrackCoupled,
}

impl Fault {
    /// The refusal that the fault gives if no other is judged before it.
    pub fn refusal(self) -> u8 {
        match self {
            HeaderCut | BodyCut => refusal::PAST_END,
            TagZero | TagAbove => refusal::TAG,
            NoHeadFirst | SecondHead | FallingTag | NoTableInBook => refusal::ORDER,
            Length => refusal::LENGTH,
            TooMany | EndWithoutHead | EndWithoutStation | EndWithoutTrain => refusal::COUNT,
            fault if fault <= CapacityZero => refusal::RANGE,
            fault if fault <= EarlierEnds => refusal::ENDS,
            fault if fault <= NoTrackToLast => refusal::PATH,
            fault if fault <= PastLastMinute => refusal::TIMES,
            fault if fault <= SumHigh => refusal::TABLE,
            _ => refusal::COUPLE,
        }
    }
}

/// The faults whose condition holds.
fn which(conditions: &[(bool, Fault)]) -> Vec<Fault> {
    let holding = conditions.iter().filter(|(holds, _)| *holds);
    holding.map(|(_, fault)| *fault).collect()
}

/// All faults at a place of a case, before which all fields are sound: of the field there, or of the end of the case.
pub fn in_case(bytes: &[u8], place: usize) -> Vec<Fault> {
    let (case, before) = read_fields(&bytes[..place]).expect("sound fields");
    let field = &bytes[place..];
    let tag = match field.first() {
        Some(tag) => *tag,
        None => {
            return which(&[
                (case.head.is_none(), EndWithoutHead),
                (case.stations.is_empty(), EndWithoutStation),
                (case.trains.is_empty(), EndWithoutTrain),
            ])
        }
    };
    let mut faults = which(&[
        (tag == 0, TagZero),
        (tag > COUPLE_TAG, TagAbove),
        (before.is_none() && tag != HEAD_TAG, NoHeadFirst),
        (before.is_some() && tag == HEAD_TAG, SecondHead),
        (before.map_or(false, |before| tag < before), FallingTag),
        (one_too_many(&case, tag), TooMany),
    ]);
    faults.extend(field_faults(&case, field));
    faults.sort();
    faults
}

/// All faults of the field at a place of a book, before which all fields are sound.
pub fn in_book(bytes: &[u8], place: usize) -> Vec<Fault> {
    let tables = read_book(&bytes[..place]).expect("sound fields");
    let field = &bytes[place..];
    let tag = field[0];
    let full = tag == TABLE_TAG && tables.len() == MOST_TABLES;
    let mut faults = which(&[
        (tag == 0, TagZero),
        (tag > COUPLE_TAG, TagAbove),
        (tag != TABLE_TAG, NoTableInBook),
        (full, TooMany),
    ]);
    let case = Case {
        tables,
        ..Case::default()
    };
    let of_field = field_faults(&case, field);
    let shape = |fault: &Fault| tag == TABLE_TAG || *fault <= BodyCut;
    faults.extend(of_field.into_iter().filter(shape));
    faults.sort();
    faults
}

/// Whether the case already has as many fields of a tag as it may; a second head is not counted here.
fn one_too_many(case: &Case, tag: u8) -> bool {
    match tag {
        STATION_TAG => case.stations.len() == MOST_STATIONS,
        TRACK_TAG => case.tracks.len() == MOST_TRACKS,
        TRAIN_TAG => case.trains.len() == MOST_TRAINS,
        TABLE_TAG => case.tables.len() == MOST_TABLES,
        COUPLE_TAG => case.couples.len() == MOST_COUPLES,
        _ => false,
    }
}

/// The faults of a field's shape, and those of its body if its length is possible and it is all there.
fn field_faults(case: &Case, field: &[u8]) -> Vec<Fault> {
    if field.len() < 3 {
        return vec![HeaderCut];
    }
    let (tag, length) = (field[0], number(&field[1..3]) as usize);
    let known = (HEAD_TAG..=COUPLE_TAG).contains(&tag);
    let mut faults = which(&[
        (known && !possible_length(tag, length), Length),
        (field.len() < 3 + length, BodyCut),
    ]);
    if known && faults.is_empty() {
        faults = body_faults(case, tag, &field[3..3 + length]);
    }
    faults
}

/// The faults of a body of possible length.
fn body_faults(case: &Case, tag: u8, body: &[u8]) -> Vec<Fault> {
    match tag {
        HEAD_TAG => head_faults(body),
        STATION_TAG => which(&[(body[0] == 0, CapacityZero)]),
        TRACK_TAG => track_faults(case, body),
        TRAIN_TAG => {
            let stops: Vec<Stop> = body[2..].chunks(5).map(read_stop).collect();
            [path_faults(case, &stops), times_faults(case, &stops)].concat()
        }
        TABLE_TAG => table_faults(&case.tables, body),
        _ => couple_faults(case, usize::from(body[0]), usize::from(body[1])),
    }
}

fn head_faults(body: &[u8]) -> Vec<Fault> {
    let (last_minute, room) = (number(&body[0..2]), number(&body[3..5]));
    which(&[
        (last_minute == 0, LastMinuteZero),
        (last_minute > 719, LastMinuteHigh),
        (body[2] > 30, SafetyHigh),
        (room == 0, RoomZero),
        (room > 1_024, RoomHigh),
    ])
}

fn track_faults(case: &Case, body: &[u8]) -> Vec<Fault> {
    let (from, to) = (usize::from(body[0]), usize::from(body[1]));
    which(&[
        (body[2] == 0, CapacityZero),
        (from >= case.stations.len(), UnknownFrom),
        (to >= case.stations.len(), UnknownTo),
        (from == to, EqualEnds),
        (has_track(case, from, to), EarlierEnds),
    ])
}

fn path_faults(case: &Case, stops: &[Stop]) -> Vec<Fault> {
    let last = stops.len() - 1;
    let unknown = |stop: usize| stops[stop].station >= case.stations.len();
    let same = |one: usize, other: usize| stops[one].station == stops[other].station;
    let no_track = |step: usize| !has_track(case, stops[step].station, stops[step + 1].station);
    let again_later = |later: usize| (0..later - 1).any(|earlier| same(earlier, later));
    which(&[
        (unknown(0), UnknownFirstStop),
        ((1..last).any(unknown), UnknownStopBetween),
        (unknown(last), UnknownLastStop),
        ((0..last).any(|stop| same(stop, stop + 1)), StopTwiceRunning),
        ((1..=last).any(again_later), StopAgainLater),
        (no_track(0), NoTrackFromFirst),
        ((1..last - 1).any(no_track), NoTrackBetween),
        (no_track(last - 1), NoTrackToLast),
    ])
}

fn times_faults(case: &Case, stops: &[Stop]) -> Vec<Fault> {
    let last = stops.len() - 1;
    let negative = |stop: usize| stops[stop].arrival > stops[stop].departure;
    let drive = |step: usize| (stops[step].departure, stops[step + 1].arrival);
    let past = |head: &Head| stops[last].departure > head.last_minute;
    which(&[
        (negative(0), FirstStayNegative),
        ((1..last).any(negative), StayBetweenNegative),
        (negative(last), LastStayNegative),
        ((0..last).map(drive).any(|(a, b)| a == b), DriveOfNoLength),
        ((0..last).map(drive).any(|(a, b)| a > b), DriveNegative),
        (case.head.as_ref().map_or(false, past), PastLastMinute),
    ])
}

fn table_faults(tables: &[Table], body: &[u8]) -> Vec<Fault> {
    let before = tables.last().map(|table| table.train_type);
    let delays: Vec<Delay> = body[1..].chunks(2).map(read_delay).collect();
    let neighbours = |fault: fn(u32, u32) -> bool| {
        let mut pairs = delays.windows(2);
        pairs.any(|pair| fault(pair[0].minutes, pair[1].minutes))
    };
    let sum: u64 = delays.iter().map(|delay| delay.weight).sum();
    which(&[
        (before == Some(body[0]), TypeEqual),
        (before.map_or(false, |before| body[0] < before), TypeFalls),
        (neighbours(|one, next| one == next), DelaysEqual),
        (neighbours(|one, next| one > next), DelaysFall),
        (delays.iter().any(|delay| delay.weight == 0), WeightZero),
        (sum < 100, SumLow),
        (sum > 100, SumHigh),
    ])
}

fn couple_faults(case: &Case, one: usize, other: usize) -> Vec<Fault> {
    let both = match (case.tracks.get(one), case.tracks.get(other)) {
        (Some(one), Some(other)) => Some((one, other)),
        _ => None,
    };
    let unmirrored = both.map_or(false, |(one, other)| !mirrors(one, other));
    let unequal = both.map_or(false, |(one, other)| one.capacity != other.capacity);
    which(&[
        (one >= case.tracks.len(), FirstTrackUnknown),
        (other >= case.tracks.len(), SecondTrackUnknown),
        (one == other, TrackWithItself),
        (unmirrored, EndsNotMirrored),
        (unequal, CapacitiesUnequal),
        (is_coupled(case, one), FirstTrackCoupled),
        (is_coupled(case, other), SecondTrackCoupled),
    ])
}
