//! Every kind of fault in every field it can stand in, and which of them can meet in one field.

use inputs::faults::{Fault, Fault::*};
use second::reader::*;
use second::refusal::*;

/// A field of a file in which faults stand: the file and the tag.
pub type Seat = (u8, u8);

/// The tag of a seat for tags that are not known, and for the end of a case.
pub const UNKNOWN: u8 = 0;
pub const END: u8 = 7;

/// Every kind of fault in every field it can stand in.
pub const KINDS: [(&str, Seat, &[Fault]); 15] = [
    (
        "case, unknown tag",
        (IN_CASE, UNKNOWN),
        &[
            HeaderCut,
            TagZero,
            TagAbove,
            NoHeadFirst,
            FallingTag,
            BodyCut,
        ],
    ),
    (
        "case, head",
        (IN_CASE, HEAD_TAG),
        &[
            HeaderCut,
            SecondHead,
            FallingTag,
            Length,
            BodyCut,
            LastMinuteZero,
            LastMinuteHigh,
            SafetyHigh,
            RoomZero,
            RoomHigh,
        ],
    ),
    (
        "case, station",
        (IN_CASE, STATION_TAG),
        &[
            HeaderCut,
            NoHeadFirst,
            FallingTag,
            Length,
            BodyCut,
            TooMany,
            CapacityZero,
        ],
    ),
    (
        "case, track",
        (IN_CASE, TRACK_TAG),
        &[
            HeaderCut,
            NoHeadFirst,
            FallingTag,
            Length,
            BodyCut,
            TooMany,
            CapacityZero,
            UnknownFrom,
            UnknownTo,
            EqualEnds,
            EarlierEnds,
        ],
    ),
    (
        "case, train",
        (IN_CASE, TRAIN_TAG),
        &[
            HeaderCut,
            NoHeadFirst,
            FallingTag,
            Length,
            BodyCut,
            TooMany,
            UnknownFirstStop,
            UnknownStopBetween,
            UnknownLastStop,
            StopTwiceRunning,
            StopAgainLater,
            NoTrackFromFirst,
            NoTrackBetween,
            NoTrackToLast,
            FirstStayNegative,
            StayBetweenNegative,
            LastStayNegative,
            DriveOfNoLength,
            DriveNegative,
            PastLastMinute,
        ],
    ),
    (
        "case, table",
        (IN_CASE, TABLE_TAG),
        &[
            HeaderCut,
            NoHeadFirst,
            FallingTag,
            Length,
            BodyCut,
            TooMany,
            TypeEqual,
            TypeFalls,
            DelaysEqual,
            DelaysFall,
            WeightZero,
            SumLow,
            SumHigh,
        ],
    ),
    (
        "case, couple",
        (IN_CASE, COUPLE_TAG),
        &[
            HeaderCut,
            NoHeadFirst,
            Length,
            BodyCut,
            TooMany,
            FirstTrackUnknown,
            SecondTrackUnknown,
            TrackWithItself,
            EndsNotMirrored,
            CapacitiesUnequal,
            FirstTrackCoupled,
            SecondTrackCoupled,
        ],
    ),
    (
        "case, its end",
        (IN_CASE, END),
        &[EndWithoutHead, EndWithoutStation, EndWithoutTrain],
    ),
    (
        "book, unknown tag",
        (IN_BOOK, UNKNOWN),
        &[HeaderCut, TagZero, TagAbove, NoTableInBook, BodyCut],
    ),
    ("book, head", (IN_BOOK, HEAD_TAG), FOREIGN),
    ("book, station", (IN_BOOK, STATION_TAG), FOREIGN),
    ("book, track", (IN_BOOK, TRACK_TAG), FOREIGN),
    ("book, train", (IN_BOOK, TRAIN_TAG), FOREIGN),
    (
        "book, table",
        (IN_BOOK, TABLE_TAG),
        &[
            HeaderCut,
            Length,
            BodyCut,
            TooMany,
            TypeEqual,
            TypeFalls,
            DelaysEqual,
            DelaysFall,
            WeightZero,
            SumLow,
            SumHigh,
        ],
    ),
    ("book, couple", (IN_BOOK, COUPLE_TAG), FOREIGN),
];

/// What can be said of a field in a book that is no table.
const FOREIGN: &[Fault] = &[HeaderCut, NoTableInBook, Length, BodyCut];

/// Faults that never give the refusal of a field, because in it another one with a lower place in the order always comes along.
pub const NEVER_FIRST: [(Seat, &[Fault]); 7] = [
    ((IN_CASE, UNKNOWN), &[NoHeadFirst, FallingTag, BodyCut]),
    ((IN_BOOK, UNKNOWN), &[NoTableInBook, BodyCut]),
    ((IN_BOOK, HEAD_TAG), &[Length, BodyCut]),
    ((IN_BOOK, STATION_TAG), &[Length, BodyCut]),
    ((IN_BOOK, TRACK_TAG), &[Length, BodyCut]),
    ((IN_BOOK, TRAIN_TAG), &[Length, BodyCut]),
    ((IN_BOOK, COUPLE_TAG), &[Length, BodyCut]),
];

/// Faults that never meet in one field: any of the first with any of the second.
const NEVER_TOGETHER: [(&[Fault], &[Fault]); 14] = [
    // A header that is cut has no length and no body.
    (&[HeaderCut], &[Length, BodyCut]),
    // Two values of one number.
    (&[TagZero, LastMinuteZero], &[TagAbove, LastMinuteHigh]),
    (&[RoomZero, TypeEqual], &[RoomHigh, TypeFalls]),
    (&[SumLow], &[SumHigh]),
    // No tag above 6 falls.
    (&[TagAbove], &[FallingTag]),
    // An earlier track has two known and different ends.
    (&[EarlierEnds], &[UnknownFrom, UnknownTo, EqualEnds]),
    // A track that is not known has no ends, no capacity and no couple, and a track has one capacity.
    (&[FirstTrackUnknown], &[EndsNotMirrored, CapacitiesUnequal]),
    (&[SecondTrackUnknown], &[EndsNotMirrored, CapacitiesUnequal]),
    (&[FirstTrackUnknown], &[FirstTrackCoupled]),
    (&[SecondTrackUnknown], &[SecondTrackCoupled]),
    (&[TrackWithItself], &[CapacitiesUnequal]),
    // Before a first field there is nothing: no head, no full count, no track, no table, no couple.
    (&[NoHeadFirst], &[FallingTag, TooMany, EarlierEnds]),
    (&[NoHeadFirst], &[PastLastMinute, TypeEqual, TypeFalls]),
    (&[NoHeadFirst], COUPLED),
];

/// What can be said only of a couple with a known track.
const COUPLED: &[Fault] = &[
    EndsNotMirrored,
    CapacitiesUnequal,
    FirstTrackCoupled,
    SecondTrackCoupled,
];

/// Whether two faults can meet in one field.
pub fn can_meet(one: Fault, other: Fault) -> bool {
    let never = |(some, others): &(&[Fault], &[Fault])| {
        (some.contains(&one) && others.contains(&other))
            || (some.contains(&other) && others.contains(&one))
    };
    // A body that is cut or has another length has no parts.
    let no_body = [HeaderCut, Length, BodyCut].contains(&one.min(other));
    let of_body = one.max(other) >= LastMinuteZero;
    !(no_body && of_body || NEVER_TOGETHER.iter().any(never))
}
