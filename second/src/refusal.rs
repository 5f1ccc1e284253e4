//! The refusal numbers of 01 without 13 and those that 02 adds, named once, and what an answer of refusal holds.

/// A field's header or body runs past the end.
pub const PAST_END: u8 = 1;
/// Tag 0 or above 6.
pub const TAG: u8 = 2;
/// In a case the first field is no head, or a second head or a falling tag; in a book a tag other than 5.
pub const ORDER: u8 = 3;
/// Length not possible for the tag.
pub const LENGTH: u8 = 4;
/// One station, track, train, table or couple too many, or at the end of a case no head, station or train.
pub const COUNT: u8 = 5;
/// Last minute, safety time, room or capacity out of range.
pub const RANGE: u8 = 6;
/// Track with an unknown end, equal ends, or the ends of an earlier track.
pub const ENDS: u8 = 7;
/// Path with an unknown or repeated station or a missing track.
pub const PATH: u8 = 8;
/// Times out of order or past the last minute.
pub const TIMES: u8 = 9;
/// Delay table breaks a rule.
pub const TABLE: u8 = 10;
/// A train's type has no table.
pub const NO_TABLE: u8 = 11;
/// List of entries passes the room.
pub const ROOM: u8 = 12;
// 13 is retired and not used again: no entry of an accepted case weighs more than all choices together.
/// Lent memory too short.
pub const MEMORY: u8 = 14;
/// Choice with a wrong count or an index past the table.
pub const CHOICE: u8 = 15;
/// No such train.
pub const NO_TRAIN: u8 = 16;
/// Stop minute above the last minute.
pub const STOP: u8 = 17;
/// Couple with an unknown track, ends that don't mirror, unequal capacities, or a track already coupled.
pub const COUPLE: u8 = 18;

/// File number of the case.
pub const IN_CASE: u8 = 0;
/// File number of the book.
pub const IN_BOOK: u8 = 1;

/// An answer of refusal: its number, the file it lies in and the place there.
#[derive(Clone, Copy, Debug, PartialEq, Eq)]
pub struct Refusal {
    pub number: u8,
    pub file: u8,
    pub place: usize,
}

impl Refusal {
    /// A refusal that lies in a field of a file.
    pub fn at(number: u8, file: u8, place: usize) -> Refusal {
        Refusal {
            number,
            file,
            place,
        }
    }

    /// A refusal of a call or a run, which has file 0 and place 0.
    pub fn of_call(number: u8) -> Refusal {
        Refusal::at(number, IN_CASE, 0)
    }
}
