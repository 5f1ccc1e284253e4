//! Reading a case and a book from bytes, field by field; the first field that is not sound ends the reading.

use crate::bodies::{number, take_field, take_table};
use crate::refusal::*;

pub const HEAD_TAG: u8 = 1;
pub const STATION_TAG: u8 = 2;
pub const TRACK_TAG: u8 = 3;
pub const TRAIN_TAG: u8 = 4;
pub const TABLE_TAG: u8 = 5;
pub const COUPLE_TAG: u8 = 6;

/// The head of a case: last minute T, safety time and room.
#[derive(Clone, Debug, PartialEq, Eq)]
pub struct Head {
    pub last_minute: u32,
    pub safety: u32,
    pub room: usize,
}

/// A track leads from one station to another and takes so many trains.
#[derive(Clone, Debug, PartialEq, Eq)]
pub struct Track {
    pub from: usize,
    pub to: usize,
    pub capacity: usize,
}

/// A planned stop of a train.
#[derive(Clone, Debug, PartialEq, Eq)]
pub struct Stop {
    pub station: usize,
    pub arrival: u32,
    pub departure: u32,
}

/// A train, its planned stops and the offset of its field.
#[derive(Clone, Debug, PartialEq, Eq)]
pub struct Train {
    pub priority: u8,
    pub train_type: u8,
    pub stops: Vec<Stop>,
    pub offset: usize,
}

/// One pair of a delay table.
#[derive(Clone, Debug, PartialEq, Eq)]
pub struct Delay {
    pub minutes: u32,
    pub weight: u64,
}

/// The delay table of a train type.
#[derive(Clone, Debug, PartialEq, Eq)]
pub struct Table {
    pub train_type: u8,
    pub delays: Vec<Delay>,
}

/// The numbers of two coupled tracks, as they stand in the field.
pub type Couple = [usize; 2];

/// The fields of a case read so far; `stations` holds the capacities by station number.
#[derive(Clone, Debug, Default, PartialEq, Eq)]
pub struct Case {
    pub head: Option<Head>,
    pub stations: Vec<usize>,
    pub tracks: Vec<Track>,
    pub trains: Vec<Train>,
    pub tables: Vec<Table>,
    pub couples: Vec<Couple>,
}

/// An accepted pair of files: the case, its head, and each train's own table by train number.
#[derive(Clone, Debug, PartialEq, Eq)]
pub struct Accepted {
    pub head: Head,
    pub case: Case,
    pub tables: Vec<Table>,
}

/// Reads the case, then the book, then looks up each train's table by train number (refusal 11).
pub fn read(case: &[u8], book: &[u8]) -> Result<Accepted, Refusal> {
    let (head, case) = read_case(case)?;
    let book = read_book(book)?;
    let mut tables = Vec::new();
    for train in &case.trains {
        match table_of(train.train_type, &case.tables, &book) {
            Some(table) => tables.push(table.clone()),
            None => return Err(Refusal::at(NO_TABLE, IN_CASE, train.offset)),
        }
    }
    Ok(Accepted { head, case, tables })
}

/// Reads a case to its end.
pub fn read_case(bytes: &[u8]) -> Result<(Head, Case), Refusal> {
    let (case, _) = read_fields(bytes)?;
    match case.head.clone() {
        Some(head) if !case.stations.is_empty() && !case.trains.is_empty() => Ok((head, case)),
        _ => Err(Refusal::at(COUNT, IN_CASE, bytes.len())),
    }
}

/// Reads the fields of a case one after another, and gives the last one's tag too; what must stand at the end isn't judged yet.
pub fn read_fields(bytes: &[u8]) -> Result<(Case, Option<u8>), Refusal> {
    let mut case = Case::default();
    let mut tag_before = None;
    let mut offset = 0;
    while offset < bytes.len() {
        let refused = |number| Refusal::at(number, IN_CASE, offset);
        let in_order = |tag| match tag_before {
            None => tag == HEAD_TAG,
            Some(before) => tag != HEAD_TAG && tag >= before,
        };
        let (tag, body) = read_field(bytes, offset, in_order).map_err(refused)?;
        take_field(&mut case, tag, body, offset).map_err(refused)?;
        tag_before = Some(tag);
        offset += 3 + body.len();
    }
    Ok((case, tag_before))
}

/// Reads a book to its end: delay tables only, maybe none.
pub fn read_book(bytes: &[u8]) -> Result<Vec<Table>, Refusal> {
    let mut tables = Vec::new();
    let mut offset = 0;
    while offset < bytes.len() {
        let refused = |number| Refusal::at(number, IN_BOOK, offset);
        let (_, body) = read_field(bytes, offset, |tag| tag == TABLE_TAG).map_err(refused)?;
        take_table(&mut tables, body).map_err(refused)?;
        offset += 3 + body.len();
    }
    Ok(tables)
}

/// The table of a train type: the one in the case, and otherwise the one in the book.
pub fn table_of<'a>(train_type: u8, case: &'a [Table], book: &'a [Table]) -> Option<&'a Table> {
    let in_file = |tables: &'a [Table]| tables.iter().find(|table| table.train_type == train_type);
    in_file(case).or_else(|| in_file(book))
}

/// Judges header, tag, order, length and body of the field at an offset, in this order, and gives tag and body.
fn read_field(
    bytes: &[u8],
    offset: usize,
    in_order: impl Fn(u8) -> bool,
) -> Result<(u8, &[u8]), u8> {
    let field = &bytes[offset..];
    if field.len() < 3 {
        return Err(PAST_END);
    }
    let tag = field[0];
    let length = number(&field[1..3]) as usize;
    if tag == 0 || tag > COUPLE_TAG {
        return Err(TAG);
    }
    if !in_order(tag) {
        return Err(ORDER);
    }
    if !possible_length(tag, length) {
        return Err(LENGTH);
    }
    if field.len() < 3 + length {
        return Err(PAST_END);
    }
    Ok((tag, &field[3..3 + length]))
}

/// The body lengths that a tag allows.
pub fn possible_length(tag: u8, length: usize) -> bool {
    match tag {
        HEAD_TAG => length == 5,
        STATION_TAG => length == 1,
        TRACK_TAG => length == 3,
        TRAIN_TAG => (2..=8).any(|stops| length == 2 + 5 * stops),
        TABLE_TAG => (1..=8).any(|pairs| length == 1 + 2 * pairs),
        _ => length == 2,
    }
}
