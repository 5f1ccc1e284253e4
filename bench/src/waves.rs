//! Drawn-up cases in which more than half of the rows are blocks that end in one minute.
//!
//! At each of the first stations of a line a train stands, since a minute that its delay says, when one more train comes along the line. There it is cut
//! into a piece for each of their delays. All pieces go on together, and at every element that they leave each has its block: a wave that ends in one minute.

use crate::cases::Files;
use crate::series::delays;
use inputs::writer::{head, station, table, track, train};

/// The stations of the line, as many as a path can have. The next one is the yard, to which the trains that stand go in the end.
const LINE: u8 = 8;
/// The minute in which the train that is cut comes to the line: later than any delay.
const COMES: u16 = 20;
/// The minutes that it drives on each track; at a station it does not stop. All blocks of a wave have ended before it comes to the next station.
const DRIVE: u16 = 5;
/// The last minute, after the end of the last wave.
const LAST: u16 = COMES + LINE as u16 * DRIVE;

/// The cases, which grow from about 100 rows over 300 to 1,000.
pub fn waves() -> Vec<Files> {
    let wave = |(name, standing): (&str, [u8; 3])| Files {
        name: name.to_string(),
        case: case(&standing),
        book: Vec::new(),
    };
    let cases = [
        ("waves-100", [5, 3, 2]),
        ("waves-300", [6, 4, 4]),
        ("waves-1000", [8, 8, 5]),
    ];
    cases.map(wave).into_iter().collect()
}

/// A case in which trains with so many delays stand at the first stations; a train's type is how many delays it has.
fn case(standing: &[u8]) -> Vec<u8> {
    let mut bytes = head(LAST, 1, 1_024);
    (0..LINE).for_each(|_| bytes.extend(station(2)));
    bytes.extend(station(standing.len() as u8));
    (1..LINE).for_each(|to| bytes.extend(track(to - 1, to, 1)));
    (0..standing.len()).for_each(|from| bytes.extend(track(from as u8, LINE, 1)));
    let passes = |at: u8| COMES + u16::from(at) * DRIVE;
    let path: Vec<(u8, u16, u16)> = (0..LINE).map(|at| (at, passes(at), passes(at))).collect();
    bytes.extend(train(0, 1, &path));
    for (at, delays) in (0..).zip(standing) {
        let stands = [(at, 1, LAST - 1), (LINE, LAST, LAST)];
        bytes.extend(train(0, *delays, &stands));
    }
    (1..=8).for_each(|count| bytes.extend(table(count, &delays(count))));
    bytes
}
