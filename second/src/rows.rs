//! Rows of the list as plain text, for comparing lists with another program.

use crate::joint::{Entry, Kind};
use crate::plan::Place;

/// A row: train, place, kind, minute and the sets of the cover.
pub fn row_text(entry: &Entry) -> String {
    let place = match entry.place {
        Place::Outside => "out".to_string(),
        Place::Station(station) => format!("s{station}"),
        Place::Track(track) => format!("t{track}"),
        Place::Gone => "gone".to_string(),
    };
    let kind = match entry.kind {
        Kind::Stands => "stands",
        Kind::Blocks => "blocks",
    };
    let sets: Vec<String> = entry.cover.iter().map(|set| set.to_string()).collect();
    let (train, minute) = (entry.train, entry.minute);
    format!("{train},{place},{kind},{minute},{}", sets.join("."))
}
