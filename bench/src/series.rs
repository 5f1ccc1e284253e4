//! Drawn-up cases of one line in which one thing grows: delays, trains or minutes.

use inputs::writer::{head, station, table, track, train};

/// What a case of a series has.
#[derive(Clone, Copy)]
pub struct Shape {
    pub trains: u16,
    pub delays: u8,
    pub minutes: u16,
}

/// Trains that follow each other over a line of four stations with one track between two, each of which takes one train.
pub fn case(shape: Shape) -> Vec<u8> {
    let mut bytes = head(shape.minutes, 1, 1_024);
    (0..4).for_each(|_| bytes.extend(station(1)));
    (0..3).for_each(|from| bytes.extend(track(from, from + 1, 1)));
    for k in 0..shape.trains {
        let stop = |at: u16| (at as u8, 4 * k + 4 * at, 4 * k + 4 * at + 1);
        bytes.extend(train(0, 0, &[stop(0), stop(1), stop(2), stop(3)]));
    }
    bytes.extend(table(0, &delays(shape.delays)));
    bytes
}

/// So many delays, two minutes apart, of nearly the same weight.
pub fn delays(count: u8) -> Vec<(u8, u8)> {
    let share = 100 / count;
    let weight = |delay: u8| match delay {
        0 => 100 - share * (count - 1),
        _ => share,
    };
    (0..count).map(|delay| (2 * delay, weight(delay))).collect()
}

/// The three series: the delays grow and with them the rows, then the trains, then the minutes.
pub fn series() -> Vec<(&'static str, Vec<Shape>)> {
    let shape = |trains, delays, minutes| Shape {
        trains,
        delays,
        minutes,
    };
    let minutes = [90, 180, 360, 719];
    vec![
        (
            "delays",
            (1..=8).map(|delays| shape(3, delays, 90)).collect(),
        ),
        (
            "trains",
            (1..=7).map(|trains| shape(trains, 2, 90)).collect(),
        ),
        ("minutes", minutes.map(|last| shape(3, 4, last)).to_vec()),
    ]
}
