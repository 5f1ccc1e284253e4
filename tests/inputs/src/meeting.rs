//! Drawn sound cases in which trains meet: branches where both directions share the rails, so that tracks there and back are coupled.

use crate::generator::{draw_case, draw_table, Chance, Files, Line, Size};
use crate::writer::{couple, head, station, track, train};
use second::bodies::MOST_COUPLES;

/// Draws a sound case on a branch of 2 to 5 stations, and its book; most of the tracks there and back are coupled, and half of the trains go back.
pub fn meeting(chance: &mut Chance, size: Size) -> Files {
    let steps = [1, 1, 2, 2, 2, 2, 3, 3, 4][chance.below(9)];
    let line = draw_branch(chance, steps, 85);
    draw_case(chance, size, &line)
}

/// Draws a sound case on a branch with as many couples as there may be, or one less.
pub fn long_branch(chance: &mut Chance) -> Files {
    let size = Size {
        trains: (2, 4),
        delays: (1, 2),
        small_room: 0,
        stretch: 1,
    };
    let steps = MOST_COUPLES - chance.below(2);
    let line = draw_branch(chance, steps, 100);
    draw_case(chance, size, &line)
}

/// A branch of so many steps in a drawn order, with tracks there and back on each; so many steps in a hundred are coupled.
fn draw_branch(chance: &mut Chance, steps: usize, coupled: usize) -> Line {
    let mut stations: Vec<u8> = (0..=steps as u8).collect();
    chance.shuffle(&mut stations);
    let ends = stations.windows(2).map(|step| (step[0], step[1]));
    let mut tracks: Vec<(u8, u8)> = ends.flat_map(|(a, b)| [(a, b), (b, a)]).collect();
    chance.shuffle(&mut tracks);
    let number = |from: u8, to: u8| {
        let track = tracks.iter().position(|ends| *ends == (from, to));
        track.expect("a track there and back on each step") as u8
    };
    let mut couples = Vec::new();
    for step in stations.windows(2) {
        let (there, back) = (number(step[0], step[1]), number(step[1], step[0]));
        if chance.percent(coupled) {
            couples.push([(there, back), (back, there)][chance.below(2)]);
        }
    }
    chance.shuffle(&mut couples);
    Line {
        stations,
        tracks,
        couples,
        back: 50,
    }
}

/// Draws a sound case whose trains cross on one coupled track of this capacity: more trains there than that, and some back. The safety time is 0, 1 or 2.
pub fn crossing(chance: &mut Chance, capacity: usize) -> Files {
    let there = chance.between(capacity + 1, 6);
    let count = chance.between(there + 1, 7);
    let ends = [[6, 6], [7, 7], [2, 7]][chance.below(3)];
    let mut case = head(60, chance.below(3) as u8, 1_024);
    case.extend(ends.into_iter().flat_map(station));
    let tracks = [track(0, 1, capacity as u8), track(1, 0, capacity as u8)];
    case.extend(tracks.concat());
    let types = chance.between(1, 2);
    for number in 0..count {
        let path = if number < there { [0, 1] } else { [1, 0] };
        let (arrival, stay) = (chance.below(4) as u16, chance.below(3) as u16);
        let end = arrival + stay + chance.between(1, 5) as u16;
        let stops = [(path[0], arrival, arrival + stay), (path[1], end, end + 1)];
        let train_type = 10 * chance.below(types) as u8;
        case.extend(train(chance.below(3) as u8, train_type, &stops));
    }
    let size = Size {
        trains: (count, count),
        delays: (1, if count > 4 { 2 } else { 3 }),
        small_room: 0,
        stretch: 1,
    };
    for number in 0..types as u8 {
        case.extend(draw_table(chance, size, 10 * number));
    }
    case.extend([couple(0, 1), couple(1, 0)][chance.below(2)].clone());
    let book = Vec::new();
    Files { case, book }
}
