//! The program `vectors SEED COUNT`: prints the answers of the second program to COUNT small inputs drawn from SEED, one vector a line. Of each three
//! inputs one has couples.

use inputs::damage::damaged;
use inputs::drawn::SMALL;
use inputs::generator::{sound, Chance, Files, Size};
use inputs::meeting::meeting;
use inputs::vectors::vectors;
use std::io::{self, Write};
use std::process::ExitCode;

fn main() -> ExitCode {
    let arguments: Vec<Option<u64>> = std::env::args()
        .skip(1)
        .map(|word| word.parse().ok())
        .collect();
    let lines = match arguments.as_slice() {
        [Some(seed), Some(count)] => drawn(*seed, *count),
        _ => {
            eprintln!("use: vectors SEED COUNT");
            return ExitCode::from(2);
        }
    };
    match io::stdout().write_all(lines.as_bytes()) {
        Ok(()) => ExitCode::SUCCESS,
        Err(_) => ExitCode::FAILURE,
    }
}

/// The vectors of the inputs drawn from a seed.
fn drawn(seed: u64, count: u64) -> String {
    let mut chance = Chance::new(seed);
    let mut apart = chance.apart();
    let mut lines = String::new();
    for number in 0..count {
        let (chance, of_kind): (_, fn(&mut Chance, Size) -> Files) = match number % 3 {
            2 => (&mut apart, meeting),
            _ => (&mut chance, sound),
        };
        let files = draw(chance, of_kind);
        for line in vectors(chance, &files) {
            lines.push_str(&line);
            lines.push('\n');
        }
    }
    lines
}

/// Draws an input: two thirds sound small cases, one third damaged ones.
fn draw(chance: &mut Chance, of_kind: fn(&mut Chance, Size) -> Files) -> Files {
    let files = of_kind(chance, SMALL);
    match chance.below(3) {
        0 => damaged(chance, &files),
        _ => files,
    }
}
