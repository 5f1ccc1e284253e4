//! Two builds of the library beside each other: this one and another.

use crate::cases::Files;
use crate::clock::in_turns;
use crate::counts::counts;
use crate::library::Library;
use crate::measured::SECONDS;
use crate::tables::{figure, time};
use inputs::questions::ROW_BYTES;

/// The rounds over all cases in which each is timed: where the machine is slow for a while, it is so in one round.
const ROUNDS: u32 = 5;
/// Where a row has its kind and its minute, and the kind of a block (docs/FORMATS.md).
const KIND: usize = 1;
const MINUTE: usize = 4;
const BLOCKS: u8 = 2;

/// This build and the other one, and whether a block lasted a minute longer in the other one. Then this one is given a safety time that is one more, so that
/// both do the same work.
pub struct Both {
    this: Library,
    other: Library,
    longer: bool,
}

impl Both {
    pub fn open(this: &str, other: &str, longer: bool) -> Both {
        Both {
            this: Library::open(this),
            other: Library::open(other),
            longer,
        }
    }

    /// The times of both builds on cases.
    pub fn print_cases(&mut self, cases: &[Files]) {
        if cases.is_empty() {
            return;
        }
        let times = self.times(cases);
        println!("| case | this build | other build | other / this |");
        println!("|---|---|---|---|");
        for (files, (this, other)) in cases.iter().zip(times) {
            println!(
                "| {} | {} | {} | {} |",
                files.name,
                time(this),
                time(other),
                figure(other / this),
            );
        }
        println!();
    }

    /// The times of both builds on cases in which many blocks end in one minute, also for each of the most rows, and how many rows move when blocks go: in
    /// one sweep a minute, and if the list is closed up once for each block.
    pub fn print_waves(&mut self, cases: &[Files]) {
        if cases.is_empty() {
            return;
        }
        let times = self.times(cases);
        println!("| case | most rows | most blocks that end in a minute | rows moved, swept | closed up for each block | this build | other build | other / this | this, a row | other, a row |");
        println!("|---|---|---|---|---|---|---|---|---|---|");
        for (files, (this, other)) in cases.iter().zip(times) {
            print_wave(&files.given(self.longer), this, other);
        }
        println!();
    }

    /// The least microseconds of the run over the whole window on each case, of this build and of the other.
    fn times(&mut self, cases: &[Files]) -> Vec<(f64, f64)> {
        let mut least = vec![(f64::INFINITY, f64::INFINITY); cases.len()];
        for round in 1..=ROUNDS {
            eprintln!("round {round} of {ROUNDS}");
            for (files, least) in cases.iter().zip(&mut least) {
                let (this, other) = self.time(files);
                *least = (least.0.min(this), least.1.min(other));
            }
        }
        least
    }

    /// The same on one case in one round; the builds have to answer the same.
    fn time(&mut self, files: &Files) -> (f64, f64) {
        let (this, other, given) = (&mut self.this, &mut self.other, files.given(self.longer));
        let (last, seconds) = (files.plan().head.last_minute, SECONDS / f64::from(ROUNDS));
        let times = in_turns(
            seconds,
            || this.run(&given, last),
            || other.run(files, last),
        );
        let (name, rows) = (&files.name, ends_less(&this.rows, self.longer));
        assert!(this.answer.refusal == 0, "{name}: refused");
        assert!(this.answer == other.answer, "{name}: the answers differ");
        assert!(rows == other.rows, "{name}: the rows differ");
        assert!(this.weights == other.weights, "{name}: the weights differ");
        times
    }
}

/// The rows, or with the ends of blocks one less.
fn ends_less(rows: &[u8], longer: bool) -> Vec<u8> {
    let mut rows = rows.to_vec();
    for row in rows.chunks_mut(ROW_BYTES) {
        if longer && row[KIND] == BLOCKS {
            let end = u16::from_be_bytes([row[MINUTE], row[MINUTE + 1]]) - 1;
            row[MINUTE..MINUTE + 2].copy_from_slice(&end.to_be_bytes());
        }
    }
    rows
}

/// A line of the table of waves.
fn print_wave(files: &Files, this: f64, other: f64) {
    let counts = counts(&files.plan());
    let rows = counts.most_rows as f64;
    println!(
        "| {} | {} | {} | {} | {} | {} | {} | {} | {} | {} |",
        files.name,
        counts.most_rows,
        counts.most_ends,
        counts.swept,
        counts.closed_up,
        time(this),
        time(other),
        figure(other / this),
        time(this / rows),
        time(other / rows),
    );
}
