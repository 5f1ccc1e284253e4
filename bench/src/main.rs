//! The program of the benchmark, which times the exported run and the plain engine over the whole window. What it prints is Markdown.
//!
//! - `bench second FOLDER [CASE..]`: beside the second program's joint run and its enumeration of all choices;
//! - `bench plain FOLDER [CASE..]`: the plain engine beside the second program's and its enumeration, a choice;
//! - `bench beside THIS OTHER FOLDER [CASE..]`: two builds of the library in turns, each as a shared object;
//! - `bench longer THIS OTHER FOLDER [CASE..]`: the same where a block lasted a minute longer in the other build, as it did before request 3 of 02;
//! - `bench copies THIS NOTING FOLDER [CASE..]`: and what it copies, which the library NOTING notes (bench/copies.c).
//!
//! FOLDER has the cases; with words, only those are taken whose names begin with one of them. All is timed in one process. A case that the run refuses is said and left
//! out; the plain engine answers it too.

mod beside;
mod cases;
mod clock;
mod copies;
mod counts;
mod exported;
mod library;
mod measured;
mod plain;
mod series;
mod tables;
mod waves;

use cases::{answered, cases, meant};

fn main() {
    let words: Vec<String> = std::env::args().skip(1).collect();
    match words.first().map(String::as_str) {
        Some("second") if words.len() > 1 => second(&words[1], &words[2..]),
        Some("plain") if words.len() > 1 => plain(&words[1], &words[2..]),
        Some("beside") if words.len() > 3 => beside(&words[1..3], &words[3], &words[4..], false),
        Some("longer") if words.len() > 3 => beside(&words[1..3], &words[3], &words[4..], true),
        Some("copies") if words.len() > 3 => copies(&words[1..3], &words[3], &words[4..]),
        _ => {
            eprintln!("use: bench second FOLDER [CASE..]");
            eprintln!("     bench plain FOLDER [CASE..]");
            eprintln!("     bench beside THIS OTHER FOLDER [CASE..]");
            eprintln!("     bench longer THIS OTHER FOLDER [CASE..]");
            eprintln!("     bench copies THIS NOTING FOLDER [CASE..]");
            std::process::exit(2);
        }
    }
}

/// The exported run beside the second program, and on series of cases in which one thing grows.
fn second(folder: &str, words: &[String]) {
    let measured = measured::measured(answered(cases(folder, words), false));
    tables::print_ratios(&measured);
    tables::print_costs(&measured);
    tables::print_series();
}

/// The plain engine beside the second program's and its enumeration, a choice.
fn plain(folder: &str, words: &[String]) {
    plain::print_head();
    for files in cases(folder, words) {
        plain::print(&files);
    }
    plain::print_foot();
}

/// This build beside another one, on the cases and on those with waves of blocks.
fn beside(libraries: &[String], folder: &str, words: &[String], longer: bool) {
    let mut both = beside::Both::open(&libraries[0], &libraries[1], longer);
    both.print_cases(&answered(cases(folder, words), longer));
    both.print_waves(&answered(meant(waves::waves(), words), longer));
}

/// What a run copies, on the cases and on those with waves of blocks.
fn copies(libraries: &[String], folder: &str, words: &[String]) {
    let mut timed = answered(cases(folder, words), false);
    timed.extend(answered(meant(waves::waves(), words), false));
    let mut copies = copies::Copies::open(&libraries[0], &libraries[1]);
    copies.print_head();
    for files in timed {
        copies.print(&files);
    }
}
