//! The program `exports`: calls the exported functions from Rust. Its last line is 'N passed, M failed'.
//! `exports calls`: memory of every length, every refusal, the shift example, by the plain engine too, and the layout of the answers.
//! `exports fixed FILE`: compares them with the second program on the fixed inputs, and with the vectors worked out by hand in FILE.
//! `exports seeds SEED [COUNT]`: compares them on the inputs drawn from COUNT seeds, or for ever; a difference ends it and is printed with its seed.
//! `exports spoiled`: shows that the comparison catches exports that are spoiled in one way after another.
//! `exports vectors FILE EXCEPTIONS`: puts the vectors of a stage to them; those of the second file can't hold yet, and are answered as 01 says.
//! `exports changed FILE EXCEPTIONS CHANGES`: shows that each change of these two files is found.

mod called;
mod changed;
mod compare;
mod example;
mod fields;
mod lengths;
mod memory;
mod plain;
mod refusals;
mod said;
mod same;
mod spoiled;
mod tally;
mod vectors;

use called::Linked;
use compare::{agrees, compare};
use fields::differing_place;
use inputs::drawn::COUNTED_SEEDS;
use inputs::questions::{fixed, of_seed, Asked, Question};
use inputs::vectors::{asked, reading, vector};
use said::Heard;
use same::same_weights;
use spoiled::{Spoiled, BESIDE_THE_RUN, WAYS};
use std::process::ExitCode;
use tally::Tally;

fn main() -> ExitCode {
    let words: Vec<String> = std::env::args().skip(1).collect();
    let words: Vec<&str> = words.iter().map(String::as_str).collect();
    let number = |word: &str| word.parse::<u64>().ok();
    match words.as_slice() {
        ["calls"] => calls(),
        ["fixed", file] => fixed_inputs(file),
        ["spoiled"] => spoiled_exports(),
        ["vectors", file, exceptions] => vectors_of_a_stage(file, exceptions),
        ["changed", file, exceptions, changes] => changed_vectors(file, exceptions, changes),
        ["seeds", seed] => match number(seed) {
            Some(seed) => seeds(seed, None),
            None => usage(),
        },
        ["seeds", seed, count] => match (number(seed), number(count)) {
            (Some(seed), Some(count)) => seeds(seed, Some(count)),
            _ => usage(),
        },
        _ => usage(),
    }
}

fn usage() -> ExitCode {
    eprintln!(
        "use: exports calls | fixed FILE | seeds SEED [COUNT] | spoiled \
         | vectors FILE EXCEPTIONS | changed FILE EXCEPTIONS CHANGES"
    );
    ExitCode::from(2)
}

/// What is worked out by hand here.
fn calls() -> ExitCode {
    let mut tally = Tally::default();
    example::the_example(&mut tally);
    plain::the_plain_engine(&mut tally);
    refusals::every_refusal(&mut tally);
    lengths::every_length(&mut tally);
    tally.close()
}

/// The inputs made for a purpose, those of the first seeds, and the vectors of a file.
fn fixed_inputs(file: &str) -> ExitCode {
    let mut tally = Tally::default();
    let inputs = fixed();
    compare(&Linked, &inputs, &mut tally);
    println!("{} inputs", inputs.len());
    for line in text(file).lines() {
        tally.expect(worked(line), || format!("differs: {line}"));
    }
    tally.close()
}

/// The text of a file.
fn text(file: &str) -> String {
    std::fs::read_to_string(file).unwrap_or_else(|error| panic!("{file}: {error}"))
}

/// Whether a vector worked out by hand is what the second program says, and the exports too.
fn worked(line: &str) -> bool {
    match asked(line) {
        None => false,
        Some((files, None)) => reading(&files) == line,
        Some((files, Some(call))) => {
            vector(&files, &call) == line && agrees(&Linked, &files, &Question::exact(call), 0x69)
        }
    }
}

/// The inputs of one seed after another.
fn seeds(first: u64, count: Option<u64>) -> ExitCode {
    let mut all = Tally::default();
    for seed in (first..).take_while(|seed| count.map_or(true, |count| seed - first < count)) {
        let mut tally = Tally::default();
        compare(&Linked, &of_seed(seed), &mut tally);
        if tally.failed > 0 {
            println!("seed {seed} differs");
            return tally.close();
        }
        if count.is_none() {
            println!("seed {seed}: {} passed", tally.passed);
        }
        all.passed += tally.passed;
    }
    all.close()
}

/// Each way in which exports are spoiled is caught by an input of the first seeds; unspoiled they agree.
fn spoiled_exports() -> ExitCode {
    let mut tally = Tally::default();
    let mut unspoiled = Tally::default();
    compare(&Linked, &of_seed(1), &mut unspoiled);
    tally.expect(unspoiled.failed == 0, || {
        "unspoiled they differ".to_string()
    });
    let inputs: Vec<Asked> = (1..=COUNTED_SEEDS).flat_map(of_seed).collect();
    for way in WAYS {
        let spoiled = Spoiled(way);
        let caught = |Asked { files, questions }: &Asked| {
            let mut questions = questions.iter();
            questions.any(|question| !agrees(&spoiled, files, question, 0xA5))
                || differing_place(&spoiled, &files.case).is_some()
        };
        tally.expect(inputs.iter().any(caught), || format!("not caught: {way}"));
    }
    for way in BESIDE_THE_RUN {
        let caught = |Asked { files, questions }: &Asked| {
            same_weights(&Spoiled(way), files, questions) == Some(false)
        };
        tally.expect(inputs.iter().any(caught), || {
            format!("not caught beside the run: {way}")
        });
    }
    tally.close()
}

/// The vectors of a stage, and the exceptions among them.
fn vectors_of_a_stage(file: &str, exceptions: &str) -> ExitCode {
    let mut tally = Tally::default();
    let mut heard = Heard::default();
    for wrong in vectors::found(&text(file), &text(exceptions), &mut heard) {
        tally.expect(wrong.is_none(), || wrong.unwrap_or_default());
    }
    tally.close()
}

/// Each change of the vectors or their exceptions is found.
fn changed_vectors(file: &str, exceptions: &str, changes: &str) -> ExitCode {
    let mut tally = Tally::default();
    changed::changed(&text(file), &text(exceptions), &text(changes), &mut tally);
    tally.close()
}
