//! The errors of the plain engine (request 2 of 02): the shift example has the answer worked out by hand, and with the error built in another one; the joint
//! run, which has not the error, has other weights then; and the questions of the comparison catch it too.

use inputs::generator::Files;
use inputs::questions::{of_seed, Call};
use second::calls::{plain, MINUTES, WEIGHTS};

/// What the plain engine says: the number of choices run, or of the refusal, and the weights by train and minute that are not 0.
type Told = (Result<u64, u8>, Vec<(usize, usize, u64)>);

/// The weights that are not 0, by train and minute.
fn arrived(weights: &[u64]) -> Vec<(usize, usize, u64)> {
    let weights = weights.iter().enumerate();
    weights
        .filter(|(_, weight)| **weight > 0)
        .map(|(at, weight)| (at / MINUTES, at % MINUTES, *weight))
        .collect()
}

/// What the second program's plain engine says.
fn told(files: &Files, stop: usize) -> Told {
    let mut weights = vec![0; WEIGHTS];
    let answer = plain(&files.case, &files.book, stop, &mut weights);
    (answer.map_err(|refusal| refusal.number), arrived(&weights))
}

/// What the plain engine with an error says, and the weights of that program's run, which are the right ones.
macro_rules! told_with {
    ($error:ident, $files:expr, $stop:expr) => {{
        use errors::$error::calls::{plain, run, ROWS};
        let (mut weights, mut joint) = (vec![0; WEIGHTS], vec![0; WEIGHTS]);
        let (case, book, stop): (&[u8], &[u8], usize) = (&$files.case, &$files.book, $stop);
        let answer = plain(case, book, stop, &mut weights);
        let run = run(case, book, stop, &mut vec![None; ROWS], &mut joint);
        let same = run.is_err() || weights == joint;
        let told: Told = (answer.map_err(|refusal| refusal.number), arrived(&weights));
        (told, same)
    }};
}

/// The shift example.
fn shift() -> Files {
    Files {
        case: include_bytes!("../../../examples/shift.case").to_vec(),
        book: Vec::new(),
    }
}

#[test]
fn without_an_error_four_choices_arrive_as_in_the_listing() {
    // The choices (0,0), (0,3), (3,0) and (3,3) weigh 3,600, 2,400, 2,400 and 1,600, and bring train 1 in at 11, 14, 13 and 14.
    let arrivals = vec![
        (0, 6, 6_000),
        (0, 9, 4_000),
        (1, 11, 3_600),
        (1, 13, 2_400),
        (1, 14, 4_000),
    ];
    assert_eq!(told(&shift(), 20), (Ok(4), arrivals));
}

#[test]
fn the_last_choice_left_out_takes_its_weight_from_both_trains() {
    let (told, same) = told_with!(last_choice, shift(), 20);
    // The choice (3,3) weighs 1,600, and brings train 0 in at 9 and train 1 at 14.
    let arrivals = vec![
        (0, 6, 6_000),
        (0, 9, 2_400),
        (1, 11, 3_600),
        (1, 13, 2_400),
        (1, 14, 2_400),
    ];
    assert_eq!(told, (Ok(3), arrivals));
    assert!(!same);
}

#[test]
fn a_weight_added_in_the_minute_after_is_a_minute_late() {
    let (told, same) = told_with!(minute_after, shift(), 20);
    let arrivals = vec![
        (0, 7, 6_000),
        (0, 10, 4_000),
        (1, 12, 3_600),
        (1, 14, 2_400),
        (1, 15, 4_000),
    ];
    assert_eq!(told, (Ok(4), arrivals));
    assert!(!same);
}

#[test]
fn a_count_without_a_trains_table_runs_only_the_choices_with_its_first_delay() {
    let (told, same) = told_with!(count_without_table, shift(), 20);
    // Train 0 is always on time: (0,0) weighs 3,600 and (0,3) weighs 2,400.
    let arrivals = vec![(0, 6, 6_000), (1, 11, 3_600), (1, 14, 2_400)];
    assert_eq!(told, (Ok(2), arrivals));
    assert!(!same);
}

/// How many of the plain engine's whole runs that are asked of the first seed's inputs are answered otherwise with an error, and in how many of these the
/// run has other weights.
macro_rules! caught {
    ($error:ident) => {{
        let (mut otherwise, mut beside_run) = (0, 0);
        for asked in of_seed(1) {
            for question in asked.questions.iter().filter(|q| q.short_of().is_none()) {
                if let Call::Plain { stop } = question.call {
                    let (with_error, same) = told_with!($error, asked.files, stop);
                    otherwise += usize::from(with_error != told(&asked.files, stop));
                    beside_run += usize::from(!same);
                }
            }
        }
        (otherwise, beside_run)
    }};
}

#[test]
fn the_comparison_catches_each_error_beside_the_second_program_and_beside_the_run() {
    let caught = [
        caught!(last_choice),
        caught!(minute_after),
        caught!(count_without_table),
    ];
    println!("{caught:?}");
    for (otherwise, beside_run) in caught {
        assert!(otherwise > 0 && beside_run > 0);
    }
}
