//! The errors of the safety time (request 3 of 02): each example has the listing worked out by hand, and with the error built in another answer; and the
//! questions of the comparison catch each error too.

#[path = "common/examples.rs"]
mod examples;

use examples::{case_of, differs, example, listing_with};
use inputs::generator::Files;
use inputs::questions::{of_seed, Call};

/// A safety time of 2 in a station for one.
const LATE: &str = "errors/freeing-late";
/// A safety time of 0 on a track for one.
const NO_LENGTH: &str = "errors/block-of-no-length";
/// The same in a room of 4.
const ROW: &str = "errors/row-of-no-length";

/// What train 1 of the first example does with the old rule, and with blocks that go too early.
const OLD: [&str; 3] = ["1 9 7000", "1 11 3000", "1 - 0"];
const EARLY: [&str; 3] = ["1 7 7000", "1 9 3000", "1 - 0"];

/// What both trains of the second example do where the track is kept in the minute in which it is left.
const KEPT: [[&str; 3]; 2] = [
    ["0 6 7000", "0 11 3000", "0 - 0"],
    ["1 7 3000", "1 10 7000", "1 - 0"],
];

/// Asserts that both trains of the second example wait a minute longer.
fn keeps(wrong: &[u8]) {
    for (train, lines) in KEPT.iter().enumerate() {
        differs(NO_LENGTH, wrong, train, lines);
    }
}

/// The listing that the arrivals of all single runs make, by the program with an error.
macro_rules! enumerated_with {
    ($error:ident, $case:expr) => {{
        let plan = errors::$error::plan::Plan::read(&$case, &[]).expect("accepted");
        let arrivals = errors::$error::enumeration::arrivals(&plan);
        let list = Vec::new();
        let joint = errors::$error::joint::JointRun { list, arrivals };
        errors::$error::listing::listing(&plan, &joint)
    }};
}

#[test]
fn a_block_that_goes_a_minute_too_early_lets_a_train_in_too_early() {
    differs(
        LATE,
        &listing_with!(gone_too_early, case_of(LATE)),
        1,
        &EARLY,
    );
    // A safety time of 0 leaves none that could go.
    let right = listing_with!(gone_too_early, case_of(NO_LENGTH));
    assert_eq!(right, example(&format!("{NO_LENGTH}.listing")));
}

#[test]
fn a_block_of_no_length_keeps_a_track_in_the_minute_in_which_it_is_left() {
    keeps(&listing_with!(block_of_no_length, case_of(NO_LENGTH)));
    // So does the old rule; and with a safety time of 2 there is no such block.
    keeps(&listing_with!(freeing_late, case_of(NO_LENGTH)));
    let right = listing_with!(block_of_no_length, case_of(LATE));
    assert_eq!(right, example(&format!("{LATE}.listing")));
}

#[test]
fn a_row_of_no_length_takes_room_and_changes_nothing_else() {
    use errors::row_of_no_length::{joint::run, plan::Plan};
    let plan = Plan::read(&case_of(ROW), &[]).expect("accepted");
    let list_after = |minute: u32| run(&plan, minute).map(|joint| joint.list.len());
    // In minute 3 the row of station 0, which train 0 leaves, is the fourth; in minute 4 that of station 0, which train 1 leaves, is the fifth.
    assert_eq!([2, 3, 4].map(list_after), [Ok(3), Ok(4), Err(12)]);
    let right = listing_with!(row_of_no_length, case_of(NO_LENGTH));
    assert_eq!(right, example(&format!("{NO_LENGTH}.listing")));
    let right = listing_with!(row_of_no_length, case_of(LATE));
    assert_eq!(right, example(&format!("{LATE}.listing")));
}

#[test]
fn a_joint_run_that_is_not_mended_differs_from_the_single_runs() {
    differs(LATE, &listing_with!(joint_unmended, case_of(LATE)), 1, &OLD);
    keeps(&listing_with!(joint_unmended, case_of(NO_LENGTH)));
    for name in [LATE, NO_LENGTH] {
        let right = enumerated_with!(joint_unmended, case_of(name));
        assert_eq!(right, example(&format!("{name}.listing")));
    }
}

#[test]
fn single_runs_that_are_not_mended_differ_from_the_joint_run() {
    use errors::single_unmended::calls::single;
    assert_eq!(single(&case_of(LATE), &[], &[0, 0], 1), Ok(Some(9)));
    differs(
        LATE,
        &enumerated_with!(single_unmended, case_of(LATE)),
        1,
        &OLD,
    );
    keeps(&enumerated_with!(single_unmended, case_of(NO_LENGTH)));
    for name in [LATE, NO_LENGTH] {
        let right = listing_with!(single_unmended, case_of(name));
        assert_eq!(right, example(&format!("{name}.listing")));
    }
}

/// What a program says to a call: the minute of a single run, the length of a run's list, or the number of choices run, or a refusal; rows and weights.
type Said = (Result<u64, u8>, Vec<String>, Vec<u64>);

/// What the program without or with an error says to a call; listings and figures come from a run, and parts are like the whole.
macro_rules! said {
    ($($program:ident)::+, $files:expr, $call:expr) => {{
        use $($program)::+::calls::{plain, run, single, ROWS, WEIGHTS};
        use $($program)::+::rows::row_text;
        let Files { case, book } = $files;
        let (mut rows, mut weights) = (vec![None; ROWS], vec![0; WEIGHTS]);
        let said = match $call {
            Call::Single { choice, train } => single(case, book, choice, *train)
                .map(|minute| minute.map_or(u64::MAX, u64::from)),
            Call::Run { stop } => {
                run(case, book, *stop, &mut rows, &mut weights).map(|length| length as u64)
            }
            Call::Plain { stop } => plain(case, book, *stop, &mut weights),
            _ => Ok(0),
        };
        let rows = rows.iter().flatten().map(row_text).collect();
        let said: Said = (said.map_err(|refusal| refusal.number), rows, weights);
        said
    }};
}

/// How many of the single runs, the runs and the plain engine's runs that are asked of the first seed's inputs are answered otherwise with an error.
macro_rules! caught {
    ($error:ident) => {{
        let mut otherwise = [0; 3];
        for asked in of_seed(1) {
            for question in asked.questions.iter().filter(|q| q.short_of().is_none()) {
                let call = &question.call;
                let right = said!(second, &asked.files, call);
                let differs = right != said!(errors::$error, &asked.files, call);
                let names = ["single", "run", "plain"];
                if let Some(at) = names.iter().position(|name| *name == call.name()) {
                    otherwise[at] += usize::from(differs);
                }
            }
        }
        println!("{:?} {otherwise:?}", stringify!($error));
        otherwise.map(|count| count > 0)
    }};
}

#[test]
fn the_comparison_catches_each_error_in_the_engines_that_have_it() {
    assert_eq!(caught!(freeing_late), [true, true, true]);
    assert_eq!(caught!(gone_too_early), [true, true, true]);
    assert_eq!(caught!(block_of_no_length), [true, true, true]);
    assert_eq!(caught!(row_of_no_length), [false, true, false]);
    assert_eq!(caught!(joint_unmended), [false, true, false]);
    assert_eq!(caught!(single_unmended), [true, false, true]);
}
