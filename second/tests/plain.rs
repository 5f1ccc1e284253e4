//! The plain engine: its choices in their order, its weights at every stop beside those of the joint run, and its refusals.

#[path = "common/example.rs"]
mod example;

use example::shift_example;
use inputs::branches::{longest, passing_station};
use inputs::generator::{sound, Chance, Files, Size};
use inputs::meeting::meeting;
use inputs::writer::{head, station, table, track, train};
use second::calls::{plain, plain_part, run, MINUTES, ROWS, WEIGHTS};
use second::enumeration::all_choices;
use second::plain::{choice, choices};
use second::plan::Plan;
use second::refusal::{Refusal, ROOM};

/// Weights that are not 0: train, minute, weight.
type Arrivals = Vec<(usize, usize, u64)>;

/// The weights that are not 0.
fn arrived(weights: &[u64]) -> Arrivals {
    let weights = weights[..WEIGHTS].iter().enumerate();
    weights
        .filter(|(_, weight)| **weight > 0)
        .map(|(at, weight)| (at / MINUTES, at % MINUTES, *weight))
        .collect()
}

/// The number of choices run of a case without a book, and the arrivals, from weights that are marked when they are lent.
fn plainly(case: &[u8], stop: usize) -> (Result<u64, Refusal>, Arrivals) {
    let mut weights = vec![9; WEIGHTS + 2];
    let answer = plain(case, &[], stop, &mut weights);
    assert_eq!(weights[WEIGHTS..], [9, 9]);
    (answer, arrived(&weights))
}

#[test]
fn the_choices_are_the_product_of_the_tables_and_the_last_trains_delay_changes_fastest() {
    let plan = Plan::read(&shift_example(), &[]).expect("accepted");
    let numbered: Vec<Vec<u8>> = (0..4).map(|number| choice(&plan, number)).collect();
    assert_eq!(numbered, [[0, 0], [0, 1], [1, 0], [1, 1]]);
    let fields = [
        head(20, 0, 1_024),
        station(3).repeat(2),
        track(0, 1, 3),
        [1, 2, 3]
            .map(|of| train(0, of, &[(0, 0, 0), (1, 1, 1)]))
            .concat(),
        table(1, &[(0, 50), (1, 50)]),
        table(2, &[(0, 100)]),
        table(3, &[(0, 20), (1, 30), (2, 50)]),
    ];
    let plan = Plan::read(&fields.concat(), &[]).expect("accepted");
    assert_eq!(choices(&plan), 6);
    let numbered: Vec<Vec<u8>> = (0..6).map(|number| choice(&plan, number)).collect();
    let slowest_first = [
        [0, 0, 0],
        [0, 0, 1],
        [0, 0, 2],
        [1, 0, 0],
        [1, 0, 1],
        [1, 0, 2],
    ];
    assert_eq!(numbered, slowest_first);
    assert_eq!(numbered, all_choices(&plan));
    let plan = Plan::read(&longest(), &[]).expect("accepted");
    assert_eq!(choices(&plan), 2_097_152);
    assert_eq!(choice(&plan, 2_097_151), [7; 7]);
    assert_eq!(choice(&plan, 8 * 8 * 8 * 5 + 3), [0, 0, 0, 5, 0, 0, 3]);
}

#[test]
fn the_shift_example_runs_four_choices_at_every_stop() {
    let case = shift_example();
    let by = [
        (0, 6, 6_000),
        (0, 9, 4_000),
        (1, 11, 3_600),
        (1, 13, 2_400),
        (1, 14, 2_400 + 1_600),
    ];
    for stop in 0..=20 {
        let so_far: Arrivals = by
            .into_iter()
            .filter(|(_, minute, _)| *minute <= stop)
            .collect();
        assert_eq!(plainly(&case, stop), (Ok(4), so_far));
    }
}

#[test]
fn trains_that_meet_at_the_passing_station_arrive_as_each_choice_by_itself() {
    // With a safety time of 2, (0,0) brings both in at 11; (0,1) train 0 at 14 and train 1 at 13; (1,0) train 0 at 13 and train 1 at 14; (1,1) both at 14.
    let arrivals = vec![
        (0, 11, 4_200),
        (0, 13, 2_800),
        (0, 14, 1_800 + 1_200),
        (1, 11, 4_200),
        (1, 13, 1_800),
        (1, 14, 2_800 + 1_200),
    ];
    assert_eq!(plainly(&passing_station(2), 20), (Ok(4), arrivals));
    // With one of 1, (0,0) brings both in at 10, and every other choice both at 13.
    let of_both = [(10, 4_200), (13, 1_800 + 2_800 + 1_200)];
    let arrivals = [0, 1].map(|train| of_both.map(|(minute, weight)| (train, minute, weight)));
    assert_eq!(plainly(&passing_station(1), 20), (Ok(4), arrivals.concat()));
}

#[test]
fn it_answers_where_the_joint_run_has_no_room() {
    let mut case = shift_example();
    for room in [6, 4, 3, 1] {
        case[6..8].copy_from_slice(&[0, room]);
        let (mut rows, mut weights) = (vec![None; ROWS], vec![0; WEIGHTS]);
        let refused = run(&case, &[], 20, &mut rows, &mut weights);
        assert_eq!(refused, Err(Refusal::of_call(ROOM)));
        assert_eq!(plainly(&case, 20), plainly(&shift_example(), 20));
    }
}

#[test]
fn refusal_14_comes_first_and_writes_nothing() {
    for case in [shift_example(), vec![]] {
        for lent in [0, 1, WEIGHTS - 1] {
            let mut weights = vec![9; lent];
            let refused = Err(Refusal::at(14, 0, 0));
            assert_eq!(plain(&case, &[], 999, &mut weights), refused);
            assert_eq!(plain_part(&case, &[], 999, 0, 9, &mut weights), refused);
            assert!(weights.iter().all(|weight| *weight == 9));
        }
    }
}

#[test]
fn the_files_come_before_17_and_every_refusal_but_14_sets_the_weights_to_zero() {
    let case = shift_example();
    let mut small = case.clone();
    small[6..8].copy_from_slice(&[0, 3]);
    let bad_book: &[u8] = &[5, 0];
    let refused = [
        (&case[..], &[][..], 21, Refusal::at(17, 0, 0)),
        (&case, &[], 65_556, Refusal::at(17, 0, 0)),
        (&case, &[], usize::MAX, Refusal::at(17, 0, 0)),
        (&small, &[], 21, Refusal::at(17, 0, 0)),
        (&[], &[], 21, Refusal::at(5, 0, 0)),
        (&case[..52], &[], 21, Refusal::at(11, 0, 22)),
        (&case[..52], &[], 0, Refusal::at(11, 0, 22)),
        (&case, bad_book, 21, Refusal::at(1, 1, 0)),
        (&case[..59], bad_book, 0, Refusal::at(1, 0, 52)),
    ];
    for (case, book, stop, refusal) in refused {
        for in_parts in [false, true] {
            let mut weights = vec![9; WEIGHTS + 2];
            let answer = match in_parts {
                false => plain(case, book, stop, &mut weights),
                true => plain_part(case, book, stop, 1, 0, &mut weights),
            };
            assert_eq!(answer, Err(refusal));
            assert!(weights[..WEIGHTS].iter().all(|weight| *weight == 0));
            assert_eq!(weights[WEIGHTS..], [9, 9]);
        }
    }
}

/// What was seen over many cases.
#[derive(Debug, Default)]
struct Seen {
    same: usize,
    without_room: usize,
    arrived: usize,
}

/// Compares the weights of the plain engine with those of the joint run at every stop at which that answers; the count is the product at all of them.
fn compare(files: &Files, seen: &mut Seen) {
    let Files { case, book } = files;
    let plan = Plan::read(case, book).expect("a drawn case is sound");
    let all = all_choices(&plan).len() as u64;
    for stop in 0..=plan.head.last_minute as usize {
        let (mut rows, mut joint) = (vec![None; ROWS], vec![0; WEIGHTS]);
        let mut weights = vec![9; WEIGHTS];
        assert_eq!(plain(case, book, stop, &mut weights), Ok(all));
        match run(case, book, stop, &mut rows, &mut joint) {
            Ok(_) => {
                assert_eq!(weights, joint);
                seen.same += 1;
            }
            Err(refusal) => {
                assert_eq!(refusal.number, ROOM);
                seen.without_room += 1;
            }
        }
        seen.arrived += arrived(&weights).len();
    }
}

#[test]
fn it_fills_the_same_weights_as_the_joint_run_at_every_stop() {
    let size = Size {
        trains: (1, 4),
        delays: (1, 3),
        small_room: 30,
        stretch: 1,
    };
    let mut seen = Seen::default();
    for seed in 8_001..8_061 {
        compare(&sound(&mut Chance::new(seed), size), &mut seen);
        compare(&meeting(&mut Chance::new(seed), size), &mut seen);
    }
    println!("{seen:?}");
    assert!(seen.same > 1_000 && seen.without_room > 100 && seen.arrived > 1_000);
}
