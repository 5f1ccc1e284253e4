//! The four calls: lent memory, the order of refusals 14 to 17 and 12, and the figures of the shift example.

#[path = "common/example.rs"]
mod example;

use example::shift_example;
use inputs::answers::listed;
use inputs::writer::{head, station, table, track, train};
use second::calls::*;
use second::figures::{Lateness, Punctuality, Shares};
use second::joint::{Entry, Kind};
use second::plan::Place;
use second::refusal::Refusal;

/// A row that no call writes.
fn marked() -> Row {
    Some(Entry {
        train: 9,
        place: Place::Gone,
        kind: Kind::Blocks,
        minute: 9,
        cover: vec![9],
    })
}

/// Lent memory of these lengths, marked everywhere.
struct Lent {
    rows: Vec<Row>,
    weights: Vec<u64>,
    bytes: Vec<u8>,
}

impl Lent {
    fn new(rows: usize, weights: usize, bytes: usize) -> Lent {
        Lent {
            rows: vec![marked(); rows],
            weights: vec![9; weights],
            bytes: vec![9; bytes],
        }
    }

    /// Memory with more than the required part.
    fn ample() -> Lent {
        Lent::new(ROWS + 2, WEIGHTS + 2, LISTING + 2)
    }

    fn run(&mut self, case: &[u8], stop: usize) -> Result<usize, Refusal> {
        run(case, &[], stop, &mut self.rows, &mut self.weights)
    }

    fn listing(&mut self, case: &[u8]) -> Result<usize, Refusal> {
        let Lent {
            rows,
            weights,
            bytes,
        } = self;
        listing(case, &[], rows, weights, bytes)
    }

    /// Whether nothing past the required rows and weights has changed.
    fn rest_is_untouched(&self) -> bool {
        self.rows[ROWS..].iter().all(|row| *row == marked())
            && self.weights[WEIGHTS..].iter().all(|weight| *weight == 9)
            && self.bytes[LISTING..].iter().all(|byte| *byte == 9)
    }

    /// Whether the required rows and weights are zero.
    fn is_zero(&self) -> bool {
        self.rows[..ROWS].iter().all(|row| row.is_none())
            && self.weights[..WEIGHTS].iter().all(|weight| *weight == 0)
    }
}

/// The refusal of a call.
fn call<T>(number: u8) -> Result<T, Refusal> {
    Err(Refusal::at(number, 0, 0))
}

#[test]
fn refusal_14_comes_first_and_writes_nothing() {
    for case in [shift_example(), vec![]] {
        for short in [(1, 0, 0), (0, 1, 0), (0, 0, 1), (ROWS, 0, 0)] {
            let mut lent = Lent::new(ROWS - short.0, WEIGHTS - short.1, LISTING - short.2);
            assert_eq!(lent.listing(&case), call(14));
            if short.2 == 0 {
                assert_eq!(lent.run(&case, 999), call(14));
                let answer = figures(&case, &[], 9, 0, &mut lent.rows, &mut lent.weights);
                assert_eq!(answer, call(14));
            }
            assert!(lent.rows.iter().all(|row| *row == marked()));
            assert!(lent.weights.iter().all(|weight| *weight == 9));
            assert!(lent.bytes.iter().all(|byte| *byte == 9));
        }
    }
}

#[test]
fn other_refusals_set_the_required_part_to_zero() {
    let mut small = shift_example();
    small[6..8].copy_from_slice(&[0, 6]);
    let mut lent = Lent::ample();
    assert_eq!(lent.run(&[], 0), Err(Refusal::at(5, 0, 0)));
    assert!(lent.is_zero() && lent.rest_is_untouched());
    let mut lent = Lent::ample();
    assert_eq!(lent.run(&shift_example(), 21), call(17));
    assert!(lent.is_zero() && lent.rest_is_untouched());
    let mut lent = Lent::ample();
    assert_eq!(lent.listing(&small), call(12));
    assert!(lent.is_zero() && lent.rest_is_untouched());
    assert!(lent.bytes[..LISTING].iter().all(|byte| *byte == 0));
    let mut lent = Lent::ample();
    let answer = figures(&small, &[], 2, 0, &mut lent.rows, &mut lent.weights);
    assert_eq!(answer, call(16));
    assert!(lent.is_zero() && lent.rest_is_untouched());
}

#[test]
fn an_answer_fills_the_required_part() {
    let mut lent = Lent::ample();
    let length = lent.listing(&shift_example()).expect("accepted");
    assert!(lent.rest_is_untouched());
    assert!(lent.bytes[..length].iter().all(|byte| *byte != 0));
    assert!(lent.bytes[length..LISTING].iter().all(|byte| *byte == 0));
    let mut expected = vec![0; WEIGHTS];
    expected[6] = 6_000;
    expected[9] = 4_000;
    expected[720 + 11] = 3_600;
    expected[720 + 13] = 2_400;
    expected[720 + 14] = 4_000;
    assert_eq!(lent.weights[..WEIGHTS], expected);
    let mut of_run = Lent::ample();
    let rows = of_run.run(&shift_example(), 20).expect("accepted");
    assert_eq!(of_run.rows, lent.rows);
    assert!(lent.rows[..rows].iter().all(|row| row.is_some()));
    assert!(lent.rows[rows..ROWS].iter().all(|row| row.is_none()));
}

#[test]
fn refusal_15_comes_before_16_in_the_single_run() {
    let case = shift_example();
    for choice in [&[][..], &[0], &[0, 0, 0], &[2, 0], &[0, 2], &[0, 255]] {
        for train in [0, 1, 2, 255] {
            assert_eq!(single(&case, &[], choice, train), call(15));
        }
    }
    for train in [2, 7, 255] {
        assert_eq!(single(&case, &[], &[0, 1], train), call(16));
    }
    assert_eq!(single(&[], &[], &[], 9), Err(Refusal::at(5, 0, 0)));
}

#[test]
fn refusal_17_comes_before_12_and_a_stopped_run_meets_12_only_so_far() {
    // The list is longest, with 7 entries, for the first time after minute 6.
    let mut case = shift_example();
    case[6..8].copy_from_slice(&[0, 6]);
    let mut lent = Lent::ample();
    assert_eq!(lent.run(&case, 21), call(17));
    assert_eq!(lent.run(&case, 5), Ok(5));
    let first_refused = (0..=20).find(|stop| lent.run(&case, *stop) == call(12));
    assert_eq!(first_refused, Some(6));
    assert!((6..=20).all(|stop| lent.run(&case, stop) == call(12)));
    case[7] = 3;
    assert_eq!(lent.run(&case, 0), call(12));
    assert_eq!(lent.run(&case, 21), call(17));
    assert_eq!(single(&case, &[], &[1, 1], 1), Ok(Some(14)));
}

/// The figures of a train of a case for a limit.
fn figures_of(case: &[u8], train: usize, limit: u16) -> second::figures::Figures {
    let mut lent = Lent::ample();
    figures(case, &[], train, limit, &mut lent.rows, &mut lent.weights).expect("accepted")
}

#[test]
fn figures_of_the_shift_example() {
    // Train 1 is planned for minute 11 and arrives in minutes 11, 13 and 14 with 3,600, 2,400 and 4,000.
    let case = shift_example();
    for (limit, on_time) in [(0, 0.36), (1, 0.36), (2, 0.6)] {
        let one = figures_of(&case, 1, limit);
        assert_eq!(one.punctuality, Punctuality::Share(on_time));
        let late = if limit == 2 { 0.4 } else { 0.64 };
        let missing = 0.0;
        let shares = Shares {
            on_time,
            late,
            missing,
        };
        assert_eq!(one.shares, shares);
        let lateness = Lateness {
            sum: 2 * 2_400 + 3 * 4_000,
            weight: 10_000,
        };
        assert_eq!(one.lateness, lateness);
    }
    assert_eq!(figures_of(&case, 1, 3).punctuality, Punctuality::Always);
    assert_eq!(
        figures_of(&case, 1, 65_535).punctuality,
        Punctuality::Always
    );
    let mut short = case.clone();
    short[4] = 13;
    let cut_off = figures_of(&short, 1, 65_535);
    assert_eq!(cut_off.punctuality, Punctuality::Share(0.6));
    assert_eq!((cut_off.shares.late, cut_off.shares.missing), (0.0, 0.4));
    let lateness = Lateness {
        sum: 2 * 2_400,
        weight: 6_000,
    };
    assert_eq!(cut_off.lateness, lateness);
}

#[test]
fn never_and_always_at_the_ends_and_seven_trains_weigh_10_to_the_14() {
    let one = train(0, 1, &[(0, 0, 1), (1, 5, 6)]);
    let fields = [
        head(30, 0, 1024),
        station(255),
        station(255),
        track(0, 1, 255),
        one.repeat(7),
        table(1, &[(4, 99), (30, 1)]),
    ];
    let case = fields.concat();
    let never = figures_of(&case, 6, 3);
    assert_eq!(never.punctuality, Punctuality::Never);
    assert_eq!(never.weights.whole, 100_000_000_000_000);
    assert_eq!((never.shares.late, never.shares.missing), (0.99, 0.01));
    assert_eq!(never.lateness.sum, 4 * never.lateness.weight);
    assert_eq!(
        figures_of(&case, 6, 4).punctuality,
        Punctuality::Share(0.99)
    );
    let text = listed(&case, &[]).expect("accepted");
    let lines: Vec<&str> = text.lines().take(3).collect();
    let expected = [
        "total 100000000000000",
        "0 9 99000000000000",
        "0 - 1000000000000",
    ];
    assert_eq!(lines, expected);
}
