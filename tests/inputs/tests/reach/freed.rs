//! The safety times of accepted inputs, and the elements that their runs enter in the very minute in which they become free.

use crate::counts::Counts;
use inputs::branches::{each_waits, passing_station, two_abreast, two_stations};
use inputs::drawn::{drawn, COUNTED_SEEDS};
use inputs::freed::{freed, Freed};
use inputs::generator::Chance;
use inputs::questions::counted;
use inputs::writer::{head, station, table, track, train};
use second::plain::{choice, choices};
use second::plan::Plan;
use std::collections::BTreeSet;

/// How many choices of a case are run at most.
const OF_A_CASE: u64 = 40;

/// The ways in which an element becomes free in the minute in which it is entered.
const WAYS: [(Freed, &str); 4] = [
    (
        Freed::ByEnd,
        "runs that enter a full element in the minute in which a block on it ends",
    ),
    (
        Freed::ByLeaving,
        "runs with safety time 0 that enter a full element in the minute in which it is left",
    ),
    (
        Freed::PartnerByEnd,
        "runs that enter a coupled track in the minute in which a block on its partner ends",
    ),
    (
        Freed::PartnerByLeaving,
        "runs with safety time 0 that enter a coupled track in the minute in which its partner is left",
    ),
];

/// A kind of safety time: what it is called, and whether one is of it.
type Safety = (&'static str, fn(u32) -> bool);

/// Every kind of safety time that is asked for.
const SAFETY: [Safety; 4] = [
    ("cases with safety time 0", |safety| safety == 0),
    ("cases with safety time 1", |safety| safety == 1),
    ("cases with a safety time above 1", |safety| safety > 1),
    ("cases with safety time 30", |safety| safety == 30),
];

/// The ways of a case in its first choices.
fn ways(plan: &Plan) -> BTreeSet<Freed> {
    let first = 0..choices(plan).min(OF_A_CASE);
    first
        .flat_map(|number| freed(plan, &choice(plan, number)))
        .collect()
}

#[test]
fn elements_are_entered_in_the_minute_in_which_they_become_free() {
    let mut counts = Counts::default();
    for files in counted().iter().map(|asked| &asked.files) {
        if let Ok(plan) = Plan::read(&files.case, &files.book) {
            for (name, is) in SAFETY {
                counts.add(name, is(plan.head.safety).into());
            }
            let ways = ways(&plan);
            for (way, name) in WAYS {
                counts.add(name, ways.contains(&way).into());
            }
        }
    }
    for (name, _) in SAFETY {
        counts.ask(name);
    }
    for (_, name) in WAYS {
        counts.ask(name);
    }
    counts.show();
}

#[test]
fn of_the_drawn_cases_a_fifth_or_more_have_each_of_the_safety_times_0_1_and_more() {
    let (mut all, mut of_kind) = (0, [0; 3]);
    for files in (1..=COUNTED_SEEDS).flat_map(|seed| drawn(&mut Chance::new(seed))) {
        if let Ok(plan) = Plan::read(&files.case, &files.book) {
            all += 1;
            of_kind[plan.head.safety.min(2) as usize] += 1;
        }
    }
    println!("{of_kind:?} of {all}");
    assert!(all > 1_000 && of_kind.iter().all(|cases| 5 * cases >= all));
}

/// The ways of a case with an empty book.
fn ways_of(case: &[u8]) -> Vec<Freed> {
    let plan = Plan::read(case, &[]).expect("a sound case");
    ways(&plan).into_iter().collect()
}

#[test]
fn what_became_free_is_told_by_the_state_before() {
    use Freed::*;
    // Train 2 enters the track for two at the end of the block of train 0, and train 3 its partner at the end of the block of train 2.
    assert_eq!(ways_of(&two_abreast()), [ByEnd, PartnerByEnd]);
    // Train 1 enters a station or a track for one at the end of the block of train 0; with a safety time of 0 only the track in the minute in which it is left.
    let line = |safety, stations, on_track| {
        let level = [head(20, safety, 1_024), station(stations).repeat(2)];
        let rides = train(0, 1, &[(0, 2, 4), (1, 7, 8)]).repeat(2);
        let fields = [track(0, 1, on_track), rides, table(1, &[(0, 100)])];
        ways_of(&[level.concat(), fields.concat()].concat())
    };
    assert_eq!((line(1, 1, 2), line(3, 2, 1)), (vec![ByEnd], vec![ByEnd]));
    assert_eq!((line(0, 1, 2), line(0, 2, 1)), (vec![], vec![ByLeaving]));
    assert_eq!((line(0, 2, 2), line(1, 2, 2)), (vec![], vec![]));
    // Train 1 goes back in the minute in which train 0 comes in; or at the end of its block.
    let trains = [[(0, 0, 0), (1, 3, 3)], [(1, 1, 1), (0, 4, 4)]];
    let back = |safety| ways_of(&two_stations(safety, 2, &trains, &[(0, 100)], (0, 1)));
    assert_eq!(
        (back(0), back(1)),
        (vec![PartnerByLeaving], vec![PartnerByEnd])
    );
    // Two trains that wait for each other enter nothing, and in the other choice they are far apart.
    assert_eq!(ways_of(&each_waits()), []);
    // At the passing station whoever waits for a late train goes on when that comes in, or at the end of its block.
    assert_eq!(ways_of(&passing_station(0)), [PartnerByLeaving]);
    assert_eq!(ways_of(&passing_station(2)), [PartnerByEnd]);
}
