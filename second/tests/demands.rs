//! Demands 2 and 3 on generated cases: the joint run against the enumeration of all choices by the single run.

use inputs::generator::{sound, Chance, Files, Size};
use inputs::meeting::{crossing, long_branch, meeting};
use inputs::trace::{held_counts, split_further};
use inputs::waits::holder;
use second::cover::covers;
use second::enumeration::{all_choices, arrivals};
use second::joint::{Entry, JointRun, Kind};
use second::plan::{Place, Plan};
use second::refusal;
use second::single::{self, Block, SingleRun, Standing, State};

/// What was seen over many cases.
#[derive(Debug, Default)]
struct Seen {
    answered: usize,
    refused_room: usize,
    longest_list: usize,
    not_arrived: usize,
    /// What splits have left of held entries, by generation.
    splits: [usize; 32],
    held_at_capacity_2: usize,
    held_at_partner: usize,
    /// Of each choice and minute, the couples of which one track holds a train.
    taken: usize,
    /// The answered cases with a safety time of 0, of 1 and above.
    by_safety: [usize; 3],
}

/// Runs one case in step with the single runs of all its choices and compares after every minute.
fn compare(files: &Files, seen: &mut Seen) {
    let plan = Plan::read(&files.case, &files.book).expect("a drawn case is sound");
    let choices = all_choices(&plan);
    let runs: Vec<SingleRun> = choices.iter().map(|c| single::run(&plan, c)).collect();
    let mut joint = JointRun::start(&plan).expect("the first list is short");
    let mut generations = vec![0; joint.list.len()];
    for t in 0..=plan.head.last_minute {
        let before = joint.list.clone();
        if let Err(number) = joint.visit(&plan, t) {
            assert_eq!(number, refusal::ROOM);
            seen.refused_room += 1;
            return;
        }
        generations = split_further(&before, &generations, &joint.list, &mut seen.splits);
        seen.longest_list = seen.longest_list.max(joint.list.len());
        let held = held_counts(&plan, &joint.list, t);
        seen.held_at_capacity_2 += held.iter().filter(|count| **count == 2).count();
        seen.held_at_partner += held_at_partner(&plan, &joint.list, t);
        for (choice, run) in choices.iter().zip(&runs) {
            let here = compare_choice(&plan, &joint.list, choice, &run.after[t as usize]);
            seen.taken += taken_couples(&plan, &here);
        }
    }
    assert_eq!(joint.arrivals, arrivals(&plan));
    seen.answered += 1;
    seen.by_safety[plan.head.safety.min(2) as usize] += 1;
    seen.not_arrived += runs
        .iter()
        .filter(|run| run.arrivals.contains(&None))
        .count();
}

/// How many entries are held at the partner after a minute.
fn held_at_partner(plan: &Plan, list: &[Entry], t: u32) -> usize {
    let standing = list.iter().filter(|entry| entry.kind == Kind::Stands);
    standing
        .filter(|entry| entry.minute <= t && holder(plan, list, entry).is_some())
        .count()
}

/// Demand 3 for one choice after one minute: one standing entry per train, the same blocks, no element too full. Gives the choice's entries.
fn compare_choice<'a>(
    plan: &Plan,
    list: &'a [Entry],
    choice: &[u8],
    state: &State,
) -> Vec<&'a Entry> {
    let here: Vec<&Entry> = list.iter().filter(|e| covers(&e.cover, choice)).collect();
    for (train, standing) in state.standing.iter().enumerate() {
        let of_train: Vec<Standing> = here
            .iter()
            .filter(|e| e.kind == Kind::Stands && e.train == train)
            .map(|e| Standing {
                place: e.place,
                due: e.minute,
            })
            .collect();
        assert_eq!(of_train, [*standing]);
    }
    let mut blocks: Vec<Block> = here
        .iter()
        .filter(|e| e.kind == Kind::Blocks)
        .map(|e| Block {
            train: e.train,
            place: e.place,
            end: e.minute,
        })
        .collect();
    let mut expected = state.blocks.clone();
    blocks.sort();
    expected.sort();
    assert_eq!(blocks, expected);
    for element in plan.elements() {
        let trains = here.iter().filter(|e| e.place == element).count();
        assert!(plan.capacity(element).map_or(true, |most| trains <= most));
    }
    here
}

/// What request 1 adds to demand 3: both tracks of a couple hold no train in one choice. Gives the couples of which one does.
fn taken_couples(plan: &Plan, here: &[&Entry]) -> usize {
    let holds = |track: usize| here.iter().any(|entry| entry.place == Place::Track(track));
    let mut taken = 0;
    for couple in &plan.case.couples {
        let [one, other] = couple.map(holds);
        assert!(!(one && other), "{couple:?}: {here:?}");
        taken += usize::from(one || other);
    }
    taken
}

/// Compares the cases that are drawn from a range of seeds.
fn compare_drawn(seeds: std::ops::Range<u64>, draw: impl Fn(&mut Chance) -> Files) -> Seen {
    let mut seen = Seen::default();
    for seed in seeds {
        compare(&draw(&mut Chance::new(seed)), &mut seen);
    }
    println!("{seen:?}");
    seen
}

/// Compares the cases without couples of a range of seeds.
fn compare_seeds(seeds: std::ops::Range<u64>, size: Size) -> Seen {
    compare_drawn(seeds, |chance| sound(chance, size))
}

/// A size with the full room.
fn size(trains: (usize, usize), delays: (usize, usize), stretch: usize) -> Size {
    Size {
        trains,
        delays,
        small_room: 0,
        stretch,
    }
}

/// Asserts that held entries were split a first, a second and a third time, and that elements of capacity 2 were full.
fn assert_contention(seen: &Seen) {
    assert!(seen.splits[1..=3].iter().all(|splits| *splits > 0));
    assert!(seen.held_at_capacity_2 > 0);
}

#[test]
fn two_to_five_trains_with_one_to_four_delays() {
    let seen = compare_seeds(1..801, size((2, 5), (1, 4), 1));
    assert!(seen.answered > 700 && seen.not_arrived > 0);
    assert!(seen.by_safety.iter().all(|cases| *cases > 150));
    assert_contention(&seen);
}

#[test]
fn four_and_five_trains_with_three_and_four_delays() {
    let seen = compare_seeds(1_001..1_101, size((4, 5), (3, 4), 1));
    assert!(seen.answered > 50 && seen.refused_room > 0);
    assert_contention(&seen);
}

#[test]
fn six_and_seven_trains_with_one_or_two_delays() {
    let seen = compare_seeds(2_001..2_101, size((6, 7), (1, 2), 1));
    assert!(seen.answered > 50);
    assert_contention(&seen);
}

#[test]
fn two_and_three_trains_with_five_to_eight_delays() {
    let seen = compare_seeds(3_001..3_201, size((2, 3), (5, 8), 1));
    assert!(seen.answered > 100);
    assert_contention(&seen);
}

#[test]
fn long_windows_with_long_delays_and_safety_times() {
    let seen = compare_seeds(4_001..4_061, size((2, 4), (1, 4), 14));
    assert!(seen.answered > 30);
    assert_contention(&seen);
}

/// Asserts that trains were on coupled tracks, and that entries were held at the partner.
fn assert_meetings(seen: &Seen) {
    assert!(seen.taken > 0 && seen.held_at_partner > 0);
}

#[test]
fn two_to_five_trains_that_meet() {
    let size = size((2, 5), (1, 4), 1);
    let seen = compare_drawn(6_001..6_301, |chance| meeting(chance, size));
    assert!(seen.answered > 200 && seen.not_arrived > 0);
    assert!(seen.by_safety.iter().all(|cases| *cases > 50));
    assert_meetings(&seen);
    assert_contention(&seen);
}

#[test]
fn six_and_seven_trains_that_meet() {
    let size = size((6, 7), (1, 2), 1);
    let seen = compare_drawn(6_601..6_661, |chance| meeting(chance, size));
    assert!(seen.answered > 50);
    assert_meetings(&seen);
    assert_contention(&seen);
}

#[test]
fn two_and_three_trains_with_many_delays_that_meet() {
    let size = size((2, 3), (5, 8), 1);
    let seen = compare_drawn(6_701..6_751, |chance| meeting(chance, size));
    assert!(seen.answered > 30);
    assert_meetings(&seen);
    assert_contention(&seen);
}

#[test]
fn trains_that_meet_in_long_windows_and_on_long_branches() {
    let size = size((2, 4), (1, 4), 14);
    let seen = compare_drawn(6_801..6_831, |chance| meeting(chance, size));
    assert!(seen.answered > 20);
    assert_meetings(&seen);
    let seen = compare_drawn(6_861..6_901, long_branch);
    assert_eq!(seen.answered, 40);
    assert!(seen.taken > 0);
}

#[test]
fn trains_that_cross_on_a_track_for_one_to_five() {
    for capacity in 1..=5 {
        let seeds = 7_000 + 10 * capacity as u64;
        let seen = compare_drawn(seeds..seeds + 10, |chance| crossing(chance, capacity));
        assert!(seen.answered > 5);
        assert_meetings(&seen);
    }
}
