//! Trains that meet on coupled tracks, worked out by hand from request 1 of 02: listings, rows and single runs.

use inputs::answers::listed;
use inputs::branches::{each_waits, passing_station, two_abreast, two_stations};
use second::calls::single;
use second::joint;
use second::plan::{Place, Plan};
use second::rows::row_text;
use second::single::{run, Block};

/// The rows after a minute as text.
fn rows(case: &[u8], minute: u32) -> Vec<String> {
    let plan = Plan::read(case, &[]).expect("a sound case");
    let joint = joint::run(&plan, minute).expect("the list stays within the room");
    joint.list.iter().map(row_text).collect()
}

/// The minutes of arrival of all trains under a choice.
fn arrivals(case: &[u8], choice: &[u8]) -> Vec<Option<u32>> {
    let of = |train| single(case, &[], choice, train).expect("a sound case");
    (0..choice.len()).map(of).collect()
}

#[test]
fn partners_are_named_by_either_track_of_a_couple() {
    let plan = Plan::read(&passing_station(1), &[]).expect("a sound case");
    let track = Place::Track;
    let partners = [0, 1, 2, 3].map(|number| plan.partner(track(number)));
    assert_eq!(partners, [1, 0, 3, 2].map(|number| Some(track(number))));
    for place in [Place::Outside, Place::Station(0), Place::Gone] {
        assert_eq!(plan.partner(place), None);
    }
    let mut uncoupled = passing_station(1);
    uncoupled.truncate(uncoupled.len() - 5);
    let plan = Plan::read(&uncoupled, &[]).expect("a sound case");
    let partners = [0, 1, 2, 3].map(|number| plan.partner(track(number)));
    assert_eq!(partners, [Some(track(1)), Some(track(0)), None, None]);
}

#[test]
fn two_trains_meet_at_a_passing_station_in_both_orders() {
    // On time, both reach the passing station in minute 6 and leave it in minute 7, for which the other's block must have its end by then; they drive 3
    // minutes. If one is late, it comes in at 9 and leaves at 10; the other waits from minute 7 to the end, 9 + safety time, of the block that it has left
    // behind it. If both are late, they leave in minute 10, or at the end of the other's block.
    let by_safety = [
        (0, [[10, 10], [12, 13], [13, 12], [13, 13]]),
        (1, [[10, 10], [13, 13], [13, 13], [13, 13]]),
        (2, [[11, 11], [14, 13], [13, 14], [14, 14]]),
        (3, [[12, 12], [15, 13], [13, 15], [15, 15]]),
    ];
    for (safety, minutes) in by_safety {
        let case = passing_station(safety);
        for (choice, minutes) in [[0, 0], [0, 1], [1, 0], [1, 1]].iter().zip(minutes) {
            assert_eq!(arrivals(&case, choice), minutes.map(Some));
        }
    }
}

#[test]
fn two_trains_that_meet_at_a_passing_station_are_listed() {
    // The choices (0,0), (0,1), (1,0) and (1,1) weigh 4,200, 1,800, 2,800 and 1,200.
    let printed = "total 10000
0 10 4200
0 13 5800
0 - 0
1 10 4200
1 13 5800
1 - 0
";
    assert_eq!(listed(&passing_station(1), &[]), Ok(printed.to_string()));
    let printed = "total 10000
0 11 4200
0 13 2800
0 14 3000
0 - 0
1 11 4200
1 13 1800
1 14 4000
1 - 0
";
    assert_eq!(listed(&passing_station(2), &[]), Ok(printed.to_string()));
}

#[test]
fn pieces_inside_the_partners_entries_are_held_in_cutting_order() {
    // In minute 7 train 1 asks for track 1 and meets on track 0 the block of train 0 on time, whose end is 8, and then train 0 late; and train 0 likewise.
    let case = passing_station(2);
    let after_7 = [
        "0,s1,stands,7,1.1",
        "0,s1,stands,7,1.2",
        "0,t0,blocks,8,1.3",
        "1,s1,stands,7,1.1",
        "1,s1,stands,7,2.1",
        "1,t3,blocks,8,3.1",
        "0,t0,stands,9,2.3",
        "0,s0,blocks,8,2.3",
        "1,t3,stands,9,3.2",
        "1,s2,blocks,8,3.2",
    ];
    assert_eq!(rows(&case, 7), after_7);
    // In minute 8 the blocks are gone: the pieces without a late train enter, the others are held again.
    let after_8 = [
        "0,s1,stands,7,1.2",
        "1,s1,stands,7,2.1",
        "0,t0,stands,9,2.3",
        "1,t3,stands,9,3.2",
        "1,t1,stands,11,1.1",
        "1,s1,blocks,10,1.1",
        "0,t2,stands,11,1.1",
        "0,s1,blocks,10,1.1",
    ];
    assert_eq!(rows(&case, 8), after_8);
}

#[test]
fn two_trains_that_wait_for_each_other_never_arrive() {
    let case = each_waits();
    assert_eq!(arrivals(&case, &[0, 0]), [None, None]);
    assert_eq!(arrivals(&case, &[0, 1]), [Some(4), Some(11)]);
    let printed = "total 10000\n0 4 5000\n0 - 5000\n1 11 5000\n1 - 5000\n";
    assert_eq!(listed(&case, &[]), Ok(printed.to_string()));
    let last = [
        "0,t0,stands,4,1.1",
        "1,s1,stands,3,1.1",
        "0,gone,stands,5,1.2",
        "1,gone,stands,12,1.2",
    ];
    assert_eq!(rows(&case, 12), last);
    // Without the couple they pass each other: train 1 leaves in minute 3, and train 0 comes in at 4.
    let uncoupled = &case[..case.len() - 5];
    assert_eq!(arrivals(uncoupled, &[0, 0]), [Some(4), Some(6)]);
}

#[test]
fn two_trains_in_one_direction_fill_a_coupled_track_for_two() {
    let case = two_abreast();
    // Train 2 enters in minute 5, the end of the block that train 0 has left at 4, and comes in at 9; train 3 enters in minute 10, the end of the block of
    // train 2.
    let minutes = [Some(4), Some(5), Some(9), Some(14)];
    assert_eq!(arrivals(&case, &[0; 4]), minutes);
    let plan = Plan::read(&case, &[]).expect("a sound case");
    let after = run(&plan, &[0; 4]).after;
    let places = |minute: usize| -> Vec<Place> {
        let standing = after[minute].standing.iter();
        standing.map(|standing| standing.place).collect()
    };
    let (there, back) = (Place::Track(0), Place::Track(1));
    let stations = [Place::Station(0), Place::Station(1)];
    assert_eq!(places(3), [there, there, stations[0], stations[1]]);
    assert_eq!(places(4), [Place::Gone, there, stations[0], stations[1]]);
    assert_eq!(places(5), [Place::Gone, Place::Gone, there, stations[1]]);
    let block = Block {
        train: 2,
        place: there,
        end: 10,
    };
    assert!(after[9].blocks.contains(&block));
    assert_eq!(places(9)[3], stations[1]);
    assert!(!after[10].blocks.contains(&block));
    assert_eq!(places(10)[3], back);
}

#[test]
fn a_block_keeps_the_partner_up_to_its_end_and_none_keeps_it_with_a_safety_time_of_0() {
    // Train 0 drives from minute 0 to 3, so that its block has the end 3 + safety time; in that minute and not before train 1 drives back, for 3 minutes.
    let trains = [[(0, 0, 0), (1, 3, 3)], [(1, 1, 1), (0, 4, 4)]];
    for safety in 0..4u8 {
        for capacity in [1, 2, 255] {
            for coupled in [(0, 1), (1, 0)] {
                let case = two_stations(safety, capacity, &trains, &[(0, 100)], coupled);
                let enters = 3 + u32::from(safety);
                assert_eq!(arrivals(&case, &[0, 0]), [Some(3), Some(enters + 3)]);
                let waits = "1,s1,stands,1,1.1".to_string();
                let drives = format!("1,t1,stands,{},1.1", enters + 3);
                assert!(rows(&case, enters - 1).contains(&waits));
                assert!(!rows(&case, enters).contains(&waits));
                assert!(rows(&case, enters).contains(&drives));
            }
        }
    }
}

#[test]
fn of_two_that_ask_in_one_minute_the_lower_track_is_entered_whatever_the_train() {
    // Both stand ready in minute 0. Track 0 is visited before track 1, so that train 0 goes back in minute 3, in which train 1 leaves the rails without a
    // block.
    let trains = [[(1, 0, 0), (0, 3, 3)], [(0, 0, 0), (1, 3, 3)]];
    for coupled in [(0, 1), (1, 0)] {
        let case = two_stations(0, 1, &trains, &[(0, 100)], coupled);
        assert_eq!(arrivals(&case, &[0, 0]), [Some(6), Some(3)]);
    }
}
