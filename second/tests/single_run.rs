//! Single runs worked out by hand: stops of no length, ends of blocks, priorities and capacities.

use inputs::writer::{head, station, table, track, train};
use second::plan::{Place, Plan};
use second::single::{run, Block, Standing};

/// A case with two stations and one track of this capacity, a safety time, and trains of one delay of 0.
fn line(safety: u8, capacity: u8, trains: &[Vec<u8>]) -> Plan {
    let fields = [
        head(40, safety, 1024),
        station(capacity),
        station(capacity),
        track(0, 1, capacity),
        trains.concat(),
        table(0, &[(0, 100)]),
    ];
    Plan::read(&fields.concat(), &[]).expect("a sound case")
}

/// A train of this priority that stops for no time at minutes 0 and 3.
fn quick(priority: u8) -> Vec<u8> {
    train(priority, 0, &[(0, 0, 0), (1, 3, 3)])
}

/// The minutes of arrival of all trains.
fn arrivals(plan: &Plan) -> Vec<Option<u32>> {
    run(plan, &vec![0; plan.trains()]).arrivals
}

#[test]
fn a_stop_of_no_length_is_left_in_its_minute() {
    // What is left in minute 0 or 3 with a safety time of 1 is blocked in that minute and free in the next, which is the block's end.
    let plan = line(1, 1, &[quick(0)]);
    let after = run(&plan, &[0]).after;
    let on_track = Standing {
        place: Place::Track(0),
        due: 3,
    };
    assert_eq!(after[0].standing, [on_track]);
    let block = |place, end| Block {
        train: 0,
        place,
        end,
    };
    assert_eq!(after[0].blocks, [block(Place::Station(0), 1)]);
    assert_eq!(after[1].blocks, []);
    let gone = Standing {
        place: Place::Gone,
        due: 3,
    };
    assert_eq!(after[3].standing, [gone]);
    let left = [block(Place::Track(0), 4), block(Place::Station(1), 4)];
    assert_eq!(after[3].blocks, left);
    assert_eq!(after[4].blocks, []);
    assert_eq!(after[40].standing, [gone]);
    assert_eq!(after.len(), 41);
}

#[test]
fn an_element_is_free_in_the_minute_that_is_the_end_of_its_block() {
    // The first train leaves the track in minute 3, and the second enters it in the minute 3 + safety time and drives for 3 minutes. With a safety time of 0
    // that is minute 3 itself, since the first has left for station 1, which is visited before the track.
    for safety in 0..4 {
        let plan = line(safety, 1, &[quick(0), quick(0)]);
        let second = 3 + u32::from(safety) + 3;
        assert_eq!(arrivals(&plan), [Some(3), Some(second)]);
    }
}

#[test]
fn priority_goes_before_train_number() {
    // Whichever goes second enters the track in minute 3, in which the other leaves it.
    let equal = line(0, 1, &[quick(7), quick(7)]);
    assert_eq!(arrivals(&equal), [Some(3), Some(6)]);
    let second_first = line(0, 1, &[quick(7), quick(6)]);
    assert_eq!(arrivals(&second_first), [Some(6), Some(3)]);
}

#[test]
fn two_trains_fill_a_capacity_of_2() {
    let plan = line(0, 2, &[quick(0), quick(0), quick(0)]);
    // The third enters station 0 in minute 1 and the track in minute 3, in which the others leave it.
    assert_eq!(arrivals(&plan), [Some(3), Some(3), Some(6)]);
}

#[test]
fn a_late_train_keeps_its_full_planned_lengths() {
    // Train 0 stands from 0 to 4, drives 6 minutes and stands from 10 to 12. Train 1 comes in at 5, the end of the block that train 0 has left at 4, and is
    // due at 9; it waits for the track to the end, 11, of the block that train 0 has left there at 10.
    let slow = || train(0, 0, &[(0, 0, 4), (1, 10, 12)]);
    let plan = line(1, 1, &[slow(), slow()]);
    let run = run(&plan, &[0, 0]);
    let second = |minute: usize| run.after[minute].standing[1];
    assert_eq!(second(4).place, Place::Outside);
    assert_eq!((second(5).place, second(5).due), (Place::Station(0), 9));
    assert_eq!((second(10).place, second(10).due), (Place::Station(0), 9));
    assert_eq!((second(11).place, second(11).due), (Place::Track(0), 17));
    assert_eq!((second(17).place, second(17).due), (Place::Station(1), 19));
    assert_eq!((second(19).place, second(19).due), (Place::Gone, 19));
    assert_eq!(run.arrivals, [Some(10), Some(17)]);
}

#[test]
fn a_train_due_past_the_last_minute_never_enters() {
    let fields = [
        head(12, 0, 1024),
        station(1),
        station(1),
        track(0, 1, 1),
        train(0, 0, &[(0, 2, 3), (1, 6, 7)]),
        table(0, &[(6, 40), (7, 30), (10, 20), (11, 10)]),
    ];
    let plan = Plan::read(&fields.concat(), &[]).expect("a sound case");
    let arrival = |choice: u8| run(&plan, &[choice]).arrivals[0];
    assert_eq!(arrival(0), Some(12));
    assert_eq!((arrival(1), arrival(2), arrival(3)), (None, None, None));
    let last = |choice: u8| run(&plan, &[choice]).after[12].standing[0];
    assert_eq!((last(2).place, last(2).due), (Place::Station(0), 13));
    assert_eq!((last(3).place, last(3).due), (Place::Outside, 13));
}
