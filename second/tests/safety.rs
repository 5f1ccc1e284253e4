//! The safety time of request 3 of 02, worked out by hand: a block keeps its end, t + safety time, goes at the start of that minute, and with a safety time
//! of 0 there is none.

#[path = "common/example.rs"]
mod example;

use example::shift_example;
use inputs::answers::listed;
use inputs::branches::two_stations;
use inputs::writer::{head, station, table, track, train};
use second::joint::{self, Entry, Kind};
use second::plan::{Place, Plan};
use second::refusal::Refusal;
use second::rows::row_text;
use second::single::{run, SingleRun};

/// A case with two stations for this many trains and a track for so many, a safety time, and trains of one delay of 0.
fn line(safety: u8, stations: u8, on_track: u8, trains: &[[(u8, u16, u16); 2]]) -> Vec<u8> {
    let rides = trains.iter().flat_map(|stops| train(0, 0, stops));
    let fields = [
        head(40, safety, 1_024),
        station(stations).repeat(2),
        track(0, 1, on_track),
        rides.collect(),
        table(0, &[(0, 100)]),
    ];
    fields.concat()
}

/// The single run of a case's first choice.
fn first_run(case: &[u8]) -> SingleRun {
    let plan = Plan::read(case, &[]).expect("a sound case");
    run(&plan, &vec![0; plan.trains()])
}

/// The rows after a minute as text.
fn rows(case: &[u8], minute: u32) -> Vec<String> {
    let plan = Plan::read(case, &[]).expect("a sound case");
    let joint = joint::run(&plan, minute).expect("the list stays within the room");
    joint.list.iter().map(row_text).collect()
}

/// Asserts that a train enters a place in a minute and is not there in the minute before, in the single run and in the joint run.
fn enters(case: &[u8], train: usize, place: Place, minute: u32) {
    let plan = Plan::read(case, &[]).expect("a sound case");
    let after = run(&plan, &vec![0; plan.trains()]).after;
    let stands_at = |minute: u32| {
        let alone = after[minute as usize].standing[train].place == place;
        let list = joint::run(&plan, minute).expect("room enough").list;
        let stands =
            |entry: &Entry| (entry.train, entry.place, entry.kind) == (train, place, Kind::Stands);
        (alone, list.iter().any(stands))
    };
    assert_eq!(stands_at(minute - 1), (false, false));
    assert_eq!(stands_at(minute), (true, true));
}

/// Two trains that stand in station 0 from minute 2 to 4 and drive for 3 minutes.
const ONE_AFTER_THE_OTHER: [[(u8, u16, u16); 2]; 2] = [[(0, 2, 4), (1, 7, 8)]; 2];

#[test]
fn a_station_left_in_minute_t_is_entered_in_t_plus_safety_time_and_with_1_in_the_next_minute() {
    // Train 0 leaves station 0 in minute 4.
    for safety in 1..=30 {
        let case = line(safety, 1, 2, &ONE_AFTER_THE_OTHER);
        enters(&case, 1, Place::Station(0), 4 + u32::from(safety));
    }
}

#[test]
fn a_track_left_in_minute_t_is_entered_in_t_plus_safety_time_and_with_1_in_the_next_minute() {
    // Train 0 drives from minute 4 to 7; train 1, in a station for two, asks for the track from minute 4 on.
    for safety in 1..=30 {
        let case = line(safety, 2, 1, &ONE_AFTER_THE_OTHER);
        enters(&case, 1, Place::Track(0), 7 + u32::from(safety));
    }
}

#[test]
fn an_element_for_two_that_is_full_of_blocks_is_entered_when_the_first_of_them_ends() {
    // Trains 0 and 1 leave station 0 in minutes 4 and 5; train 2 asks from minute 5 on and has station 0 at the end of the block of train 0.
    let trains = [
        [(0, 2, 4), (1, 7, 8)],
        [(0, 2, 5), (1, 8, 9)],
        [(0, 5, 6), (1, 9, 9)],
    ];
    for safety in 1..=9 {
        let case = line(safety, 2, 3, &trains);
        enters(&case, 2, Place::Station(0), 4 + u32::from(safety));
    }
}

#[test]
fn a_block_stands_in_the_rows_with_its_end_from_minute_t_on_and_is_gone_in_the_list_of_its_end() {
    // The train leaves station 0 in minute 4, the track in 7 and station 1 in 8.
    let trains = [[(0, 2, 4), (1, 7, 8)]];
    for safety in 1..=30u8 {
        let case = line(safety, 1, 1, &trains);
        let after = first_run(&case).after;
        for (place, left) in [("s0", 4), ("t0", 7), ("s1", 8)] {
            let end = left + u32::from(safety);
            let block = format!("0,{place},blocks,{end},1");
            for minute in 0..=40 {
                let of_place = rows(&case, minute)
                    .into_iter()
                    .filter(|row| row.contains(place) && row.contains("blocks"));
                let expected = (left..end).contains(&minute).then(|| block.clone());
                assert_eq!(of_place.collect::<Vec<_>>(), Vec::from_iter(expected));
            }
        }
        let ends = |minute: usize| -> Vec<u32> {
            let blocks = after[minute].blocks.iter();
            blocks.map(|block| block.end).collect()
        };
        let first = 4 + usize::from(safety);
        assert!(ends(first - 1).contains(&(first as u32)));
        assert!(!ends(first).contains(&(first as u32)));
    }
}

#[test]
fn safety_time_0_leaves_no_block_in_any_minute_of_either_run() {
    // What is left is a station, a track, and a station in the minute in which it was entered.
    let trains = [[(0, 2, 4), (1, 7, 7)], [(0, 2, 2), (1, 5, 6)]];
    let case = line(0, 2, 2, &trains);
    for (minute, state) in first_run(&case).after.iter().enumerate() {
        assert_eq!(state.blocks, []);
        assert_eq!(rows(&case, minute as u32).len(), 2);
    }
    let after_7 = ["1,gone,stands,6,1.1", "0,gone,stands,7,1.1"];
    assert_eq!(rows(&case, 7), after_7);
}

#[test]
fn with_safety_time_0_a_track_is_entered_in_the_minute_in_which_it_is_left() {
    // The track is visited after station 1, for which train 0 leaves it in minute 7: train 1 enters it in that minute, and train 2 in minute 10 likewise.
    let trains = [[(0, 2, 4), (1, 7, 8)]; 3];
    let case = line(0, 3, 1, &trains);
    enters(&case, 1, Place::Track(0), 7);
    enters(&case, 2, Place::Track(0), 10);
    let arrivals = first_run(&case).arrivals;
    assert_eq!(arrivals, [Some(7), Some(10), Some(13)]);
    let after_7 = [
        "2,s0,stands,4,1.1.1",
        "0,s1,stands,8,1.1.1",
        "1,t0,stands,10,1.1.1",
    ];
    assert_eq!(rows(&case, 7), after_7);
}

#[test]
fn with_safety_time_0_a_station_is_entered_at_its_turn_in_the_next_minute() {
    // Station 0 is visited before the track, for which train 0 leaves it in minute 4; train 1 enters it in minute 5 and leaves it in 7.
    let case = line(0, 1, 2, &ONE_AFTER_THE_OTHER);
    enters(&case, 1, Place::Station(0), 5);
    // Station 1 is visited before the way out, by which train 0 leaves it in minute 12; train 1, due there since minute 10, enters it in minute 13.
    let trains = [[(0, 2, 4), (1, 7, 12)], [(0, 3, 5), (1, 8, 9)]];
    let case = line(0, 1, 2, &trains);
    enters(&case, 1, Place::Track(0), 7);
    enters(&case, 1, Place::Station(1), 13);
}

#[test]
fn with_safety_time_0_the_partner_of_a_track_is_entered_in_the_minute_in_which_the_track_is_left() {
    // Train 0 drives on track 0 from minute 0 to 3, trains 1 and 2 back on track 1 from then on: one track for two, and two trains after each other on it.
    let back = [(1, 1, 1), (0, 4, 4)];
    let trains = [[(0, 0, 0), (1, 3, 3)], back, back];
    for coupled in [(0, 1), (1, 0)] {
        let case = two_stations(0, 2, &trains, &[(0, 100)], coupled);
        enters(&case, 1, Place::Track(1), 3);
        enters(&case, 2, Place::Track(1), 3);
        let case = two_stations(0, 1, &trains, &[(0, 100)], coupled);
        enters(&case, 1, Place::Track(1), 3);
        enters(&case, 2, Place::Track(1), 6);
    }
}

#[test]
fn with_safety_time_0_a_track_that_is_entered_again_keeps_its_partner_from_being_entered() {
    // In minute 3 train 0 leaves track 0, for which train 1 is due, as train 2 is for track 1. Track 0 is visited first: train 1 enters, and train 2 waits
    // for it.
    let trains = [
        [(0, 0, 0), (1, 3, 3)],
        [(0, 1, 1), (1, 4, 4)],
        [(1, 1, 1), (0, 4, 4)],
    ];
    let case = two_stations(0, 1, &trains, &[(0, 100)], (0, 1));
    enters(&case, 1, Place::Track(0), 3);
    enters(&case, 2, Place::Track(1), 6);
}

/// The shift example with another safety time and room.
fn shift_with(safety: u8, room: u8) -> Vec<u8> {
    let mut case = shift_example();
    case[5..8].copy_from_slice(&[safety, 0, room]);
    case
}

#[test]
fn safety_time_0_takes_no_room() {
    // One train in one row: with a block beside it the list would have two.
    let alone = |safety, room| {
        let mut case = line(safety, 1, 1, &[[(0, 2, 4), (1, 7, 8)]]);
        case[6..8].copy_from_slice(&[0, room]);
        listed(&case, &[])
    };
    let printed = || Ok("total 100\n0 7 100\n0 - 0\n".to_string());
    assert_eq!(alone(0, 1), printed());
    assert_eq!(alone(1, 1), Err(Refusal::at(12, 0, 0)));
    assert_eq!(alone(1, 2), printed());
    // The shift example has 5 entries from minute 5 on: in minute 6 train 0, on time, leaves the track, and a row for that would be the sixth.
    let lengths = |safety| [4, 5, 6, 7, 20].map(|m| rows(&shift_with(safety, 255), m).len());
    assert_eq!(lengths(0), [4, 5, 5, 5, 5]);
    assert_eq!(lengths(1), [4, 5, 7, 6, 5]);
    assert!(listed(&shift_with(0, 5), &[]).is_ok());
    assert_eq!(listed(&shift_with(1, 5), &[]), Err(Refusal::at(12, 0, 0)));
    assert_eq!(listed(&shift_with(0, 4), &[]), Err(Refusal::at(12, 0, 0)));
}

#[test]
fn the_shift_example_is_listed_alike_with_safety_times_0_and_1_and_later_with_2_and_3() {
    // Stations hold train 1 up, and they are entered in the minute after they are left with 0 as with 1. With 2 it enters station 0 a minute later if only
    // train 0 is late, and arrives in minute 14; with 3, in minute 15. Train 0 late leaves station 0 in minute 6, so that it is free at 9: train 1 late comes
    // in at 9, and arrives in minute 15 too.
    let by_safety: [(u8, &[&str]); 4] = [
        (0, &["1 11 3600", "1 13 2400", "1 14 4000"]),
        (1, &["1 11 3600", "1 13 2400", "1 14 4000"]),
        (2, &["1 11 3600", "1 14 6400"]),
        (3, &["1 12 3600", "1 14 2400", "1 15 4000"]),
    ];
    for (safety, expected) in by_safety {
        let text = listed(&shift_with(safety, 255), &[]).expect("accepted");
        let lines: Vec<&str> = text.lines().skip(4).collect();
        assert_eq!(lines, [expected, &["1 - 0"]].concat(), "{safety}");
    }
}
