//! The cutting rule on covers worked out by hand; delay d of a train is bit d of its set.

use second::cover::{common, cut, cut_coupled, outside_pieces, Cut};

/// A cut with these held and entering pieces.
fn pieces(held: &[&[u8]], entering: &[&[u8]]) -> Cut {
    let owned = |covers: &[&[u8]]| covers.iter().map(|cover| cover.to_vec()).collect();
    Cut {
        held: owned(held),
        entering: owned(entering),
    }
}

#[test]
fn outside_pieces_go_by_rising_train_number() {
    let piece = vec![0b011, 0b001, 0b111];
    let met = vec![0b001, 0b011, 0b010];
    let inside = common(&piece, &met).expect("a common choice");
    assert_eq!(inside, [0b001, 0b001, 0b010]);
    let outside = outside_pieces(&piece, &inside);
    assert_eq!(
        outside,
        [vec![0b010, 0b001, 0b111], vec![0b001, 0b001, 0b101]]
    );
}

#[test]
fn covers_without_a_common_choice_are_not_cut() {
    let met = [vec![0b01, 0b10], vec![0b10, 0b10]];
    assert_eq!(
        cut(&vec![0b11, 0b01], 1, &met),
        pieces(&[], &[&[0b11, 0b01]])
    );
}

#[test]
fn an_empty_element_lets_the_whole_cover_in() {
    assert_eq!(
        cut(&vec![0b11, 0b01], 1, &[]),
        pieces(&[], &[&[0b11, 0b01]])
    );
}

#[test]
fn capacity_1_holds_what_meets_anyone() {
    let met = [vec![0b01, 0b01, 0b11], vec![0b11, 0b01, 0b10]];
    let expected = pieces(
        &[&[0b01, 0b01, 0b11], &[0b10, 0b01, 0b10]],
        &[&[0b10, 0b01, 0b01]],
    );
    assert_eq!(cut(&vec![0b11, 0b01, 0b11], 1, &met), expected);
}

#[test]
fn capacity_2_holds_what_meets_two_and_enters_uncut_where_too_few_are_left() {
    let met = [vec![0b01, 0b01, 0b11], vec![0b11, 0b01, 0b10]];
    let expected = pieces(
        &[&[0b01, 0b01, 0b10]],
        &[&[0b01, 0b01, 0b01], &[0b10, 0b01, 0b11]],
    );
    assert_eq!(cut(&vec![0b11, 0b01, 0b11], 2, &met), expected);
}

#[test]
fn entries_that_share_no_choice_do_not_fill_a_capacity_of_2_but_count_as_still_to_meet() {
    let met = [vec![0b01, 0b01], vec![0b10, 0b01]];
    let expected = pieces(&[], &[&[0b01, 0b01], &[0b10, 0b01]]);
    assert_eq!(cut(&vec![0b11, 0b01], 2, &met), expected);
    assert_eq!(
        cut(&vec![0b11, 0b01], 3, &met),
        pieces(&[], &[&[0b11, 0b01]])
    );
}

#[test]
fn a_held_piece_is_not_cut_further() {
    let met = [vec![0b11, 0b01, 0b11], vec![0b01, 0b01, 0b01]];
    assert_eq!(
        cut(&vec![0b11, 0b01, 0b11], 1, &met),
        pieces(&[&[0b11, 0b01, 0b11]], &[])
    );
}

#[test]
fn a_piece_inside_an_entry_of_the_partner_is_held_whatever_the_capacity() {
    let asking = vec![0b11, 0b01];
    let on_partner = [vec![0b01, 0b11]];
    let expected = pieces(&[&[0b01, 0b01]], &[&[0b10, 0b01]]);
    for capacity in [1, 2, 255] {
        assert_eq!(cut_coupled(&asking, &on_partner, capacity, &[]), expected);
    }
    let on_partner = [vec![0b11, 0b11]];
    let whole = pieces(&[&[0b11, 0b01]], &[]);
    assert_eq!(cut_coupled(&asking, &on_partner, 255, &[]), whole);
}

#[test]
fn the_partners_entries_are_passed_in_list_order_and_a_held_piece_meets_no_more() {
    // The first entry holds train 0's first delay, the second what is left of train 2's second one.
    let asking = vec![0b11, 0b01, 0b11];
    let on_partner = [vec![0b01, 0b01, 0b11], vec![0b11, 0b01, 0b10]];
    let expected = pieces(
        &[&[0b01, 0b01, 0b11], &[0b10, 0b01, 0b10]],
        &[&[0b10, 0b01, 0b01]],
    );
    assert_eq!(cut_coupled(&asking, &on_partner, 9, &[]), expected);
    let turned = [on_partner[1].clone(), on_partner[0].clone()];
    let expected = pieces(
        &[&[0b11, 0b01, 0b10], &[0b01, 0b01, 0b01]],
        &[&[0b10, 0b01, 0b01]],
    );
    assert_eq!(cut_coupled(&asking, &turned, 9, &[]), expected);
}

#[test]
fn behind_the_partner_a_piece_has_count_0_and_meets_the_tracks_own_entries() {
    let asking = vec![0b11, 0b01, 0b11];
    let on_partner = [vec![0b01, 0b11, 0b01]];
    let own = [vec![0b10, 0b01, 0b11], vec![0b01, 0b01, 0b10]];
    // Outside the partner's entry are {2, 1, 3} and {1, 1, 2}. Each is held by one of the track's own entries where it takes one train.
    let one = pieces(
        &[
            &[0b01, 0b01, 0b01],
            &[0b10, 0b01, 0b11],
            &[0b01, 0b01, 0b10],
        ],
        &[],
    );
    assert_eq!(cut_coupled(&asking, &on_partner, 1, &own), one);
    // Where it takes two, none has met two. Still to meet are the track's own entries alone: a piece that has met one of them goes on to the other.
    let two = pieces(
        &[&[0b01, 0b01, 0b01]],
        &[&[0b10, 0b01, 0b11], &[0b01, 0b01, 0b10]],
    );
    assert_eq!(cut_coupled(&asking, &on_partner, 2, &own), two);
    assert_eq!(cut_coupled(&asking, &on_partner, 3, &own), two);
}

#[test]
fn held_pieces_of_the_partner_and_of_the_track_stand_in_cutting_order() {
    // Outside the partner's first entry, train 0's second delay goes on first, and a piece of it is held on the track; then train 2's second delay is held at
    // the partner's second entry.
    let asking = vec![0b11, 0b01, 0b11];
    let on_partner = [vec![0b01, 0b01, 0b01], vec![0b01, 0b01, 0b10]];
    let own = [vec![0b10, 0b01, 0b10]];
    let expected = pieces(
        &[
            &[0b01, 0b01, 0b01],
            &[0b10, 0b01, 0b10],
            &[0b01, 0b01, 0b10],
        ],
        &[&[0b10, 0b01, 0b01]],
    );
    assert_eq!(cut_coupled(&asking, &on_partner, 1, &own), expected);
}

#[test]
fn an_entry_of_the_partner_without_a_common_choice_changes_nothing() {
    let asking = vec![0b11, 0b01];
    let on_partner = [vec![0b01, 0b10], vec![0b10, 0b10]];
    let own = [vec![0b01, 0b01]];
    assert_eq!(
        cut_coupled(&asking, &on_partner, 1, &own),
        cut(&asking, 1, &own)
    );
    assert_eq!(
        cut_coupled(&asking, &on_partner, 2, &own),
        pieces(&[], &[&[0b11, 0b01]])
    );
}
