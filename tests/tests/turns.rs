//! 02's turns on the home location (2.3) on the model and the peer: small cases by hand, then lists of calls, each cut anew
//! too. GRIDSTEP_LISTS is the number of these lists.

use gridstep_tests::against::{self, total};
use gridstep_tests::gen::Profile;
use gridstep_tests::model::Model;
use gridstep_tests::peer::Peer;
use gridstep_tests::record::BAND;
use gridstep_tests::turns;

macro_rules! on_both {
    ($($name:ident)*) => { $(#[test] fn $name() { turns::$name::<Model>(); turns::$name::<Peer>(); })* };
}

on_both! {
    turned_on_home turned_after_a_pass turned_for_the_last_pass turned_on_a_wait turned_on_a_command turned_without_room
    other_turns turned_unvisited turned_twice turned_in_other_modes turned_on_two_locations turned_master turned_follower
}

#[test]
fn peer_over_the_clock() {
    turns::turned_over_the_clock::<Peer>();
}

/// Lists of this file begin at this seed, so that they are no other file's.
const SEED: u64 = 9_000_000;

#[test]
fn lists_agree() {
    let tally = against::lists::<Peer>(Profile::Turns, SEED);
    tally.assert_whole(BAND, &[1, 2, 3, 4, 6, 8, 10]);
    assert!(tally.flips.iter().all(|&flips| u64::from(flips) > total()), "too few turns: {tally:?}");
}
