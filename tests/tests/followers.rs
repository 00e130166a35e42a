//! 02's followers on the model and the peer: small cases by hand, the refusals of master in order, lent boards that break
//! a rule, and lists of calls, each cut anew too. GRIDSTEP_LISTS is the number of these lists.

use gridstep_tests::against;
use gridstep_tests::followers;
use gridstep_tests::gen::Profile;
use gridstep_tests::model::Model;
use gridstep_tests::peer::Peer;
use gridstep_tests::record::BAND;
use gridstep_tests::refused;

macro_rules! on_both {
    ($($module:ident: $($name:ident)*;)*) => {
        $($(#[test] fn $name() { $module::$name::<Model>(); $module::$name::<Peer>(); })*)*
    };
}

on_both! {
    followers: exceeded idle_board follower_moves mode_calls_leave_it behind_commands commands_leave_it turning held_back
        rings setting unequal_spans;
    refused: in_order of_any_length by_rows lent_boards;
}

#[test]
fn peer_in_step() {
    followers::in_step::<Peer>();
}

/// Lists of this file begin at this seed, so that they are no other file's.
const SEED: u64 = 7_000_000;

#[test]
fn lists_agree() {
    against::lists::<Peer>(Profile::Followers, SEED).assert_whole(BAND, &[1, 2, 3, 4, 6, 8, 10]);
}
