//! 02's rates (2.4) on the model and the peer: small cases by hand, the refusals of rate in order, lent boards that break a
//! rule, and lists of calls, each cut anew too. GRIDSTEP_LISTS is the number of these lists.

use gridstep_tests::against::{self, total};
use gridstep_tests::gen::Profile;
use gridstep_tests::model::Model;
use gridstep_tests::peer::Peer;
use gridstep_tests::rates::{self, long, refused};
use gridstep_tests::record::BAND;

macro_rules! on_both {
    ($($module:ident: $($name:ident)*;)*) => {
        $($(#[test] fn $name() { $module::$name::<Model>(); $module::$name::<Peer>(); })*)*
    };
}

on_both! {
    rates: two_in_five one_in_many every_tick no_arrival kept_by_pause kept_by_wait kept_by_jump kept_by_turn
        cleared_by_stop cleared_by_the_last_pass cleared_by_commands by_commands;
    long: judged_without_a_step slow_master alternating alternating_rounds close_rates held_back cut_anew;
    refused: setting in_order by_rows lent_boards lent_remainders;
}

#[test]
fn peer_over_the_clock() {
    long::over_the_clock::<Peer>();
    long::in_step_over_the_clock::<Peer>();
    long::at_one_go::<Peer>();
}

/// Lists of this file begin at this seed, so that they are no other file's.
const SEED: u64 = 11_000_000;

#[test]
fn lists_agree() {
    let tally = against::lists::<Peer>(Profile::Rates, SEED);
    tally.assert_whole(BAND, &[1, 2, 3, 4, 6, 8, 10, 11]);
    tally.assert_rates(total());
}
