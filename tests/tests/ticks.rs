//! 02's ticks (2.2) on the model and the peer: a tick of 64 records, and boards under many logs and counts held.

use gridstep_tests::model::Model;
use gridstep_tests::peer::Peer;
use gridstep_tests::ticks;

macro_rules! on_both {
    ($($name:ident)*) => { $(#[test] fn $name() { ticks::$name::<Model>(); ticks::$name::<Peer>(); })* };
}

on_both!(sixty_four alike stretches);

#[test]
fn peer_narrow_logs() {
    ticks::narrow_logs::<Peer>();
}
