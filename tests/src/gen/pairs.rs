//! What followers add to lists: master calls, and moves of a track at one go.

use super::plan::{Followers, NEAR};
use super::{Call, Maker};
use crate::call::Pairs;
use crate::track::{DRIFT_MOST, STOPPED};

impl Maker {
    /// With the chance that lists with many followers give; never in others.
    pub(super) fn by_chance(&mut self, percent: fn(&Followers) -> i64) -> bool {
        let percent = self.plan.followers.as_ref().map(percent);
        percent.is_some_and(|percent| self.rng.chance(percent))
    }

    /// A master for many tracks of such a list, which has two tracks at least.
    pub(super) fn name_masters(&mut self) {
        while self.plan.followers.is_some() && self.board.tracks.iter().flatten().count() < 2 {
            let call = self.new_track();
            self.push(call);
        }
        for t in 0..16 {
            if self.board.track(t).is_some() && self.by_chance(|followers| followers.led) {
                let call = Call::Master(t, self.other(t), self.pairs());
                self.push(call);
            }
        }
    }

    /// A master call, mostly of a STOPPED track.
    pub(super) fn master(&mut self) -> Call {
        let mut t = self.track();
        for _ in 0..3 {
            if self.board.track(t).is_some_and(|track| track.mode == STOPPED) {
                break;
            }
            t = self.track();
        }
        Call::Master(t, self.other(t), self.pairs())
    }

    /// A track's number, mostly another's.
    fn other(&mut self, t: i64) -> i64 {
        let mut m = self.track();
        while m == t && self.rng.chance(85) {
            m = self.track();
        }
        m
    }

    /// Pairs of threshold and event: none to six, of which a call keeps five; mostly rising.
    fn pairs(&mut self) -> Pairs {
        let count = self.rng.pick(&[0, 1, 1, 2, 2, 2, 3, 3, 4, 4, 5, 6]);
        let near = self.plan.followers.as_ref().map_or(NEAR, |followers| followers.near);
        let most = if self.rng.chance(6) { DRIFT_MOST } else { near };
        let mut thresholds: Vec<i64> = (0..count).map(|_| self.number(1, most)).collect();
        if self.rng.chance(92) {
            thresholds.sort_unstable();
            thresholds.dedup();
        }
        let pairs: Vec<[i64; 2]> = thresholds.into_iter().map(|threshold| [threshold, self.number(1, 255)]).collect();
        Pairs::new(&pairs)
    }

    /// A track paused, set elsewhere or turned, judged meanwhile or not, and resumed; or stopped and played.
    pub(super) fn move_at_one_go(&mut self) {
        let t = self.track();
        if self.rng.chance(30) {
            self.push(Call::Stop(t));
            self.push(Call::Play(t));
            return;
        }
        self.push(Call::Pause(t));
        let turns = self.rng.chance(50);
        let call = if turns { Call::Direction(t, self.number(0, 1)) } else { Call::Jump(t, self.position(t)) };
        self.push(call);
        if self.rng.chance(60) {
            let count = self.rng.between(0, 3);
            self.push(Call::Advance(count));
        }
        self.push(Call::Resume(t));
    }
}
