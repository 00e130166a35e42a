//! A follower beside its master: how it is set, the band of the moment, and how long that lasts while both walk on.

use super::{PLAYING, Peer, STOPPED, Track, between, drift};
use crate::call::refusal;
use crate::track::{DRIFT_MOST, THRESHOLDS};

/// More ticks than any clock has.
pub const ALWAYS: i64 = i64::MAX;

/// How far from home.
pub fn distance(track: &Track) -> u32 {
    track.position.abs_diff(track.home())
}

/// The band after a tick: none if either is STOPPED, else the number of thresholds below the drift.
pub fn band(follower: &Track, master: &Track) -> u8 {
    if follower.mode == STOPPED || master.mode == STOPPED {
        return 0;
    }
    let drift = distance(follower).abs_diff(distance(master));
    follower.thresholds.iter().take_while(|&&threshold| threshold != 0 && threshold < drift).count() as u8
}

/// A track at 1 in 1 over the next ticks, none of which stops it: from its next place one further each tick, for so many;
/// or, for good, somewhere from `least` on, no further than `width` from it.
struct Course {
    next: i64,
    pace: i64,
    ticks: i64,
    least: i64,
    width: i64,
}

fn course(track: &Track) -> Course {
    if track.mode != PLAYING {
        let stands = i64::from(distance(track));
        return Course { next: stands, pace: 0, ticks: ALWAYS, least: stands, width: 0 };
    }
    let (next, span) = (i64::from(track.phase()), i64::from(track.span()));
    Course { next, pace: 1, ticks: span - next, least: 0, width: span - 1 }
}

/// The drifts of the band held, from the first to the last.
pub fn drifts(follower: &Track) -> (i64, i64) {
    let held = usize::from(follower.band);
    let low = if held == 0 { 0 } else { i64::from(follower.thresholds[held - 1]) + 1 };
    let high = follower.thresholds.get(held).map_or(0, |&threshold| i64::from(threshold));
    (low, if high == 0 { ALWAYS / 4 } else { high })
}

/// One distance is ahead of the other by `ahead` in the next tick, and by up to `width` more; each tick adds `pace`.
/// For so many ticks the drift is from low to high.
fn lasts(ahead: i64, width: i64, pace: i64, (low, high): (i64, i64)) -> i64 {
    let (least, most) = if low == 0 {
        (-high, high - width)
    } else if ahead >= low {
        (low, high - width)
    } else {
        (-high, -low - width)
    };
    match pace {
        _ if ahead < least || ahead > most => 0,
        0 => ALWAYS,
        1 => most - ahead + 1,
        _ => ahead - least + 1,
    }
}

/// Both PLAYING on spans of one length: they are as far apart as now, or the other way round.
fn in_step(follower: &Track, master: &Track, drifts: (i64, i64)) -> i64 {
    let both = follower.mode == PLAYING && master.mode == PLAYING;
    if !both || follower.span() != master.span() {
        return 0;
    }
    let apart = i64::from(follower.phase().abs_diff(master.phase()));
    let other = if apart == 0 { 0 } else { i64::from(follower.span()) - apart };
    lasts(apart, 0, 0, drifts).min(lasts(other, 0, 0, drifts))
}

/// Ticks over which the band held stays, as far as the walks are known: none stops, no mode changes.
pub fn steady(follower: &Track, master: &Track) -> u64 {
    if follower.mode == STOPPED || master.mode == STOPPED {
        return if follower.band == 0 { ALWAYS as u64 } else { 0 };
    }
    if !follower.every_tick() || !master.every_tick() {
        return drift::steady(follower, master);
    }
    in_steps(follower, master) as u64
}

/// The same where those that play make a step in every tick, and neither is STOPPED.
pub fn in_steps(follower: &Track, master: &Track) -> i64 {
    let drifts = drifts(follower);
    let step = in_step(follower, master, drifts);
    if step == ALWAYS {
        return step;
    }
    let (f, m) = (course(follower), course(master));
    let lines = lasts(f.next - m.next, 0, f.pace - m.pace, drifts).min(f.ticks).min(m.ticks);
    let line_f = lasts(f.next - m.least - m.width, m.width, f.pace, drifts).min(f.ticks);
    let line_m = lasts(f.least - m.next, f.width, -m.pace, drifts).min(m.ticks);
    let anywhere = lasts(f.least - m.least - m.width, f.width + m.width, 0, drifts);
    lines.max(line_f).max(line_m).max(anywhere)
}

impl Peer {
    /// A track that is not free: its master is another present track, and its pairs and band are sound.
    #[cold]
    pub fn led_sound(&self, number: usize) -> bool {
        let track = &self.tracks[number];
        let named = track.master < 16 && self.present >> track.master & 1 == 1 && usize::from(track.master) != number;
        track.follows() && named && track.pairs_sound(self.clock)
    }

    /// Broken 3, 1 for the track, 1 for the master, 2, 3 over all pairs, then 10.
    pub fn set_master(&mut self, t: i64, m: i64, numbers: &[i64]) -> Result<(), u8> {
        let number = self.asked(t)?;
        let master = self.number(m).ok_or(refusal::ABSENT)?;
        if self.tracks[number].mode != STOPPED {
            return Err(refusal::MODE);
        }
        if number == master || numbers.len() % 2 == 1 {
            return Err(refusal::VALUE);
        }
        let (thresholds, events) = ([0; THRESHOLDS], [0; THRESHOLDS]);
        let mut track = Track { master: 0, band: 0, thresholds, events, ..self.tracks[number] };
        let (mut before, mut wrong) = (0, false);
        for (at, pair) in numbers.chunks(2).enumerate() {
            let threshold = between(pair[0], 1, DRIFT_MOST).ok_or(refusal::VALUE)?;
            let event = between(pair[1], 1, 255).ok_or(refusal::VALUE)?;
            wrong |= threshold <= before || at >= THRESHOLDS;
            before = threshold;
            let place = at.min(THRESHOLDS - 1);
            (track.master, track.thresholds[place], track.events[place]) = (master as u8, threshold, event as u8);
        }
        if wrong {
            return Err(refusal::THRESHOLDS);
        }
        self.tracks[number] = track;
        Ok(())
    }
}
