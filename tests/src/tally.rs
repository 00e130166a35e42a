//! What came in lists: answers, refusals and records by kind, turns, and what is seen of rates.

use crate::call::{Call, Reply};
use crate::lists::{taken, written};
use crate::model::{Model, TRACKS};
use crate::record::{BAND, RECORD};
use crate::track::{PAUSED, PLAYING, STOPPED, Track, WAITING};

/// What a call finds on the model's board: the count held, and the tracks.
pub struct Found {
    call: Option<Call>,
    held: usize,
    tracks: [Option<Track>; TRACKS],
}

impl Found {
    pub fn by(call: Option<Call>, board: &Model) -> Found {
        Found { call, held: board.held as usize, tracks: board.tracks }
    }

    fn track(&self, t: i64) -> Option<Track> {
        *self.tracks.get(usize::try_from(t).ok()?)?
    }

    /// Of a flip of a PAUSED track: 0 if it left due as it was, 1 if it set it (2.3) on a span of three locations or more,
    /// 2 if on one of two.
    pub fn flip(&self, left: &Model) -> Option<usize> {
        let Some(Call::Direction(t, _)) = self.call else { return None };
        let (before, after) = (self.track(t)?, left.track(t)?);
        let flipped = before.mode == PAUSED && before.direction != after.direction;
        let set_due = before.due == 0 && after.due == 1;
        let two = before.start + 1 == before.end;
        flipped.then_some(usize::from(set_due) + usize::from(set_due && two))
    }
}

/// How often each answer's kind, each refusal and each kind of record came, and how often PAUSED tracks were flipped.
#[derive(Debug, Default)]
pub struct Tally {
    pub kinds: [u32; 9],
    pub refusals: [u32; 12],
    pub records: [u32; 5],
    /// flips that left due as it was, that set it on longer spans, and on spans of two locations
    pub flips: [u32; 3],
    pub rates: Rates,
}

impl Tally {
    /// A call's answer, with the board and the log that it left.
    pub fn note(&mut self, found: &Found, reply: Reply, left: &Model, log: &[u8]) {
        let row = reply.encode();
        self.kinds[row[0] as usize] += 1;
        self.refusals[if row[0] == 1 { row[1] as usize } else { 0 }] += 1;
        let records = written(log, found.held, left.held as usize);
        records.iter().for_each(|bytes| self.records[bytes[5] as usize] += 1);
        found.flip(left).iter().for_each(|&kind| self.flips[kind] += 1);
        self.rates.note(found, reply, left, records);
    }

    /// Every answer's kind came, every kind of record up to the last named, and each of these refusals.
    pub fn assert_whole(&self, last_kind: u8, refusals: &[u8]) {
        assert!(self.kinds.iter().all(|&times| times > 0), "an answer never came: {self:?}");
        assert!(
            refusals.iter().all(|&number| self.refusals[usize::from(number)] > 0),
            "a refusal never came: {self:?}"
        );
        let records = &self.records[1..=usize::from(last_kind)];
        assert!(records.iter().all(|&times| times > 0), "a kind of record never came: {self:?}");
    }

    /// Lists of rates have most of these more often than there are lists, and each more often than a quarter of that.
    pub fn assert_rates(&self, lists: u64) {
        let Rates { set, idle, resumed, waited, jumped, turned, stopped, ended, bands } = self.rates;
        let often = [set, idle, resumed, stopped, bands].iter().all(|&n| u64::from(n) > lists);
        let at_times = [waited, jumped, turned, ended, self.refusals[11]].iter().all(|&n| u64::from(n) > lists / 4);
        assert!(often && at_times, "too few rates: {self:?}");
    }
}

/// What came of rates other than 1 in 1.
#[derive(Clone, Copy, Debug, Default)]
pub struct Rates {
    /// rates set, of more than one tick
    pub set: u32,
    /// tracks that made no step in the first tick of an advance
    pub idle: u32,
    /// tracks with a remainder resumed from PAUSED and from WAITING; set elsewhere and turned while PAUSED
    pub resumed: u32,
    pub waited: u32,
    pub jumped: u32,
    pub turned: u32,
    /// tracks with a remainder stopped by a call, and by the ticks of an advance
    pub stopped: u32,
    pub ended: u32,
    /// records of kind 4 where the follower or its master has such a rate
    pub bands: u32,
}

fn slow(track: &Track) -> bool {
    track.steps < track.ticks
}

impl Rates {
    fn note(&mut self, found: &Found, reply: Reply, left: &Model, records: &[[u8; RECORD]]) {
        match (found.call, reply) {
            (Some(Call::Rate(_, _, q)), Reply::Accepted) => self.set += u32::from(q > 1),
            (Some(Call::Advance(_)), _) if taken(reply).0 > 0 => self.ticks(found, left),
            (Some(call), Reply::Accepted) => self.kept(found, call),
            _ => {}
        }
        let one_slow = |t: u8| left.track(t.into()).is_some_and(slow);
        let band = |bytes: &&[u8; RECORD]| bytes[5] == BAND && (one_slow(bytes[4]) || one_slow(bytes[7]));
        self.bands += records.iter().filter(band).count() as u32;
    }

    /// An advance of one tick or more.
    fn ticks(&mut self, found: &Found, left: &Model) {
        for (before, after) in found.tracks.iter().zip(&left.tracks) {
            let (Some(before), Some(after)) = (before, after) else { continue };
            self.idle += u32::from(before.mode == PLAYING && before.remainder + before.steps < before.ticks);
            self.ended += u32::from(before.remainder > 0 && after.mode == STOPPED);
        }
    }

    /// A call that keeps the remainder, or a stop, of a track that has one.
    fn kept(&mut self, found: &Found, call: Call) {
        let with_remainder = |t: i64| found.track(t).filter(|track| track.remainder > 0);
        match call {
            Call::Resume(t) => {
                let mode = with_remainder(t).map(|track| track.mode);
                self.resumed += u32::from(mode == Some(PAUSED));
                self.waited += u32::from(mode == Some(WAITING));
            }
            Call::Jump(t, _) => self.jumped += u32::from(with_remainder(t).is_some()),
            Call::Direction(t, _) => self.turned += u32::from(with_remainder(t).is_some()),
            Call::Stop(t) => self.stopped += u32::from(with_remainder(t).is_some()),
            _ => {}
        }
    }
}
