//! 01, "Lists of calls": the replay, runs of advances, and what is seen of a list.

use crate::call::{Board, Call, Reply};
use crate::model::{COUNT_MOST, Model};
use crate::record::RECORD;

/// The replay: its own board, log and row of all records written. The model goes by single ticks.
pub struct Replay {
    pub board: Model,
    pub log: Vec<u8>,
    pub row: Vec<[u8; RECORD]>,
}

impl Replay {
    pub fn new(log: &[u8]) -> Replay {
        Replay { board: Model::fresh(), log: log.to_vec(), row: Vec::new() }
    }

    /// One call; the records it writes are those in the log from the count held before to the count after.
    pub fn call(&mut self, call: Call) -> Reply {
        let before = self.board.held as usize;
        let reply = self.board.apply(call, &mut self.log);
        self.row.extend_from_slice(written(&self.log, before, self.board.held as usize));
        reply
    }

    pub fn calls(&mut self, calls: &[Call]) -> Vec<Reply> {
        calls.iter().map(|&call| self.call(call)).collect()
    }
}

/// The records in a log from one count held to another (none after clear).
pub fn written(log: &[u8], before: usize, after: usize) -> &[[u8; RECORD]] {
    let (records, _) = log.as_chunks::<RECORD>();
    records.get(before..after).unwrap_or(&[])
}

/// The count of an advance that may stand in a run; one with another count is in no run.
pub fn in_run(call: &Call) -> Option<i64> {
    match call {
        Call::Advance(count) if (0..=COUNT_MOST).contains(count) => Some(*count),
        _ => None,
    }
}

/// What stopped a run first.
#[derive(Clone, Copy, Debug, PartialEq, Eq)]
pub enum Reason {
    Nothing,
    LogFull,
    ClockEnd,
    Refused(u8),
}

/// What is seen of a list: each call that is in no run with its answer, each run as one.
#[derive(Clone, Copy, Debug, PartialEq, Eq)]
pub enum Seen {
    Call(Call, Reply),
    Run { sum: i64, taken: i64, reason: Reason },
}

/// The ticks that an advance took, and what stopped it.
pub fn taken(reply: Reply) -> (i64, Reason) {
    match reply {
        Reply::Done(taken) => (taken.into(), Reason::Nothing),
        Reply::LogFull(taken) => (taken.into(), Reason::LogFull),
        Reply::ClockEnd(taken) => (taken.into(), Reason::ClockEnd),
        Reply::Refused(number) => (0, Reason::Refused(number)),
        other => panic!("an advance answered {other:?}"),
    }
}

/// Runs are as many advances as stand together; their ticks are added up, the first reason is kept.
pub fn observed(calls: &[Call], replies: &[Reply]) -> Vec<Seen> {
    let mut seen = Vec::new();
    for (call, &reply) in calls.iter().zip(replies) {
        let Some(count) = in_run(call) else {
            seen.push(Seen::Call(*call, reply));
            continue;
        };
        let (ticks, why) = taken(reply);
        match seen.last_mut() {
            Some(Seen::Run { sum, taken, reason }) => {
                *sum += count;
                *taken += ticks;
                *reason = if *reason == Reason::Nothing { why } else { *reason };
            }
            _ => seen.push(Seen::Run { sum: count, taken: ticks, reason: why }),
        }
    }
    seen
}

/// A list with each run written as one advance of its sum; none if a sum is beyond 32 bits.
/// Two lists differ only in the cut if these are the same.
pub fn merged(calls: &[Call]) -> Option<Vec<Call>> {
    let mut list = Vec::new();
    for &call in calls {
        let run = in_run(&call).zip(list.last().and_then(in_run));
        match run {
            Some((count, sum)) if sum + count > COUNT_MOST => return None,
            Some((count, sum)) => *list.last_mut()? = Call::Advance(sum + count),
            None => list.push(call),
        }
    }
    Some(list)
}
