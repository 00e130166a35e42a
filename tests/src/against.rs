//! A board against the model: on lists of calls, each cut anew too; and where lists on one log do not reach: logs of other
//! lengths, long leaps.

use crate::bench::{Alike, Begun};
use crate::call::{Board, Call, Call::*, Reply, Reply::Refused};
use crate::gen::{Case, PROFILES, Profile, Rng, case, recut};
use crate::lists::{merged, observed};
use crate::model::Model;
use crate::tally::{Found, Tally};

/// What the model came to over a list: its answers, its end board and its log.
pub struct Told {
    pub replies: Vec<Reply>,
    pub board: Model,
    pub log: Vec<u8>,
}

/// A board and the model on one list: after each call the answer, the whole board and every log byte.
pub fn side_by_side<B: Alike>(name: &str, case: &Case, tally: &mut Tally) -> Told {
    let (mut model, mut board) = (Model::begun(case.clock), B::begun(case.clock));
    let (mut log, mut board_log, mut replies) = (case.log.clone(), case.log.clone(), Vec::new());
    for (nth, &call) in case.calls.iter().enumerate() {
        let place = || format!("{name}, call {nth}: {call:?}");
        let found = Found::by(Some(call), &model);
        let reply = model.apply_encoded(&call.encode(), &mut log);
        assert_eq!(board.apply(call, &mut board_log), reply, "{}", place());
        assert!(board.like(&model), "{}: {:?}\n{model:?}", place(), board.picture());
        assert!(log == board_log, "{}", place());
        assert!(model.unbroken(), "{}", place());
        tally.note(&found, reply, &model, &log);
        replies.push(reply);
    }
    Told { replies, board: model, log }
}

/// The list with its runs cut anew: what is seen of it, the end board and every log byte. Whether it is another list.
pub fn cut_anew<B: Alike>(name: &str, case: &Case, told: &Told, seed: u64) -> bool {
    let calls = recut(&case.calls, seed);
    assert_eq!(merged(&calls), merged(&case.calls));
    let (mut board, mut log) = (B::begun(case.clock), case.log.clone());
    let replies: Vec<Reply> = calls.iter().map(|&call| board.apply(call, &mut log)).collect();
    // Rows that are no calls are refused 9 and stand in no list.
    let of_calls: Vec<Reply> = told.replies.iter().filter(|&&reply| reply != Refused(9)).copied().collect();
    assert_eq!(observed(&calls, &replies), observed(&case.calls, &of_calls), "{name}: cut anew");
    assert!(board.like(&told.board), "{name}: cut anew: {:?}\n{:?}", board.picture(), told.board);
    assert!(log == told.log, "{name}: cut anew: log");
    calls != case.calls
}

const LISTS: u64 = 20_000;

/// How many lists are compared: GRIDSTEP_LISTS, if it is given.
pub fn total() -> u64 {
    std::env::var("GRIDSTEP_LISTS").map_or(LISTS, |number| number.parse().expect("GRIDSTEP_LISTS: a number"))
}

/// So many lists of a profile from a seed on, each cut anew too: what came in them.
pub fn lists<B: Alike>(profile: Profile, seed: u64) -> Tally {
    let (mut tally, mut cut, mut calls, mut ticks) = (Tally::default(), 0, 0, 0);
    for seed in seed..seed + total() {
        let (name, case) = (format!("{profile:?} list {seed}"), case(profile, seed));
        let told = side_by_side::<B>(&name, &case, &mut tally);
        cut += u64::from(cut_anew::<B>(&name, &case, &told, seed));
        calls += case.calls.len();
        ticks += told.board.clock - case.clock;
    }
    println!("{profile:?}: {} lists, {calls} calls, {ticks} ticks, {cut} cut anew: {tally:?}", total());
    assert!(cut >= total() / 3);
    tally
}

/// One call on both: the same answer, board and log bytes.
pub fn agree<B: Alike>(board: &mut B, model: &mut Model, call: Call, log: &[u8]) -> Reply {
    let (mut board_log, mut log) = (log.to_vec(), log.to_vec());
    let before = model.clone();
    let reply = model.apply(call, &mut log);
    assert_eq!(board.apply(call, &mut board_log), reply, "{call:?}, a log of {}, on {before:?}", log.len());
    assert!(board.like(model) && board_log == log, "{call:?}, a log of {}, on {before:?}", log.len());
    reply
}

/// Each call is lent some part of the log, so that 7 comes.
pub fn other_logs<B: Alike>() {
    let (mut short, mut calls) = (0, 0);
    for (seed, profile) in (0..800).zip(PROFILES[..9].iter().cycle()) {
        let mut rng = Rng(seed);
        let case = case(*profile, seed + 70_000);
        let (mut board, mut model) = (B::begun(case.clock), Model::begun(case.clock));
        let (mut board_log, mut log) = (case.log.clone(), case.log.clone());
        for call in case.calls {
            let lent = rng.between(0, 40 + 2 * log.len() as i64).min(log.len() as i64) as usize;
            // A part that never fills would ask the model for too many ticks.
            let call = if let Advance(201..) = call { Advance(200) } else { call };
            let reply = model.apply(call, &mut log[..lent]);
            assert_eq!(board.apply(call, &mut board_log[..lent]), reply, "{profile:?} list {seed}: {call:?}");
            assert!(board.like(&model) && board_log == log, "{profile:?} list {seed}: {call:?}");
            short += u32::from(reply == Refused(7));
            calls += 1;
        }
    }
    println!("other logs: 800 lists, {calls} calls, refused 7: {short}");
    assert!(short > 500);
}

/// A pass over two million locations, or nearly, at some rates: in single ticks and in one leap.
pub fn long_leaps<B: Alike>() {
    for (direction, p, q) in [(0, 1, 1), (1, 1, 1), (0, 999, 1_000), (1, 6, 7)] {
        let (mut board, mut model) = (B::fresh(), Model::fresh());
        let log = vec![0; 160];
        let calls = [Track(2, -1_000_000, 1_000_000), Track(9, 5, 6), Repeat(9, 1), Action(2, 1, 0, 3)];
        let more = [Direction(2, direction), Point(2, 1_000_000, 5, 0, 1, 9), Point(2, -999_999, 6, 0, 3, 9)];
        let rates = [Rate(2, p, q), Rate(9, 1, q)];
        let run = [Play(2), Play(9), Advance(1_999_990), Advance(1), Advance(300_000), Advance(1)];
        for &call in calls.iter().chain(&more).chain(&rates).chain(&run) {
            agree(&mut board, &mut model, call, &log);
        }
    }
}
