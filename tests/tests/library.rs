//! The proved library against the single-tick model on lists of calls: lent calls, the door, encoded lists, new cuts.
//! GRIDSTEP_LISTS is the number of lists over all profiles.

use gridstep_tests::against::{self, Told, cut_anew, total};
use gridstep_tests::bench::{Begun, FILL};
use gridstep_tests::call::{Board, CALL_WIDTH, Call, Call::Advance, REPLY_WIDTH, Reply};
use gridstep_tests::cards;
use gridstep_tests::followers;
use gridstep_tests::gen::{Case, PROFILES, Profile, Rng, case};
use gridstep_tests::library::Library;
use gridstep_tests::model::Model;
use gridstep_tests::record::{BAND, REFUSED_COMMAND};
use gridstep_tests::refused;
use gridstep_tests::tally::{Found, Tally};
use gridstep_tests::ticks;
use gridstep_tests::traps;
use gridstep_tests::turns;

macro_rules! on_library {
    ($($module:ident: $($name:ident)*;)*) => { $($(#[test] fn $name() { $module::$name::<Library>(); })*)* };
}

on_library! {
    cards: a b c d e f g h i j k l;
    traps: order traps leaps_the_clock;
    against: other_logs long_leaps;
    followers: exceeded idle_board follower_moves mode_calls_leave_it behind_commands commands_leave_it turning held_back
        rings setting in_step unequal_spans;
    ticks: sixty_four alike stretches narrow_logs;
    turns: turned_on_home turned_after_a_pass turned_for_the_last_pass turned_on_a_wait turned_on_a_command
        turned_without_room other_turns turned_unvisited turned_twice turned_in_other_modes turned_on_two_locations
        turned_over_the_clock turned_master turned_follower;
    refused: in_order of_any_length by_rows lent_boards;
}

/// Under names of their own, since followers have some of these too.
mod of_rates {
    use gridstep_tests::library::Library;
    use gridstep_tests::rates::{self, long, refused};

    on_library! {
        rates: two_in_five one_in_many every_tick no_arrival kept_by_pause kept_by_wait kept_by_jump kept_by_turn
            cleared_by_stop cleared_by_the_last_pass cleared_by_commands by_commands;
        long: judged_without_a_step slow_master alternating alternating_rounds close_rates in_step_over_the_clock at_one_go
            over_the_clock held_back cut_anew;
        refused: setting in_order by_rows lent_boards lent_remainders;
    }
}

/// Lists of this file begin at this seed, so that they are no other file's.
const SEED: u64 = 1_000_000;
/// Of a hundred lists, by profile; long lists are fewer. Lists of followers and of rates come on top, of each as many as all
/// the others, and half as many of turns.
const SHARES: [u64; 10] = [19, 6, 19, 18, 19, 18, 100, 50, 100, 1];
/// Rows that are no call's begin with these: other codes, and a master call with a negative number of pairs.
const NO_CALLS: [[i64; 4]; 10] = [
    [0, 0, 1, 1],
    [23, 0, 1, 1],
    [-1, 0, 1, 1],
    [-11, 0, 1, 1],
    [i64::MIN, 0, 1, 1],
    [i64::MAX, 0, 1, 1],
    [1 << 32 | 16, 0, 1, 1],
    [256 + 15, 0, 1, 1],
    [21, 0, 1, -1],
    [21, 0, 1, i64::MIN],
];

fn share(profile: Profile) -> u64 {
    (total() * SHARES[profile as usize]).div_ceil(100)
}

/// A call's row, with noise in the numbers that it has no use for.
fn noisy(call: Call, rng: &mut Rng) -> [i64; CALL_WIDTH] {
    let mut row = call.encode();
    for at in 1..CALL_WIDTH {
        let mut other = row;
        other[at] = rng.bits() as i64;
        row = if Call::decode(&other) == Some(call) { other } else { row };
    }
    row
}

/// The rows of a list; here and there one before them that is no call.
fn rows_of(calls: &[Call], rng: &mut Rng) -> Vec<[i64; CALL_WIDTH]> {
    let mut rows = Vec::new();
    for &call in calls {
        if rng.chance(2) {
            let mut row = [1; CALL_WIDTH];
            row[..4].copy_from_slice(&rng.pick(&NO_CALLS));
            rows.push(row);
        }
        rows.push(noisy(call, rng));
    }
    rows
}

/// Model, lent calls and door on one list: after each call the answer, the whole board and every log byte.
fn side_by_side(name: &str, case: &Case, rows: &[[i64; CALL_WIDTH]], tally: &mut Tally) -> Told {
    let mut board = Model::begun(case.clock);
    let (mut lent, mut door) = (Library::begun(case.clock), Library::begun(case.clock));
    let [mut log, mut lent_log, mut door_log] = [case.log.clone(), case.log.clone(), case.log.clone()];
    let mut replies = Vec::new();
    for (nth, row) in rows.iter().enumerate() {
        let place = || format!("{name}, row {nth}: {row:?}, {:?}", Call::decode(row));
        let found = Found::by(Call::decode(row), &board);
        let reply = board.apply_encoded(row, &mut log);
        assert_eq!(lent.apply_encoded(row, &mut lent_log).encode(), reply.encode(), "lent: {}", place());
        assert_eq!(door.by_row(row, &mut door_log), reply.encode(), "door: {}", place());
        assert!(lent.same(&board), "lent: {}: {:?}\n{board:?}", place(), lent.picture());
        assert!(door == lent, "door: {}: {:?}\n{board:?}", place(), door.picture());
        assert!(lent_log == log && door_log == log, "log: {}", place());
        tally.note(&found, reply, &board, &log);
        replies.push(reply);
    }
    Told { replies, board, log }
}

/// The encoded list: all replies, the end board and every log byte. Idle ticks bring a board to its clock.
fn encoded(name: &str, case: &Case, rows: &[[i64; CALL_WIDTH]], told: &Told) {
    let idle = (case.clock > 0).then(|| (Advance(case.clock).encode(), Reply::Done(case.clock as u32)));
    let calls: Vec<i64> = idle.iter().map(|(row, _)| row).chain(rows).flatten().copied().collect();
    let expected: Vec<u64> =
        idle.iter().map(|(_, reply)| reply).chain(&told.replies).flat_map(|reply| reply.encode()).collect();
    let (mut log, mut replies) = (case.log.clone(), vec![u64::MAX; expected.len()]);
    let end = Library::run(&calls, &mut log, &mut replies);
    assert!(replies == expected, "{name}: the list's replies");
    assert!(end.same(&told.board), "{name}: the list's end: {:?}\n{:?}", end.picture(), told.board);
    assert!(log == told.log, "{name}: the list's log");
}

/// How much was compared.
#[derive(Debug, Default)]
struct Compared {
    lists: u64,
    calls: usize,
    cut_anew: u64,
    tally: Tally,
}

impl Compared {
    fn list(&mut self, name: &str, case: &Case, seed: u64) {
        let rows = rows_of(&case.calls, &mut Rng(seed));
        let told = side_by_side(name, case, &rows, &mut self.tally);
        encoded(name, case, &rows, &told);
        self.cut_anew += u64::from(cut_anew::<Library>(name, case, &told, seed));
        self.calls += rows.len();
        self.lists += 1;
    }
}

fn lists_agree(profile: Profile) {
    let mut compared = Compared::default();
    for seed in SEED..SEED + share(profile) {
        compared.list(&format!("{profile:?} list {seed}"), &case(profile, seed), seed);
    }
    println!("{profile:?}: {compared:?}");
    assert!(compared.cut_anew >= compared.lists / 3);
    let mut refusals = vec![1, 2, 3, 4, 6, 8, 9];
    refusals.extend((profile == Profile::Full).then_some(5));
    refusals.extend(profile.has_masters().then_some(10));
    refusals.push(11);
    compared.tally.assert_whole(if profile.has_masters() { BAND } else { REFUSED_COMMAND }, &refusals);
    // Spans of two locations are rare but among turns.
    let (kinds, flips) = if profile == Profile::Turns { (3, compared.lists) } else { (2, 0) };
    let often = compared.tally.flips[..kinds].iter().all(|&times| u64::from(times) > flips);
    assert!(often, "too few turns: {:?}", compared.tally);
    if profile == Profile::Rates {
        compared.tally.assert_rates(compared.lists);
    }
}

macro_rules! profiles {
    ($($name:ident: $profile:ident;)*) => { $(#[test] fn $name() { lists_agree(Profile::$profile); })* };
}

profiles! {
    lists_typical: Typical;
    lists_dense: Dense;
    lists_edges: Edges;
    lists_small_log: SmallLog;
    lists_extremes: Extremes;
    lists_queries: Queries;
    lists_followers: Followers;
    lists_turns: Turns;
    lists_rates: Rates;
    lists_full: Full;
}

/// Logs of every length from 0 to 130 bytes; few ticks at once, since not every log fills.
#[test]
fn every_small_log() {
    let mut compared = Compared::default();
    for length in 0..=130 {
        let few = [Profile::Typical, Profile::Dense, Profile::Edges];
        let profiles = few.into_iter().chain([Profile::Followers, Profile::Turns, Profile::Rates]);
        for (nth, profile) in (0..18).zip(profiles.cycle()) {
            let seed = 2 * SEED + length * 18 + nth;
            let Case { clock, mut log, mut calls } = case(profile, seed);
            log.truncate(length as usize);
            calls.iter_mut().for_each(|call| *call = if let Advance(201..) = call { Advance(200) } else { *call });
            compared.list(&format!("log of {length}, {profile:?} list {seed}"), &Case { clock, log, calls }, seed);
        }
    }
    println!("small logs: {compared:?}");
}

/// The tick of 64 records lent, by the door, in an encoded list and cut anew: taken where all fit, else held back.
#[test]
fn sixty_four_in_lists() {
    for (bytes, of_each_kind) in [(ticks::FULL, 16), (ticks::FULL - 1, 0)] {
        let calls = [&ticks::set_up()[..], &[Advance(1), Advance(4)]].concat();
        let mut compared = Compared::default();
        compared.list(&format!("log of {bytes}"), &Case { clock: 0, log: vec![FILL; bytes], calls }, SEED);
        assert_eq!(compared.tally.records[1..], [of_each_kind; 4]);
    }
}

/// Master rows as the library reads them: a negative number of pairs, more than a row has, pairs past the number.
#[test]
fn master_rows() {
    let begun: Vec<Call> = refused::set_up().into_iter().chain([Advance(1)]).collect();
    let rows = refused::rows();
    let calls: Vec<[i64; CALL_WIDTH]> = begun.iter().map(Call::encode).chain(rows.iter().map(|row| row.0)).collect();
    let mut replies = vec![[u64::MAX; REPLY_WIDTH]; calls.len()];
    Library::run(calls.as_flattened(), &mut [0; 64], replies.as_flattened_mut());
    for (told, (row, reply)) in replies[begun.len()..].iter().zip(&rows) {
        assert_eq!(*told, reply.encode(), "{row:?}");
    }
}

/// Calls and replies that are not whole rows: as many rows as both have whole, and nothing past them is written.
fn ragged(name: &str, case: &Case, rng: &mut Rng) -> usize {
    let calls = rows_of(&case.calls, rng);
    let length = rng.between(0, (CALL_WIDTH * calls.len()) as i64) as usize;
    let room = rng.between(0, 4 * length as i64 + 60) as usize;
    let rows = (length / CALL_WIDTH).min(room / REPLY_WIDTH);
    let told = side_by_side(name, case, &calls[..rows], &mut Tally::default());
    let (mut log, mut replies, mut expected) = (case.log.clone(), vec![u64::MAX; room], vec![u64::MAX; room]);
    let (places, _) = expected.as_chunks_mut();
    places.iter_mut().zip(&told.replies).for_each(|(place, reply)| *place = reply.encode());
    let end = Library::run(&calls.as_flattened()[..length], &mut log, &mut replies);
    assert!(replies == expected, "{name}: {length} numbers, room for {room}");
    assert!(end.same(&told.board) && log == told.log, "{name}: {length} numbers, room for {room}");
    rows
}

#[test]
fn ragged_lists() {
    let (mut lists, mut calls) = (0, 0);
    for (seed, profile) in (3 * SEED..3 * SEED + total() / 10).zip(PROFILES[..9].iter().cycle()) {
        let case = case(*profile, seed);
        if case.clock == 0 {
            calls += ragged(&format!("{profile:?} list {seed}"), &case, &mut Rng(seed));
            lists += 1;
        }
    }
    println!("ragged: {lists} lists, {calls} calls");
}
