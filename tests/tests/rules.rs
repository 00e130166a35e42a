//! What lists from a fresh board cannot show: broken boards, other logs, the order of refusals, long leaps; then traps.

use gridstep_tests::against::{self, agree};
use gridstep_tests::bench::{Begun, Bench};
use gridstep_tests::call::Reply::Refused;
use gridstep_tests::call::{Board, CALL_WIDTH, Call, Call::*};
use gridstep_tests::gen::{PROFILES, Profile, Rng, case};
use gridstep_tests::model::{self, Model};
use gridstep_tests::peer::Peer;
use gridstep_tests::record::Record;
use gridstep_tests::tally::Found;
use gridstep_tests::track;
use gridstep_tests::traps::{self, each_call};

/// A code that is no call's, and a master call with a negative number of pairs.
const NO_CALLS: [[i64; CALL_WIDTH]; 2] =
    [[23, 0, 0, 0, 0, 0, 0, 0, 0, 0, 0, 0, 0, 0], [21, 1, 0, -1, 3, 31, 0, 0, 0, 0, 0, 0, 0, 0]];

/// Every call refuses a broken board 3 and changes nothing; what is no call is 9 even so.
fn refuses_all(board: &Model, what: &str) {
    for call in each_call() {
        let (mut after, mut log) = (board.clone(), vec![7; 40]);
        assert_eq!(after.apply(call, &mut log), Refused(3), "{what}: {call:?}");
        NO_CALLS.iter().for_each(|row| assert_eq!(after.apply_encoded(row, &mut log), Refused(9)));
        assert!(after == *board && log == vec![7; 40]);
    }
}

type Break = fn(&mut Model, &mut track::Track);

fn set(board: &mut Model, t: i64, p: i64, [event, wait, command, target]: [i64; 4]) {
    board.points.insert((t, p), model::Point { event, wait, command, target });
}

#[test]
fn broken_model_is_refused() {
    let breaks: [(&str, Break); 35] = [
        ("clock below", |board, _| board.clock = -1),
        ("clock above", |board, _| board.clock = 1_000_000_001),
        ("min", |_, track| track.min = -1_000_001),
        ("max", |_, track| track.max = 1_000_001),
        ("start below min", |_, track| track.start = -1),
        ("start on end", |_, track| track.start = track.end),
        ("end above max", |_, track| track.end = 11),
        ("position below", |_, track| track.position = 1),
        ("position above", |_, track| track.position = 6),
        ("loops 0", |_, track| track.loops = 0),
        ("loops above", |_, track| track.loops = 65_536),
        ("passes above clock", |board, track| track.passes = board.clock + 1),
        ("passes below", |_, track| track.passes = -1),
        ("mode", |_, track| track.mode = 4),
        ("direction", |_, track| track.direction = 2),
        ("repeat", |_, track| track.repeat = -1),
        ("due", |_, track| track.due = 2),
        ("diagonal", |_, track| track.actions[2][2] = 1),
        ("action", |_, track| track.actions[1][2] = 256),
        ("steps 0", |_, track| track.steps = 0),
        ("ticks 0", |_, track| track.ticks = 0),
        ("more steps than ticks", |_, track| track.steps = 2),
        ("ticks 1,001", |_, track| track.ticks = 1_001),
        ("remainder as the ticks", |_, track| (track.mode, track.ticks, track.remainder) = (2, 5, 5)),
        ("remainder below", |_, track| (track.mode, track.remainder) = (1, -1)),
        ("remainder when STOPPED", |_, track| (track.ticks, track.remainder) = (5, 1)),
        ("point outside", |board, _| set(board, 0, 11, [7, 0, 0, 0])),
        ("point's track absent", |board, _| set(board, 1, 2, [7, 0, 0, 0])),
        ("event 0", |board, _| set(board, 0, 2, [0, 0, 0, 0])),
        ("event 256", |board, _| set(board, 0, 2, [256, 0, 0, 0])),
        ("wait 2", |board, _| set(board, 0, 2, [7, 2, 0, 0])),
        ("command 5", |board, _| set(board, 0, 2, [7, 0, 5, 0])),
        ("target absent", |board, _| set(board, 0, 2, [7, 0, 1, 3])),
        ("target without command", |board, _| set(board, 0, 2, [7, 0, 0, 1])),
        ("257 points", |board, track| {
            track.max = 400;
            (0..257).for_each(|p| set(board, 0, p, [7, 0, 0, 0]));
        }),
    ];
    for (what, break_it) in breaks {
        let mut board = Bench::<Model>::case_a(64).board;
        let mut track = board.tracks[0].expect("track 0");
        break_it(&mut board, &mut track);
        board.tracks[0] = Some(track);
        refuses_all(&board, what);
    }
}

/// Not broken (decision 1): held beyond every log, a STOPPED track off home with passes.
#[test]
fn odd_boards_stand() {
    let mut bench = Bench::<Model>::case_a(64);
    bench.board.clock = 9;
    bench.board.held = u64::MAX;
    let track = bench.board.tracks[0].as_mut().expect("track 0");
    (track.position, track.due, track.passes) = (4, 0, 9);
    assert_eq!(bench.clock_and_held(), (9, u64::MAX));
    assert_eq!(bench.call(Advance(0)), Refused(7));
    assert_eq!(bench.call(Play(99)), Refused(7));
    bench.accept(&[Clear, Play(0)]);
}

/// A field of a peer's board set to some number near its range.
fn mutate(peer: &mut Peer, rng: &mut Rng) {
    let track = rng.between(0, 15) as usize;
    let slot = rng.between(0, peer.count.max(1) as i64 - 1) as usize;
    let near = peer.tracks[track].start.wrapping_add(rng.between(-2, 9) as u32);
    let small = rng.pick(&[0, 1, 2, 3, 4, 5, 15, 16, 255]);
    let rate = rng.pick(&[0, 1, 1, 2, 3, 5, 7, 999, 1_000, 1_001, u16::MAX]);
    match rng.between(0, 24) {
        0 => peer.tracks[track].min = near,
        1 => peer.tracks[track].max = rng.pick(&[near, 2_000_000, 2_000_001]),
        2 => peer.tracks[track].start = near,
        3 => peer.tracks[track].end = near,
        4 => peer.tracks[track].position = near,
        5 => peer.tracks[track].passes = peer.clock.wrapping_add(rng.between(-1, 1) as u32),
        6 => peer.tracks[track].loops = small.into(),
        7 => peer.tracks[track].mode = small,
        8 => peer.tracks[track].actions[small as usize & 15] = small,
        9 => peer.present ^= 1 << track,
        10 => peer.clock = rng.pick(&[0, 5, 1_000_000_000, 1_000_000_001]),
        11 => peer.infos[slot].event = small,
        12 => peer.infos[slot].command = small,
        13 => peer.infos[slot].target = small,
        14 => peer.keys[slot] = peer.keys[slot].wrapping_add(rng.pick(&[1, u32::MAX, 1 << 20, 1 << 21, 1 << 25])),
        15 => peer.tracks[track].due ^= true,
        16 => peer.tracks[track].master = rng.between(0, 16) as u8,
        17 => peer.tracks[track].band = rng.between(0, 5) as u8,
        18 => peer.tracks[track].thresholds[small as usize & 3] = rng.pick(&[0, 1, 3, 4, 9, 1_000_000, 1_000_001]),
        19 => peer.tracks[track].events[small as usize & 3] = rng.pick(&[0, 1, 255]),
        20 => peer.tracks[track].steps = rate,
        21 => peer.tracks[track].ticks = rate,
        22 => peer.tracks[track].remainder = rate,
        23 => peer.tracks[track].remainder = peer.tracks[track].ticks.wrapping_add(rng.between(-2, 1) as u16),
        _ => peer.held = rng.between(0, 300) as u64,
    }
}

/// Lent boards with a field altered: the same answer, board and log as the model's, broken or not.
#[test]
fn altered_boards_agree() {
    let (mut whole, mut broken, mut flips) = (0, 0, [0; 3]);
    for seed in 0..4000 {
        let mut rng = Rng(seed);
        let profiles = [Profile::Dense, Profile::Followers, Profile::Typical, Profile::Turns, Profile::Rates];
        let profile = profiles[seed as usize % profiles.len()];
        let case = case(profile, seed % 60);
        let mut peer = Peer::begun(case.clock);
        let mut log = case.log.clone();
        for call in case.calls {
            peer.apply(call, &mut log);
        }
        (0..rng.between(1, 2)).for_each(|_| mutate(&mut peer, &mut rng));
        // The model's points ascend of themselves; a row that does not is broken in the form (decision 21).
        let ascend = peer.keys[..peer.count].is_sorted_by(|a, b| a < b);
        let model = peer.picture();
        assert_eq!(peer.unbroken(), ascend && model.unbroken());
        *if peer.unbroken() { &mut whole } else { &mut broken } += 1;
        if ascend {
            for call in each_call() {
                let mut after = model.clone();
                agree(&mut peer.clone(), &mut after, call, &log);
                let flip = Found::by(Some(call), &model).flip(&after);
                flip.iter().for_each(|&kind| flips[kind] += 1);
            }
        }
    }
    println!("{whole} whole, {broken} broken, flips {flips:?}");
    assert!(whole > 500 && broken > 500);
    assert!(flips.iter().all(|&times| times > 100));
}

#[test]
fn peer_keys_ascend() {
    let breaks: [fn(&mut Peer); 3] = [|b| b.keys.swap(0, 1), |b| b.keys[1] = b.keys[0], |b| b.count = 257];
    for break_it in breaks {
        let mut peer = Bench::<Peer>::case_a(64).board;
        break_it(&mut peer);
        each_call().iter().for_each(|&call| assert_eq!(peer.apply(call, &mut [0; 64]), Refused(3)));
    }
}

#[test]
fn other_logs_agree() {
    against::other_logs::<Peer>();
}

#[test]
fn long_leaps_agree() {
    against::long_leaps::<Peer>();
}

#[test]
fn refusals_in_order() {
    traps::order::<Model>();
    traps::order::<Peer>();
}

#[test]
fn peer_leaps_the_clock() {
    traps::leaps_the_clock::<Peer>();
}

#[test]
fn records_pack_and_unpack() {
    let mut rng = Rng(1);
    for _ in 0..2000 {
        let mut bytes: [u8; 16] = std::array::from_fn(|_| rng.bits() as u8);
        bytes[5] %= 6;
        match Record::unpack(&bytes) {
            Ok(record) => assert_eq!(record.pack(), Ok(bytes)),
            Err(number) => assert!(number == 3 && !(1..=4).contains(&bytes[5])),
        }
    }
    let record = Record { clock: 1, track: 0, kind: 5, event: 0, detail: 0, position: -1, passes: 0 };
    assert_eq!(record.pack(), Err(3));
    assert!([0, 15, 17].iter().all(|&length| Record::unpack(&vec![1; length]) == Err(3)));
}

#[test]
fn calls_encode() {
    for seed in 0..50 {
        let calls = PROFILES.iter().flat_map(|&profile| case(profile, seed).calls);
        calls.for_each(|call| assert_eq!(Call::decode(&call.encode()), Some(call)));
    }
    assert!(
        [0, 23, -1, i64::MIN, i64::MAX, 1 << 32 | 16].iter().all(|&code| Call::decode(&[code; CALL_WIDTH]).is_none())
    );
}

#[test]
fn traps_are_met() {
    traps::traps::<Model>();
    traps::traps::<Peer>();
}
