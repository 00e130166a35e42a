//! Boards lent to the library that no call makes: broken ones, altered ones, and calls with numbers at the ends of i64.

use gridstep_tests::against::agree;
use gridstep_tests::bench::{Begun, Bench};
use gridstep_tests::call::{Board, CALL_WIDTH, Call::*, Reply, Reply::Refused};
use gridstep_tests::gen::{Profile, Rng, case};
use gridstep_tests::library::{DOOR_WIDTH, Library, raw};
use gridstep_tests::model::Model;
use gridstep_tests::rates;
use gridstep_tests::refused::{BROKEN, STANDING, lent};
use gridstep_tests::traps::{CODES, MASTER, each_call};

/// By the door no calls: a code that is none, and master, whose pairs have no place there.
const NO_CALLS: [[i64; DOOR_WIDTH]; 3] = [[23, 0, 0, 0, 0, 0, 0], [21, 1, 0, 0, 0, 0, 0], [21, 1, 0, 1, 3, 31, 0]];

/// Every call refuses a broken board 3, lent or by the door, and changes nothing; what is no call is 9 even so.
fn refuses_all(library: &Library, log: &[u8], what: &str) {
    for call in each_call() {
        let (mut lent, mut door, mut after) = (*library, *library, log.to_vec());
        assert_eq!(lent.apply(call, &mut after), Refused(3), "{what}: {call:?}");
        assert_eq!(door.by_row(&call.encode(), &mut after), Refused(3).encode(), "{what}: {call:?}");
        NO_CALLS.iter().for_each(|row| assert_eq!(door.door(row, &mut after), Refused(9).encode(), "{what}"));
        assert!(lent == *library && door == *library && after == log, "{what}: {call:?}");
    }
}

type Break = fn(&mut raw::Board);

const BROKEN_TRACKS: [(&str, Break); 24] = [
    ("clock", |board| board.clock = 1_000_000_001),
    ("clock, 32 bits", |board| board.clock = u32::MAX),
    ("max", |board| board.tracks[0].max = 2_000_001),
    ("max below min", |board| board.tracks[0].max = 999_999),
    ("start below min", |board| board.tracks[0].start = 999_999),
    ("start on end", |board| board.tracks[0].start = 1_000_005),
    ("end above max", |board| board.tracks[0].end = 1_000_011),
    ("position below", |board| board.tracks[0].position = 1_000_001),
    ("position above", |board| board.tracks[0].position = 1_000_006),
    ("min above start", |board| board.tracks[0].min = 1_000_003),
    ("loops", |board| board.tracks[0].loops = 0),
    ("passes above clock", |board| board.tracks[0].passes = 1),
    ("mode 4", |board| board.tracks[0].mode = 4),
    ("mode 255", |board| board.tracks[0].mode = 255),
    ("direction 2", |board| board.tracks[0].direction = 2),
    ("direction 255", |board| board.tracks[0].direction = 255),
    ("repeat 2", |board| board.tracks[0].repeat = 2),
    ("repeat 128", |board| board.tracks[0].repeat = 128),
    ("due 2", |board| board.tracks[0].due = 2),
    ("due 254", |board| board.tracks[0].due = 254),
    ("diagonal 0", |board| board.tracks[0].actions[0] = 1),
    ("diagonal 1", |board| board.tracks[0].actions[5] = 255),
    ("diagonal 2", |board| board.tracks[0].actions[10] = 1),
    ("diagonal 3", |board| board.tracks[0].actions[15] = 1),
];

const BROKEN_POINTS: [(&str, Break); 17] = [
    ("track absent", |board| board.present = 0),
    ("an absent track made present", |board| board.present = 0b11),
    ("point below min", |board| board.points.keys[0] = 999_999),
    ("point above max", |board| board.points.keys[1] = 1_000_011),
    ("point's track absent", |board| board.points.keys[1] = 2_097_152 + 1_000_005),
    ("point's track 16", |board| board.points.keys[1] = 16 * 2_097_152 + 1_000_005),
    ("key, 32 bits", |board| board.points.keys[1] = u32::MAX),
    ("keys descend", |board| board.points.keys.swap(0, 1)),
    ("keys equal", |board| board.points.keys[1] = board.points.keys[0]),
    ("event 0", |board| board.points.infos[0] = 0),
    ("event 256", |board| board.points.infos[0] = 256),
    ("command 5", |board| board.points.infos[0] = 7 + 5 * 131_072),
    ("target absent", |board| board.points.infos[0] = 7 + 131_072 + 3 * 1_048_576),
    ("target without command", |board| board.points.infos[0] = 7 + 1_048_576),
    ("target 16", |board| board.points.infos[0] = 7 + 131_072 + 16 * 1_048_576),
    ("257 points", |board| board.points.count = 257),
    ("more points than memory", |board| board.points.count = usize::MAX),
];

#[test]
fn broken_boards_are_refused() {
    for (what, break_it) in BROKEN_TRACKS.iter().chain(&BROKEN_POINTS) {
        let Bench { mut board, log } = Bench::<Library>::case_a(64);
        break_it(&mut board.board);
        refuses_all(&board, &log, what);
    }
}

/// The rules of followers, each broken once; and what is at their edge.
#[test]
fn broken_followers_are_refused() {
    for led in &BROKEN {
        let Bench { board, log } = lent::<Library>(led).expect("it can be held");
        refuses_all(&board, &log, led.what);
    }
    for led in &STANDING {
        let Bench { board, log } = lent::<Library>(led).expect("it can be held");
        stands(&board, &board.picture(), &log);
    }
}

/// The rules of rates, each broken in every mode; and what is at their edge.
#[test]
fn broken_rates_are_refused() {
    let broken = rates::refused::broken();
    let held: Vec<_> =
        broken.iter().filter_map(|paced| Some((paced, rates::refused::lent::<Library>(paced)?))).collect();
    assert!(held.len() > 70);
    for (paced, Bench { board, log }) in held {
        refuses_all(&board, &log, &format!("{paced:?}"));
    }
    for paced in &rates::refused::standing() {
        let Bench { board, log } = rates::refused::lent::<Library>(paced).expect("it can be held");
        stands(&board, &board.picture(), &log);
    }
}

/// What absent tracks hold means nothing: no rate, no remainder.
#[test]
fn absent_rates_stand() {
    let sound = rates::refused::standing()[0];
    let Bench { mut board, log } = rates::refused::lent::<Library>(&sound).expect("it can be held");
    for paced in &rates::refused::broken() {
        let [steps, ticks] = [paced.steps, paced.ticks].map(|n| n as u16);
        let remainder = paced.remainder as u32;
        board.board.tracks[9] = raw::Track { mode: paced.mode as u8, steps, ticks, remainder, ..board.board.tracks[9] };
        stands(&board, &board.picture(), &log);
    }
}

/// What absent tracks hold means nothing: neither as followers nor as masters of others.
#[test]
fn absent_followers_stand() {
    let Bench { mut board, log } = lent::<Library>(&STANDING[0]).expect("it can be held");
    for led in &BROKEN {
        let (thresholds, events) = (led.thresholds.map(|n| n as u32), led.events.map(|n| n as u16));
        let (master, band) = (led.master as u8, led.band as u8);
        board.board.tracks[9] = raw::Track { master, band, thresholds, events, ..board.board.tracks[9] };
        stands(&board, &board.picture(), &log);
    }
}

/// The door has no master: 9, on a board that would take the call too.
#[test]
fn no_master_by_the_door() {
    let Bench { mut board, mut log } = lent::<Library>(&STANDING[0]).expect("it can be held");
    let before = board;
    NO_CALLS.iter().for_each(|row| assert_eq!(board.door(row, &mut log), Refused(9).encode()));
    assert!(board == before);
}

fn alter_track(track: &mut raw::Track, clock: u32, rng: &mut Rng) {
    let near = track.start.wrapping_add(rng.between(-2, 9) as u32);
    let small: u8 = rng.pick(&[0, 1, 2, 3, 4, 5, 15, 16, 255]);
    let flip: u8 = rng.pick(&[1, 1, 1, 2, 128]);
    let number: u32 = rng.pick(&[0, 1, 2, 3, 4, 9, 255, 256, 1_000_000, 1_000_001, u32::MAX]);
    let rate: u16 = rng.pick(&[0, 1, 1, 2, 3, 5, 7, 999, 1_000, 1_001, u16::MAX]);
    match rng.between(0, 22) {
        0 => track.min = near,
        1 => track.max = rng.pick(&[near, 2_000_000, 2_000_001, u32::MAX]),
        2 => track.start = near,
        3 => track.end = near,
        4 => track.position = near,
        5 => track.passes = clock.wrapping_add(rng.between(-1, 1) as u32),
        6 => track.loops = small.into(),
        7 => track.mode = small,
        8 => track.actions[small as usize & 15] = small,
        9 => track.direction ^= flip,
        10 => track.repeat ^= flip,
        11 => track.master = rng.between(0, 16) as u8,
        12 => track.band = rng.between(0, 5) as u8,
        13..=14 => track.thresholds[small as usize & 3] = number,
        15..=16 => track.events[small as usize & 3] = number as u16,
        17 => track.steps = rate,
        18..=19 => track.ticks = rate,
        20 => track.remainder = u32::from(rate),
        21 => track.remainder = u32::from(track.ticks).wrapping_add(rng.between(-2, 1) as u32),
        _ => track.due ^= flip,
    }
}

fn alter_points(points: &mut raw::Points, rng: &mut Rng) {
    let slot = rng.between(0, points.count.clamp(1, 256) as i64 - 1) as usize;
    match rng.between(0, 4) {
        0 => points.keys[slot] = points.keys[slot].wrapping_add(rng.pick(&[1, u32::MAX, 1 << 20, 1 << 21, 1 << 25])),
        1 => points.count = rng.pick(&[0, slot, points.count.saturating_add(1), 257, 1 << 32, usize::MAX]),
        _ => points.infos[slot] ^= 1 << rng.between(0, 31),
    }
}

fn alter(board: &mut raw::Board, rng: &mut Rng) {
    let track = rng.between(0, 15) as usize;
    match rng.between(0, 9) {
        0 => board.present ^= 1 << track,
        1 => board.clock = rng.pick(&[0, 5, 1_000_000_000, 1_000_000_001, u32::MAX]),
        2 => board.held = rng.pick(&[0, 1, 30, 300, 1 << 60, u64::MAX]),
        3..=5 => alter_points(&mut board.points, rng),
        _ => alter_track(&mut board.tracks[track], board.clock, rng),
    }
}

/// Whether the rules hold: by the model, and by the form for what it cannot hold (257 points, keys not ascending).
fn whole(board: &raw::Board, model: &Model) -> bool {
    let keys = board.points.keys.get(..board.points.count);
    keys.is_some_and(|keys| keys.is_sorted_by(|a, b| a < b)) && model.unbroken()
}

/// Each call on a board that stands, lent and by the door; slots of absent tracks are left alone.
fn stands(library: &Library, model: &Model, log: &[u8]) {
    for call in each_call() {
        let (mut lent, mut after) = (*library, model.clone());
        agree(&mut lent, &mut after, call, log);
        let (mut door, mut door_log, mut log) = (*library, log.to_vec(), log.to_vec());
        let reply = model.clone().apply(call, &mut log);
        assert_eq!(door.by_row(&call.encode(), &mut door_log), reply.encode(), "{call:?}");
        assert!(door == lent && door_log == log, "{call:?}");
        let absent = |&number: &usize| after.tracks[number].is_none();
        assert!((0..16).filter(absent).all(|number| lent.board.tracks[number] == library.board.tracks[number]));
    }
}

/// Lent boards with a field or two altered: as the model's where they stand, else refused 3.
#[test]
fn altered_boards_agree() {
    let (mut stood, mut broken) = (0, 0);
    for seed in 0..4000 {
        let mut rng = Rng(seed);
        let profiles = [Profile::Dense, Profile::Followers, Profile::Typical, Profile::Turns, Profile::Rates];
        let profile = profiles[seed as usize % profiles.len()];
        let case = case(profile, seed % 60);
        let (mut library, mut log) = (Library::begun(case.clock), case.log);
        for call in case.calls {
            library.apply(call, &mut log);
        }
        (0..rng.between(1, 2)).for_each(|_| alter(&mut library.board, &mut rng));
        let model = library.picture();
        if whole(&library.board, &model) {
            stands(&library, &model, &log);
            stood += 1;
        } else {
            refuses_all(&library, &log, &format!("altered {seed}"));
            broken += 1;
        }
    }
    println!("altered boards: {stood} stood, {broken} broken, {} calls each", each_call().len());
    assert!(stood > 500 && broken > 500);
}

/// Not broken: held beyond every log, a STOPPED track off home with passes.
#[test]
fn odd_boards_stand() {
    let mut bench = Bench::<Library>::case_a(64);
    (bench.board.board.clock, bench.board.board.held) = (9, u64::MAX);
    let track = &mut bench.board.board.tracks[0];
    (track.position, track.due, track.passes) = (1_000_004, 0, 9);
    stands(&bench.board, &bench.board.picture(), &bench.log);
    assert_eq!(bench.call(Play(99)), Refused(7));
    bench.accept(&[Clear, Play(0)]);
}

/// Numbers at the ends of i64 and beside what fewer bits hold.
fn extreme(rng: &mut Rng) -> i64 {
    let bits = rng.pick(&[7, 8, 15, 16, 20, 21, 31, 32, 33, 48, 62]);
    match rng.between(0, 3) {
        0 => rng.pick(&[i64::MIN, i64::MIN + 1, i64::MAX, i64::MAX - 1]),
        1 => rng.pick(&[1, -1]) * (1 << bits) + rng.between(-2, 5),
        2 => rng.pick(&[1_000_000, -1_000_000, 4_294_967_295]) + rng.between(-1, 1),
        _ => rng.between(-1, 6),
    }
}

/// Rows of any code with such numbers, one after another; the clock's end is near, so that every advance ends soon.
#[test]
fn extreme_numbers_agree() {
    let (mut refused, calls) = (0, 60_000);
    for seed in 0..calls / 100 {
        let mut rng = Rng(seed);
        let (mut library, mut model) = (Library::begun(999_999_000), Model::begun(999_999_000));
        let mut logs = [vec![0; 100], vec![0; 100]];
        for nth in 0..100 {
            let code = if rng.chance(97) { rng.between(1, CODES) } else { extreme(&mut rng) };
            let mut row = [0; CALL_WIDTH].map(|_| extreme(&mut rng));
            row[0] = if nth < 3 { 1 } else { code };
            row[1] = if rng.chance(70) { rng.between(0, 3) } else { row[1] };
            row[2] = if code == MASTER && rng.chance(70) { rng.between(0, 3) } else { row[2] };
            let reply: Reply = model.apply_encoded(&row, &mut logs[0]);
            assert_eq!(library.by_row(&row, &mut logs[1]), reply.encode(), "seed {seed}: {row:?}");
            assert!(library.same(&model) && logs[0] == logs[1], "seed {seed}: {row:?}");
            refused += u32::from(matches!(reply, Refused(_)));
        }
    }
    println!("extreme numbers: {} lists, {calls} calls, {refused} refused", calls / 100);
}
