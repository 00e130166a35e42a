//! The layout of the library's structs: numbers by the field order of the Rattle source under C's rule, then each field
//! written on one side and read on the other.

use gridstep_tests::call::{Board as _, Call, Pairs, REPLY_WIDTH, Reply, TRACK_WIDTH};
use gridstep_tests::library::{Library, raw};
use raw::{Board, Ending, Points, Replied, Track};
use std::mem::{align_of, offset_of, size_of};

macro_rules! offsets {
    ($type:ident: $($field:ident)*) => { [$(offset_of!($type, $field)),*] };
}

#[test]
fn sizes_and_offsets() {
    assert_eq!([size_of::<Track>(), size_of::<Points>(), size_of::<Board>()], [80, 2056, 3360]);
    assert_eq!(size_of::<Track>() % 16, 0, "other sizes are slow to copy");
    assert_eq!([size_of::<Ending>(), size_of::<Replied>()], [8, 3360 + 48 * 8]);
    let aligned = [align_of::<Track>(), align_of::<Points>(), align_of::<Board>(), align_of::<Ending>()];
    assert_eq!((aligned, align_of::<Replied>()), ([4, 8, 8, 4], 8));
    let words = offsets!(Track: min max start end position passes);
    let rest = offsets!(Track: loops mode direction repeat due actions);
    assert_eq!((words, rest), ([0, 4, 8, 12, 16, 20], [24, 26, 27, 28, 29, 30]));
    assert_eq!(offsets!(Track: master band thresholds events), [46, 47, 48, 64]);
    assert_eq!(offsets!(Track: steps ticks remainder), [72, 74, 76]);
    assert_eq!(offsets!(Points: keys infos count), [0, 1024, 2048]);
    assert_eq!(offsets!(Board: tracks present points clock held), [0, 1280, 1288, 3344, 3352]);
    assert_eq!(offsets!(Ending: reason number), [0, 4]);
    assert_eq!(offsets!(Replied: board reply), [0, 3360]);
}

const PRESENT: u16 = 0b1010_0110_1001_1101;

/// The next of the tracks present, counting round.
fn next_present(number: u32) -> u32 {
    (1..16).map(|more| (number + more) % 16).find(|at| PRESENT >> at & 1 == 1).expect("several are present")
}

/// A track whose fields, cells among them, differ from each other and from those of other numbers.
fn track(number: u32) -> Track {
    let cell = |at: usize| if at.is_multiple_of(5) { 0 } else { (at as u8) * 16 + number as u8 };
    Track {
        min: 0x0101 * (number + 1),
        max: 2_000_000 - number,
        start: 0x3_0200 + number,
        end: 0x1B_0403 + number,
        position: 0x10_0605 + number,
        passes: 0x0A0B_0C00 + number,
        loops: 0xD0E0 + number as u16,
        mode: (number % 4) as u8,
        direction: (number & 1) as u8,
        repeat: (number >> 1 & 1) as u8,
        due: (number >> 2 & 1) as u8,
        actions: std::array::from_fn(cell),
        master: next_present(number) as u8,
        band: (number % 5) as u8,
        thresholds: [1, 0x0203 + number, 0x9_0506 + number, 1_000_000 - number],
        events: [255 - number, 1 + number, 100 + number, 16 + number].map(|event| event as u16),
        steps: 0x0101 + number as u16,
        ticks: 0x0302 + number as u16,
        remainder: if number.is_multiple_of(4) { 0 } else { 0x0203 + number },
    }
}

/// Each field set in Rust, then asked by the library's queries.
#[test]
fn fields_are_read() {
    let mut library = Library::fresh();
    library.board.present = PRESENT;
    (0..16).for_each(|number| library.board.tracks[number as usize] = track(number));
    (library.board.clock, library.board.held) = (987_654_321, 0x0102_0304_0506_0708);
    for number in 0..16 {
        let mut row = [0; REPLY_WIDTH];
        if library.board.present >> number & 1 == 1 {
            row[0] = 6;
            row[1..=TRACK_WIDTH].copy_from_slice(&track(number).numbers());
        } else {
            row[..2].copy_from_slice(&[1, 1]);
        }
        assert_eq!(library.door(&[18, number.into(), 0, 0, 0, 0, 0], &mut []), row);
    }
    let reply = library.show_clock();
    assert_eq!(reply, Reply::Clock { clock: 987_654_321, held: 0x0102_0304_0506_0708 });
}

/// Points set in Rust: the first and the last slot of both rows, and the count.
#[test]
fn points_are_read() {
    let mut library = Library::fresh();
    (library.board.present, library.board.clock) = (1 << 9 | 1 << 13, 1_000_000_000);
    library.board.tracks[9] = Track { master: 13, ..track(0) };
    library.board.tracks[13] = Track { master: 9, ..track(1) };
    let key = |p: u32| 9 * 2_097_152 + 1_000_000 + p;
    for slot in 0..256 {
        library.board.points.keys[slot] = key(2 * slot as u32);
        library.board.points.infos[slot] = 1 + slot as u32 % 255 + 65_536 + 131_072 * 4 + 1_048_576 * 13;
    }
    library.board.points.count = 255;
    let asked = |library: &mut Library, slot: i64| library.door(&[19, 9, 2 * slot, 0, 0, 0, 0], &mut [])[..7].to_vec();
    let row = |slot: u64| vec![7, 9, 1_000_000 + 2 * slot, 1 + slot % 255, 1, 4, 13];
    assert_eq!([0, 1, 254].map(|slot| asked(&mut library, slot)), [0, 1, 254].map(row));
    assert_eq!(asked(&mut library, 255), [1, 4, 0, 0, 0, 0, 0]);
    library.board.points.count = 256;
    assert_eq!(asked(&mut library, 255), row(255));
    assert_eq!(library.count(9, i64::MIN, i64::MAX), Reply::Count(256));
}

/// Each field set by the library's calls, then read in Rust.
#[test]
fn fields_are_written() {
    let (mut library, mut log) = (Library::fresh(), [0; 64]);
    let calls = [Call::Track(7, -900_000, 900_000), Call::Start(7, -70_000), Call::End(7, 80_000)];
    let more = [Call::Loops(7, 0xABCD), Call::Repeat(7, 1), Call::Direction(7, 1), Call::Jump(7, 60_001)];
    let last =
        [Call::Action(7, 0, 1, 251), Call::Action(7, 3, 2, 252), Call::Point(7, -8, 253, 1, 3, 7), Call::Play(7)];
    // At 700 in 900 the second tick makes the first step. The tracks are 19,999 apart in their distances from home, then
    // 19,998.
    let pairs = Pairs::new(&[[1, 250], [4_096, 249], [19_999, 1], [900_000, 255]]);
    let led = [Call::Track(2, 0, 9), Call::Master(7, 2, pairs), Call::Play(2), Call::Rate(7, 700, 900)];
    for &call in calls.iter().chain(&more).chain(&led).chain(&last) {
        assert_eq!(library.apply(call, &mut log), Reply::Accepted);
    }
    assert_eq!(library.advance(2, &mut log), Reply::Done(2));
    let Board { tracks, present, points, clock, held } = library.board;
    let mut actions = [0; 16];
    (actions[1], actions[14]) = (251, 252);
    let (min, max, start, end, position) = (100_000, 1_900_000, 930_000, 1_080_000, 1_060_001);
    let (passes, loops, mode, direction, repeat, due) = (0, 0xABCD, 1, 1, 1, 0);
    let (master, band, thresholds, events) = (2, 2, [1, 4_096, 19_999, 900_000], [250, 249, 1, 255]);
    let walk = Track { min, max, start, end, position, passes, loops, mode, direction, repeat, due, ..tracks[7] };
    let (steps, ticks, remainder) = (700, 900, 500);
    let expected = Track { actions, master, band, thresholds, events, steps, ticks, remainder, ..walk };
    assert_eq!((tracks[7], present, clock, held), (expected, 1 << 7 | 1 << 2, 2, 2));
    let info = 253 + 65_536 + 131_072 * 3 + 1_048_576 * 7;
    assert_eq!((points.keys[0], points.infos[0], points.count), (7 * 2_097_152 + 999_992, info, 1));
}
