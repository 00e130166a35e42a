//! Ratios of time in one run: the proved library against the leaping peer and the single-tick model.
//! `speed` prints the table; `speed plot FILE` also draws time over ticks as SVG.

use gridstep_tests::call::{Board, Call, Call::*, Pairs};
use gridstep_tests::library::Library;
use gridstep_tests::model::Model;
use gridstep_tests::peer::Peer;
use gridstep_tests::plot::{Series, draw};
use std::hint::black_box;
use std::time::Instant;

const WHOLE: i64 = 1_000_000_000;
/// How often library and peer take turns, and the times of each in one.
const TURNS: u32 = 200;
const TIMES: u32 = 30;
/// Two cases whose times are compared: the second is to take at most twice the first.
const IDLE: &str = "idle board, whole clock";
const IN_STEP: &str = "follower in step, whole clock";

fn set_up<B: Board>(calls: &[Call]) -> B {
    let mut board = B::fresh();
    for &call in calls {
        board.apply(call, &mut [0; 4096]);
    }
    board.apply(Clear, &mut []);
    board
}

/// One track over all locations with three points, round and round.
fn few_points() -> Vec<Call> {
    let points = [-1_000_000, 0, 1_000_000].map(|p| Point(0, p, 1, 0, 0, 0));
    [&[Track(0, -1_000_000, 1_000_000), Repeat(0, 1)], &points[..], &[Play(0)]].concat()
}

/// The same at a rate.
fn few_points_at(p: i64, q: i64) -> Vec<Call> {
    [few_points(), vec![Stop(0), Rate(0, p, q), Play(0)]].concat()
}

/// Ten points and one pass over a span of so many locations.
fn ten_points(last: i64) -> Vec<Call> {
    let points: Vec<Call> = (0..10).map(|n| Point(0, last * n / 10, 1, 0, 0, 0)).collect();
    [&[Track(0, 0, last)], &points[..], &[Play(0)]].concat()
}

fn two_locations() -> Vec<Call> {
    vec![Track(0, 0, 1), Repeat(0, 1), Play(0)]
}

/// Sixteen tracks, a point at each location, half of them with a command.
fn dense() -> Vec<Call> {
    let tracks = (0..16).flat_map(|t| [Track(t, 0, 15), Repeat(t, 1)]);
    let points = (0..256).map(|n| (n / 16, n % 16));
    let points = points
        .map(|(t, p)| if p % 2 == 0 { Point(t, p, 1 + p, 0, 1, (t + 1) % 16) } else { Point(t, p, 1 + p, 0, 0, 0) });
    tracks.chain(points).chain((0..16).map(Play)).collect()
}

/// Four tracks, twelve points, two waits: what an inverter has.
fn typical() -> Vec<Call> {
    let tracks = (0..4).flat_map(|t| [Track(t, 0, 200), Repeat(t, 1), Action(t, 1, 2, 9), Action(t, 2, 1, 8)]);
    let points = (0..12).map(|n| Point(n % 4, 15 * n, 1 + n, 0, 0, 0));
    tracks.chain(points).chain((0..4).map(Play)).collect()
}

/// Two tracks of 100 locations in step, 5 or 95 apart: a band that is never left.
fn in_step() -> Vec<Call> {
    let tracks = [Track(0, 0, 99), Track(1, 0, 99), Repeat(0, 1), Repeat(1, 1)];
    let led = [Master(1, 0, Pairs::new(&[[1, 7], [96, 8]])), Play(0), Advance(5), Play(1), Advance(1)];
    [&tracks[..], &led].concat()
}

/// A follower of 10 locations beside a master of 1,000: two records in each of the master's rounds.
fn unequal_spans() -> Vec<Call> {
    let tracks = [Track(0, 0, 999), Track(1, 0, 9), Repeat(0, 1), Repeat(1, 1)];
    let led = [Master(1, 0, Pairs::new(&[[50, 5], [500, 6]])), Play(0), Play(1)];
    [&tracks[..], &led].concat()
}

/// Two tracks of 1,000 locations at 1 in 1 and at 999 in 1,000: with each round they drift apart by one location.
fn unequal_rates() -> Vec<Call> {
    let tracks = [Track(0, 0, 999), Track(1, 0, 999), Repeat(0, 1), Repeat(1, 1), Rate(1, 999, 1_000)];
    let led = [Master(1, 0, Pairs::new(&[[50, 5], [500, 6]])), Play(0), Play(1)];
    [&tracks[..], &led].concat()
}

/// The least time of one round of calls, each round from the board as it is, in nanoseconds.
fn least<B: Board + Clone>(board: &B, calls: &[Call], bytes: usize, rounds: u32, times: u32) -> f64 {
    let mut log = vec![0; bytes];
    let mut best = f64::MAX;
    for _ in 0..times {
        let mut boards = vec![board.clone(); rounds as usize];
        let began = Instant::now();
        for board in &mut boards {
            for &call in calls {
                black_box(board.apply(black_box(call), &mut log));
            }
        }
        best = best.min(began.elapsed().as_nanos() as f64 / f64::from(rounds));
    }
    best
}

struct Case {
    name: &'static str,
    set_up: Vec<Call>,
    calls: Vec<Call>,
    bytes: usize,
    rounds: u32,
}

impl Case {
    fn time<B: Board + Clone>(&self, times: u32) -> f64 {
        least(&set_up::<B>(&self.set_up), &self.calls, self.bytes, self.rounds, times)
    }

    /// Library and peer in turns, so that a change of the machine's speed meets both.
    fn times(&self) -> (f64, f64) {
        let turn = |(library, peer): (f64, f64), _| {
            (library.min(self.time::<Library>(TIMES)), peer.min(self.time::<Peer>(TIMES)))
        };
        (0..TURNS).fold((f64::MAX, f64::MAX), turn)
    }
}

fn cases() -> Vec<Case> {
    let case = |name, set_up, calls, rounds| Case { name, set_up, calls, bytes: 65_536, rounds };
    let whole = |name, set_up, rounds| case(name, set_up, vec![Advance(WHOLE)], rounds);
    vec![
        whole("whole clock, three points", few_points(), 4),
        case("ten records over 1,000 ticks", ten_points(900), vec![Advance(1_000)], 50),
        whole("ten records over the whole clock", ten_points(900_000), 50),
        whole(IDLE, vec![], 50),
        whole("two locations, whole clock", two_locations(), 50),
        whole(IN_STEP, in_step(), 50),
        whole("follower, spans 10 and 1,000, until 4,096 records", unequal_spans(), 1),
        whole("three points at 1 in 3, whole clock", few_points_at(1, 3), 4),
        whole("follower, 999 in 1,000 beside 1 in 1, until 4,096 records", unequal_rates(), 1),
        whole("dense board until 4,096 records", dense(), 4),
        case("100 advances of one tick", typical(), vec![Advance(1); 100], 10),
        case("100 mode calls", typical(), [[Pause(1), Resume(1)]; 50].concat(), 10),
    ]
}

/// Time over ticks on the board with three points.
fn series<B: Board + Clone>(name: &'static str, most: i64) -> Series {
    let board = set_up::<B>(&few_points());
    let ticks = (0..=9).map(|k| 10i64.pow(k)).filter(|&n| n <= most);
    let points = ticks.map(|n| (n as f64, least(&board, &[Advance(n)], 65_536, 1, 9))).collect();
    Series { name, points }
}

fn main() {
    println!("| Case | library, µs | peer, µs | ratio |");
    println!("|---|---|---|---|");
    let (mut idle, mut in_step) = (0.0, 0.0);
    for case in cases() {
        let (library, peer) = case.times();
        println!("| {} | {:.2} | {:.2} | {:.2} |", case.name, library / 1e3, peer / 1e3, library / peer);
        match case.name {
            IDLE => idle = library,
            IN_STEP => in_step = library,
            _ => {}
        }
    }
    println!("\n{IN_STEP}: {:.2} times the idle board (goal: at most 2)", in_step / idle);
    let case = &cases()[0];
    let tick = least(&set_up::<Model>(&case.set_up), &[Advance(100_000)], case.bytes, 1, 9) / 1e5;
    let library = case.time::<Library>(60) / WHOLE as f64;
    println!(
        "\nsingle-tick model: {tick:.1} ns a tick; library over the whole clock: {:.0} times faster",
        tick / library
    );
    let words: Vec<String> = std::env::args().collect();
    if let [_, word, file] = &words[..] {
        assert_eq!(word, "plot");
        let all = [
            series::<Model>("single-tick model", 1_000_000),
            series::<Peer>("peer", WHOLE),
            series::<Library>("library", WHOLE),
        ];
        std::fs::write(file, draw(&all)).expect("the plot is written");
    }
}
