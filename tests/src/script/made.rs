//! Scripts from fixed seeds: lines of calls, such lines hurt, and junk.

use super::{LOG_RECORDS, line_of};
use crate::call::Call;
use crate::gen::{PROFILES, Profile, Rng, long};
use crate::model::CLOCK_END;
use crate::record::RECORD;

#[derive(Clone, Copy, Debug, PartialEq, Eq)]
pub enum Kind {
    /// lines of calls, most of which do something
    Valid,
    /// the same with the clock's end near
    Late,
    /// the same, some of them hurt, some as long as a line may be or a little longer
    Hurt,
    /// words of the grammar with any number of odd fields
    Words,
    /// bytes that a line may have, in no order
    Letters,
    /// any bytes
    Bytes,
}

pub const KINDS: [Kind; 6] = [Kind::Valid, Kind::Late, Kind::Hurt, Kind::Words, Kind::Letters, Kind::Bytes];

const WORDS: &str = "track/start/end/loops/repeat/dir/point/drop/action/jump/play/pause/resume/stop/advance/clear\
    //clears/Play/rate/master";
/// Fields that are numbers, small ones and edges, and fields that are none.
const FIELDS: &str = "0/0/0/1/1/2/3/5/15/16/-1/255/256/65535/1000000/-1000000/4294967295/-4294967295\
    /4294967296/-0/00/01/+1//-/ 1/18446744073709551616/1a";
const LETTERS: &[u8] = b"\n\n\n,,,,--00123456789abcdeijklmnopqrstuvwxy\r \0+PLAY\xff";

/// Two points without end: 4,096 records, then no room.
pub const FULL_LOG: &[u8] =
    b"track,0,-1,0\nrepeat,0,1\npoint,0,-1,9,0,0,0\npoint,0,0,8,0,0,0\naction,0,1,2,5\nplay,0\n\
    advance,4294967295\nadvance,0\nadvance,1\npause,0\n";

/// A script of about so many lines.
pub fn script(kind: Kind, seed: u64, lines: i64) -> Vec<u8> {
    let mut rng = Rng(seed);
    // Without master and rate lines these profiles have nothing of their own.
    let without = [Profile::Followers, Profile::Rates];
    let profile = *PROFILES.iter().filter(|p| !without.contains(p)).cycle().nth(seed as usize).expect("a profile");
    let calls = || long(profile, seed, lines, LOG_RECORDS * RECORD);
    match kind {
        Kind::Valid => calls().into_iter().flat_map(bytes_of).collect(),
        Kind::Late => {
            let idle = Call::Advance(CLOCK_END - rng.between(0, 20 * lines));
            [idle].into_iter().chain(calls()).flat_map(bytes_of).collect()
        }
        Kind::Hurt => calls().into_iter().map(bytes_of).flat_map(|line| maybe_hurt(line, &mut rng)).collect(),
        Kind::Words => (0..lines).flat_map(|_| words(&mut rng)).collect(),
        Kind::Letters => (0..lines * 12).map(|_| rng.pick(LETTERS)).collect(),
        Kind::Bytes => (0..lines * 12).map(|_| if rng.chance(10) { b'\n' } else { rng.bits() as u8 }).collect(),
    }
}

/// A call's line with its LF; nothing for a query.
fn bytes_of(call: Call) -> Vec<u8> {
    line_of(call).map_or(Vec::new(), |line| (line + "\n").into_bytes())
}

/// One of the words between the strokes.
fn one_of<'a>(words: &'a str, rng: &mut Rng) -> &'a str {
    rng.pick(&words.split('/').collect::<Vec<_>>())
}

fn words(rng: &mut Rng) -> Vec<u8> {
    let mut line = one_of(WORDS, rng).to_string();
    for _ in 0..rng.between(0, 7) {
        line = line + "," + one_of(FIELDS, rng);
    }
    (line + "\n").into_bytes()
}

/// A point's line of 54 to 67 bytes, each field a number of the grammar.
fn wide(rng: &mut Rng) -> Vec<u8> {
    let mut fields = vec![rng.between(0, 17).to_string()];
    fields.extend((0..4).map(|_| (rng.between(1_000_000_000, 4_294_967_295) * rng.pick(&[-1, 1])).to_string()));
    let digits = rng.between(1, 9) as usize;
    fields.push("1".repeat(digits));
    format!("point,{}\n", fields.join(",")).into_bytes()
}

fn maybe_hurt(line: Vec<u8>, rng: &mut Rng) -> Vec<u8> {
    match rng.between(0, 99) {
        0..75 => line,
        75..80 => [wide(rng), line].concat(),
        80 => overlong(line, rng),
        81..85 => with_field(line, rng),
        85..88 => [&line[..line.len() / 2], &line].concat(),
        _ => hurt(line, rng),
    }
}

/// A line behind bytes that make it too long, now and then longer than any buffer.
fn overlong(line: Vec<u8>, rng: &mut Rng) -> Vec<u8> {
    let most = rng.pick(&[10, 70, 70, 140, 5_000, 140_000]);
    let filling = rng.pick(b"0,a-\0 ");
    [vec![filling; rng.between(50, most.max(50)) as usize], line].concat()
}

/// A line with one of its fields replaced.
fn with_field(line: Vec<u8>, rng: &mut Rng) -> Vec<u8> {
    let mut fields: Vec<&[u8]> = line.trim_ascii_end().split(|&byte| byte == b',').collect();
    let at = rng.between(0, fields.len() as i64 - 1) as usize;
    fields[at] = one_of(FIELDS, rng).as_bytes();
    [fields.join(&b','), b"\n".to_vec()].concat()
}

/// A line with one byte changed, added, taken away or moved; the LF may be it.
fn hurt(mut line: Vec<u8>, rng: &mut Rng) -> Vec<u8> {
    if line.is_empty() {
        return line;
    }
    let at = rng.between(0, line.len() as i64 - 1) as usize;
    match rng.between(0, 6) {
        0 => line[at] = rng.pick(LETTERS),
        1 => line[at] = rng.bits() as u8,
        2 => line.insert(at, rng.pick(LETTERS)),
        3 => line.insert(at, line[at]),
        4 => line[at] = line[at].to_ascii_uppercase(),
        5 => line.swap(at, 0),
        _ => drop(line.remove(at)),
    }
    line
}
