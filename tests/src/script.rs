//! 01, "Script lines", in plain Rust: the grammar over bytes, the reader of lines, and all that the runner prints.

pub mod made;
pub mod malformed;
pub mod stored;

use crate::call::{Board, Call, Reply, refusal};
use crate::model::COUNT_MOST;
use crate::record::{RECORD, Record};

/// The most bytes of a line, its LF among them.
pub const LINE_MOST: usize = 64;
/// The records of the runner's log.
pub const LOG_RECORDS: usize = 4096;

/// `0`, or digits without leading zero, with `-` before it if negative, at most 4,294,967,295 in size.
pub fn number(field: &[u8]) -> Option<i64> {
    let (sign, digits) = field.strip_prefix(b"-").map_or((1, field), |digits| (-1, digits));
    let leading_zero = digits.first() == Some(&b'0') && field != b"0";
    if digits.is_empty() || leading_zero || !digits.iter().all(u8::is_ascii_digit) {
        return None;
    }
    let digit = |size: i64, byte: &u8| size.checked_mul(10)?.checked_add(i64::from(byte - b'0'));
    let size = digits.iter().try_fold(0, digit)?;
    (size <= COUNT_MOST).then_some(sign * size)
}

/// The call of a line, given without its LF; none if it is not in the grammar.
pub fn call_of(line: &[u8]) -> Option<Call> {
    if line.len() + 1 > LINE_MOST {
        return None;
    }
    let mut fields = line.split(|&byte| byte == b',');
    let word = fields.next()?;
    let numbers: Vec<i64> = fields.map(number).collect::<Option<_>>()?;
    Some(match (word, &numbers[..]) {
        (b"track", &[t, min, max]) => Call::Track(t, min, max),
        (b"start", &[t, p]) => Call::Start(t, p),
        (b"end", &[t, p]) => Call::End(t, p),
        (b"loops", &[t, n]) => Call::Loops(t, n),
        (b"repeat", &[t, f]) => Call::Repeat(t, f),
        (b"dir", &[t, d]) => Call::Direction(t, d),
        (b"point", &[t, p, event, wait, command, target]) => Call::Point(t, p, event, wait, command, target),
        (b"drop", &[t, p]) => Call::Drop(t, p),
        (b"action", &[t, from, to, event]) => Call::Action(t, from, to, event),
        (b"jump", &[t, p]) => Call::Jump(t, p),
        (b"play", &[t]) => Call::Play(t),
        (b"pause", &[t]) => Call::Pause(t),
        (b"resume", &[t]) => Call::Resume(t),
        (b"stop", &[t]) => Call::Stop(t),
        (b"advance", &[n]) => Call::Advance(n),
        (b"clear", &[]) => Call::Clear,
        _ => return None,
    })
}

/// The line of a call, without LF; queries have none, nor have master and rate before 2.8.
pub fn line_of(call: Call) -> Option<String> {
    Some(match call {
        Call::Track(t, min, max) => format!("track,{t},{min},{max}"),
        Call::Start(t, p) => format!("start,{t},{p}"),
        Call::End(t, p) => format!("end,{t},{p}"),
        Call::Loops(t, n) => format!("loops,{t},{n}"),
        Call::Repeat(t, f) => format!("repeat,{t},{f}"),
        Call::Direction(t, d) => format!("dir,{t},{d}"),
        Call::Point(t, p, event, wait, command, target) => format!("point,{t},{p},{event},{wait},{command},{target}"),
        Call::Drop(t, p) => format!("drop,{t},{p}"),
        Call::Action(t, from, to, event) => format!("action,{t},{from},{to},{event}"),
        Call::Jump(t, p) => format!("jump,{t},{p}"),
        Call::Play(t) => format!("play,{t}"),
        Call::Pause(t) => format!("pause,{t}"),
        Call::Resume(t) => format!("resume,{t}"),
        Call::Stop(t) => format!("stop,{t}"),
        Call::Advance(n) => format!("advance,{n}"),
        Call::Clear => "clear".into(),
        Call::Clock | Call::ShowTrack(_) | Call::ShowPoint(..) | Call::Count(..) => return None,
        Call::Master(..) | Call::Rate(..) => return None,
    })
}

/// What the runner prints of one line's answer, the line's number given: nothing if it is accepted or Done.
fn told(line: usize, reply: Reply) -> String {
    match reply {
        Reply::Refused(number) => format!("refused,{line},{number}\n"),
        Reply::LogFull(taken) => format!("short,{line},{taken},1\n"),
        Reply::ClockEnd(taken) => format!("short,{line},{taken},2\n"),
        _ => String::new(),
    }
}

fn record_line(bytes: &[u8; RECORD]) -> String {
    let Record { clock, track, kind, event, detail, position, passes } = Record::unpack(bytes).expect("a record");
    format!("{clock},{track},{kind},{event},{detail},{position},{passes}\n")
}

/// All that the runner prints for these bytes on its standard input.
pub fn output<B: Board>(input: &[u8]) -> String {
    let (mut board, mut log) = (B::fresh(), vec![0; LOG_RECORDS * RECORD]);
    let mut printed = String::new();
    // A last piece that lacks its LF is a line too, and not in the grammar; after the last LF there is none.
    for (before, line) in input.split_inclusive(|&byte| byte == b'\n').enumerate() {
        let reply = match line.strip_suffix(b"\n").and_then(call_of) {
            Some(call) => board.apply(call, &mut log),
            None => Reply::Refused(refusal::GRAMMAR),
        };
        printed += &told(before + 1, reply);
    }
    let Reply::Clock { clock, held } = board.show_clock() else { panic!("clock and held are refused") };
    log.as_chunks().0.iter().take(held as usize).for_each(|record| printed += &record_line(record));
    printed + &format!("end,{clock},{held}\n")
}
