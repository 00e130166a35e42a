//! tests/malformed.steps line by line, each with its refusal by 01 (0: none), set down by hand.
//! Lines that 01 refuses 9 would show on the board if they were taken for the lines that they resemble.

/// A track 0 at rest on a fresh board, and a point on it.
const BEGUN: &[(&[u8], u8)] = &[(b"track,0,0,10\n", 0), (b"point,0,0,7,0,0,0\n", 0)];

/// Numbers that are none, and numbers too large.
const NUMBERS: &[(&[u8], u8)] = &[
    (b"play,-0\n", 9),
    (b"play,00\n", 9),
    (b"advance,01\n", 9),
    (b"advance,+1\n", 9),
    (b"jump,0,-01\n", 9),
    (b"jump,0,--1\n", 9),
    (b"jump,0,-\n", 9),
    (b"jump,0,1-\n", 9),
    (b"jump,0,-+1\n", 9),
    (b"advance,1.0\n", 9),
    (b"advance,1e1\n", 9),
    (b"advance,0x1\n", 9),
    (b"advance,1_0\n", 9),
    (b"advance,1'0\n", 9),
    (b"advance,1:\n", 9),
    (b"advance,1/\n", 9),
    (b"advance,\"1\"\n", 9),
    (b"advance,one\n", 9),
    ("jump,0,−1\n".as_bytes(), 9),
    ("advance,１\n".as_bytes(), 9),
    (b"advance,4294967296\n", 9),
    (b"advance,-4294967296\n", 9),
    (b"advance,4294967297\n", 9),
    (b"advance,9999999999\n", 9),
    (b"advance,10000000001\n", 9),
    (b"advance,9223372036854775809\n", 9),
    (b"advance,18446744073709551616\n", 9),
    (b"advance,18446744073709551617\n", 9),
    (b"advance,340282366920938463463374607431768211457\n", 9),
    (b"track,1,-4294967296,10\n", 9),
];

/// Numbers in the grammar: their ranges are the call's affair.
const RANGES: &[(&[u8], u8)] = &[
    (b"advance,-1\n", 3),
    (b"advance,-4294967295\n", 3),
    (b"jump,0,4294967295\n", 3),
    (b"jump,0,-4294967295\n", 3),
    (b"drop,0,4294967295\n", 4),
    (b"play,4294967295\n", 1),
    (b"play,-4294967295\n", 1),
    (b"track,16,0,10\n", 1),
    (b"track,0,10,0\n", 6),
    (b"track,1,-4294967295,10\n", 3),
    (b"loops,0,65536\n", 3),
    (b"pause,0\n", 2),
];

/// Blanks, ends of line, capitals, other bytes.
const BYTES: &[(&[u8], u8)] = &[
    (b" play,0\n", 9),
    (b"play ,0\n", 9),
    (b"play, 0\n", 9),
    (b"play,0 \n", 9),
    (b"play,0\t\n", 9),
    (b"play,0\r\n", 9),
    (b"\rplay,0\n", 9),
    (b"play,0\x0b\n", 9),
    (b"play,0\x0c\n", 9),
    (b"\n", 9),
    (b"\r\n", 9),
    (b" \n", 9),
    (b"Play,0\n", 9),
    (b"PLAY,0\n", 9),
    (b"play;0\n", 9),
    (b"play.0\n", 9),
    (b"play 0\n", 9),
    (b"play\0,0\n", 9),
    (b"play,0\0\n", 9),
    (b"play,\0\n", 9),
    (b"\0play,0\n", 9),
    (b"\0\n", 9),
    (b"play,\xb0\n", 9),
    (b"\xf0lay,0\n", 9),
    (b"\xff\n", 9),
    (b"\xef\xbb\xbfplay,0\n", 9),
    (b"\"play\",0\n", 9),
    (b"# play,0\n", 9),
    (b"play,0# now\n", 9),
    (b"play,0;advance,5\n", 9),
];

/// Words that are none; fields that are empty, too few, too many.
const FIELDS: &[(&[u8], u8)] = &[
    (b"pla,0\n", 9),
    (b"plays,0\n", 9),
    (b"start\n", 9),
    (b"direction,0,1\n", 9),
    (b"query,0\n", 9),
    (b"clock\n", 9),
    (b"1,0\n", 9),
    (b",\n", 9),
    (b",0\n", 9),
    (b"play\n", 9),
    (b"play,\n", 9),
    (b"play,,0\n", 9),
    (b"play,0,\n", 9),
    (b"play,0,0\n", 9),
    (b",play,0\n", 9),
    (b"advance\n", 9),
    (b"advance,\n", 9),
    (b"advance,1,2\n", 9),
    (b"advance,0,1\n", 9),
    (b"clear,\n", 9),
    (b"clear,0\n", 9),
    (b"track,1,0\n", 9),
    (b"track,1,0,10,0\n", 9),
    (b"track,1,,10\n", 9),
    (b"start,0\n", 9),
    (b"start,0,1,2\n", 9),
    (b"end,0\n", 9),
    (b"end,0,5,6\n", 9),
    (b"loops,0\n", 9),
    (b"repeat,0\n", 9),
    (b"repeat,0,true\n", 9),
    (b"dir,0\n", 9),
    (b"point,0,0,9,0,0\n", 9),
    (b"point,0,0,9,0,0,0,0\n", 9),
    (b"point,0,0,9,0,,0\n", 9),
    (b"drop,0\n", 9),
    (b"drop,0,0,0\n", 9),
    (b"action,0,0,1\n", 9),
    (b"action,0,0,1,5,0\n", 9),
    (b"jump,0\n", 9),
    (b"jump,0,5,5\n", 9),
    (b"pause,\n", 9),
    (b"resume,0,0\n", 9),
    (b"stop\n", 9),
];

/// Lines of 64 bytes with their LF, which are read, and longer ones, of which each is one line.
const LENGTHS: &[(&[u8], u8)] = &[
    (b"point,0,-4294967295,-4294967295,-4294967295,-4294967295,1000000\n", 3),
    (b"point,0,-4294967295,-4294967295,-4294967295,-4294967295,10000000\n", 9),
    (b"point,9,-4294967295,-4294967295,-4294967295,-4294967295,1000000\n", 1),
    (b"point,9,-4294967295,-4294967295,-4294967295,-4294967295,-1000000\n", 9),
    (b"advance,00000000000000000000000000000000000000000000000000000001\n", 9),
    (b"advance,0000000000000000000000000000000000000000000000000000000advance,1\n", 9),
    (b"0123456789012345678901234567890123456789012345678901234567890123advance,1\n", 9),
    (b"012345678901234567890123456789012345678901234567890123456789012\radvance,1\n", 9),
    (b"012345678901234567890123456789012345678901234567890123456789012\0advance,1\n", 9),
];

/// The board is as it was begun; the last line lacks its LF.
const ENDED: &[(&[u8], u8)] = &[(b"play,0\n", 0), (b"advance,2\n", 0), (b"advance,7", 9)];

/// The lines in order.
pub fn lines() -> impl Iterator<Item = (&'static [u8], u8)> {
    [BEGUN, NUMBERS, RANGES, BYTES, FIELDS, LENGTHS, ENDED].into_iter().flatten().copied()
}

/// The bytes of tests/malformed.steps.
pub fn steps() -> Vec<u8> {
    lines().flat_map(|(line, _)| line).copied().collect()
}

/// What the runner prints for them: the refusals by hand, then the one record that the last lines write.
pub fn printed() -> String {
    let refused = |(before, (_, number))| format!("refused,{},{number}\n", before + 1);
    let refusals = lines().enumerate().filter(|(_, (_, number))| *number != 0).map(refused);
    refusals.collect::<String>() + "1,0,1,7,0,0,0\nend,2,1\n"
}
