//! 01, "Log record": 16 bytes, lowest byte first.

use crate::call::refusal;

pub const RECORD: usize = 16;
pub const POINT: u8 = 1;
pub const MODE_CHANGE: u8 = 2;
pub const REFUSED_COMMAND: u8 = 3;
pub const BAND: u8 = 4;

#[derive(Clone, Copy, Debug, PartialEq, Eq)]
pub struct Record {
    pub clock: u32,
    pub track: u8,
    pub kind: u8,
    pub event: u8,
    pub detail: u8,
    pub position: i32,
    pub passes: u32,
}

impl Record {
    /// The record's bytes; any other kind than 1 to 4 is refused 3.
    pub fn pack(&self) -> Result<[u8; RECORD], u8> {
        if !(POINT..=BAND).contains(&self.kind) {
            return Err(refusal::VALUE);
        }
        let mut bytes = [0; RECORD];
        bytes[0..4].copy_from_slice(&self.clock.to_le_bytes());
        bytes[4] = self.track;
        bytes[5] = self.kind;
        bytes[6] = self.event;
        bytes[7] = self.detail;
        bytes[8..12].copy_from_slice(&self.position.to_le_bytes());
        bytes[12..16].copy_from_slice(&self.passes.to_le_bytes());
        Ok(bytes)
    }

    /// The record in a slice; another length than 16 or another kind than 1 to 4 is refused 3.
    pub fn unpack(bytes: &[u8]) -> Result<Record, u8> {
        if bytes.len() != RECORD || !(POINT..=BAND).contains(&bytes[5]) {
            return Err(refusal::VALUE);
        }
        let word = |at: usize| [bytes[at], bytes[at + 1], bytes[at + 2], bytes[at + 3]];
        Ok(Record {
            clock: u32::from_le_bytes(word(0)),
            track: bytes[4],
            kind: bytes[5],
            event: bytes[6],
            detail: bytes[7],
            position: i32::from_le_bytes(word(8)),
            passes: u32::from_le_bytes(word(12)),
        })
    }
}

/// Capacity of a log: its length over 16, rounded down.
pub fn capacity(log: &[u8]) -> i64 {
    (log.len() / RECORD) as i64
}
