//! 01's binary trace format, and the output of its trace program as the source gives it.

pub mod program;
mod read;
mod write;

pub use read::record;
pub use write::{history, record_bytes};

use crate::history::History;

/// The calls of an input up to its first malformed record; none of one too long.
pub fn calls(input: &[u8]) -> History {
    let mut history = History::default();
    let mut rest = if input.len() > MAX_BYTES { &[] } else { input };
    while let Some((call, behind)) = record(rest) {
        history.calls.push(call);
        rest = behind;
    }
    history
}

/// The most bytes the trace program reads.
pub const MAX_BYTES: usize = 65_536;

/// Length, kind, instant and stamp.
const HEADER: usize = 20;

/// The kinds of record.
mod kind {
    pub const OPEN: u16 = 1;
    pub const BIND: u16 = 2;
    pub const RELEASE: u16 = 3;
    pub const APPLICATION: u16 = 4;
    pub const SEQUENCE: u16 = 32;
    pub const CONTEXT: u16 = 33;
    pub const UNSEQUENCED_HEARTBEAT: u16 = 34;
    pub const RETRANSMIT_REQUEST: u16 = 35;
    pub const RETRANSMISSION: u16 = 36;
    pub const RETRANSMIT_REJECT: u16 = 37;
    pub const PEER_TERMINATE: u16 = 38;
    pub const FINISHED_SENDING: u16 = 39;
    pub const FINISHED_RECEIVING: u16 = 40;
    pub const APPLIED: u16 = 41;
    pub const NOT_APPLIED: u16 = 42;
    pub const TOPIC: u16 = 43;
    pub const MESSAGE_TEMPLATE: u16 = 44;
    pub const SEND: u16 = 64;
    pub const TERMINATE: u16 = 65;
    pub const RETRANSMIT: u16 = 66;
    pub const REJECT: u16 = 67;
    pub const END: u16 = 68;
    pub const TIMEOUT: u16 = 69;
}
