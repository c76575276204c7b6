//! The structs of `crates/library/src/mirror.rt`, declared again.

use crate::call::MAX_REASON;

/// The places of the rings and of the queue.
pub const MAX_GAPS: usize = 65;
/// The places of the list of overflow runs.
pub const MAX_RUNS: usize = 256;
/// The places of the queue.
pub const MAX_OUTPUTS: usize = 32;

/// Declares a struct with the layout of C.
macro_rules! mirrored {
    ($(#[$meta:meta])* $name:ident { $($field:ident: $type:ty),+ $(,)? }) => {
        $(#[$meta])*
        #[repr(C)]
        #[derive(Debug, Clone, Copy, PartialEq, Eq)]
        pub struct $name {
            $(pub $field: $type),+
        }
    };
}

mirrored! {
    /// A number that may be absent.
    Number { some: bool, it: u64 }
}

mirrored! {
    /// The two halves of an id.
    Id { low: u64, high: u64 }
}

mirrored! {
    /// A reason.
    Text { bytes: [u8; MAX_REASON], len: usize }
}

mirrored! {
    /// A range of numbers.
    Range { from: u64, end: u64 }
}

mirrored! {
    /// The ring of gaps.
    Missing { slots: [Range; MAX_GAPS], head: usize, count: usize }
}

mirrored! {
    /// The ring of overflow runs.
    Overflow { slots: [Range; MAX_RUNS], head: usize, count: usize }
}

mirrored! {
    /// The configuration.
    Settings {
        max_gap_len: u64,
        max_retransmit_count: u32,
        max_pending_gaps: u16,
        policy: u8,
        timeout: u64,
        grace: Number,
    }
}

mirrored! {
    /// Our request in flight.
    Asked {
        some: bool,
        interrupted: bool,
        batch_complete: bool,
        stall_reported: bool,
        count: u32,
        delivered: u32,
        stamp: u64,
        from: u64,
        last_progress: u64,
    }
}

mirrored! {
    /// The batch being received.
    Batch { some: bool, remaining: u32, next: u64 }
}

mirrored! {
    /// The peer's request being served.
    Served { some: bool, count: u32, sent: u32, stamp: u64, from: u64 }
}

mirrored! {
    /// The peer's FinishedSending.
    Finished { some: bool, receiving_sent: bool, end: Number }
}

mirrored! {
    /// The binding.
    Bond {
        some: bool,
        phase: u8,
        code: u8,
        in_sequence: bool,
        sent_at: u64,
        deadline: Number,
        local_keepalive: u64,
        remote_keepalive: u64,
        last_keepalive: u64,
        last_received: u64,
    }
}

mirrored! {
    /// An output.
    Out {
        kind: u8,
        code: u8,
        by: u8,
        reason: u8,
        count: u32,
        id: Id,
        stamp: u64,
        number: u64,
        length: u64,
        seq: Number,
        text: Text,
    }
}

mirrored! {
    /// The output queue.
    Queue { slots: [Out; MAX_OUTPUTS], head: usize, count: usize, closing: bool }
}

mirrored! {
    /// A record.
    Record {
        id: Id,
        local_flow: u8,
        remote_flow: u8,
        start_pending: bool,
        awaiting_resume: bool,
        finalized: bool,
        config: Settings,
        outbound_next: u64,
        inbound_next: Number,
        missing: Missing,
        overflow: Overflow,
        asked: Asked,
        batch: Batch,
        served: Served,
        finished: Finished,
        bond: Bond,
        reason: Text,
        queue: Queue,
    }
}

mirrored! {
    /// A call.
    Request {
        kind: u8,
        code: u8,
        count: u32,
        now: u64,
        stamp: u64,
        id: Id,
        message_stamp: u64,
        number: u64,
        seq: Number,
        local_keepalive: u64,
        remote_keepalive: u64,
        reason: Text,
    }
}

mirrored! {
    /// A new session.
    Opening { id: Id, local_flow: u8, remote_flow: u8, config: Settings }
}

mirrored! {
    /// An answer.
    Reply { kind: u8, refusal: u8, number: Number, first: u64, second: u64 }
}

mirrored! {
    /// What a call leaves, and its answer.
    Done { record: Record, reply: Reply }
}

impl From<Option<u64>> for Number {
    fn from(it: Option<u64>) -> Self {
        Self { some: it.is_some(), it: it.unwrap_or(0) }
    }
}

impl Number {
    const NONE: Self = Self { some: false, it: 0 };

    /// The number, if there is one.
    pub fn option(self) -> Option<u64> {
        self.some.then_some(self.it)
    }
}

impl Id {
    const NIL: Self = Self { low: 0, high: 0 };
}

impl Text {
    const NONE: Self = Self { bytes: [0; MAX_REASON], len: 0 };
}

impl Out {
    /// An output with nothing in it.
    pub const fn close_transport() -> Self {
        Self {
            kind: 1,
            code: 1,
            by: 1,
            reason: 0,
            count: 0,
            id: Id::NIL,
            stamp: 0,
            number: 0,
            length: 0,
            seq: Number::NONE,
            text: Text::NONE,
        }
    }
}

impl Record {
    /// A record with nothing in it.
    pub const fn blank() -> Self {
        let range = Range { from: 0, end: 0 };
        Self {
            id: Id::NIL,
            local_flow: 1,
            remote_flow: 1,
            start_pending: false,
            awaiting_resume: false,
            finalized: false,
            config: Settings {
                max_gap_len: 1,
                max_retransmit_count: 1,
                max_pending_gaps: 1,
                policy: 1,
                timeout: 0,
                grace: Number::NONE,
            },
            outbound_next: 1,
            inbound_next: Number::NONE,
            missing: Missing { slots: [range; MAX_GAPS], head: 0, count: 0 },
            overflow: Overflow { slots: [range; MAX_RUNS], head: 0, count: 0 },
            asked: Asked {
                some: false,
                interrupted: false,
                batch_complete: false,
                stall_reported: false,
                count: 0,
                delivered: 0,
                stamp: 0,
                from: 0,
                last_progress: 0,
            },
            batch: Batch { some: false, remaining: 0, next: 0 },
            served: Served { some: false, count: 0, sent: 0, stamp: 0, from: 0 },
            finished: Finished { some: false, receiving_sent: false, end: Number::NONE },
            bond: Bond {
                some: false,
                phase: 1,
                code: 1,
                in_sequence: false,
                sent_at: 0,
                deadline: Number::NONE,
                local_keepalive: 0,
                remote_keepalive: 0,
                last_keepalive: 0,
                last_received: 0,
            },
            reason: Text::NONE,
            queue: Queue {
                slots: [Out::close_transport(); MAX_OUTPUTS],
                head: 0,
                count: 0,
                closing: false,
            },
        }
    }
}

impl Request {
    /// A request of no kind.
    pub const fn blank(now: u64, stamp: u64) -> Self {
        Self {
            kind: 0,
            code: 1,
            count: 0,
            now,
            stamp,
            id: Id::NIL,
            message_stamp: 0,
            number: 0,
            seq: Number::NONE,
            local_keepalive: 0,
            remote_keepalive: 0,
            reason: Text::NONE,
        }
    }
}
