//! Runs calls on the port, by the static library of `crates/library`.

use crate::call::{Action, Bad, Call, Id, MAX_REASON, Open, Peer};
use crate::codes::{Flow, RejectCode, TerminationCode};
use crate::mirror::{
    self, Asked, Batch, Bond, Done, Finished, MAX_GAPS, MAX_OUTPUTS, MAX_RUNS, Number, Opening,
    Record, Request, Served, Settings,
};
use crate::reply::{Answer, By, MessageName, Operation, Out, Refusal, Reply, Text};
use crate::state::{
    BindingState, Outstanding, PeerFinished, Phase, Provider, Range, Replay, SessionState,
    Snapshot, Start, Status,
};
use crate::subject::Subject;

unsafe extern "C" {
    fn fixp_open(opening: Opening) -> Done;
    fn fixp_call(record: Record, request: Request) -> Done;
    fn fixp_transport_closed(record: Record) -> Done;
    fn fixp_next_deadline(record: Record) -> mirror::Reply;
}

/// The port as a [`Subject`].
#[derive(Default)]
pub struct Port {
    /// An open came, refused or not: any later one stops the run.
    opened: bool,
    record: Option<Box<Record>>,
}

impl Port {
    /// No session yet.
    pub fn new() -> Self {
        Self::default()
    }

    fn open(&mut self, open: &Open) -> Answer {
        if self.opened {
            return Answer::Stop;
        }
        self.opened = true;
        let opening = Opening {
            id: to_id(open.id),
            local_flow: open.local.code(),
            remote_flow: open.remote.code(),
            config: to_settings(&open.config),
        };
        // SAFETY: the library takes any opening; `mirror` has its layout.
        let done = unsafe { fixp_open(opening) };
        let answer = answer(&done.reply);
        if answer == Answer::Ok {
            let mut record = Box::new(done.record);
            turn(&mut record, u64::from_le_bytes(open.id[..8].try_into().expect("8 bytes")));
            self.record = Some(record);
        }
        answer
    }
}

impl Subject for Port {
    fn reset(&mut self) {
        self.opened = false;
        self.record = None;
    }

    fn start(&mut self, start: &Start) -> Snapshot {
        self.opened = true;
        let record = self.record.insert(Box::new(to_record(start)));
        snapshot(record)
    }

    fn call(&mut self, call: &Call) -> Reply {
        let (answer, outs) = match (&call.action, self.record.as_mut()) {
            (Action::Open(open), _) => (self.open(open), Vec::new()),
            (_, Some(record)) => run(record, call),
            (_, None) => (Answer::Stop, Vec::new()),
        };
        Reply { answer, outs, snapshot: self.record.as_deref().map(snapshot) }
    }
}

/// Runs one call and takes what it queued out of the queue.
fn run(record: &mut Record, call: &Call) -> (Answer, Vec<Out>) {
    let earlier = mirror::Out::close_transport();
    for _ in 0..call.queued {
        let queue = &mut record.queue;
        queue.slots[(queue.head + queue.count) % MAX_OUTPUTS] = earlier;
        queue.count += 1;
    }
    let good = *record;
    if let Some(bad) = call.bad {
        spoil(record, bad);
    }
    let given = *record;
    // SAFETY: the library takes any record and any request; `mirror` has their layout.
    let done = unsafe {
        match call.action {
            Action::TransportClosed => fixp_transport_closed(given),
            _ => fixp_call(given, request(call)),
        }
    };
    let answer = answer(&done.reply);
    *record = done.record;
    if let Answer::Refused(_) = answer {
        assert!(*record == given, "a refused call changed the record: {call:?}");
    }
    if call.bad.is_some() {
        assert!(deadline(record).is_err(), "a bad record has a deadline: {call:?}");
        *record = good;
    }
    let queue = &mut record.queue;
    let mut outs = Vec::new();
    for place in 0..queue.count {
        let out = &queue.slots[(queue.head + place) % MAX_OUTPUTS];
        if place < usize::from(call.queued) {
            assert!(*out == earlier, "a call changed an output queued before: {call:?}");
        } else {
            outs.push(output(out));
        }
    }
    queue.head = (queue.head + queue.count) % MAX_OUTPUTS;
    queue.count = 0;
    (answer, outs)
}

/// Puts a record out of range.
fn spoil(record: &mut Record, bad: Bad) {
    match bad {
        Bad::MaxGapLen => record.config.max_gap_len = 0,
        Bad::MaxRetransmitCount => record.config.max_retransmit_count = 0,
        Bad::NoPendingGaps => record.config.max_pending_gaps = 0,
        Bad::ManyPendingGaps => record.config.max_pending_gaps = 65,
        Bad::GapCount => record.missing.count = MAX_GAPS + 1,
        Bad::GapHead => record.missing.head = MAX_GAPS,
        Bad::RunCount => record.overflow.count = MAX_RUNS + 1,
        Bad::RunHead => record.overflow.head = MAX_RUNS,
        Bad::OutputCount => record.queue.count = MAX_OUTPUTS + 1,
        Bad::OutputHead => record.queue.head = MAX_OUTPUTS,
        Bad::ReasonLength => record.reason.len = MAX_REASON + 1,
        Bad::OutputReason => {
            let queue = &mut record.queue;
            queue.count = queue.count.max(1);
            queue.slots[(queue.head + queue.count - 1) % MAX_OUTPUTS].text.len = MAX_REASON + 1;
        }
        Bad::Flow => record.local_flow = 0,
        Bad::Policy => record.config.policy = 5,
        Bad::Phase => record.bond.phase = 4,
        Bad::OutputKind => record.queue.slots[0].kind = 0,
    }
}

fn deadline(record: &Record) -> Result<Option<u64>, Answer> {
    // SAFETY: the library takes any record; `mirror` has its layout.
    let reply = unsafe { fixp_next_deadline(*record) };
    match answer(&reply) {
        Answer::Ok => Ok(reply.number.option()),
        other => Err(other),
    }
}

/// Turns the rings and the queue to other places, and fills what is not in them with numbers that mean nothing.
fn turn(record: &mut Record, by: u64) {
    let place = |room: usize, by: u64| usize::try_from(by % room as u64).expect("below the room");
    let missing = list(&record.missing.slots, record.missing.head, record.missing.count);
    let overflow = list(&record.overflow.slots, record.overflow.head, record.overflow.count);
    record.missing.head = place(MAX_GAPS, by);
    record.overflow.head = place(MAX_RUNS, by / 7);
    record.queue.head = place(MAX_OUTPUTS, by / 11);
    lay(&mut record.missing.slots, record.missing.head, &missing, by);
    lay(&mut record.overflow.slots, record.overflow.head, &overflow, by);
}

fn lay(slots: &mut [mirror::Range], head: usize, list: &[Range], rest: u64) {
    let room = slots.len();
    for place in 0..room {
        let stale = mirror::Range { from: rest.rotate_left(7), end: rest.rotate_right(9) };
        let range = list.get(place);
        slots[(head + place) % room] =
            range.map_or(stale, |range| mirror::Range { from: range.from, end: range.end });
    }
}

fn list(slots: &[mirror::Range], head: usize, count: usize) -> Vec<Range> {
    (0..count)
        .map(|place| slots[(head + place) % slots.len()])
        .map(|range| Range { from: range.from, end: range.end })
        .collect()
}

// ---- to the port

fn to_id(id: Id) -> mirror::Id {
    let (low, high) = id.split_at(8);
    mirror::Id {
        low: u64::from_le_bytes(low.try_into().expect("8 bytes")),
        high: u64::from_le_bytes(high.try_into().expect("8 bytes")),
    }
}

fn to_text(reason: &[u8]) -> mirror::Text {
    let mut text = mirror::Text { bytes: [0; MAX_REASON], len: reason.len() };
    let kept = reason.len().min(MAX_REASON);
    text.bytes[..kept].copy_from_slice(&reason[..kept]);
    text
}

fn to_settings(config: &crate::call::Config) -> Settings {
    Settings {
        max_gap_len: config.max_gap_len,
        max_retransmit_count: config.max_retransmit_count,
        max_pending_gaps: config.max_pending_gaps,
        policy: config.policy.code(),
        timeout: config.timeout,
        grace: Number::from(config.grace),
    }
}

fn to_record(start: &Start) -> Record {
    let session = &start.session;
    let mut record = Record::blank();
    record.id = to_id(session.id);
    record.local_flow = session.local.code();
    record.remote_flow = session.remote.code();
    record.start_pending = session.start_pending;
    record.awaiting_resume = session.awaiting_resume;
    record.finalized = session.finalized;
    record.config = to_settings(&start.config);
    record.outbound_next = session.outbound_next;
    record.inbound_next = Number::from(session.inbound_next);
    record.missing.count = session.missing.len();
    record.overflow.count = session.overflow_received.len();
    lay(&mut record.missing.slots, 0, &session.missing, 0);
    lay(&mut record.overflow.slots, 0, &session.overflow_received, 0);
    if let Some(request) = session.outstanding {
        record.asked = Asked {
            some: true,
            interrupted: request.interrupted,
            batch_complete: request.batch_complete,
            stall_reported: request.stall_reported,
            count: request.count,
            delivered: request.delivered,
            stamp: request.stamp,
            from: request.from,
            last_progress: request.last_progress,
        };
    }
    if let Some(replay) = session.replay {
        record.batch = Batch { some: true, remaining: replay.remaining, next: replay.next };
    }
    if let Some(provider) = session.provider {
        record.served = Served {
            some: true,
            count: provider.count,
            sent: provider.sent,
            stamp: provider.stamp,
            from: provider.from,
        };
    }
    if let Some(finished) = session.peer_finished {
        record.finished = Finished {
            some: true,
            receiving_sent: finished.receiving_sent,
            end: Number::from(finished.end),
        };
    }
    if let Some(binding) = &start.binding {
        record.bond = to_bond(binding);
        if let Phase::Terminating { reason, .. } = &binding.phase {
            record.reason = to_text(reason);
        }
    }
    record.queue.closing = start.transport_closing;
    let by = session.outbound_next ^ record.id.low.rotate_left(17) ^ record.id.high;
    turn(&mut record, by);
    record
}

fn to_bond(binding: &BindingState) -> Bond {
    let mut bond = Bond {
        some: true,
        phase: 1,
        code: 1,
        in_sequence: binding.in_sequence,
        sent_at: 0,
        deadline: Number::from(None),
        local_keepalive: binding.local_keepalive,
        remote_keepalive: binding.remote_keepalive,
        last_keepalive: binding.last_keepalive,
        last_received: binding.last_received,
    };
    match &binding.phase {
        Phase::Established => {}
        Phase::Terminating { sent_at, code, .. } => {
            bond.phase = 2;
            bond.sent_at = *sent_at;
            bond.code = code.code();
        }
        Phase::Closing { deadline } => {
            bond.phase = 3;
            bond.deadline = Number::from(*deadline);
        }
    }
    bond
}

fn request(call: &Call) -> Request {
    let mut request = Request::blank(call.now, call.stamp);
    match &call.action {
        Action::Open(_) | Action::TransportClosed => unreachable!("these have calls of their own"),
        Action::Bind { local_keepalive, remote_keepalive, next } => {
            request.kind = 2;
            request.local_keepalive = *local_keepalive;
            request.remote_keepalive = *remote_keepalive;
            request.seq = Number::from(*next);
        }
        Action::Release => request.kind = 3,
        Action::Application => request.kind = 4,
        Action::Peer(peer) => message(&mut request, peer),
        Action::Send => request.kind = 64,
        Action::Terminate { code, reason } => {
            request.kind = 65;
            request.code = code.code();
            request.reason = to_text(reason);
        }
        Action::Retransmit { count } => {
            request.kind = 66;
            request.count = *count;
        }
        Action::Reject { code, reason } => {
            request.kind = 67;
            request.code = code.code();
            request.reason = to_text(reason);
        }
        Action::End => request.kind = 68,
        Action::Timeout => request.kind = 69,
    }
    request
}

fn message(request: &mut Request, peer: &Peer) {
    match peer {
        Peer::Sequence { next } => {
            request.kind = 32;
            request.number = *next;
        }
        Peer::Context { id, next } => {
            request.kind = 33;
            request.id = to_id(*id);
            request.number = *next;
        }
        Peer::UnsequencedHeartbeat => request.kind = 34,
        Peer::RetransmitRequest { id, stamp, from: number, count }
        | Peer::Retransmission { id, stamp, next: number, count } => {
            request.kind = if matches!(peer, Peer::Retransmission { .. }) { 36 } else { 35 };
            request.id = to_id(*id);
            request.message_stamp = *stamp;
            request.number = *number;
            request.count = *count;
        }
        Peer::RetransmitReject { id, stamp, code, reason } => {
            request.kind = 37;
            request.id = to_id(*id);
            request.message_stamp = *stamp;
            request.code = code.code();
            request.reason = to_text(reason);
        }
        Peer::Terminate { id, code, reason } => {
            request.kind = 38;
            request.id = to_id(*id);
            request.code = code.code();
            request.reason = to_text(reason);
        }
        Peer::FinishedSending { id, last } => {
            request.kind = 39;
            request.id = to_id(*id);
            request.seq = Number::from(*last);
        }
        Peer::FinishedReceiving { id } => {
            request.kind = 40;
            request.id = to_id(*id);
        }
        Peer::Applied { from, count } | Peer::NotApplied { from, count } => {
            request.kind = if matches!(peer, Peer::Applied { .. }) { 41 } else { 42 };
            request.number = *from;
            request.count = *count;
        }
        Peer::Topic => request.kind = 43,
        Peer::MessageTemplate => request.kind = 44,
    }
}

// ---- from the port

fn from_id(id: mirror::Id) -> Id {
    let mut bytes = [0; 16];
    bytes[..8].copy_from_slice(&id.low.to_le_bytes());
    bytes[8..].copy_from_slice(&id.high.to_le_bytes());
    bytes
}

fn flow(code: u8) -> Flow {
    Flow::from_code(code).expect("the port gives a flow")
}

fn termination(code: u8) -> TerminationCode {
    TerminationCode::from_code(code).expect("the port gives a termination code")
}

fn rejection(code: u8) -> RejectCode {
    RejectCode::from_code(code).expect("the port gives a rejection code")
}

fn answer(reply: &mirror::Reply) -> Answer {
    let number = reply.number.option();
    match reply.kind {
        1 => Answer::Ok,
        2 => Answer::Accept(number),
        3 => Answer::Replay(number.expect("a replayed message has a number")),
        4 => Answer::Discard,
        5 => Answer::Sent(number),
        6 => {
            Answer::Batch { from: number.expect("a batch has a start"), count: count(reply.first) }
        }
        7 => Answer::Refused(refusal(reply)),
        other => panic!("the port answers {other}"),
    }
}

fn count(number: u64) -> u32 {
    u32::try_from(number).expect("a count is below 2^32")
}

fn length(number: u64) -> usize {
    usize::try_from(number).expect("a length fits")
}

fn refusal(reply: &mirror::Reply) -> Refusal {
    match reply.refusal {
        1 => Refusal::BadRecord,
        2 => Refusal::BadConfig,
        3 => Refusal::NotBound,
        4 => Refusal::AlreadyBound,
        5 => Refusal::BadMessage,
        6 => Refusal::ZeroCount,
        7 => Refusal::OutputFull,
        8 => Refusal::InvalidState {
            operation: operation(reply.first),
            status: status(reply.second),
        },
        9 => Refusal::FinishedReceivingSent,
        10 => Refusal::FlowCarriesNoApplicationMessages,
        11 => Refusal::SequenceExhausted,
        12 => Refusal::NoRetransmissionInProgress,
        13 => Refusal::RetransmissionOverrun {
            count: count(reply.first),
            remaining: count(reply.second),
        },
        14 => Refusal::ReasonTooLong { len: length(reply.first), max: length(reply.second) },
        other => panic!("the port refuses by {other}"),
    }
}

fn operation(number: u64) -> Operation {
    match number {
        64 => Operation::Send,
        65 => Operation::Terminate,
        66 => Operation::Retransmit,
        67 => Operation::Reject,
        68 => Operation::End,
        other => panic!("the port names the operation {other}"),
    }
}

fn status(number: u64) -> Status {
    match number {
        0 => Status::Unbound,
        1 => Status::Established,
        2 => Status::Terminating,
        3 => Status::Closing,
        other => panic!("the port names the status {other}"),
    }
}

fn name(kind: u8) -> MessageName {
    match kind {
        4 => MessageName::Application,
        32 => MessageName::Sequence,
        33 => MessageName::Context,
        34 => MessageName::UnsequencedHeartbeat,
        35 => MessageName::RetransmitRequest,
        36 => MessageName::Retransmission,
        37 => MessageName::RetransmitReject,
        38 => MessageName::Terminate,
        39 => MessageName::FinishedSending,
        40 => MessageName::FinishedReceiving,
        41 => MessageName::Applied,
        42 => MessageName::NotApplied,
        43 => MessageName::Topic,
        44 => MessageName::MessageTemplate,
        other => panic!("the port names the message {other}"),
    }
}

/// An output; a reason or a text where the kind has none is not passed over.
fn output(out: &mirror::Out) -> Out {
    let id = from_id(out.id);
    let (stamp, number, count) = (out.stamp, out.number, out.count);
    let has_reason = matches!(out.kind, 37 | 38 | 101 | 105 | 109 | 111 | 113);
    assert!(has_reason || (out.reason == 0 && out.text.len == 0), "a reason too many: {out:?}");
    match out.kind {
        1 => Out::CloseTransport,
        32 => Out::SendSequence { next: number },
        34 => Out::SendUnsequencedHeartbeat,
        35 => Out::SendRetransmitRequest { id, stamp, from: number, count },
        36 => Out::SendRetransmission { id, stamp, next: number, count },
        37 => Out::SendRetransmitReject { id, stamp, code: rejection(out.code), reason: text(out) },
        38 => Out::SendTerminate { id, code: termination(out.code), reason: text(out) },
        40 => Out::SendFinishedReceiving { id },
        42 => Out::SendNotApplied { seq: out.seq.option(), from: number, count },
        101 => Out::Refused { message: name(out.code), reason: own(out) },
        102 => Out::SequenceGap { from: number, count: out.length },
        103 => Out::RecoveryComplete,
        104 => Out::RetransmitRequested { from: number, count },
        105 => Out::RetransmitRejected {
            from: number,
            count,
            code: rejection(out.code),
            reason: bytes(out),
        },
        106 => Out::RetransmitTimedOut { from: number, count },
        107 => Out::NotApplied { from: number, count },
        108 => Out::Applied { from: number, count },
        109 => Out::Terminated {
            code: termination(out.code),
            reason: text(out),
            by: if out.by == 1 { By::Local } else { By::Peer },
        },
        110 => Out::KeepaliveLapsed,
        111 => Out::ProtocolViolation { reason: own(out) },
        112 => Out::PeerFinishedSending { last: out.seq.option() },
        113 => Out::Ignored { message: name(out.code), reason: own(out) },
        other => panic!("the port queues the output {other}"),
    }
}

/// A reason by its number alone.
fn own(out: &mirror::Out) -> u8 {
    assert_eq!(out.text.len, 0, "a number and bytes: {out:?}");
    out.reason
}

/// A reason by its bytes alone.
fn bytes(out: &mirror::Out) -> Vec<u8> {
    assert_eq!(out.reason, 0, "a number and bytes: {out:?}");
    out.text.bytes[..out.text.len].to_vec()
}

fn text(out: &mirror::Out) -> Text {
    if out.reason == 0 { Text::Host(bytes(out)) } else { Text::Own(own(out)) }
}

fn snapshot(record: &Record) -> Snapshot {
    Snapshot {
        session: session(record),
        binding: record.bond.some.then(|| binding(record)),
        next_deadline: deadline(record).expect("a good record"),
        transport_closing: record.queue.closing,
    }
}

fn session(record: &Record) -> SessionState {
    let Record { missing, overflow, asked, batch, served, finished, .. } = record;
    SessionState {
        id: from_id(record.id),
        local: flow(record.local_flow),
        remote: flow(record.remote_flow),
        outbound_next: record.outbound_next,
        inbound_next: record.inbound_next.option(),
        start_pending: record.start_pending,
        missing: list(&missing.slots, missing.head, missing.count),
        overflow_received: list(&overflow.slots, overflow.head, overflow.count),
        outstanding: asked.some.then_some(Outstanding {
            stamp: asked.stamp,
            from: asked.from,
            count: asked.count,
            delivered: asked.delivered,
            last_progress: asked.last_progress,
            interrupted: asked.interrupted,
            batch_complete: asked.batch_complete,
            stall_reported: asked.stall_reported,
        }),
        replay: batch.some.then_some(Replay { next: batch.next, remaining: batch.remaining }),
        awaiting_resume: record.awaiting_resume,
        provider: served.some.then_some(Provider {
            stamp: served.stamp,
            from: served.from,
            count: served.count,
            sent: served.sent,
        }),
        peer_finished: finished.some.then(|| PeerFinished {
            receiving_sent: finished.receiving_sent,
            end: finished.end.option(),
        }),
        finalized: record.finalized,
    }
}

fn binding(record: &Record) -> BindingState {
    let bond = &record.bond;
    BindingState {
        phase: match bond.phase {
            1 => Phase::Established,
            2 => Phase::Terminating {
                sent_at: bond.sent_at,
                code: termination(bond.code),
                reason: record.reason.bytes[..record.reason.len].to_vec(),
            },
            3 => Phase::Closing { deadline: bond.deadline.option() },
            other => panic!("the port gives the phase {other}"),
        },
        local_keepalive: bond.local_keepalive,
        remote_keepalive: bond.remote_keepalive,
        last_keepalive: bond.last_keepalive,
        last_received: bond.last_received,
        in_sequence: bond.in_sequence,
    }
}

#[cfg(test)]
mod tests {
    use super::*;

    fn called(record: Record, kind: u8, code: u8) -> Done {
        let request = Request { kind, code, ..Request::blank(0, 0) };
        // SAFETY: as in `run`.
        unsafe { fixp_call(record, request) }
    }

    fn bound() -> Record {
        let record = called(Record::blank(), 2, 1).record;
        assert!(record.bond.some);
        record
    }

    #[test]
    fn a_number_outside_its_list_is_refused_by_5_in_a_request() {
        let record = bound();
        for kind in 0..=u8::MAX {
            let codes: &[u8] = match kind {
                2..=4 | 32..=36 | 39..=44 | 64 | 66 | 68 | 69 => continue,
                37 | 67 => &[0, 4, 255],
                38 | 65 => &[0, 5, 255],
                _ => &[1],
            };
            for code in codes {
                let done = called(record, kind, *code);
                assert_eq!(answer(&done.reply), Answer::Refused(Refusal::BadMessage));
                assert_eq!(done.record, record);
            }
        }
    }

    #[test]
    fn a_bad_record_is_refused_by_1_before_a_bad_request_by_5() {
        for bad in Bad::ALL {
            let mut record = bound();
            spoil(&mut record, bad);
            let done = called(record, 38, 0);
            assert_eq!(answer(&done.reply), Answer::Refused(Refusal::BadRecord), "{bad:?}");
            assert_eq!(answer(&called(record, 3, 1).reply), Answer::Refused(Refusal::BadRecord));
            assert_eq!(done.record, record);
            assert_eq!(deadline(&record), Err(Answer::Refused(Refusal::BadRecord)));
        }
    }

    #[test]
    fn a_number_outside_its_list_is_refused_by_2_in_an_opening() {
        let good = Opening {
            id: to_id([0; 16]),
            local_flow: 1,
            remote_flow: 4,
            config: Record::blank().config,
        };
        // SAFETY: as in `Port::open`.
        let open = |opening| answer(&unsafe { fixp_open(opening) }.reply);
        assert_eq!(open(good), Answer::Ok);
        let bad = Answer::Refused(Refusal::BadConfig);
        for code in [0, 5, 255] {
            assert_eq!(open(Opening { local_flow: code, ..good }), bad);
            assert_eq!(open(Opening { remote_flow: code, ..good }), bad);
            let config = Settings { policy: code, ..good.config };
            assert_eq!(open(Opening { config, ..good }), bad);
        }
    }
}
