//! Declared behind the unchanged text of `session.rs` as its child module, so that the private
//! fields can be read and set. Nothing here takes a step.

use std::collections::VecDeque;
use std::num::NonZeroU32;
use std::time::Duration;

use super::{BindState, Binding, Gap, Session};
use crate::convert::{self, Base};
use crate::state::{self, BindingState, Phase, Range, SessionState};
use crate::types::{Nanotime, SessionId};

impl Session {
    /// Every field.
    pub(crate) fn read(&self, base: Base) -> SessionState {
        SessionState {
            id: *self.id.as_bytes(),
            local: convert::from_flow_type(self.local_flow),
            remote: convert::from_flow_type(self.remote_flow),
            outbound_next: self.outbound_next,
            inbound_next: self.inbound_next,
            start_pending: self.start_pending,
            missing: read_ranges(&self.missing),
            overflow_received: read_ranges(&self.overflow_received),
            outstanding: self.outstanding.map(|request| state::Outstanding {
                stamp: request.timestamp.as_nanos(),
                from: request.from,
                count: request.count,
                delivered: request.delivered,
                last_progress: base.given(request.last_progress),
                interrupted: request.interrupted,
                batch_complete: request.batch_complete,
                stall_reported: request.stall_reported,
            }),
            replay: self.replay.map(|replay| state::Replay {
                next: replay.next,
                remaining: replay.remaining.get(),
            }),
            awaiting_resume: self.awaiting_resume,
            provider: self.provider.map(|provider| state::Provider {
                stamp: provider.request_timestamp.as_nanos(),
                from: provider.from,
                count: provider.count,
                sent: provider.sent,
            }),
            peer_finished: self.peer_finished.map(|finished| state::PeerFinished {
                receiving_sent: finished.receiving_sent,
                end: finished.end,
            }),
            finalized: self.finalized,
        }
    }

    /// The number of gaps.
    #[cfg(bench)]
    pub(crate) fn gap_count(&self) -> usize {
        self.missing.len()
    }

    /// How many overflow runs there are.
    pub(crate) fn run_count(&self) -> usize {
        self.overflow_received.len()
    }

    /// A session with these fields.
    pub(crate) fn build(state: &SessionState, base: Base) -> Self {
        Self {
            id: SessionId::from_bytes(state.id),
            local_flow: convert::to_flow_type(state.local),
            remote_flow: convert::to_flow_type(state.remote),
            outbound_next: state.outbound_next,
            inbound_next: state.inbound_next,
            start_pending: state.start_pending,
            missing: build_ranges(&state.missing),
            overflow_received: build_ranges(&state.overflow_received),
            outstanding: state.outstanding.map(|request| super::Outstanding {
                timestamp: Nanotime::from_nanos(request.stamp),
                from: request.from,
                count: request.count,
                delivered: request.delivered,
                last_progress: base.at(request.last_progress),
                interrupted: request.interrupted,
                batch_complete: request.batch_complete,
                stall_reported: request.stall_reported,
            }),
            replay: state.replay.map(|replay| super::Replay {
                next: replay.next,
                remaining: NonZeroU32::new(replay.remaining).expect("a replay has a message left"),
            }),
            awaiting_resume: state.awaiting_resume,
            provider: state.provider.map(|provider| super::Provider {
                request_timestamp: Nanotime::from_nanos(provider.stamp),
                from: provider.from,
                count: provider.count,
                sent: provider.sent,
            }),
            peer_finished: state.peer_finished.map(|finished| super::PeerFinished {
                receiving_sent: finished.receiving_sent,
                end: finished.end,
            }),
            finalized: state.finalized,
        }
    }
}

impl Binding {
    /// Every field.
    pub(crate) fn read(&self, base: Base) -> BindingState {
        BindingState {
            phase: match &self.state {
                BindState::Established => Phase::Established,
                BindState::Terminating { sent_at, code, reason } => Phase::Terminating {
                    sent_at: base.given(*sent_at),
                    code: convert::from_termination(*code),
                    reason: convert::to_bytes(reason),
                },
                BindState::Closing { deadline } => Phase::Closing {
                    deadline: deadline.and_then(|deadline| base.nanos(deadline)),
                },
            },
            local_keepalive: convert::nanos(self.local_keepalive),
            remote_keepalive: convert::nanos(self.remote_keepalive),
            last_keepalive: base.given(self.last_keepalive),
            last_received: base.given(self.last_received),
            in_sequence: self.in_sequence,
        }
    }

    /// A binding with these fields.
    pub(crate) fn build(state: &BindingState, base: Base) -> Self {
        Self {
            state: match &state.phase {
                Phase::Established => BindState::Established,
                Phase::Terminating { sent_at, code, reason } => BindState::Terminating {
                    sent_at: base.at(*sent_at),
                    code: convert::to_termination(*code),
                    reason: convert::to_string(reason),
                },
                Phase::Closing { deadline } => BindState::Closing {
                    deadline: deadline.map(|deadline| base.at(deadline)),
                },
            },
            local_keepalive: Duration::from_nanos(state.local_keepalive),
            remote_keepalive: Duration::from_nanos(state.remote_keepalive),
            last_keepalive: base.at(state.last_keepalive),
            last_received: base.at(state.last_received),
            in_sequence: state.in_sequence,
        }
    }
}

fn read_ranges(gaps: &VecDeque<Gap>) -> Vec<Range> {
    gaps.iter()
        .map(|gap| Range { from: gap.from, end: gap.end })
        .collect()
}

fn build_ranges(ranges: &[Range]) -> VecDeque<Gap> {
    ranges
        .iter()
        .map(|range| Gap { from: range.from, end: range.end })
        .collect()
}
