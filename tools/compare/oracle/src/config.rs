//! Stands in for the source's `config.rs`: the same accessors, and no range checks on durations.

use std::num::{NonZeroU32, NonZeroU64, NonZeroUsize};
use std::time::Duration;

use crate::call::Config;
use crate::codes::Policy;

/// What happens when a request stalls.
#[derive(Debug, Clone, Copy, PartialEq, Eq)]
pub(crate) enum RetransmitStallPolicy {
    EventOnly,
    Terminate,
    ReRequestAfterContextSwitch,
    ReRequestAfterBatch,
}

/// The settings that `session.rs` reads.
#[derive(Debug, Clone, PartialEq, Eq)]
pub(crate) struct FixpConfig {
    max_gap_len: NonZeroU64,
    max_retransmit_count: NonZeroU32,
    max_pending_gaps: NonZeroUsize,
    retransmit_timeout: Duration,
    peer_silence_grace: Option<Duration>,
    retransmit_stall_policy: RetransmitStallPolicy,
}

impl FixpConfig {
    /// Takes 01's configuration; none where refusal 2 applies.
    pub(crate) fn new(config: &Config) -> Option<Self> {
        if !config.in_range() {
            return None;
        }
        Some(Self {
            max_gap_len: NonZeroU64::new(config.max_gap_len)?,
            max_retransmit_count: NonZeroU32::new(config.max_retransmit_count)?,
            max_pending_gaps: NonZeroUsize::new(usize::from(config.max_pending_gaps))?,
            retransmit_timeout: Duration::from_nanos(config.timeout),
            peer_silence_grace: config.grace.map(Duration::from_nanos),
            retransmit_stall_policy: match config.policy {
                Policy::Terminate => RetransmitStallPolicy::Terminate,
                Policy::ReRequestAfterContextSwitch => {
                    RetransmitStallPolicy::ReRequestAfterContextSwitch
                }
                Policy::ReRequestAfterBatch => RetransmitStallPolicy::ReRequestAfterBatch,
                Policy::EventOnly => RetransmitStallPolicy::EventOnly,
            },
        })
    }

    pub(crate) const fn max_gap_len(&self) -> NonZeroU64 {
        self.max_gap_len
    }

    pub(crate) const fn max_retransmit_count(&self) -> NonZeroU32 {
        self.max_retransmit_count
    }

    pub(crate) const fn max_pending_gaps(&self) -> NonZeroUsize {
        self.max_pending_gaps
    }

    pub(crate) const fn retransmit_timeout(&self) -> Duration {
        self.retransmit_timeout
    }

    pub(crate) const fn peer_silence_grace(&self) -> Option<Duration> {
        self.peer_silence_grace
    }

    pub(crate) const fn retransmit_stall_policy(&self) -> RetransmitStallPolicy {
        self.retransmit_stall_policy
    }
}
