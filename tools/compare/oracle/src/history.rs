//! A list of calls and where it starts.

use crate::call::Call;
use crate::state::Start;
use crate::trace;

/// A history from no session, its first call an open, or from a state set up.
#[derive(Debug, Clone, PartialEq, Eq, Default)]
pub struct History {
    pub start: Option<Start>,
    pub calls: Vec<Call>,
}

impl History {
    /// The history as an input of the trace program, if it can be one.
    pub fn trace(&self) -> Option<Vec<u8>> {
        if self.start.is_some() {
            return None;
        }
        trace::history(&self.calls).filter(|bytes| bytes.len() <= trace::MAX_BYTES)
    }
}
