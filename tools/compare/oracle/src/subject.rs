//! What is compared: anything that can run a history.

use crate::call::Call;
use crate::reply::Reply;
use crate::state::{Snapshot, Start};

/// A session with its binding and output queue.
pub trait Subject {
    /// Forgets everything: no session.
    fn reset(&mut self);

    /// Sets up this state in place of what there was, and reads it back.
    fn start(&mut self, start: &Start) -> Snapshot;

    /// Runs one call and empties the output queue.
    fn call(&mut self, call: &Call) -> Reply;
}
