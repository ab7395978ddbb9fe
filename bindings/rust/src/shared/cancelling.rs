//! Calls that are to be served although nobody has use for their results any more.

use super::{Shared, State, lock};
use crate::ids::TaskId;
use std::mem;

/// What is done as a call is cancelled.
pub(crate) type Act = Box<dyn FnOnce() + Send>;

/// A task that is not answered: whether it was cancelled, and what is done as it is.
#[derive(Default)]
pub(super) struct Cancelling {
    is_cancelled: bool,
    acts: Vec<Act>,
}

impl State {
    /// What is to be done now that nobody has use for the results of a task.
    pub(super) fn cancel(&mut self, task: TaskId) -> Vec<Act> {
        let it = self.cancelling.entry(task).or_default();
        it.is_cancelled = true;
        mem::take(&mut it.acts)
    }

    /// The same of all tasks, as the connection ends.
    pub(super) fn cancel_all(&mut self) -> Vec<Act> {
        self.cancelling.drain().flat_map(|(_, it)| it.acts).collect()
    }
}

impl Shared {
    pub fn is_cancelled(&self, task: TaskId) -> bool {
        let state = lock(&self.state);
        state.has_ended || state.cancelling.get(&task).map_or(false, |it| it.is_cancelled)
    }

    /// Has it done as the task is cancelled, which may be now. The task has to be one that was not answered.
    pub fn when_cancelled(&self, task: TaskId, act: Act) {
        let mut state = lock(&self.state);
        if !state.has_ended {
            let it = state.cancelling.entry(task).or_default();
            if !it.is_cancelled {
                return it.acts.push(act);
            }
        }
        drop(state);
        act();
    }
}
