//! The messages that are kept, on their way from the keeper to the publisher.

use crate::keeper::Messages;
use seryugo::explore::{Condition, Guard, Lock};
use std::collections::VecDeque;

#[derive(Default)]
pub struct Queue {
    state: Lock<State>,
    /// There is more, or the end.
    comes: Condition,
}

#[derive(Default)]
struct State {
    messages: VecDeque<Messages>,
    has_ended: bool,
}

impl Queue {
    pub fn push(&self, messages: Messages) {
        self.state.lock().messages.push_back(messages);
        self.comes.notify_one();
    }

    /// No more are pushed.
    pub fn end(&self) {
        self.state.lock().has_ended = true;
        self.comes.notify_one();
    }

    /// Blocks until there are messages. Returns `None` at the end.
    pub fn next(&self) -> Option<Messages> {
        let is_empty = |state: &mut State| state.messages.is_empty() && !state.has_ended;
        let mut state: Guard<'_, State> = self.comes.wait_while(self.state.lock(), is_empty);
        state.messages.pop_front()
    }
}
