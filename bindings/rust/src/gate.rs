//! What several threads wait for, whatever their realms: a state behind a lock, and who waits for it in turn.

use crate::context::Context;
use crate::outcome::Cancelled;
use crate::waiting::locked;
use std::collections::VecDeque;
use std::sync::Mutex;
use std::thread::{self, Thread};

/// A state, for which threads wait in some lines; the first of a line alone may take.
pub(crate) struct Gate<T, const LINES: usize> {
    inside: Mutex<Inside<T, LINES>>,
}

struct Inside<T, const LINES: usize> {
    state: T,
    next: u64,
    lines: [VecDeque<(u64, Thread)>; LINES],
}

impl<T, const LINES: usize> Inside<T, LINES> {
    /// Wakes the first of each line: it looks again.
    fn wake(&self) {
        self.lines.iter().filter_map(VecDeque::front).for_each(|(_, thread)| thread.unpark());
    }
}

/// The place of a thread in its line, which it leaves on every way out.
struct InLine<'a, T, const LINES: usize> {
    gate: &'a Gate<T, LINES>,
    line: usize,
    number: Option<u64>,
}

impl<T, const LINES: usize> Drop for InLine<'_, T, LINES> {
    fn drop(&mut self) {
        if let Some(number) = self.number {
            let mut inside = locked(&self.gate.inside);
            inside.lines[self.line].retain(|(other, _)| *other != number);
            // The one behind may have waited for this one alone.
            inside.wake();
        }
    }
}

impl<T, const LINES: usize> Gate<T, LINES> {
    pub(crate) fn new(state: T) -> Gate<T, LINES> {
        let lines = [const { VecDeque::new() }; LINES];
        Gate { inside: Mutex::new(Inside { state, next: 0, lines }) }
    }

    /// Changes the state, and wakes who may want it.
    pub(crate) fn change<R>(&self, change: impl FnOnce(&mut T) -> R) -> R {
        let mut inside = locked(&self.inside);
        let value = change(&mut inside.state);
        inside.wake();
        value
    }

    /// Waits in that line until `take` gives something. A cancel ends the wait.
    pub(crate) fn wait<R>(
        &self,
        cx: &Context,
        line: usize,
        mut take: impl FnMut(&mut T) -> Option<R>,
    ) -> Result<R, Cancelled> {
        let mut place = InLine { gate: self, line, number: None };
        let taken = cx.park_until(|| {
            let mut inside = locked(&self.inside);
            let is_first = match inside.lines[line].front() {
                None => true,
                Some((first, _)) => Some(*first) == place.number,
            };
            let taken = if is_first { take(&mut inside.state) } else { None };
            if taken.is_none() && place.number.is_none() {
                let number = inside.next;
                inside.next += 1;
                inside.lines[line].push_back((number, thread::current()));
                place.number = Some(number);
            }
            taken
        });
        drop(place);
        taken
    }
}
