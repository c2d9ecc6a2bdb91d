//! A channel between jobs, in two halves.

use crate::context::Context;
use crate::gate::Gate;
use crate::outcome::Cancelled;
use std::collections::VecDeque;
use std::fmt;
use std::sync::Arc;

const SENDERS: usize = 0;
const RECEIVERS: usize = 1;

struct State<T> {
    queue: VecDeque<T>,
    room: usize,
    senders: usize,
    receivers: usize,
}

type Shared<T> = Arc<Gate<State<T>, 2>>;

/// A channel that holds so many values at most, one at least; any number of jobs send and receive, whatever their
/// realms. Waits end by a cancel, and with the last one of the other half.
///
/// ```
/// use balkreyn::{channel, Joiner, Realm, Refusal};
///
/// let sum = Realm::new()?.run(|cx| {
///     cx.try_scope(Joiner::All, |s| {
///         let (sender, receiver) = channel(4);
///         s.fork("producer", move |cx| {
///             for number in 0..100 {
///                 if !sender.send(cx, number)? {
///                     break;
///                 }
///             }
///             Ok::<_, Refusal>(())
///         })?;
///         let mut sum = 0;
///         while let Some(number) = receiver.receive(cx)? {
///             sum += number;
///         }
///         s.join()?;
///         Ok::<_, Refusal>(sum)
///     })
/// })?;
/// assert_eq!(sum, 4950);
/// # Ok::<(), Refusal>(())
/// ```
#[must_use]
pub fn channel<T>(room: usize) -> (Sender<T>, Receiver<T>) {
    let state = State { queue: VecDeque::new(), room: room.max(1), senders: 1, receivers: 1 };
    let shared = Arc::new(Gate::new(state));
    (Sender { shared: Arc::clone(&shared) }, Receiver { shared })
}

/// The half of a [`channel`] that sends.
///
/// ```
/// # use balkreyn::{channel, Realm, Refusal};
/// let (sender, receiver) = channel(1);
/// assert_eq!(sender.try_send(1), Ok(()));
/// assert_eq!(sender.try_send(2), Err(2));
/// drop(receiver);
/// assert!(!Realm::new()?.run(|cx| sender.send(cx, 3))?);
/// # Ok::<(), Refusal>(())
/// ```
pub struct Sender<T> {
    shared: Shared<T>,
}

/// The half of a [`channel`] that receives.
///
/// ```
/// # use balkreyn::{channel, Realm, Refusal};
/// let (sender, receiver) = channel(1);
/// assert_eq!(receiver.try_receive(), None);
/// assert_eq!(sender.try_send('a'), Ok(()));
/// drop(sender);
/// Realm::new()?.run(|cx| {
///     assert_eq!(receiver.receive(cx), Ok(Some('a')));
///     assert_eq!(receiver.receive(cx), Ok(None));
/// });
/// # Ok::<(), Refusal>(())
/// ```
pub struct Receiver<T> {
    shared: Shared<T>,
}

impl<T> Sender<T> {
    /// Sends the value, once there is room: whether there is a receiver. If there is none, the value is dropped.
    ///
    /// # Errors
    /// [`Cancelled`]; the value is dropped.
    pub fn send(&self, cx: &Context, value: T) -> Result<bool, Cancelled> {
        let mut value = Some(value);
        self.shared
            .wait(cx, SENDERS, |state| {
                if state.receivers == 0 {
                    return Some(false);
                }
                if state.queue.len() == state.room {
                    return None;
                }
                state.queue.extend(value.take());
                Some(true)
            })
            .inspect(|is_sent| {
                if *is_sent {
                    // Who waits for a value looks now.
                    self.shared.change(|_| ());
                }
            })
    }

    /// Sends the value, if there is room and a receiver.
    ///
    /// # Errors
    /// The value.
    pub fn try_send(&self, value: T) -> Result<(), T> {
        self.shared.change(|state| {
            if state.receivers == 0 || state.queue.len() == state.room {
                return Err(value);
            }
            state.queue.push_back(value);
            Ok(())
        })
    }
}

impl<T> Receiver<T> {
    /// The next value, once there is one; `None` once there is neither a value nor a sender.
    ///
    /// # Errors
    /// [`Cancelled`].
    pub fn receive(&self, cx: &Context) -> Result<Option<T>, Cancelled> {
        let received = self.shared.wait(cx, RECEIVERS, |state| match state.queue.pop_front() {
            Some(value) => Some(Some(value)),
            None if state.senders == 0 => Some(None),
            None => None,
        })?;
        if received.is_some() {
            // Who waits for room looks now.
            self.shared.change(|_| ());
        }
        Ok(received)
    }

    /// The next value, if there is one.
    #[must_use]
    pub fn try_receive(&self) -> Option<T> {
        self.shared.change(|state| state.queue.pop_front())
    }
}

impl<T> Clone for Sender<T> {
    fn clone(&self) -> Sender<T> {
        self.shared.change(|state| state.senders += 1);
        Sender { shared: Arc::clone(&self.shared) }
    }
}

impl<T> Clone for Receiver<T> {
    fn clone(&self) -> Receiver<T> {
        self.shared.change(|state| state.receivers += 1);
        Receiver { shared: Arc::clone(&self.shared) }
    }
}

impl<T> Drop for Sender<T> {
    fn drop(&mut self) {
        self.shared.change(|state| state.senders -= 1);
    }
}

impl<T> Drop for Receiver<T> {
    /// With the last receiver, what was sent is dropped.
    fn drop(&mut self) {
        let left = self.shared.change(|state| {
            state.receivers -= 1;
            if state.receivers == 0 { std::mem::take(&mut state.queue) } else { VecDeque::new() }
        });
        drop(left);
    }
}

impl<T> fmt::Debug for Sender<T> {
    fn fmt(&self, out: &mut fmt::Formatter<'_>) -> fmt::Result {
        out.debug_struct("Sender").finish_non_exhaustive()
    }
}

impl<T> fmt::Debug for Receiver<T> {
    fn fmt(&self, out: &mut fmt::Formatter<'_>) -> fmt::Result {
        out.debug_struct("Receiver").finish_non_exhaustive()
    }
}
