//! A queue between jobs, with so much room.

use crate::context::Context;
use balkreyn::Cancelled;
use std::fmt;
use std::sync::Arc;
use tokio::sync::{Mutex, mpsc};

/// A queue with room for so many values, one at least. Any number of jobs send and receive; a cancel ends their waits.
/// It ends with the last one of either half.
///
/// ```
/// use balkreyn_tokio::{Context, Joiner, Realm, Refusal, channel};
///
/// # tokio::runtime::Runtime::new().unwrap().block_on(async {
/// let mut realm = Realm::new()?;
/// let sum = realm.run(async |cx| {
///     cx.try_scope(Joiner::All, async |s| {
///         let (sender, receiver) = channel(4);
///         s.fork("producer", async move {
///             let cx = Context::current();
///             for number in 0..100 {
///                 if !sender.send(&cx, number).await? {
///                     break;
///                 }
///             }
///             Ok::<_, Refusal>(())
///         })?;
///         let mut sum = 0;
///         while let Some(number) = receiver.receive(cx).await? {
///             sum += number;
///         }
///         s.join().await?;
///         Ok::<_, Refusal>(sum)
///     })
///     .await
/// });
/// assert_eq!(sum.await?, 4950);
/// # Ok::<(), Refusal>(())
/// # }).unwrap();
/// ```
#[must_use]
pub fn channel<T>(room: usize) -> (Sender<T>, Receiver<T>) {
    let (sender, receiver) = mpsc::channel(room.max(1));
    (Sender { half: sender }, Receiver { half: Arc::new(Mutex::new(receiver)) })
}

/// The half of a [`channel`] that sends.
///
/// ```
/// # use balkreyn_tokio::channel;
/// let (sender, receiver) = channel(1);
/// assert_eq!(sender.try_send(1), Ok(()));
/// assert_eq!(sender.try_send(2), Err(2));
/// # drop(receiver);
/// ```
pub struct Sender<T> {
    half: mpsc::Sender<T>,
}

/// The half of a [`channel`] that receives.
///
/// ```
/// # use balkreyn_tokio::channel;
/// let (sender, receiver) = channel(1);
/// assert_eq!(receiver.try_receive(), None);
/// assert_eq!(sender.try_send('a'), Ok(()));
/// assert_eq!(receiver.try_receive(), Some('a'));
/// ```
pub struct Receiver<T> {
    half: Arc<Mutex<mpsc::Receiver<T>>>,
}

impl<T> Sender<T> {
    /// Sends the value, once there is room: whether there is a receiver. If there is none, the value is dropped.
    ///
    /// # Errors
    /// [`Cancelled`]; the value is dropped.
    pub async fn send(&self, cx: &Context, value: T) -> Result<bool, Cancelled> {
        Ok(cx.wait(self.half.send(value)).await?.is_ok())
    }

    /// Sends the value, if there is room and a receiver.
    ///
    /// # Errors
    /// The value.
    pub fn try_send(&self, value: T) -> Result<(), T> {
        self.half.try_send(value).map_err(|error| match error {
            mpsc::error::TrySendError::Full(value) | mpsc::error::TrySendError::Closed(value) => value,
        })
    }
}

impl<T> Receiver<T> {
    /// The next value, once there is one; `None` once there is neither a value nor a sender.
    ///
    /// # Errors
    /// [`Cancelled`].
    pub async fn receive(&self, cx: &Context) -> Result<Option<T>, Cancelled> {
        // Those who receive take turns at its lock, each in its place.
        cx.wait(async { self.half.lock().await.recv().await }).await
    }

    /// The next value, if there is one, and nobody waits for it.
    #[must_use]
    pub fn try_receive(&self) -> Option<T> {
        self.half.try_lock().ok()?.try_recv().ok()
    }
}

impl<T> Clone for Sender<T> {
    fn clone(&self) -> Sender<T> {
        Sender { half: self.half.clone() }
    }
}

impl<T> Clone for Receiver<T> {
    fn clone(&self) -> Receiver<T> {
        Receiver { half: Arc::clone(&self.half) }
    }
}

impl<T> fmt::Debug for Sender<T> {
    fn fmt(&self, out: &mut fmt::Formatter<'_>) -> fmt::Result {
        out.debug_struct("Sender").finish_non_exhaustive()
    }
}

impl<T> fmt::Debug for Receiver<T> {
    fn fmt(&self, out: &mut fmt::Formatter<'_>) -> fmt::Result {
        out.debug_struct("Receiver").finish_non_exhaustive()
    }
}
