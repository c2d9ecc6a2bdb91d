//! Values of any type, bound while a body runs.

use std::any::Any;
use std::fmt;
use std::marker::PhantomData;
use std::sync::Arc;
use std::sync::atomic::{AtomicU32, Ordering};

/// A key to which a value of any type is bound while a body runs ([`Context::with`](crate::Context::with)). Jobs that
/// are forked meanwhile, in scopes that are opened meanwhile, inherit it, as they inherit what
/// [`Context::bind`](crate::Context::bind) binds.
///
/// ```
/// use balkreyn::{Joiner, Local, Realm, Refusal};
///
/// static TRACE: Local<String> = Local::new();
/// let seen = Realm::new()?.run(|cx| {
///     cx.with(&TRACE, "Trace 7/A".to_owned(), |cx| {
///         cx.try_scope(Joiner::All, |s| {
///             let task = s.fork("job", |cx| Ok::<_, Refusal>(cx.local(&TRACE).unwrap().len()))?;
///             s.join_ok()?;
///             s.value(task)
///         })
///     })
/// })??;
/// assert_eq!(seen, 9);
/// # Ok::<(), Refusal>(())
/// ```
pub struct Local<T> {
    /// The number of the key, from 1, once it was used.
    number: AtomicU32,
    of: PhantomData<fn() -> T>,
}

impl<T> Local<T> {
    /// A key, to which nothing is bound.
    #[must_use]
    pub const fn new() -> Local<T> {
        Local { number: AtomicU32::new(0), of: PhantomData }
    }

    /// The word to which the rules bind a number, by which the realm finds the value.
    #[doc(hidden)]
    pub fn word(&self) -> String {
        static NEXT: AtomicU32 = AtomicU32::new(1);
        let mut number = self.number.load(Ordering::Relaxed);
        if number == 0 {
            let mine = NEXT.fetch_add(1, Ordering::Relaxed);
            number = match self.number.compare_exchange(0, mine, Ordering::Relaxed, Ordering::Relaxed) {
                Ok(_) => mine,
                Err(other) => other,
            };
        }
        format!("local.{number}")
    }
}

impl<T: Send + Sync + 'static> Local<T> {
    #[doc(hidden)]
    pub fn of(value: Arc<dyn Any + Send + Sync>) -> Option<Arc<T>> {
        value.downcast().ok()
    }
}

impl<T> Default for Local<T> {
    fn default() -> Local<T> {
        Local::new()
    }
}

impl<T> fmt::Debug for Local<T> {
    fn fmt(&self, out: &mut fmt::Formatter<'_>) -> fmt::Result {
        out.debug_struct("Local").finish_non_exhaustive()
    }
}
