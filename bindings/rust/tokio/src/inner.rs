//! What the lock of a realm guards, and the lock, held.

use crate::bell::Bell;
use crate::lane::{Lane, MAIN, MOVE_COSTS};
use balkreyn::host::{Book, Call, Labels, swallow};
use balkreyn::{Happening, Limits, Notes, Refusal};
use std::any::Any;
use std::collections::BTreeMap;
use std::mem;
use std::ops::{Deref, DerefMut};
use std::sync::{Arc, MutexGuard};
use std::task::Waker;

/// What a request may still take of its realm.
#[derive(Clone, Copy)]
pub(crate) struct Room {
    pub(crate) scopes: u32,
    pub(crate) tasks: u32,
    pub(crate) load: u32,
    /// Whether the load is for changes alone, as that of scopes and tasks was counted when the request was admitted.
    pub(crate) of_changes: bool,
}

impl Room {
    pub(crate) fn of_limits(limits: Limits) -> Room {
        Room { scopes: limits.scopes, tasks: limits.tasks, load: limits.load, of_changes: false }
    }

    /// Takes a part of it, or nothing where it is not enough.
    pub(crate) fn take(&mut self, scopes: u32, tasks: u32, load: u32) -> Result<(), Refusal> {
        let left = |all: u32, part| all.checked_sub(part).ok_or(Refusal::TooMany);
        let load = if self.of_changes && scopes + tasks > 0 { 0 } else { load };
        let of_changes = self.of_changes;
        let (scopes, tasks) = (left(self.scopes, scopes)?, left(self.tasks, tasks)?);
        *self = Room { scopes, tasks, load: left(self.load, load)?, of_changes };
        Ok(())
    }

    pub(crate) fn give(&mut self, scopes: u32, tasks: u32, load: u32) {
        let load = if self.of_changes && scopes + tasks > 0 { 0 } else { load };
        self.scopes += scopes;
        self.tasks += tasks;
        self.load += load;
    }
}

/// A scope that is open.
#[derive(Default)]
pub(crate) struct Entry {
    pub(crate) bell: Option<Arc<Bell>>,
    /// Wakes who polls the block.
    pub(crate) owner: Option<Waker>,
    /// Wakes who waits in the scope by another waker than the block's.
    pub(crate) others: Vec<(u64, Waker)>,
    /// The job that was forked last, and whether the owner waits for the jobs.
    pub(crate) last: u32,
    pub(crate) is_waited: bool,
    /// How many realms are open inside.
    pub(crate) guests: u32,
}

/// A task: what wakes it, until its end; and the one that was forked before it in its scope, or 0.
#[derive(Default)]
pub(crate) struct Job {
    pub(crate) waker: Option<Waker>,
    pub(crate) before: u32,
}

/// What is to be done once the lock is free.
pub(crate) enum Due {
    Wake(Waker),
    Call(Arc<Call>),
    Tell(Happening),
}

/// What the lock guards.
pub(crate) struct Inner {
    pub(crate) book: Book,
    /// The scopes and tasks by their numbers, behind the last one that was given before the history was discarded.
    pub(crate) scopes: Vec<Entry>,
    pub(crate) first_scope: u32,
    pub(crate) jobs: Vec<Job>,
    pub(crate) first_job: u32,
    /// How many of the book's cancelled scopes were told to their bells.
    pub(crate) told: usize,
    /// The requests' room, by their numbers.
    pub(crate) rooms: Vec<Room>,
    pub(crate) keys: u64,
    pub(crate) has_timer: bool,
    pub(crate) notes: Option<Box<Notes>>,
    pub(crate) labels: Labels,
    /// What each local binding holds, by the number to which its key is bound.
    pub(crate) locals: BTreeMap<i64, Arc<dyn Any + Send + Sync>>,
    /// The usual one, for which no list is made, and others.
    pub(crate) wake: Option<Waker>,
    pub(crate) due: Vec<Due>,
}

impl Inner {
    /// Notes what was asked and answered, if the realm notes.
    pub(crate) fn note(&mut self, write: impl FnOnce(&mut Notes, &mut Book)) {
        if let Some(notes) = &mut self.notes {
            write(notes, &mut self.book);
        }
    }

    pub(crate) fn scope(&mut self, scope: u32) -> Option<&mut Entry> {
        self.scopes.get_mut(scope.checked_sub(self.first_scope + 1)? as usize)
    }

    pub(crate) fn job(&mut self, task: u32) -> Option<&mut Job> {
        self.jobs.get_mut(task.checked_sub(self.first_job + 1)? as usize)
    }

    pub(crate) fn room(&mut self, number: u32) -> &mut Room {
        &mut self.rooms[number as usize]
    }

    /// Makes room for a request: its number.
    pub(crate) fn add_room(&mut self, room: Room) -> u32 {
        self.rooms.push(room);
        self.rooms.len() as u32 - 1
    }

    fn wake(&mut self, waker: Waker) {
        match self.wake {
            None => self.wake = Some(waker),
            Some(_) => self.due.push(Due::Wake(waker)),
        }
    }

    /// Wakes the owner of the scope and who waits in it.
    pub(crate) fn wake_scope(&mut self, scope: u32) {
        let Some(entry) = self.scope(scope) else { return };
        entry.is_waited = false;
        let owner = entry.owner.clone();
        let others: Vec<_> = entry.others.iter().map(|(_, waker)| Due::Wake(waker.clone())).collect();
        owner.into_iter().for_each(|owner| self.wake(owner));
        self.due.extend(others);
    }

    /// Wakes the jobs of the scope that have begun, or wait for their turn.
    pub(crate) fn wake_jobs(&mut self, scope: u32) {
        let mut next = self.scope(scope).map_or(0, |entry| entry.last);
        while let Some(job) = self.job(next) {
            next = job.before;
            if let Some(waker) = job.waker.clone() {
                self.wake(waker);
            }
        }
    }

    /// Has this waker wake the owner of the scope.
    pub(crate) fn set_owner(&mut self, scope: u32, waker: &Waker, is_waited: bool) {
        if let Some(entry) = self.scope(scope) {
            entry.is_waited |= is_waited;
            match &entry.owner {
                Some(owner) if owner.will_wake(waker) => {}
                _ => entry.owner = Some(waker.clone()),
            }
        }
    }

    /// Whether a cancel wakes the task by this waker anyhow.
    pub(crate) fn is_woken_by(&mut self, task: u32, waker: &Waker) -> bool {
        self.job(task).and_then(|job| job.waker.as_ref()).is_some_and(|mine| mine.will_wake(waker))
    }

    /// Has this waker wake who waits in the scope, until it is forgotten: 0 where that is the owner, whose waker is the
    /// same.
    pub(crate) fn add_waker(&mut self, scope: u32, waker: &Waker, key: u64, is_waited: bool, by_job: bool) -> u64 {
        let next = self.keys + 1;
        let Some(entry) = self.scope(scope) else { return 0 };
        entry.is_waited |= is_waited;
        if let Some((_, mine)) = entry.others.iter_mut().find(|(one, _)| *one == key) {
            mine.clone_from(waker);
            return key;
        }
        if !by_job && entry.owner.as_ref().is_some_and(|owner| owner.will_wake(waker)) {
            return 0;
        }
        entry.others.push((next, waker.clone()));
        self.keys = next;
        next
    }

    pub(crate) fn forget_waker(&mut self, scope: u32, key: u64) {
        if let Some(entry) = self.scope(scope) {
            entry.others.retain(|(one, _)| *one != key);
        }
    }

    pub(crate) fn set_waker(&mut self, task: u32, waker: &Waker) {
        if let Some(job) = self.job(task) {
            job.waker = Some(waker.clone());
        }
    }

    /// A number that none had before.
    pub(crate) fn next_key(&mut self) -> u64 {
        self.keys += 1;
        self.keys
    }

    /// Keeps the value of a local binding: its number.
    pub(crate) fn keep_local(&mut self, value: Arc<dyn Any + Send + Sync>) -> i64 {
        let number = self.locals.last_key_value().map_or(1, |(last, _)| last + 1);
        self.locals.insert(number, value);
        number
    }

    /// A realm inside the scope begins, or has ended.
    pub(crate) fn count_guest(&mut self, scope: u32, begins: bool) {
        if let Some(entry) = self.scope(scope) {
            entry.guests = if begins { entry.guests + 1 } else { entry.guests - 1 };
        }
        if !begins {
            self.wake_scope(scope);
        }
    }

    /// Main, with no scope open and so many bindings, discards the history: the limits count from here.
    pub(crate) fn retire(&mut self, limits: Limits, bindings: u32) {
        if self.book.retire(MAIN).is_ok() {
            self.told = 0;
            self.rooms[0] = Room::of_limits(limits);
            self.rooms[0].load -= MOVE_COSTS * bindings;
            self.first_scope += self.scopes.len() as u32;
            self.first_job += self.jobs.len() as u32;
            self.scopes.clear();
            self.jobs.clear();
            self.labels.forget();
            self.note(|notes, _| notes.retire());
        }
    }
}

/// The realm's lock, held. Once it is free, what became due meanwhile is done.
pub(crate) struct Held<'lock> {
    pub(crate) lane: &'lock Lane,
    /// `Some` until the drop.
    pub(crate) guard: Option<MutexGuard<'lock, Inner>>,
}

impl Deref for Held<'_> {
    type Target = Inner;

    fn deref(&self) -> &Inner {
        self.guard.as_ref().expect("the lock is held until the drop")
    }
}

impl DerefMut for Held<'_> {
    fn deref_mut(&mut self) -> &mut Inner {
        self.guard.as_mut().expect("the lock is held until the drop")
    }
}

impl Drop for Held<'_> {
    fn drop(&mut self) {
        let Some(mut guard) = self.guard.take() else { return };
        let (wake, due) = (guard.wake.take(), mem::take(&mut guard.due));
        drop(guard);
        if let Some(waker) = wake {
            waker.wake();
        }
        for one in due {
            match one {
                Due::Wake(waker) => waker.wake(),
                Due::Call(call) => call.make(),
                Due::Tell(happening) => {
                    if let Some(observer) = &self.lane.observer {
                        swallow(|| observer.hears(&happening));
                    }
                }
            }
        }
    }
}
