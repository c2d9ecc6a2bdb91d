//! An unverified book of task scopes, without a history: what `bench/replay` runs beside `scopectl replay`. It
//! plays the scripts of that bench, and answers them byte for byte as `scopectl` does; it checks a few of the rules
//! alone, and of a script that breaks others it says nothing true.
use std::collections::BTreeSet;
use std::io::{Read, Write};
use std::rc::Rc;

const NEVER: usize = 0;
const WAITING: usize = 1;
const RUNNING: usize = 2;
const FINISHED: usize = 3;

const STAGES: [&[u8]; 4] = [b"never", b"waiting", b"running", b"finished"];

/// A word of at most 24 bytes: a value, a fault, a key.
#[derive(Clone, Copy, PartialEq)]
struct Word {
    bytes: [u8; 24],
    len: u8,
}

impl Word {
    fn new(word: &[u8]) -> Word {
        let len = word.len().min(24);
        let mut bytes = [0; 24];
        bytes[..len].copy_from_slice(&word[..len]);
        Word {
            bytes,
            len: len as u8,
        }
    }

    fn text(&self) -> &[u8] {
        &self.bytes[..self.len as usize]
    }
}

/// An end that can be read: none, a value or a fault.
#[derive(Clone, Copy)]
enum State {
    Unavailable,
    Success(Word),
    Failed,
}

/// The replies that are not written yet.
type Out = Vec<u8>;

/// Appends the texts and numbers, and a line feed.
macro_rules! say {
    ($out:expr, $($part:expr),+) => {{
        $($part.append($out);)+
        $out.push(b'\n');
    }};
}

trait Part {
    fn append(&self, out: &mut Out);
}

impl Part for &[u8] {
    fn append(&self, out: &mut Out) {
        out.extend_from_slice(self);
    }
}

impl<const N: usize> Part for &[u8; N] {
    fn append(&self, out: &mut Out) {
        out.extend_from_slice(*self);
    }
}

impl Part for u64 {
    fn append(&self, out: &mut Out) {
        let (mut digits, mut from, mut left) = ([0; 20], 20, *self);
        loop {
            from -= 1;
            digits[from] = b'0' + (left % 10) as u8;
            left /= 10;
            if left == 0 {
                break;
            }
        }
        out.extend_from_slice(&digits[from..]);
    }
}

impl Part for u32 {
    fn append(&self, out: &mut Out) {
        u64::from(*self).append(out);
    }
}

fn number(word: &[u8]) -> Option<u64> {
    let mut sum = 0u64;
    for byte in word {
        let digit = byte.wrapping_sub(b'0');
        if digit > 9 {
            return None;
        }
        sum = sum.checked_mul(10)?.checked_add(u64::from(digit))?;
    }
    if word.is_empty() {
        None
    } else {
        Some(sum)
    }
}

fn id(word: &[u8]) -> Option<u32> {
    number(word)?.try_into().ok()
}

struct Scope {
    owner: u32,
    below: u32,
    shield: bool,
    joiner: Joiner,
    deadline: Option<u64>,
    cut: Option<(u32, &'static [u8])>,
    joined: bool,
    closing: bool,
    closed: bool,
    violated: bool,
    counts: [u32; 4],
    /// The latest scope opened right inside, and the one opened before this one in the same place; 0 for none.
    inside: u32,
    beside: u32,
    /// The first and the latest task; 0 for none.
    first_task: u32,
    last_task: u32,
}

#[derive(Clone, Copy, PartialEq)]
enum Joiner {
    All,
    Any,
    Await,
    AwaitOk,
}

struct Task {
    scope: u32,
    stage: usize,
    state: State,
    /// The next task of the scope; 0 for none.
    next: u32,
}

/// Pairs that do not change any more, above those of the forker.
#[derive(Default)]
struct Pairs {
    pairs: Vec<(Word, Word)>,
    below: Option<Rc<Pairs>>,
}

/// What an actor has bound since its last fork, what lies below that, and its innermost scope.
#[derive(Default)]
struct Actor {
    own: Vec<(Word, Word)>,
    seen: Option<Rc<Pairs>>,
    innermost: u32,
}

#[derive(Default)]
struct Book {
    moment: u64,
    scopes_before: u32,
    tasks_before: u32,
    scopes: Vec<Scope>,
    tasks: Vec<Task>,
    actors: Vec<Actor>,
    deadlines: BTreeSet<(u64, u32)>,
}

impl Book {
    fn scope(&mut self, number: u32) -> &mut Scope {
        &mut self.scopes[(number - self.scopes_before - 1) as usize]
    }

    fn task(&mut self, number: u32) -> &mut Task {
        &mut self.tasks[(number - self.tasks_before - 1) as usize]
    }

    fn actor(&mut self, number: u32) -> &mut Actor {
        let place = number.saturating_sub(self.tasks_before) as usize;
        &mut self.actors[place]
    }

    fn last_scope(&self) -> u32 {
        self.scopes_before + self.scopes.len() as u32
    }

    fn cancel(&mut self, scope: u32, by: u32, kind: &'static [u8]) {
        let it = self.scope(scope);
        if it.cut.is_some() {
            return;
        }
        it.cut = Some((by, kind));
        if let Some(deadline) = it.deadline.take() {
            self.deadlines.remove(&(deadline, scope));
        }
        let mut inner = self.scope(scope).inside;
        while inner > self.scopes_before {
            if !self.scope(inner).shield {
                self.cancel(inner, by, kind);
            }
            inner = self.scope(inner).beside;
        }
    }

    fn open(&mut self, actor: u32, words: &[&[u8]], out: &mut Out) {
        let (mut joiner, mut deadline, mut shield) = (Joiner::AwaitOk, None, false);
        for word in words {
            match *word {
                b"all" => joiner = Joiner::All,
                b"any" => joiner = Joiner::Any,
                b"await" => joiner = Joiner::Await,
                b"await-ok" => joiner = Joiner::AwaitOk,
                b"shield" => shield = true,
                word => deadline = word.strip_prefix(b"deadline=").and_then(number),
            }
        }
        let below = self.actor(actor).innermost;
        let around = match below {
            0 if actor > 0 => self.task(actor).scope,
            scope => scope,
        };
        let number = self.last_scope() + 1;
        self.scopes.push(Scope {
            owner: actor,
            below,
            shield,
            joiner,
            deadline: None,
            cut: None,
            joined: false,
            closing: false,
            closed: false,
            violated: false,
            counts: [0; 4],
            inside: 0,
            beside: 0,
            first_task: 0,
            last_task: 0,
        });
        if around > 0 {
            let it = self.scope(around);
            let (beside, cut) = (it.inside, it.cut);
            it.inside = number;
            self.scope(number).beside = beside;
            if !shield {
                self.scope(number).cut = cut;
            }
        }
        self.actor(actor).innermost = number;
        match deadline {
            Some(moment) if moment <= self.moment => self.cancel(number, number, b"deadline"),
            Some(moment) => {
                self.scope(number).deadline = Some(moment);
                self.deadlines.insert((moment, number));
            }
            None => {}
        }
        say!(out, b"scope ", number);
    }

    fn fork(&mut self, actor: u32, scope: u32, out: &mut Out) {
        let number = self.tasks_before + self.tasks.len() as u32 + 1;
        let never = self.scope(scope).cut.is_some();
        let stage = if never { NEVER } else { WAITING };
        let it = self.scope(scope);
        it.counts[stage] += 1;
        let before = it.last_task;
        it.last_task = number;
        if before == 0 {
            it.first_task = number;
        } else {
            self.task(before).next = number;
        }
        self.tasks.push(Task {
            scope,
            stage,
            state: State::Unavailable,
            next: 0,
        });
        let forker = self.actor(actor);
        if !forker.own.is_empty() {
            let (pairs, below) = (std::mem::take(&mut forker.own), forker.seen.take());
            forker.seen = Some(Rc::new(Pairs { pairs, below }));
        }
        let seen = forker.seen.clone();
        self.actors.push(Actor {
            seen,
            ..Actor::default()
        });
        let has: &[u8] = if never { b" none" } else { b" thread" };
        say!(out, b"task ", number, has);
    }

    fn moved(&mut self, task: u32, to: usize) -> u32 {
        let it = self.task(task);
        let (scope, from) = (it.scope, it.stage);
        it.stage = to;
        let counts = &mut self.scope(scope).counts;
        counts[from] -= 1;
        counts[to] += 1;
        scope
    }

    fn end(&mut self, task: u32, state: State) {
        let scope = self.moved(task, FINISHED);
        let failed = matches!(state, State::Failed);
        if self.scope(scope).cut.is_none() {
            self.task(task).state = state;
            let joiner = self.scope(scope).joiner;
            let fires = match joiner {
                Joiner::All | Joiner::AwaitOk => failed,
                Joiner::Any => !failed,
                Joiner::Await => false,
            };
            if fires {
                self.cancel(scope, scope, b"joiner");
            }
        }
    }

    fn tick(&mut self, now: u64, out: &mut Out) {
        self.moment = now;
        while let Some(&(deadline, scope)) = self.deadlines.first() {
            if deadline > now {
                break;
            }
            self.deadlines.pop_first();
            self.scope(scope).deadline = None;
            self.cancel(scope, scope, b"deadline");
        }
        say!(out, b"moment ", now);
    }

    fn join(&mut self, scope: u32, out: &mut Out) {
        self.scope(scope).joined = true;
        if let Some(deadline) = self.scope(scope).deadline.take() {
            self.deadlines.remove(&(deadline, scope));
        }
        if self.scope(scope).joiner != Joiner::All {
            say!(out, b"outcome done");
            return;
        }
        out.extend_from_slice(b"outcome all");
        let mut task = self.scope(scope).first_task;
        while task > 0 {
            let it = self.task(task);
            if let State::Success(value) = it.state {
                out.push(b' ');
                task.append(out);
                out.push(b'=');
                value.text().append(out);
            }
            task = self.task(task).next;
        }
        out.push(b'\n');
    }

    fn close(&mut self, actor: u32, scope: u32, out: &mut Out) {
        let mut next = self.actor(actor).innermost;
        self.scope(scope).violated = next != scope;
        while next >= scope {
            self.scope(next).closing = true;
            next = self.scope(next).below;
        }
        self.cancel(scope, scope, b"close");
        say!(out, b"closing");
    }

    fn closed(&mut self, actor: u32, scope: u32, out: &mut Out) {
        let it = self.scope(scope);
        it.closed = true;
        let (below, violated) = (it.below, it.violated);
        let unjoined = !it.joined && it.first_task > 0;
        self.actor(actor).innermost = below;
        let how: &[u8] = match (violated, unjoined) {
            (true, _) => b"closed violated",
            (false, true) => b"closed not-joined",
            (false, false) => b"closed",
        };
        say!(out, how);
    }

    fn retire(&mut self, out: &mut Out) {
        self.scopes_before += self.scopes.len() as u32;
        self.tasks_before += self.tasks.len() as u32;
        self.scopes.clear();
        self.tasks.clear();
        self.actors.truncate(1);
        say!(
            out,
            b"retired ",
            self.scopes_before,
            b" ",
            self.tasks_before
        );
    }

    fn ask(&mut self, words: &[&[u8]], out: &mut Out) -> Option<()> {
        match *words {
            [b"state", task] => {
                let word: &[u8] = match self.task(id(task)?).state {
                    State::Unavailable => b"unavailable",
                    State::Success(_) => b"success",
                    State::Failed => b"failed",
                };
                say!(out, b"state ", word);
            }
            [b"stage", task] => {
                let stage = self.task(id(task)?).stage;
                say!(out, b"stage ", STAGES[stage]);
            }
            [b"result", _, task] => match self.task(id(task)?).state {
                State::Success(value) => say!(out, b"value ", value.text()),
                _ => return None,
            },
            [b"cause", scope] => match self.scope(id(scope)?).cut {
                Some((by, kind)) => say!(out, b"cancelled ", by, b" ", kind),
                None => say!(out, b"live"),
            },
            [b"counts", scope] => {
                let [never, waiting, running, finished] = self.scope(id(scope)?).counts;
                say!(
                    out,
                    b"counts never=",
                    never,
                    b" waiting=",
                    waiting,
                    b" running=",
                    running,
                    b" finished=",
                    finished
                );
            }
            [b"get", actor, key] => {
                let (key, actor) = (Word::new(key), self.actor(id(actor)?));
                let (mut pairs, mut below) = (&actor.own, &actor.seen);
                let value = loop {
                    if let Some(pair) = pairs.iter().rev().find(|pair| pair.0 == key) {
                        break pair.1;
                    }
                    let next = below.as_ref()?;
                    (pairs, below) = (&next.pairs, &next.below);
                };
                say!(out, b"value ", value.text());
            }
            _ => return None,
        }
        Some(())
    }

    fn perform(&mut self, words: &[&[u8]], out: &mut Out) -> Option<()> {
        match *words {
            [b"open", actor, ref rest @ ..] => self.open(id(actor)?, rest, out),
            [b"fork", actor, scope, _] => {
                let (actor, scope) = (id(actor)?, id(scope)?);
                if self.scope(scope).owner != actor || self.scope(scope).closing {
                    return None;
                }
                self.fork(actor, scope, out);
            }
            [b"start", task] => {
                let task = id(task)?;
                if self.task(task).stage != WAITING {
                    return None;
                }
                self.moved(task, RUNNING);
                say!(out, b"started");
            }
            [b"ok", task, value] => {
                let task = id(task)?;
                if self.task(task).stage != RUNNING || self.actor(task).innermost > 0 {
                    return None;
                }
                self.end(task, State::Success(Word::new(value)));
                say!(out, b"finished");
            }
            [b"fail", task, _] => {
                self.end(id(task)?, State::Failed);
                say!(out, b"finished");
            }
            [b"cancel", scope] => {
                let scope = id(scope)?;
                let already = self.scope(scope).cut.is_some();
                self.cancel(scope, scope, b"call");
                let word: &[u8] = if already { b"already" } else { b"cancelled" };
                say!(out, word);
            }
            [b"tick", now] => self.tick(number(now).filter(|now| *now >= self.moment)?, out),
            [b"bind", actor, key, value] => {
                let actor = self.actor(id(actor)?);
                actor.own.push((Word::new(key), Word::new(value)));
                say!(out, b"bound");
            }
            [b"join", _, scope] => self.join(id(scope)?, out),
            [b"close", actor, scope] => self.close(id(actor)?, id(scope)?, out),
            [b"closed", actor, scope] => self.closed(id(actor)?, id(scope)?, out),
            [b"retire", b"0"] => self.retire(out),
            _ => return self.ask(words, out),
        }
        Some(())
    }
}

/// The words of a line, at most eight, and how many they are.
fn words_of(line: &[u8]) -> ([&[u8]; 8], usize) {
    let (mut words, mut count, mut from): ([&[u8]; 8], usize, usize) = ([b""; 8], 0, 0);
    for end in 0..=line.len() {
        if end == line.len() || line[end] == b' ' {
            if from < end && count < 8 {
                words[count] = &line[from..end];
                count += 1;
            }
            from = end + 1;
        }
    }
    (words, count)
}

fn main() -> std::io::Result<()> {
    let mut book = Book::default();
    book.actors.push(Actor::default());
    let (mut input, mut output) = (std::io::stdin().lock(), std::io::stdout().lock());
    let (mut piece, mut begun, mut out) = (vec![0; 32_768], Vec::new(), Vec::new());
    loop {
        let count = input.read(&mut piece)?;
        if count == 0 {
            return Ok(());
        }
        begun.extend_from_slice(&piece[..count]);
        let mut from = 0;
        while let Some(end) = begun[from..].iter().position(|byte| *byte == b'\n') {
            let (words, count) = words_of(&begun[from..from + end]);
            from += end + 1;
            if count > 0 && book.perform(&words[..count], &mut out).is_none() {
                out.extend_from_slice(b"refused 18 bad-word\n");
            }
        }
        begun.drain(..from);
        output.write_all(&out)?;
        out.clear();
    }
}
