//! The ticktimer: the clock, sleeping, and whatever of std waits: locks, conditions and parkers.
//!
//! The messages are those of std's `os/xous/services/ticktimer.rs`. A lock, condition or parker is known by its address
//! and, since that is one of its process, by the pid that the bridge puts into the last word (row 8 of docs/std.md).

use std::collections::{BTreeMap, VecDeque};
use std::thread;
use xous::timer::Timer;
use xous::{BlockingScalar, Message, Server};

/// Steps of the machine in a millisecond.
const MILLISECOND: u64 = 1000;
/// What the clock says at the start, in milliseconds: an hour, since programs take seconds off an `Instant`.
const START: u64 = 3_600_000;
/// How long a notification waits for those who are on their way. std tries three times, which is too few where turns are
/// short.
const PATIENCE: u64 = 10 * MILLISECOND;

const ELAPSED_MS: u32 = 0;
const SLEEP_MS: u32 = 1;
const LOCK_MUTEX: u32 = 6;
const UNLOCK_MUTEX: u32 = 7;
const WAIT_FOR_CONDITION: u32 = 8;
const NOTIFY_CONDITION: u32 = 9;
const FREE_MUTEX: u32 = 10;
const FREE_CONDITION: u32 = 11;

/// What a condition answers to one who waits.
const NOTIFIED: u32 = 0;
const TIMED_OUT: u32 = 1;

/// The pid of a process, and an address there.
type Key = (u32, u32);

/// A lock that somebody waited for. Each unlock is for one who waits or comes.
#[derive(Default)]
struct Lock<'server> {
    unlocks: u32,
    waiting: VecDeque<BlockingScalar<'server>>,
}

/// A condition or a parker. Only one of the two lists has somebody.
#[derive(Default)]
struct Condition<'server> {
    waiting: VecDeque<Waiter<'server>>,
    notifying: VecDeque<Notifier<'server>>,
}

struct Waiter<'server> {
    asked: BlockingScalar<'server>,
    until: Option<u64>,
}

/// One who is told how many were woken, once they are as many as wanted or patience ends.
struct Notifier<'server> {
    asked: BlockingScalar<'server>,
    wanted: u32,
    woken: u32,
    until: u64,
}

struct Ticktimer<'server> {
    timer: Timer,
    sleeping: Vec<(u64, BlockingScalar<'server>)>,
    locks: BTreeMap<Key, Lock<'server>>,
    conditions: BTreeMap<Key, Condition<'server>>,
}

impl<'server> Ticktimer<'server> {
    fn now(&self) -> u64 {
        self.timer.steps().into()
    }

    fn after(&self, milliseconds: u32) -> u64 {
        self.now() + u64::from(milliseconds) * MILLISECOND
    }

    fn serve(&mut self, message: Message<'server>) -> xous::Result<()> {
        let asked = match message {
            Message::BlockingScalar(asked) => asked,
            Message::Scalar(scalar) if scalar.id == FREE_CONDITION => {
                self.conditions.remove(&(scalar.words[3], scalar.words[0]));
                return Ok(());
            }
            _ => return Ok(()),
        };
        let [address, count, _, pid] = asked.words;
        let key = (pid, address);
        match asked.id {
            ELAPSED_MS => {
                let elapsed = START + self.now() / MILLISECOND;
                asked.answer_two(elapsed as u32, (elapsed >> 32) as u32)
            }
            SLEEP_MS => {
                self.sleeping.push((self.after(asked.words[0]), asked));
                Ok(())
            }
            LOCK_MUTEX => self.lock(key, asked),
            UNLOCK_MUTEX => self.unlock(key, asked),
            WAIT_FOR_CONDITION => self.wait(key, asked, count),
            NOTIFY_CONDITION => self.notify(key, asked, count),
            FREE_MUTEX => {
                self.locks.remove(&key);
                asked.answer(0)
            }
            _ => asked.answer(0),
        }
    }

    fn lock(&mut self, key: Key, asked: BlockingScalar<'server>) -> xous::Result<()> {
        let lock = self.locks.entry(key).or_default();
        if lock.unlocks == 0 {
            lock.waiting.push_back(asked);
            return Ok(());
        }
        lock.unlocks -= 1;
        if lock.unlocks == 0 {
            self.locks.remove(&key);
        }
        asked.answer(0)
    }

    fn unlock(&mut self, key: Key, asked: BlockingScalar<'server>) -> xous::Result<()> {
        let lock = self.locks.entry(key).or_default();
        match lock.waiting.pop_front() {
            Some(next) => next.answer(0)?,
            None => lock.unlocks += 1,
        }
        if lock.unlocks == 0 && lock.waiting.is_empty() {
            self.locks.remove(&key);
        }
        asked.answer(0)
    }

    fn wait(&mut self, key: Key, asked: BlockingScalar<'server>, milliseconds: u32) -> xous::Result<()> {
        let until = (milliseconds > 0).then(|| self.after(milliseconds));
        let condition = self.conditions.entry(key).or_default();
        let Some(notifier) = condition.notifying.front_mut() else {
            condition.waiting.push_back(Waiter { asked, until });
            return Ok(());
        };
        asked.answer(NOTIFIED)?;
        notifier.woken += 1;
        if notifier.woken == notifier.wanted
            && let Some(done) = condition.notifying.pop_front()
        {
            done.asked.answer(done.woken)?;
        }
        self.forget_if_empty(key);
        Ok(())
    }

    fn notify(&mut self, key: Key, asked: BlockingScalar<'server>, wanted: u32) -> xous::Result<()> {
        let until = self.now() + PATIENCE;
        let condition = self.conditions.entry(key).or_default();
        let now = condition.waiting.len().min(wanted as usize);
        for waiter in condition.waiting.drain(..now) {
            waiter.asked.answer(NOTIFIED)?;
        }
        let woken = now as u32;
        if woken == wanted {
            self.forget_if_empty(key);
            return asked.answer(woken);
        }
        condition.notifying.push_back(Notifier { asked, wanted, woken, until });
        Ok(())
    }

    fn forget_if_empty(&mut self, key: Key) {
        if self.conditions.get(&key).is_some_and(Condition::is_empty) {
            self.conditions.remove(&key);
        }
    }

    /// Whether time alone may wake somebody.
    fn is_timed(&self) -> bool {
        let mut conditions = self.conditions.values();
        !self.sleeping.is_empty() || conditions.any(Condition::is_timed)
    }

    fn wake(&mut self) -> xous::Result<()> {
        let now = self.now();
        for (_, asked) in self.sleeping.extract_if(.., |(until, _)| *until <= now) {
            asked.answer(0)?;
        }
        for condition in self.conditions.values_mut() {
            condition.wake(now)?;
        }
        self.conditions.retain(|_, condition| !condition.is_empty());
        Ok(())
    }
}

impl Condition<'_> {
    fn is_empty(&self) -> bool {
        self.waiting.is_empty() && self.notifying.is_empty()
    }

    fn is_timed(&self) -> bool {
        !self.notifying.is_empty() || self.waiting.iter().any(|waiter| waiter.until.is_some())
    }

    fn wake(&mut self, now: u64) -> xous::Result<()> {
        let late = |waiter: &mut Waiter| waiter.until.is_some_and(|until| until <= now);
        while let Some(waiter) = self.waiting.iter_mut().position(late).and_then(|at| self.waiting.remove(at)) {
            waiter.asked.answer(TIMED_OUT)?;
        }
        while let Some(done) = self.notifying.pop_front_if(|notifier| notifier.until <= now) {
            done.asked.answer(done.woken)?;
        }
        Ok(())
    }
}

fn main() -> xous::Result<()> {
    let server = Server::create("ticktimer-server".try_into()?)?;
    let timer = Timer::claim()?;
    let (sleeping, locks, conditions) = Default::default();
    let mut ticktimer = Ticktimer { timer, sleeping, locks, conditions };
    loop {
        // No step is done where nobody is ready, so that time stands still: who waits for time has to take turns (row 14).
        let message = if ticktimer.is_timed() { server.try_receive()? } else { Some(server.receive()?) };
        match message {
            Some(message) => ticktimer.serve(message)?,
            None => thread::yield_now(),
        }
        ticktimer.wake()?;
    }
}
