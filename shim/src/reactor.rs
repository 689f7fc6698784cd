//! The reactor of this crate, whose decisions proved cores make: which call arms the poller, who
//! is ready, whom a round wakes, when a wait ends. This file carries them out: it holds the
//! poller, the wakers and the locks, and makes the wait. Nothing of it is proved.
use std::array;
use std::borrow::Borrow;
use std::cell::Cell;
use std::fmt;
use std::future::Future;
use std::io;
use std::marker::PhantomData;
use std::panic;
use std::pin::Pin;
use std::sync::atomic::{AtomicU32, AtomicU64, AtomicUsize, Ordering};
use std::sync::{Arc, Mutex, MutexGuard};
use std::task::{Context, Poll, Waker};
use std::time::{Duration, Instant};

use async_lock::OnceCell;
use polling::{Event, Events, Poller};

mod aio;
mod links;
mod unix;

use aio::AskAnswer;
use links::{Home, Links};
pub use unix::Registration;

/// How many cores have sources.
const SHARDS: usize = 32;

/// How many cores have timers. The threads take them in turn, and each has its timers in one.
const TIMER_CORES: usize = 8;

/// How many shards beside such a core are its threads' own.
const OWN: usize = SHARDS / TIMER_CORES;

/// A thread's own shards take its sources one after the other up to so many, and then evenly up to
/// so many past twice the average of all shards.
const FEW: usize = 16;

/// The bits of a source's place that are its key in a core; those above name its shard.
const KEY_BITS: u32 = 12;

/// The place of a source that was not polled yet.
const NOWHERE: u32 = u32::MAX;

/// How many sources live at a time.
const SOURCES: usize = SHARDS << KEY_BITS;

/// The last moment of the core, in nanoseconds from the start: 31 years later.
const LAST_MOMENT: u128 = 1_000_000_000_000_000_000;

/// The moment of what has no limit.
const NEVER: u64 = u64::MAX;

/// The moment of a round that is to begin, or to begin anew.
const AT_ONCE: u64 = 0;

/// The bits of a timer's number that are its id; those above name its core, and then its waker.
const ID_BITS: u32 = 40;
const CORE_BITS: u32 = 3;

const _: () = assert!(usize::BITS == 64, "a timer's number has 64 bits");
const _: () = assert!(TIMER_CORES == 1 << CORE_BITS, "a timer's number names its core");

/// A core with sources, in a lock of its own.
#[repr(align(128))]
struct Shard(Mutex<Links>);

/// A core with timers, in a lock of its own.
#[repr(align(128))]
struct TimerCore(Mutex<Links>);

/// For each core with timers the moment by which its running round has to end. It is changed in the
/// core's lock alone, and read without it.
#[repr(align(128))]
struct Dues([AtomicU64; TIMER_CORES]);

impl Dues {
    fn get(&self, core: usize) -> u64 {
        self.0[core].load(Ordering::SeqCst)
    }

    fn set(&self, core: usize, due: u64) {
        self.0[core].store(due, Ordering::SeqCst);
    }
}

/// The one reactor of a program.
pub(crate) struct Reactor {
    pub(crate) poller: Poller,
    /// The number of the wait that began last.
    ticker: AtomicUsize,
    /// Held by the thread that makes a round.
    rounds: Mutex<Rounds>,
    timers: [TimerCore; TIMER_CORES],
    dues: Dues,
    /// The moment when the system's wait is over at the latest, and 0 while it does not wait.
    until: AtomicU64,
    /// How many threads have had timers or sources.
    threads: AtomicUsize,
    shards: [Shard; SHARDS],
    /// How many sources each shard has.
    live: [AtomicUsize; SHARDS],
    /// How many sources there are, polled or not.
    sources: AtomicUsize,
    start: Instant,
}

impl Reactor {
    pub(crate) fn get() -> &'static Reactor {
        static REACTOR: OnceCell<Reactor> = OnceCell::new();
        REACTOR.get_or_init_blocking(|| {
            crate::driver::init();
            Reactor {
                poller: Poller::new().expect("the system gives no poller"),
                ticker: AtomicUsize::new(0),
                rounds: Mutex::new(Rounds::new()),
                timers: array::from_fn(|_| TimerCore(Mutex::new(Links::new()))),
                dues: Dues(array::from_fn(|_| AtomicU64::new(AT_ONCE))),
                until: AtomicU64::new(0),
                threads: AtomicUsize::new(0),
                shards: array::from_fn(|_| Shard(Mutex::new(Links::new()))),
                live: array::from_fn(|_| AtomicUsize::new(0)),
                sources: AtomicUsize::new(0),
                start: Instant::now(),
            }
        })
    }

    #[inline]
    fn timers(&self, core: usize) -> MutexGuard<'_, Links> {
        self.timers[core].0.lock().unwrap()
    }

    /// The core that has the timers of this thread.
    fn core_of_thread(&self) -> usize {
        thread_local! {
            static CORE: Cell<usize> = const { Cell::new(usize::MAX) };
        }
        let known = CORE.get();
        if known != usize::MAX {
            return known;
        }
        let core = self.threads.fetch_add(1, Ordering::SeqCst) % TIMER_CORES;
        CORE.set(core);
        core
    }

    #[inline]
    fn shard(&self, shard: usize) -> MutexGuard<'_, Links> {
        self.shards[shard].0.lock().unwrap()
    }

    /// A moment as the core counts it.
    fn moment(&self, at: Instant) -> u64 {
        nanoseconds(at.saturating_duration_since(self.start))
    }

    pub(crate) fn ticker(&self) -> usize {
        self.ticker.load(Ordering::SeqCst)
    }

    /// The shard for a source that this thread polls first: the first of its own that has few, or
    /// the least full of them, or of all where that one has too many. Others may change the numbers
    /// meanwhile: they guide, and promise nothing.
    fn next_shard(&self) -> usize {
        let live: [usize; SHARDS] = array::from_fn(|at| self.live[at].load(Ordering::Relaxed));
        let all: usize = live.iter().sum();
        // of sources that come again and again in one order, as in pairs, each comes to all shards
        let turn = all + all / OWN;
        let least_full = |from, count| {
            let shards = (0..count).map(|at| from + (turn + at) % count);
            shards.min_by_key(|shard| live[*shard]).unwrap_or(from)
        };
        let from = self.core_of_thread() * OWN;
        if let Some(own) = (from..from + OWN).find(|shard| live[*shard] < FEW) {
            return own;
        }
        let own = least_full(from, OWN);
        let most = (2 * all / SHARDS + FEW).min(1 << KEY_BITS);
        match live[own] < most {
            true => own,
            false => least_full(0, SHARDS),
        }
    }

    /// The system's poller gets the source here; a core gets it at its first poll.
    pub(crate) fn insert_io(
        &'static self,
        registration: Registration,
    ) -> io::Result<Arc<Source>> {
        if self.sources.fetch_add(1, Ordering::SeqCst) >= SOURCES {
            self.sources.fetch_sub(1, Ordering::SeqCst);
            return Err(refused(aio::FULL));
        }
        if let Err(error) = registration.add(&self.poller, NOWHERE as usize) {
            self.sources.fetch_sub(1, Ordering::SeqCst);
            return Err(error);
        }
        let place = AtomicU32::new(NOWHERE);
        Ok(Arc::new(Source { registration, reactor: self, place }))
    }

    pub(crate) fn remove_io(&self, source: &Source) -> io::Result<()> {
        let place = source.place.load(Ordering::SeqCst);
        if place == NOWHERE {
            self.sources.fetch_sub(1, Ordering::SeqCst);
            return source.registration.delete(&self.poller);
        }
        let (shard, key) = split(place);
        let mut links = self.shard(shard);
        let (place, dropped) = links.unplace(key);
        let removed = source.registration.delete(&self.poller);
        if removed.is_err() {
            links.core.fail_next(aio::REMOVE);
        }
        links.core.del(key);
        self.live[shard].fetch_sub(1, Ordering::Relaxed);
        self.sources.fetch_sub(1, Ordering::SeqCst);
        drop(links);
        drop((place, dropped));
        removed
    }

    /// Answers a number that names the timer and its waker. Panics, with nothing locked, where no
    /// number or memory is left: the crate has no answer for that.
    pub(crate) fn insert_timer(&self, when: Instant, waker: &Waker) -> usize {
        let mut waker = Some(waker.clone());
        let at = self.moment(when);
        let core = self.core_of_thread();
        let mut timers = self.timers(core);
        let Some(number) = timers.next_number() else {
            drop(timers);
            panic!("no timer: {}", too_many_wakers());
        };
        let timer = timers.core.insert_timer(at, number);
        if timer.code != aio::DONE {
            drop(timers);
            panic!("no timer: {}", refused(timer.code));
        }
        timers.give(&mut waker, Home::Timer(timer.number, at));
        // the core's round has to end before what it told, or is yet to begin
        let due = self.dues.get(core);
        let is_early = at < due || due == AT_ONCE;
        if is_early {
            self.dues.set(core, AT_ONCE);
        }
        drop(timers);
        // no notice where the wait is over by then, nor where none has begun
        if is_early && at < self.until.load(Ordering::SeqCst) {
            self.notify();
        }
        let names = u64::from(number) << CORE_BITS | core as u64;
        (timer.number | names << ID_BITS) as usize
    }

    /// A timer that was woken has gone already.
    pub(crate) fn remove_timer(&self, _when: Instant, timer: usize) {
        let id = (timer & ((1 << ID_BITS) - 1)) as u64;
        let names = timer >> ID_BITS;
        let number = (names >> CORE_BITS) as u32;
        let mut timers = self.timers(names % TIMER_CORES);
        let Some(at) = timers.moment_of(number, id) else { return };
        timers.core.remove_timer(at, id);
        let dropped = timers.give_up(number);
        drop(timers);
        drop(dropped);
    }

    pub(crate) fn notify(&self) {
        self.poller.notify().expect("the poller takes no notice");
    }

    pub(crate) fn lock(&self) -> ReactorLock<'_> {
        ReactorLock { reactor: self, rounds: self.rounds.lock().unwrap() }
    }

    pub(crate) fn try_lock(&self) -> Option<ReactorLock<'_>> {
        let rounds = self.rounds.try_lock().ok()?;
        Some(ReactorLock { reactor: self, rounds })
    }
}

/// The right to make rounds.
pub(crate) struct ReactorLock<'a> {
    reactor: &'a Reactor,
    rounds: MutexGuard<'a, Rounds>,
}

impl ReactorLock<'_> {
    /// One round, which waits for at most `timeout`; or the rest of the one before, where memory
    /// ran out in that.
    pub(crate) fn react(&mut self, timeout: Option<Duration>) -> io::Result<()> {
        self.rounds.round(self.reactor, timeout)
    }
}

/// A round of the reactor: a wait of the system, the end of the round of each core with timers that
/// is due behind it, and a round of each shard that has events of that wait.
struct Rounds {
    events: Events,
    /// The events of each shard.
    hands: [Hand; SHARDS],
    /// What the last wait came to, and a bit for each core with timers whose round is yet to be
    /// told that there was one.
    wait: Wait,
    untold: u64,
    /// A bit for each core with timers whose round runs.
    running: u64,
    /// A bit for each core with timers, and for each shard, whose round is to be ended.
    timers_left: u64,
    shards_left: u64,
    wakers: Vec<Waker>,
    /// Room for the numbers of a round's wakers.
    numbers: Vec<u32>,
}

const _: () = assert!(SHARDS <= u64::BITS as usize, "each shard has a bit");

#[derive(Clone, Copy)]
enum Wait {
    Over,
    Interrupted,
    Failed,
}

impl Rounds {
    fn new() -> Rounds {
        Rounds {
            events: Events::new(),
            hands: array::from_fn(|_| Hand::default()),
            wait: Wait::Over,
            untold: 0,
            running: 0,
            timers_left: 0,
            shards_left: 0,
            wakers: Vec::new(),
            numbers: Vec::new(),
        }
    }

    fn round(&mut self, reactor: &Reactor, timeout: Option<Duration>) -> io::Result<()> {
        if self.timers_left != 0 || self.shards_left != 0 {
            // memory ran out in the round before, which is ended: no wait comes before its wakes
            return self.end(reactor, reactor.moment(Instant::now()));
        }
        let limit = match self.begin(reactor, timeout) {
            Ok(limit) => limit,
            Err(refused) => {
                // no wait is made; what took a timer is ended
                reactor.until.store(0, Ordering::SeqCst);
                let now = reactor.moment(Instant::now());
                self.timers_left |= self.due(reactor, now);
                self.end(reactor, now).ok();
                return Err(refused);
            }
        };
        reactor.ticker.fetch_add(1, Ordering::SeqCst);
        self.events.clear();
        let waited = reactor.poller.wait(&mut self.events, limit);
        reactor.until.store(0, Ordering::SeqCst);
        for event in self.events.iter() {
            let shard = event.key >> KEY_BITS;
            // one that was not polled yet hears of no event
            if let Some(hand) = self.hands.get_mut(shard) {
                hand.events.push(event);
                self.shards_left |= 1 << shard;
            }
        }
        // a wait that failed behind its events gave them: they are handled, and its error is told
        let (wait, failed) = match waited {
            Err(error) if self.shards_left != 0 => (Wait::Over, Err(error)),
            Err(error) if error.kind() == io::ErrorKind::Interrupted => (Wait::Interrupted, Ok(())),
            Err(error) => (Wait::Failed, Err(error)),
            Ok(_) => (Wait::Over, Ok(())),
        };
        self.wait = wait;
        self.untold = self.running;
        let now = reactor.moment(Instant::now());
        self.timers_left = match wait {
            Wait::Over => self.due(reactor, now),
            Wait::Interrupted | Wait::Failed => self.running,
        };
        let ended = self.end(reactor, now);
        failed.and(ended)
    }

    /// The cores with timers whose running round has to end by now.
    fn due(&self, reactor: &Reactor, now: u64) -> u64 {
        let due = (0..TIMER_CORES).filter(|core| reactor.dues.get(*core) <= now);
        due.fold(0, |bits, core| bits | 1 << core) & self.running
    }

    /// Begins a round of each core with timers that has none, or got a timer that is due before the
    /// moment that its round told. Answers the limit of the wait: the least that the cores told.
    fn begin(
        &mut self,
        reactor: &Reactor,
        timeout: Option<Duration>,
    ) -> io::Result<Option<Duration>> {
        let now = reactor.moment(Instant::now());
        let mut until = timeout.map_or(NEVER, |timeout| now.saturating_add(nanoseconds(timeout)));
        // first of all: a timer whose core was looked at before it came gives notice
        reactor.until.store(NEVER, Ordering::SeqCst);
        let cores = reactor.threads.load(Ordering::SeqCst).clamp(1, TIMER_CORES);
        for core in 0..cores {
            let mut due = reactor.dues.get(core);
            if due == AT_ONCE {
                due = self.begin_timers(reactor, core, now)?;
            }
            until = until.min(due);
        }
        // those whom the end of a round has to wake are woken behind the wait, as all others
        if !self.wakers.is_empty() {
            until = now;
        }
        reactor.until.store(until, Ordering::SeqCst);
        Ok((until != NEVER).then(|| Duration::from_nanos(until.saturating_sub(now))))
    }

    /// Begins a round of a core with timers, after the end of the one that runs, where one does.
    /// Answers the moment by which it has to end.
    fn begin_timers(&mut self, reactor: &Reactor, core: usize, now: u64) -> io::Result<u64> {
        let mut links = reactor.timers(core);
        if links.runs {
            self.timers_left |= 1 << core;
            self.end_timers(core, &mut links, now)?;
        }
        let begun = links.core.begin(now, None);
        if begun.code != aio::DONE {
            return Err(refused(begun.code));
        }
        links.runs = true;
        // a begin that took a timer tells the limit 0: no round that lasts has taken a number
        links.takes = begun.limited && begun.limit == 0;
        let due = if begun.limited { now.saturating_add(begun.limit) } else { NEVER };
        reactor.dues.set(core, due);
        self.running |= 1 << core;
        Ok(due)
    }

    /// Ends each round that is to be ended, and wakes whom it has to wake before the next one ends.
    /// Where memory runs out in one of them the others go on, and the next call goes on from there.
    fn end(&mut self, reactor: &Reactor, now: u64) -> io::Result<()> {
        self.wake();
        let mut first = Ok(());
        let mut left = self.timers_left;
        while left != 0 {
            let core = left.trailing_zeros() as usize;
            left &= left - 1;
            let mut links = reactor.timers(core);
            let ended = self.end_timers(core, &mut links, now);
            reactor.dues.set(core, AT_ONCE);
            drop(links);
            self.wake();
            first = first.and(ended);
        }
        // a shard whose lock is held, as by a poll that arms, comes behind the others
        let mut left = self.shards_left;
        let mut held = 0;
        while left | held != 0 {
            let waits = left == 0;
            let bits = if waits { &mut held } else { &mut left };
            let shard = bits.trailing_zeros() as usize;
            *bits &= *bits - 1;
            let links = match waits {
                true => reactor.shard(shard),
                false => match reactor.shards[shard].0.try_lock() {
                    Ok(links) => links,
                    Err(_) => {
                        held |= 1 << shard;
                        continue;
                    }
                },
            };
            let hand = &mut self.hands[shard];
            let ended = hand.end(reactor, links, &mut self.numbers, &mut self.wakers);
            if hand.events.is_empty() {
                self.shards_left &= !(1 << shard);
            }
            self.wake();
            first = first.and(ended);
        }
        first
    }

    fn wake(&mut self) {
        for waker in self.wakers.drain(..) {
            // a waker that panics keeps none of the others from being woken
            panic::catch_unwind(|| waker.wake()).ok();
        }
    }

    fn end_timers(&mut self, core: usize, links: &mut Links, now: u64) -> io::Result<()> {
        if self.untold & 1 << core != 0 {
            match self.wait {
                Wait::Over => {}
                Wait::Interrupted => links.core.interrupt_next(),
                Wait::Failed => links.core.fail_next(aio::WAIT),
            }
            links.core.wait();
            self.untold &= !(1 << core);
        }
        if links::refuses() {
            return Err(refused(aio::OUT_OF_MEMORY));
        }
        let ended = links.core.finish(now);
        if ended.code != aio::DONE {
            return Err(refused(ended.code));
        }
        links.take_woken(ended.wakers, &mut self.numbers, &mut self.wakers);
        self.timers_left &= !(1 << core);
        self.running &= !(1 << core);
        Ok(())
    }
}

/// The events of a wait for one shard, how many of them its core was told, whether it has them in
/// hand, and how many of them were handled.
#[derive(Default)]
struct Hand {
    events: Vec<Event>,
    told: usize,
    waited: bool,
    handled: usize,
}

impl Hand {
    /// Has the core handle each event and ends its round. Where memory runs out, the next call goes
    /// on from there; otherwise no event is left.
    fn end(
        &mut self,
        reactor: &Reactor,
        mut links: MutexGuard<'_, Links>,
        numbers: &mut Vec<u32>,
        wakers: &mut Vec<Waker>,
    ) -> io::Result<()> {
        links.meet(reactor.ticker()).map_err(refused)?;
        for event in &self.events[self.told..] {
            if links::refuses() {
                return Err(refused(aio::OUT_OF_MEMORY));
            }
            let code = links.core.give(core_key(event), event.readable, event.writable);
            if code != aio::DONE {
                return Err(refused(code));
            }
            self.told += 1;
        }
        if !self.waited {
            links.core.wait();
            self.waited = true;
        }
        let mut first = Ok(());
        for event in &self.events[self.handled..] {
            if links::refuses() {
                return Err(refused(aio::OUT_OF_MEMORY));
            }
            let asked = links.core.handle_asks();
            if asked.arms {
                let armed = links.source(core_key(event)).map_or(Ok(()), |s| s.modify(&asked));
                if armed.is_err() {
                    links.core.fail_next(aio::ARM);
                }
                first = first.and(armed);
            }
            let code = links.core.handle().code;
            if code != aio::DONE && code != aio::ARM_FAULT {
                return Err(refused(code));
            }
            links.takes = true;
            self.handled += 1;
        }
        if links::refuses() {
            return Err(refused(aio::OUT_OF_MEMORY));
        }
        let ended = links.core.finish(0);
        if ended.code != aio::DONE {
            return Err(refused(ended.code));
        }
        links.take_woken(ended.wakers, numbers, wakers);
        self.events.clear();
        self.told = 0;
        self.waited = false;
        self.handled = 0;
        first
    }
}

/// The shard of a place, and the key there.
fn split(place: u32) -> (usize, u32) {
    ((place >> KEY_BITS) as usize, place & ((1 << KEY_BITS) - 1))
}

fn core_key(event: &Event) -> u32 {
    split(event.key as u32).1
}

fn nanoseconds(duration: Duration) -> u64 {
    duration.as_nanos().min(LAST_MOMENT) as u64
}

/// The error that tells a refusal of the core; that of want of memory is made without memory.
fn refused(code: u32) -> io::Error {
    let text = match code {
        aio::OUT_OF_MEMORY => return io::ErrorKind::OutOfMemory.into(),
        aio::FULL => "131,072 sources are registered",
        aio::IDS_SPENT => "2^40 - 1 timers were registered in a core",
        _ => "the core refused the call",
    };
    io::Error::new(io::ErrorKind::Other, text)
}

fn too_many_wakers() -> io::Error {
    io::Error::new(io::ErrorKind::Other, "2^21 wakers wait in a core")
}

/// A registered source, which joins a shard at its first poll.
pub(crate) struct Source {
    registration: Registration,
    reactor: &'static Reactor,
    /// Its shard and its key there, and the poller's key for it.
    place: AtomicU32,
}

impl fmt::Debug for Source {
    fn fmt(&self, f: &mut fmt::Formatter<'_>) -> fmt::Result {
        let mut told = f.debug_struct("Source");
        told.field("registration", &self.registration).field("place", &self.place).finish()
    }
}

impl Source {
    /// The core of this source and what stands beside it, locked, and the source's key there.
    #[inline(always)]
    fn links(self: &Arc<Source>) -> io::Result<(MutexGuard<'static, Links>, u32)> {
        let place = self.place.load(Ordering::SeqCst);
        if place == NOWHERE {
            return self.join();
        }
        let (shard, key) = split(place);
        Ok((self.reactor.shard(shard), key))
    }

    /// Joins a shard, unless another thread has it join one. One that is full is passed over for the
    /// next one, as often as it takes: there is a place for each source that was let in, which others
    /// that come and go may move meanwhile.
    #[cold]
    fn join(self: &Arc<Source>) -> io::Result<(MutexGuard<'static, Links>, u32)> {
        let mut shard = self.reactor.next_shard();
        loop {
            let earlier = self.place.load(Ordering::SeqCst);
            if earlier != NOWHERE {
                let (shard, key) = split(earlier);
                return Ok((self.reactor.shard(shard), key));
            }
            let mut links = self.reactor.shard(shard);
            let added = links.core.add();
            match added.code {
                aio::DONE => {}
                aio::FULL => {
                    shard = (shard + 1) % SHARDS;
                    continue;
                }
                code => return Err(refused(code)),
            }
            let key = added.key;
            let place = (shard as u32) << KEY_BITS | key;
            let joins =
                self.place.compare_exchange(NOWHERE, place, Ordering::SeqCst, Ordering::SeqCst);
            if joins.is_err() {
                links.core.del(key);
                continue;
            }
            links.place(key, self.clone());
            self.reactor.live[shard].fetch_add(1, Ordering::Relaxed);
            return Ok((links, key));
        }
    }

    fn modify(&self, asked: &AskAnswer) -> io::Result<()> {
        debug_assert!(!asked.priority, "nobody waits for urgent readiness");
        let mut event = Event::none(self.place.load(Ordering::SeqCst) as usize);
        event.readable = asked.read;
        event.writable = asked.write;
        self.registration.modify(&self.reactor.poller, event)
    }

    /// Arms the system's poller as the next call of the core on this source asks; a failure is told
    /// to the core, for that call to answer it.
    #[inline]
    fn arm(&self, links: &mut Links, asked: &AskAnswer) -> io::Result<()> {
        if !asked.arms {
            return Ok(());
        }
        let armed = self.modify(asked);
        if armed.is_err() {
            links.core.fail_next(aio::ARM);
        }
        armed
    }

    pub(crate) fn poll_readable(self: &Arc<Source>, cx: &mut Context<'_>) -> Poll<io::Result<()>> {
        self.poll_direction(false, cx)
    }

    pub(crate) fn poll_writable(self: &Arc<Source>, cx: &mut Context<'_>) -> Poll<io::Result<()>> {
        self.poll_direction(true, cx)
    }

    // no part of the reads and writes, which mostly do without it
    #[inline(never)]
    fn poll_direction(
        self: &Arc<Source>,
        write: bool,
        cx: &mut Context<'_>,
    ) -> Poll<io::Result<()>> {
        let mut waker = Some(cx.waker().clone());
        let (mut links, key) = match self.links() {
            Ok(found) => found,
            Err(error) => return Poll::Ready(Err(error)),
        };
        if let Err(code) = links.meet(self.reactor.ticker()) {
            return Poll::Ready(Err(refused(code)));
        }
        let Some(number) = links.poll_number(key, write, cx.waker()) else {
            return Poll::Ready(Err(too_many_wakers()));
        };
        let asked = links.core.poll_asks(key, write);
        let armed = self.arm(&mut links, &asked);
        let polled = links.core.poll(key, write, number);
        if polled.code != aio::DONE && polled.code != aio::ARM_FAULT {
            return Poll::Ready(match polled.code {
                aio::READY => Ok(()),
                code => Err(refused(code)),
            });
        }
        links.keep_poll(key, write, number, &mut waker);
        let replaced = match polled.wakes {
            true => links.give_up(polled.waker),
            false => None,
        };
        drop(links);
        if let Some(waker) = replaced {
            panic::catch_unwind(|| waker.wake()).ok();
        }
        match armed {
            Ok(()) => Poll::Pending,
            Err(error) => Poll::Ready(Err(error)),
        }
    }

    pub(crate) fn readable<T>(handle: &crate::Async<T>) -> Readable<'_, T> {
        Readable(Ready::new(handle, false))
    }

    pub(crate) fn readable_owned<T>(handle: Arc<crate::Async<T>>) -> ReadableOwned<T> {
        ReadableOwned(Ready::new(handle, false))
    }

    pub(crate) fn writable<T>(handle: &crate::Async<T>) -> Writable<'_, T> {
        Writable(Ready::new(handle, true))
    }

    pub(crate) fn writable_owned<T>(handle: Arc<crate::Async<T>>) -> WritableOwned<T> {
        WritableOwned(Ready::new(handle, true))
    }
}

/// The four public futures, each a listener of one direction.
macro_rules! futures {
    ($($name:ident $(<$life:lifetime>)? of $held:ty, $what:literal;)*) => {
        $(
            #[doc = $what]
            #[must_use = "a future waits only where it is polled"]
            pub struct $name<$($life,)? T>(Ready<$held, T>);

            impl<$($life,)? T> Future for $name<$($life,)? T> {
                type Output = io::Result<()>;

                fn poll(mut self: Pin<&mut Self>, cx: &mut Context<'_>) -> Poll<Self::Output> {
                    Pin::new(&mut self.0).poll(cx)
                }
            }

            impl<$($life,)? T> fmt::Debug for $name<$($life,)? T> {
                fn fmt(&self, f: &mut fmt::Formatter<'_>) -> fmt::Result {
                    f.debug_struct(stringify!($name)).finish()
                }
            }
        )*
    };
}

futures! {
    Readable<'a> of &'a crate::Async<T>, "Waits until a borrowed source is readable.";
    ReadableOwned of Arc<crate::Async<T>>, "Waits until a shared source is readable.";
    Writable<'a> of &'a crate::Async<T>, "Waits until a borrowed source is writable.";
    WritableOwned of Arc<crate::Async<T>>, "Waits until a shared source is writable.";
}

/// A future that waits for a direction, by a listener in the core.
struct Ready<H: Borrow<crate::Async<T>>, T> {
    handle: H,
    write: bool,
    listener: Listener,
    _source: PhantomData<fn() -> T>,
}

impl<H: Borrow<crate::Async<T>>, T> Unpin for Ready<H, T> {}

impl<H: Borrow<crate::Async<T>>, T> Ready<H, T> {
    fn new(handle: H, write: bool) -> Ready<H, T> {
        Ready { handle, write, listener: Listener::default(), _source: PhantomData }
    }
}

impl<H: Borrow<crate::Async<T>>, T> Future for Ready<H, T> {
    type Output = io::Result<()>;

    fn poll(mut self: Pin<&mut Self>, cx: &mut Context<'_>) -> Poll<Self::Output> {
        let Ready { handle, write, listener, .. } = &mut *self;
        listener.poll(&(*handle).borrow().source, *write, cx)
    }
}

impl<H: Borrow<crate::Async<T>>, T> Drop for Ready<H, T> {
    fn drop(&mut self) {
        self.listener.leave(&self.handle.borrow().source);
    }
}

/// A listener, which joins the core at its first poll, and leaves it once it is ready.
#[derive(Default)]
struct Listener {
    /// Its number in the core.
    id: Option<u64>,
    /// The number of the waker of the last poll, where that was pending.
    number: Option<u32>,
    is_ready: bool,
}

impl Listener {
    fn poll(
        &mut self,
        source: &Arc<Source>,
        write: bool,
        cx: &mut Context<'_>,
    ) -> Poll<io::Result<()>> {
        if self.is_ready {
            return Poll::Ready(Ok(()));
        }
        // a later poll is mostly ready, and needs none
        let mut waker = self.number.is_none().then(|| cx.waker().clone());
        loop {
            let (mut links, key) = match source.links() {
                Ok(found) => found,
                Err(error) => return Poll::Ready(Err(error)),
            };
            let id = match self.join(source.reactor, &mut links, key, write) {
                Ok(id) => id,
                Err(error) => return Poll::Ready(Err(error)),
            };
            let home = Home::Listener(id);
            let kept = self.number.filter(|number| links.keeps(*number, home, cx.waker()));
            let Some(number) = kept.or_else(|| links.next_number()) else {
                return Poll::Ready(Err(too_many_wakers()));
            };
            let asked = links.core.step_asks(id);
            let armed = source.arm(&mut links, &asked);
            let code = links.core.step(id, number);
            if code == aio::READY {
                let dropped = self.leave_now(&mut links, key, id);
                self.is_ready = true;
                drop(links);
                drop(dropped);
                return Poll::Ready(Ok(()));
            }
            if code != aio::DONE && code != aio::ARM_FAULT {
                return Poll::Ready(Err(refused(code)));
            }
            let mut lacks_waker = false;
            let mut dropped = None;
            if kept.is_none() {
                lacks_waker = waker.is_none();
                links.give(&mut waker, home);
                // one that was woken may have been given again, to this very poll too
                let old = self.number.replace(number).filter(|old| *old != number);
                dropped = old.and_then(|old| links.give_up_of(old, home));
            }
            drop(links);
            drop(dropped);
            if lacks_waker {
                waker = Some(cx.waker().clone());
                let again = source.links();
                if !again.map_or(false, |(mut links, _)| links.fill(number, home, &mut waker)) {
                    // a round took the number meanwhile, and woke nobody
                    continue;
                }
            }
            return match armed {
                Ok(()) => Poll::Pending,
                Err(error) => Poll::Ready(Err(error)),
            };
        }
    }

    /// The listener's number in the core, which it gets at its first poll.
    fn join(
        &mut self,
        reactor: &Reactor,
        links: &mut Links,
        key: u32,
        write: bool,
    ) -> io::Result<u64> {
        // a later poll goes by the rounds that the first one remembered
        if self.number.is_none() {
            links.meet(reactor.ticker()).map_err(refused)?;
        }
        if let Some(id) = self.id {
            return Ok(id);
        }
        let made = links.core.listen(key, write);
        if made.code != aio::DONE {
            return Err(refused(made.code));
        }
        links.listen(key, made.number);
        self.id = Some(made.number);
        Ok(made.number)
    }

    /// Takes the listener out of the core. What is answered is to be dropped outside of the lock.
    fn leave_now(&mut self, links: &mut Links, key: u32, id: u64) -> Option<Waker> {
        links.unlisten(key, id);
        self.id = None;
        let number = self.number.take();
        number.and_then(|number| links.give_up_of(number, Home::Listener(id)))
    }

    fn leave(&mut self, source: &Arc<Source>) {
        let Some(id) = self.id else { return };
        let Ok((mut links, key)) = source.links() else { return };
        let dropped = self.leave_now(&mut links, key, id);
        drop(links);
        drop(dropped);
    }
}
