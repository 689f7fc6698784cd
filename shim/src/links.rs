//! A core beside what a program has in place of its numbers: sources by their keys, and wakers.
//! Nothing of this file is proved.
use super::aio::{Core, DONE};
use super::Source;
use std::collections::HashSet;
#[cfg(any(aio_loses_wakes, aio_refuses_memory))]
use std::sync::atomic::{AtomicU64, Ordering};
use std::sync::Arc;
use std::task::Waker;

/// No number.
const NONE: u32 = u32::MAX;

/// The numbers of wakers are below this, so that one lies beside a timer's core and id in 64 bits.
const NUMBERS: usize = 1 << 21;

/// Where in the core the number of a waker may stand.
#[derive(Clone, Copy, PartialEq, Eq)]
pub(super) enum Home {
    None,
    /// The poll waiter of a direction of the source of this key.
    Poll(u32, bool),
    Listener(u64),
    /// A timer of this id, which is due at this moment.
    Timer(u64, u64),
}

struct Slot {
    waker: Option<Waker>,
    home: Home,
}

/// A source with the numbers of its poll waiters, and its listeners.
pub(super) struct Place {
    source: Arc<Source>,
    polled: [u32; 2],
    listeners: Vec<u64>,
}

/// A core, and all that its numbers stand for. The fields lie in this order, those of most calls
/// first.
#[repr(C)]
pub(super) struct Links {
    pub(super) core: Core,
    /// Whether a round runs: begun, and not yet ended.
    pub(super) runs: bool,
    /// Whether the running round may have taken numbers: it may have begun with timers that were
    /// due, or has handled an event.
    pub(super) takes: bool,
    /// The number of the system's wait that the last round belongs to.
    wait: usize,
    slots: Vec<Slot>,
    free: Vec<u32>,
    places: Vec<Option<Place>>,
    /// Numbers that were given up while a round runs that may have taken them. They are free only
    /// when it has ended.
    given_up: Vec<u32>,
}

impl Links {
    pub(super) fn new() -> Links {
        Links {
            core: Core::new().expect("no memory for the core"),
            runs: false,
            takes: false,
            wait: 0,
            slots: Vec::new(),
            free: Vec::new(),
            places: Vec::new(),
            given_up: Vec::new(),
        }
    }

    // ## Rounds

    /// Makes the last round one of this wait of the system. Nothing was asked of this core since
    /// the wait began, for all that asks comes here first: so it is as if the round had begun
    /// before the wait did, and that of the wait before had ended, which took nobody. A refusal is
    /// told by its code. It is for a core without timers.
    #[inline]
    pub(super) fn meet(&mut self, wait: usize) -> Result<(), u32> {
        if self.wait == wait {
            return Ok(());
        }
        if self.runs {
            let ended = self.core.finish(0);
            if ended.code != DONE {
                return Err(ended.code);
            }
            self.runs = false;
        }
        let begun = self.core.begin(0, None);
        if begun.code != DONE {
            return Err(begun.code);
        }
        self.runs = true;
        self.wait = wait;
        Ok(())
    }

    // ## Sources

    /// The new source of a key.
    pub(super) fn place(&mut self, key: u32, source: Arc<Source>) {
        let at = key as usize;
        while self.places.len() <= at {
            self.places.push(None);
        }
        let polled = [NONE; 2];
        self.places[at] = Some(Place { source, polled, listeners: Vec::new() });
    }

    /// Takes the place of a key out, with each listener that is left, as of a future that was
    /// forgotten. What is answered is to be dropped outside of the lock.
    pub(super) fn unplace(&mut self, key: u32) -> (Option<Place>, Vec<Option<Waker>>) {
        let Some(place) = self.places[key as usize].take() else {
            return (None, Vec::new());
        };
        let mut dropped = Vec::new();
        for listener in &place.listeners {
            self.core.unlisten(*listener);
        }
        // One walk over the slots for all of them.
        if !place.listeners.is_empty() {
            let left: HashSet<u64> = place.listeners.iter().copied().collect();
            for number in 0..self.slots.len() as u32 {
                match self.slots[number as usize].home {
                    Home::Listener(id) if left.contains(&id) => dropped.push(self.give_up(number)),
                    _ => {}
                }
            }
        }
        for number in place.polled {
            if number != NONE {
                dropped.push(self.give_up(number));
            }
        }
        (Some(place), dropped)
    }

    pub(super) fn source(&self, key: u32) -> Option<&Source> {
        let place = self.places.get(key as usize)?.as_ref()?;
        Some(&place.source)
    }

    // ## Listeners

    #[inline]
    pub(super) fn listen(&mut self, key: u32, listener: u64) {
        if let Some(Some(place)) = self.places.get_mut(key as usize) {
            place.listeners.push(listener);
        }
    }

    #[inline]
    pub(super) fn unlisten(&mut self, key: u32, listener: u64) {
        self.core.unlisten(listener);
        if let Some(Some(place)) = self.places.get_mut(key as usize) {
            if let Some(at) = place.listeners.iter().position(|other| *other == listener) {
                place.listeners.swap_remove(at);
            }
        }
    }

    // ## Wakers

    /// The number for the next waker, which no call of the core can still hold for another. None
    /// where all numbers are given.
    #[inline]
    pub(super) fn next_number(&self) -> Option<u32> {
        let unused = (self.slots.len() < NUMBERS).then(|| self.slots.len() as u32);
        self.free.last().copied().or(unused)
    }

    /// Gives that number to a waker, which it takes, and says where the number stands.
    #[inline]
    pub(super) fn give(&mut self, waker: &mut Option<Waker>, home: Home) {
        let slot = Slot { waker: waker.take(), home };
        match self.free.pop() {
            Some(number) => self.slots[number as usize] = slot,
            None => self.slots.push(slot),
        }
    }

    /// Gives a number up, and answers its waker, to be dropped or woken outside of the lock.
    #[inline]
    pub(super) fn give_up(&mut self, number: u32) -> Option<Waker> {
        let slot = &mut self.slots[number as usize];
        if slot.home == Home::None {
            return None;
        }
        slot.home = Home::None;
        if self.takes {
            self.given_up.push(number);
        } else {
            self.free.push(number);
        }
        slot.waker.take()
    }

    /// The same where the number still stands there: it may have been woken, and given again.
    #[inline]
    pub(super) fn give_up_of(&mut self, number: u32, home: Home) -> Option<Waker> {
        let stands = self.slots.get(number as usize)?.home == home;
        stands.then(|| self.give_up(number)).flatten()
    }

    /// The moment of the timer of this id, where the number still stands for that.
    #[inline]
    pub(super) fn moment_of(&self, number: u32, timer: u64) -> Option<u64> {
        match self.slots.get(number as usize)?.home {
            Home::Timer(id, at) if id == timer => Some(at),
            _ => None,
        }
    }

    /// Puts a waker where the number was given without one. `false` where the number was woken.
    pub(super) fn fill(&mut self, number: u32, home: Home, waker: &mut Option<Waker>) -> bool {
        let slot = &mut self.slots[number as usize];
        let stands = slot.home == home;
        if stands {
            slot.waker = waker.take();
        }
        stands
    }

    /// Whether the number still stands there, for the task of this waker, and no round may have
    /// taken it.
    #[inline]
    pub(super) fn keeps(&self, number: u32, home: Home, waker: &Waker) -> bool {
        if self.takes {
            return false;
        }
        let slot = &self.slots[number as usize];
        let held = slot.waker.as_ref().filter(|_| slot.home == home);
        held.map_or(false, |held| held.will_wake(waker))
    }

    /// The number with which a waker polls: that of the poll waiter where both wake the same task,
    /// otherwise the next one. So it is where memory ran out behind an event of the running round,
    /// which may have taken the poll waiter's number.
    pub(super) fn poll_number(&self, key: u32, write: bool, waker: &Waker) -> Option<u32> {
        if let Some(Some(place)) = self.places.get(key as usize) {
            let kept = place.polled[write as usize];
            if kept != NONE && self.keeps(kept, Home::Poll(key, write), waker) {
                return Some(kept);
            }
        }
        self.next_number()
    }

    /// The poll waiter of a direction has this number now, with which it polled.
    pub(super) fn keep_poll(
        &mut self,
        key: u32,
        write: bool,
        number: u32,
        waker: &mut Option<Waker>,
    ) {
        if let Some(Some(place)) = self.places.get_mut(key as usize) {
            if place.polled[write as usize] != number {
                place.polled[write as usize] = number;
                self.give(waker, Home::Poll(key, write));
            }
        }
    }

    /// The poll waiter of a direction was woken, where it has this number.
    fn forget_poll(&mut self, key: u32, write: bool, number: u32) {
        if let Some(Some(place)) = self.places.get_mut(key as usize) {
            let polled = &mut place.polled[write as usize];
            if *polled == number {
                *polled = NONE;
            }
        }
    }

    /// Takes the wakers of the round that ended, by way of `numbers`; their numbers and those given
    /// up meanwhile are free from now on.
    pub(super) fn take_woken(
        &mut self,
        count: u64,
        numbers: &mut Vec<u32>,
        wakers: &mut Vec<Waker>,
    ) {
        numbers.clear();
        if count > 0 {
            self.core.woken(count, numbers);
        }
        self.runs = false;
        self.takes = false;
        for number in numbers.iter() {
            if let Home::Poll(key, write) = self.slots[*number as usize].home {
                self.forget_poll(key, write, *number);
            }
            if let Some(waker) = self.give_up(*number) {
                #[cfg(aio_loses_wakes)]
                if loses() {
                    continue;
                }
                wakers.push(waker);
            }
        }
        if !self.given_up.is_empty() {
            self.free.append(&mut self.given_up);
        }
    }
}

/// Whether a control run loses this wake: one of 5,000.
#[cfg(aio_loses_wakes)]
fn loses() -> bool {
    static LOST: AtomicU64 = AtomicU64::new(0);
    LOST.fetch_add(1, Ordering::Relaxed) % 5_000 == 4_999
}

/// Whether a run refuses this call as if memory had run out: one of 50.
#[cfg(aio_refuses_memory)]
pub(super) fn refuses() -> bool {
    static ASKED: AtomicU64 = AtomicU64::new(0);
    ASKED.fetch_add(1, Ordering::Relaxed) % 50 == 49
}

#[cfg(not(aio_refuses_memory))]
pub(super) fn refuses() -> bool {
    false
}
