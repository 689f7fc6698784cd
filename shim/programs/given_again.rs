//! What stands beside a core, over one that does nothing but count its rounds and tell whom a round
//! woke. Numbers of wakers while a round has stopped for want of memory: a number that the round
//! may have taken stands for its waker until the round has ended, and is not the one with which the
//! same task polls meanwhile. And the rounds: what is asked of a core while the system waits, or
//! before the events of that wait are handled, stands in the round of that wait.
#![allow(dead_code)]
use std::sync::Arc;
use std::task::{Wake, Waker};

mod aio {
    pub const DONE: u32 = 0;

    pub struct Answer {
        pub code: u32,
    }

    pub struct Core {
        pub woken: Vec<u32>,
        pub begun: u64,
        pub runs: bool,
    }

    impl Core {
        pub fn new() -> Option<Core> {
            Some(Core { woken: Vec::new(), begun: 0, runs: false })
        }

        pub fn begin(&mut self, _now: u64, _limit: Option<u64>) -> Answer {
            assert!(!self.runs);
            self.runs = true;
            self.begun += 1;
            Answer { code: DONE }
        }

        pub fn finish(&mut self, _now: u64) -> Answer {
            assert!(self.runs);
            self.runs = false;
            Answer { code: DONE }
        }

        pub fn unlisten(&mut self, _listener: u64) -> u32 {
            0
        }

        pub fn woken(&mut self, _count: u64, wakers: &mut Vec<u32>) {
            wakers.clone_from(&self.woken);
        }
    }
}

#[path = "../src/links.rs"]
mod links;

use links::{Home, Links};

struct Source;

struct Task;

impl Wake for Task {
    fn wake(self: Arc<Task>) {}
}

fn polls(links: &mut Links, task: &Waker) -> u32 {
    let number = links.poll_number(0, false, task).unwrap();
    links.keep_poll(0, false, number, &mut Some(task.clone()));
    number
}

fn gives(links: &mut Links, task: &Waker, home: Home) -> u32 {
    let number = links.next_number().unwrap();
    links.give(&mut Some(task.clone()), home);
    number
}

fn ends(links: &mut Links, woken: &[u32]) -> Vec<Waker> {
    let mut wakers = Vec::new();
    links.core.woken = woken.to_vec();
    links.take_woken(woken.len() as u64, &mut Vec::new(), &mut wakers);
    wakers
}

#[test]
fn a_number_that_a_round_took_is_not_polled_with() {
    let task = Waker::from(Arc::new(Task));
    let mut links = Links::new();
    links.place(0, Arc::new(Source));
    let taken = polls(&mut links, &task);
    assert_eq!(polls(&mut links, &task), taken);
    let timer = gives(&mut links, &task, Home::Timer(9, 0));
    // an event of the source was handled, and for the next one memory ran out
    links.runs = true;
    links.takes = true;
    let stored = polls(&mut links, &task);
    assert_ne!(stored, taken);
    // the round may have taken the timer too, which goes: nobody has its number before the end
    assert!(links.give_up_of(timer, Home::Timer(9, 0)).is_some());
    assert_ne!(gives(&mut links, &task, Home::Timer(8, 0)), timer);
    let wakers = ends(&mut links, &[timer, taken]);
    assert!(wakers.len() == 1 && wakers[0].will_wake(&task));
    // the core holds the number of the second poll: nobody else has it, and it is known
    for timer in 1..4 {
        let other = Waker::from(Arc::new(Task));
        assert_ne!(gives(&mut links, &other, Home::Timer(timer, 0)), stored);
    }
    assert_eq!(polls(&mut links, &task), stored);
    links.runs = true;
    links.takes = true;
    assert_eq!(ends(&mut links, &[stored]).len(), 1);
}

#[test]
fn a_number_that_no_round_took_is_given_at_once() {
    let task = Waker::from(Arc::new(Task));
    let mut links = Links::new();
    links.meet(1).unwrap();
    let number = gives(&mut links, &task, Home::Listener(1));
    assert!(links.give_up_of(number, Home::Listener(1)).is_some());
    assert_eq!(gives(&mut links, &task, Home::Listener(2)), number);
}

#[test]
fn a_waker_comes_behind_its_number_unless_a_round_took_that() {
    let task = Waker::from(Arc::new(Task));
    let mut links = Links::new();
    let gives_none = |links: &mut Links, home| {
        let number = links.next_number().unwrap();
        links.give(&mut None, home);
        number
    };
    let first = Home::Listener(1);
    let number = gives_none(&mut links, first);
    assert!(!links.keeps(number, first, &task));
    assert!(links.fill(number, first, &mut Some(task.clone())));
    assert!(links.keeps(number, first, &task));
    assert_eq!(ends(&mut links, &[number]).len(), 1);
    // a round takes the number first: nobody is woken, and it is free again
    let second = Home::Listener(2);
    let number = gives_none(&mut links, second);
    assert!(ends(&mut links, &[number]).is_empty());
    assert!(!links.fill(number, second, &mut Some(task.clone())));
    assert_eq!(gives(&mut links, &task, first), number);
    assert!(!links.fill(number, second, &mut Some(task)));
    // where a round may have taken it, the same task gets another one
    let task = Waker::from(Arc::new(Task));
    let third = Home::Listener(3);
    let number = gives(&mut links, &task, third);
    assert!(links.keeps(number, third, &task));
    links.takes = true;
    assert!(!links.keeps(number, third, &task));
}

#[test]
fn the_last_round_is_of_the_wait_that_began_last() {
    let mut links = Links::new();
    let meets = |links: &mut Links, wait| {
        links.meet(wait).unwrap();
        (links.core.begun, links.core.runs)
    };
    // before the first wait
    assert_eq!(meets(&mut links, 0), (0, false));
    // while it lasts: a poll that stores its waker now stores it in the round of this wait
    assert_eq!(meets(&mut links, 1), (1, true));
    assert_eq!(meets(&mut links, 1), (1, true));
    // it had no event for this core, and so had the next one
    assert_eq!(meets(&mut links, 3), (2, true));
    // this one had, and they were handled
    links.core.finish(0);
    ends(&mut links, &[]);
    assert_eq!(meets(&mut links, 3), (2, false));
    assert_eq!(meets(&mut links, 4), (3, true));
}
