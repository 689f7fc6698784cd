//! 8 threads with 25 socket pairs each: every pair sends a byte there and one back 400 times,
//! beside timers, as a task with a waker of its own. A round trip that is not made within the time
//! of the first argument in seconds, 20 where there is none, ends the program with status 1. Each
//! thread makes its own pairs; where the second argument is `one`, the main thread makes all. A third
//! one is another number of threads, a fourth one of trips of a pair.
use async_io::{Async, Timer};
use futures_lite::io::{AsyncReadExt, AsyncWriteExt};
use futures_lite::FutureExt;
use std::collections::VecDeque;
use std::future::{poll_fn, Future};
use std::os::unix::net::UnixStream;
use std::pin::Pin;
use std::sync::{Arc, Mutex};
use std::task::{Context, Poll, Wake, Waker};
use std::time::{Duration, Instant};

const THREADS: usize = 8;
const PAIRS: usize = 25;
const TRIPS: usize = 400;

type Work = Pin<Box<dyn Future<Output = ()> + Send>>;
type Pair = (Async<UnixStream>, Async<UnixStream>);

/// The tasks of one thread that are to be polled, and the waker of that thread.
#[derive(Default)]
struct Queue {
    tasks: VecDeque<Arc<Task>>,
    thread: Option<Waker>,
}

struct Task {
    work: Mutex<Option<Work>>,
    queue: Arc<Mutex<Queue>>,
}

impl Wake for Task {
    fn wake(self: Arc<Task>) {
        let queue = self.queue.clone();
        let thread = {
            let mut queue = queue.lock().unwrap();
            queue.tasks.push_back(self);
            queue.thread.take()
        };
        if let Some(thread) = thread {
            thread.wake();
        }
    }
}

/// Polls each task that was woken, until all have ended.
async fn run_all(works: Vec<Work>) {
    let queue = Arc::new(Mutex::new(Queue::default()));
    let mut left = works.len();
    for work in works {
        let task = Task { work: Mutex::new(Some(work)), queue: queue.clone() };
        queue.lock().unwrap().tasks.push_back(Arc::new(task));
    }
    poll_fn(|cx| loop {
        let task = {
            let mut queue = queue.lock().unwrap();
            queue.thread = Some(cx.waker().clone());
            match queue.tasks.pop_front() {
                Some(task) => task,
                None => return Poll::Pending,
            }
        };
        let waker = Waker::from(task.clone());
        let mut work = task.work.lock().unwrap();
        if let Some(future) = work.as_mut() {
            if future.as_mut().poll(&mut Context::from_waker(&waker)).is_ready() {
                *work = None;
                left -= 1;
                if left == 0 {
                    return Poll::Ready(());
                }
            }
        }
    })
    .await
}

fn pairs() -> Vec<Pair> {
    (0..PAIRS).map(|_| Async::<UnixStream>::pair().unwrap()).collect()
}

async fn trips((mut near, mut far): Pair, count: usize, patience: Duration) {
    let mut byte = [0];
    for trip in 0..count {
        if trip % 50 == 0 {
            Timer::after(Duration::from_micros(200)).await;
        }
        let start = Instant::now();
        let one = async {
            near.write_all(b"x").await.unwrap();
            far.readable().await.unwrap();
            far.read_exact(&mut byte).await.unwrap();
            far.write_all(b"y").await.unwrap();
            near.read_exact(&mut byte).await.unwrap();
            true
        };
        let late = async {
            Timer::after(patience).await;
            false
        };
        // the timer wakes a task whose own wake was lost, which then may find its byte
        if !one.or(late).await || start.elapsed() >= patience {
            println!("a wake was lost");
            std::process::exit(1);
        }
    }
}

fn main() {
    let seconds = std::env::args().nth(1).map_or(20, |word| word.parse().unwrap());
    let patience = Duration::from_secs(seconds);
    let makes_all = std::env::args().nth(2).map_or(false, |word| word == "one");
    let number = |at, other| std::env::args().nth(at).map_or(other, |word| word.parse().unwrap());
    let (threads, count) = (number(3, THREADS), number(4, TRIPS));
    let start = Instant::now();
    let made: Vec<_> = (0..threads).map(|_| makes_all.then(pairs)).collect();
    let running: Vec<_> = made
        .into_iter()
        .map(|made| {
            std::thread::spawn(move || {
                let pairs = made.unwrap_or_else(pairs).into_iter();
                let works = pairs.map(|pair| Box::pin(trips(pair, count, patience)) as Work);
                async_io::block_on(run_all(works.collect()))
            })
        })
        .collect();
    for thread in running {
        thread.join().unwrap();
    }
    let made = threads * PAIRS * count;
    let whose = if makes_all { " over pairs of one thread" } else { "" };
    println!("{made} round trips{whose} in {} ms", start.elapsed().as_millis());
}
