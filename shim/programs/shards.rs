//! Sources of several shards, and timers beside a wait.
use async_io::{block_on, Async, Timer};
use futures_lite::future;
use std::fs;
use std::future::Future;
use std::io::Write;
use std::os::unix::net::UnixStream;
use std::pin::Pin;
use std::sync::atomic::{AtomicUsize, Ordering};
use std::sync::Arc;
use std::task::{Context, Poll, Wake, Waker};
use std::thread;
use std::time::{Duration, Instant};

/// Counts its wakes.
#[derive(Default)]
struct Count(AtomicUsize);

impl Wake for Count {
    fn wake(self: Arc<Count>) {
        self.0.fetch_add(1, Ordering::SeqCst);
    }
}

fn polls(source: &Async<UnixStream>, count: &Arc<Count>) -> bool {
    let waker = Waker::from(count.clone());
    match source.poll_readable(&mut Context::from_waker(&waker)) {
        Poll::Ready(answer) => answer.is_ok(),
        Poll::Pending => false,
    }
}

/// How many sources each of the 32 shards has, as the system tells what its poller watches.
fn live() -> Vec<usize> {
    let mut live = vec![0; 32];
    for file in fs::read_dir("/proc/self/fdinfo").unwrap() {
        // the descriptor of the folder itself is gone by now
        let text = fs::read_to_string(file.unwrap().path()).unwrap_or_default();
        for line in text.lines().filter(|line| line.starts_with("tfd:")) {
            let mut words = line.split_whitespace().skip_while(|word| *word != "data:");
            let key = u64::from_str_radix(words.nth(1).unwrap(), 16).unwrap();
            // the poller's own descriptors have a key past those of all shards
            if let Some(count) = live.get_mut((key >> 12) as usize) {
                *count += 1;
            }
        }
    }
    live
}

fn pairs(count: usize) -> Vec<(Async<UnixStream>, Async<UnixStream>)> {
    (0..count).map(|_| Async::<UnixStream>::pair().unwrap()).collect()
}

/// Has each source of these pairs join a shard.
fn poll_all(pairs: &[(Async<UnixStream>, Async<UnixStream>)]) {
    let count = Arc::default();
    for (near, far) in pairs {
        assert!(!polls(near, &count) && !polls(far, &count));
    }
}

/// In each shard several of the sources have events and several have none, and those of one shard
/// have the keys of those of another.
#[test]
fn an_event_is_of_its_source_alone() {
    let pairs = pairs(300);
    let counts: Vec<Arc<Count>> = pairs.iter().map(|_| Arc::default()).collect();
    for ((near, _), count) in pairs.iter().zip(&counts) {
        assert!(!polls(near, count));
    }
    let is_written = |at: usize| at % 3 == 1;
    for (at, (_, far)) in pairs.iter().enumerate() {
        if is_written(at) {
            far.get_ref().write_all(b"x").unwrap();
        }
    }
    let woken = |at: usize| counts[at].0.load(Ordering::SeqCst);
    block_on(async {
        while (0..pairs.len()).any(|at| is_written(at) && woken(at) == 0) {
            Timer::after(Duration::from_millis(1)).await;
        }
        Timer::after(Duration::from_millis(50)).await;
    });
    for (at, (near, _)) in pairs.iter().enumerate() {
        assert_eq!(woken(at), usize::from(is_written(at)));
        // one that was woken need not be ready: its event may be of the wait in which it was polled
        assert!(is_written(at) || !polls(near, &counts[at]));
    }
}

#[test]
fn more_sources_live_than_one_core_has() {
    let mut pairs = pairs(2_200);
    // the places of those that go are given again
    pairs.drain(..100);
    pairs.extend((0..100).map(|_| Async::<UnixStream>::pair().unwrap()));
    poll_all(&pairs);
    assert_eq!(live().iter().sum::<usize>(), 4_400);
    for (near, far) in &pairs {
        far.get_ref().write_all(b"x").unwrap();
        block_on(near.readable()).unwrap();
    }
}

/// A source has no shard before its first poll, and hears of no event before: its peer is gone,
/// which the poll after that finds all the same.
#[test]
fn a_source_joins_at_its_first_poll() {
    let (near, far) = Async::<UnixStream>::pair().unwrap();
    let others = pairs(10);
    drop(far);
    block_on(Timer::after(Duration::from_millis(50)));
    assert_eq!(live(), [0; 32]);
    block_on(near.readable()).unwrap();
    assert_eq!(live().iter().sum::<usize>(), 1);
    drop((near, others));
    assert_eq!(live(), [0; 32]);
}

/// One thread has made all sources.
#[test]
fn threads_that_poll_equally_many_sources_keep_to_their_own_shards() {
    let threads: Vec<_> = (0..8)
        .map(|_| {
            let pairs = pairs(25);
            thread::spawn(move || {
                poll_all(&pairs);
                pairs
            })
        })
        .collect();
    let made: Vec<_> = threads.into_iter().map(|thread| thread.join().unwrap()).collect();
    let live = live();
    drop(made);
    for own in live.chunks(4) {
        assert_eq!(own.iter().sum::<usize>(), 50, "{live:?}");
        assert!(own.iter().all(|count| *count <= 16), "{live:?}");
    }
}

#[test]
fn the_sources_of_one_thread_come_to_all_shards() {
    for count in [200, 2_000] {
        let pairs = pairs(count);
        poll_all(&pairs);
        let (live, average) = (live(), 2 * count / 32);
        drop(pairs);
        assert_eq!(live.iter().sum::<usize>(), 2 * count);
        assert!(live.iter().all(|count| *count > average / 2), "{live:?}");
        assert!(live.iter().all(|count| *count <= 2 * average + 16), "{live:?}");
    }
}

/// Threads whose timers come while another one waits, with no limit of its own: each ends that wait
/// where it would last longer, and is met where it would not.
#[test]
fn a_timer_is_met_whatever_the_wait_had_as_its_limit() {
    let (near, far) = Async::<UnixStream>::pair().unwrap();
    let waits = thread::spawn(move || block_on(near.readable()).unwrap());
    for _ in 0..12 {
        thread::sleep(Duration::from_millis(10));
        let timers = thread::spawn(|| {
            for due in [30, 10, 20].map(Duration::from_millis) {
                let start = Instant::now();
                block_on(future::zip(Timer::after(due), Timer::after(due * 2)));
                let past = start.elapsed();
                assert!(past >= due * 2 && past < due * 2 + Duration::from_secs(2));
            }
        });
        timers.join().unwrap();
    }
    far.get_ref().write_all(b"x").unwrap();
    waits.join().unwrap();
}

/// More timers come and go in one wait than a core has numbers. None of them ends it, for it is over
/// before they are due.
#[test]
fn timers_that_go_while_the_system_waits_leave_their_numbers() {
    let waker = Waker::from(Arc::<Count>::default());
    let start = Instant::now();
    let comes = |seconds| {
        let mut timer = Timer::at(start + Duration::from_secs(seconds));
        assert!(Pin::new(&mut timer).poll(&mut Context::from_waker(&waker)).is_pending());
        timer
    };
    let limit = comes(1_000);
    thread::sleep(Duration::from_millis(50));
    for _ in 0..=1 << 21 {
        drop(comes(2_000));
    }
    drop(limit);
}
