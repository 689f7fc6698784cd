//! What a timer and a byte there and back cost, in nanoseconds.
use async_io::{Async, Timer};
use futures_lite::future;
use futures_lite::io::{AsyncReadExt, AsyncWriteExt};
use std::os::unix::net::UnixStream;
use std::time::{Duration, Instant};

const TIMES: u32 = 20_000;

async fn timers() {
    for _ in 0..TIMES {
        let mut timer = Timer::after(Duration::from_secs(100));
        future::poll_once(&mut timer).await;
    }
}

async fn bytes() {
    let (mut near, mut far) = Async::<UnixStream>::pair().unwrap();
    let there = async {
        let mut byte = [0];
        for _ in 0..TIMES {
            near.write_all(b"x").await.unwrap();
            near.read_exact(&mut byte).await.unwrap();
        }
    };
    let back = async {
        let mut byte = [0];
        for _ in 0..TIMES {
            far.read_exact(&mut byte).await.unwrap();
            far.write_all(&byte).await.unwrap();
        }
    };
    future::zip(there, back).await;
}

fn main() {
    async_io::block_on(async {
        let start = Instant::now();
        timers().await;
        println!("timer {}", (start.elapsed() / TIMES).as_nanos());
        let start = Instant::now();
        bytes().await;
        println!("byte {}", (start.elapsed() / TIMES).as_nanos());
    });
}
