//! A stand-in for the crate of this name, with the calls that the tests make. It never makes a
//! sender wait, which the tests do not need.
use std::collections::VecDeque;
use std::future::poll_fn;
use std::sync::{Arc, Mutex};
use std::task::{Poll, Waker};

struct Channel<T> {
    values: VecDeque<T>,
    receiver: Option<Waker>,
    closed: bool,
}

pub struct Sender<T>(Arc<Mutex<Channel<T>>>);

pub struct Receiver<T>(Arc<Mutex<Channel<T>>>);

#[derive(Debug)]
pub struct Closed;

pub fn bounded<T>(_room: usize) -> (Sender<T>, Receiver<T>) {
    let channel = Channel { values: VecDeque::new(), receiver: None, closed: false };
    let shared = Arc::new(Mutex::new(channel));
    (Sender(shared.clone()), Receiver(shared))
}

impl<T> Sender<T> {
    pub async fn send(&self, value: T) -> Result<(), Closed> {
        let mut channel = self.0.lock().unwrap();
        channel.values.push_back(value);
        if let Some(receiver) = channel.receiver.take() {
            receiver.wake();
        }
        Ok(())
    }
}

impl<T> Drop for Sender<T> {
    fn drop(&mut self) {
        let mut channel = self.0.lock().unwrap();
        channel.closed = true;
        if let Some(receiver) = channel.receiver.take() {
            receiver.wake();
        }
    }
}

impl<T> Receiver<T> {
    pub async fn recv(&self) -> Result<T, Closed> {
        poll_fn(|cx| {
            let mut channel = self.0.lock().unwrap();
            match channel.values.pop_front() {
                Some(value) => Poll::Ready(Ok(value)),
                None if channel.closed => Poll::Ready(Err(Closed)),
                None => {
                    channel.receiver = Some(cx.waker().clone());
                    Poll::Pending
                }
            }
        })
        .await
    }
}
