//! A descriptor that is closed under its source: the poller cannot be armed for it. Each poll
//! answers the error, with the same waker too, for the source stays broken. Once the descriptor is
//! there again the next poll arms, and the source is as good as before.
use async_io::{block_on, Async};
use rustix::io::dup2;
use std::future::poll_fn;
use std::io::Write;
use std::mem;
use std::os::fd::{AsRawFd, FromRawFd, OwnedFd};
use std::os::unix::net::UnixStream;
use std::sync::Arc;
use std::task::{Context, Poll, Wake, Waker};

struct Nobody;

impl Wake for Nobody {
    fn wake(self: Arc<Nobody>) {}
}

#[test]
fn a_broken_source_arms_again() {
    let (near, far) = Async::<UnixStream>::pair().unwrap();
    let spare = near.get_ref().try_clone().unwrap();
    let number = near.as_raw_fd();
    let waker = Waker::from(Arc::new(Nobody));
    let mut cx = Context::from_waker(&waker);
    drop(unsafe { OwnedFd::from_raw_fd(number) });
    for _ in 0..3 {
        assert!(matches!(near.poll_readable(&mut cx), Poll::Ready(Err(_))));
    }
    let mut place = unsafe { OwnedFd::from_raw_fd(number) };
    dup2(&spare, &mut place).unwrap();
    // the number is the source's again, which closes it
    mem::forget(place);
    assert!(near.poll_readable(&mut cx).is_pending());
    far.get_ref().write_all(b"x").unwrap();
    block_on(poll_fn(|cx| near.poll_readable(cx))).unwrap();
}
