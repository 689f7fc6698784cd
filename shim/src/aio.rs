//! The calls of the library, one function for each export that the reactor uses. What they promise
//! stands in `crates/aio_c`; nothing of this file is proved.

/// What an answer's code says: a poll that waits, or a call that was done.
pub(super) const DONE: u32 = 0;
/// A poll found its direction ready.
pub(super) const READY: u32 = 1;
/// The poller could not be armed.
pub(super) const ARM_FAULT: u32 = 2;
/// 4,096 sources live.
pub(super) const FULL: u32 = 11;
pub(super) const OUT_OF_MEMORY: u32 = 13;
/// 2^40 - 1 timers were registered.
pub(super) const IDS_SPENT: u32 = 18;

/// The kinds of failure that the poller in memory is told.
pub(super) const ARM: u32 = 1;
pub(super) const REMOVE: u32 = 2;
pub(super) const WAIT: u32 = 3;

#[repr(C)]
#[derive(Clone, Copy)]
struct Handle {
    ptr: *mut u8,
}

#[repr(C)]
pub(super) struct KeyAnswer {
    pub code: u32,
    pub key: u32,
}

#[repr(C)]
pub(super) struct PollAnswer {
    pub code: u32,
    pub wakes: bool,
    pub waker: u32,
}

#[repr(C)]
pub(super) struct NumberAnswer {
    pub code: u32,
    pub number: u64,
}

#[repr(C)]
pub(super) struct BeginAnswer {
    pub code: u32,
    pub limited: bool,
    pub number: u64,
    pub limit: u64,
}

#[repr(C)]
pub(super) struct WaitAnswer {
    pub code: u32,
    pub events: u32,
}

#[repr(C)]
pub(super) struct HandleAnswer {
    pub code: u32,
    pub key: u32,
}

#[repr(C)]
pub(super) struct FinishAnswer {
    pub code: u32,
    pub fault: u32,
    pub wakers: u64,
}

#[repr(C)]
pub(super) struct AskAnswer {
    pub arms: bool,
    pub read: bool,
    pub write: bool,
    /// Urgent readiness, which no call of this reactor waits for.
    pub priority: bool,
}

extern "C" {
    fn aio_new(out: *mut Handle) -> bool;
    fn aio_add(h: Handle, out: *mut Handle) -> KeyAnswer;
    fn aio_del(h: Handle, out: *mut Handle, key: u32) -> u32;
    fn aio_poll(h: Handle, out: *mut Handle, key: u32, write: bool, waker: u32) -> PollAnswer;
    fn aio_poll_asks(h: Handle, out: *mut Handle, key: u32, write: bool) -> AskAnswer;
    fn aio_listen(h: Handle, out: *mut Handle, key: u32, write: bool) -> NumberAnswer;
    fn aio_step(h: Handle, out: *mut Handle, listener: u64, waker: u32) -> u32;
    fn aio_step_asks(h: Handle, out: *mut Handle, listener: u64) -> AskAnswer;
    fn aio_unlisten(h: Handle, out: *mut Handle, listener: u64) -> u32;
    fn aio_begin(h: Handle, out: *mut Handle, now: u64, limited: bool, limit: u64) -> BeginAnswer;
    fn aio_wait(h: Handle, out: *mut Handle) -> WaitAnswer;
    fn aio_handle(h: Handle, out: *mut Handle) -> HandleAnswer;
    fn aio_handle_asks(h: Handle, out: *mut Handle) -> AskAnswer;
    fn aio_finish(h: Handle, out: *mut Handle, now: u64) -> FinishAnswer;
    fn aio_woken(h: Handle, out: *mut Handle, wakers: *mut u32, room: usize);
    fn aio_insert_timer(h: Handle, out: *mut Handle, at: u64, waker: u32) -> NumberAnswer;
    fn aio_remove_timer(h: Handle, out: *mut Handle, at: u64, id: u64) -> u32;
    fn aio_give(h: Handle, out: *mut Handle, key: u32, read: bool, write: bool) -> u32;
    fn aio_fail_next(h: Handle, out: *mut Handle, kind: u32);
    fn aio_interrupt_next(h: Handle, out: *mut Handle);
}

/// A core. Each call takes its handle and puts it back, so that no handle is used twice.
pub(super) struct Core {
    handle: Handle,
}

// A handle stands behind one lock of the reactor: one call at a time, each after the last.
unsafe impl Send for Core {}

macro_rules! calls {
    ($($name:ident = $export:ident($($argument:ident: $type:ty),*) -> $answer:ty;)*) => {
        impl Core {
            $(
                #[inline]
                pub(super) fn $name(&mut self $(, $argument: $type)*) -> $answer {
                    let taken = self.handle;
                    unsafe { $export(taken, &mut self.handle $(, $argument)*) }
                }
            )*
        }
    };
}

calls! {
    add = aio_add() -> KeyAnswer;
    del = aio_del(key: u32) -> u32;
    poll = aio_poll(key: u32, write: bool, waker: u32) -> PollAnswer;
    poll_asks = aio_poll_asks(key: u32, write: bool) -> AskAnswer;
    listen = aio_listen(key: u32, write: bool) -> NumberAnswer;
    step = aio_step(listener: u64, waker: u32) -> u32;
    step_asks = aio_step_asks(listener: u64) -> AskAnswer;
    unlisten = aio_unlisten(listener: u64) -> u32;
    begin_with = aio_begin(now: u64, limited: bool, limit: u64) -> BeginAnswer;
    wait = aio_wait() -> WaitAnswer;
    handle = aio_handle() -> HandleAnswer;
    handle_asks = aio_handle_asks() -> AskAnswer;
    finish = aio_finish(now: u64) -> FinishAnswer;
    insert_timer = aio_insert_timer(at: u64, waker: u32) -> NumberAnswer;
    remove_timer = aio_remove_timer(at: u64, id: u64) -> u32;
    give = aio_give(key: u32, read: bool, write: bool) -> u32;
    fail_next = aio_fail_next(kind: u32) -> ();
    interrupt_next = aio_interrupt_next() -> ();
}

impl Core {
    pub(super) fn new() -> Option<Core> {
        let mut handle = Handle { ptr: std::ptr::null_mut() };
        unsafe { aio_new(&mut handle) }.then_some(Core { handle })
    }

    pub(super) fn begin(&mut self, now: u64, limit: Option<u64>) -> BeginAnswer {
        self.begin_with(now, limit.is_some(), limit.unwrap_or(0))
    }

    /// Puts the numbers that a finish has to wake into `wakers`, which it told to be so many.
    pub(super) fn woken(&mut self, count: u64, wakers: &mut Vec<u32>) {
        wakers.resize(count as usize, 0);
        let taken = self.handle;
        unsafe { aio_woken(taken, &mut self.handle, wakers.as_mut_ptr(), wakers.len()) }
    }
}
