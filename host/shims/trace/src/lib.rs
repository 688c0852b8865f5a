//! What the driver did, in order: a log shared by the mock registers, the channel and the wakers. It is off at first.
//! A hook, where one is set, runs before each access that is logged: it can make frames arrive in the midst of a drain.
use std::cell::{Cell, RefCell};

#[derive(Debug, Clone, Copy, PartialEq, Eq)]
pub enum Event {
    Read {
        register: &'static str,
        word: u32,
    },
    Write {
        register: &'static str,
        word: u32,
    },
    /// The address of the 13 data registers was taken, to copy from them or to them.
    Data,
    Offer {
        channel: usize,
        stored: bool,
    },
    Wake {
        waker: usize,
    },
}

type Hook = Box<dyn FnMut(&'static str)>;

thread_local! {
    static ON: Cell<bool> = const { Cell::new(false) };
    static LOG: RefCell<Vec<Event>> = const { RefCell::new(Vec::new()) };
    static HOOK: RefCell<Option<Hook>> = const { RefCell::new(None) };
}

/// To be called before an access; `what` is a register's name, "data", "offer" or "wake".
#[inline]
pub fn before(what: &'static str) {
    if !ON.get() {
        return;
    }
    if let Some(mut hook) = HOOK.take() {
        hook(what);
        HOOK.set(Some(hook));
    }
}

#[inline]
pub fn push(event: Event) {
    if ON.get() {
        LOG.with_borrow_mut(|log| log.push(event));
    }
}

/// Runs `work` with the log on and gives what it logged.
pub fn record<T>(hook: Option<Hook>, work: impl FnOnce() -> T) -> (T, Vec<Event>) {
    LOG.take();
    HOOK.set(hook);
    ON.set(true);
    let result = work();
    ON.set(false);
    HOOK.take();
    (result, LOG.take())
}
