//! Running the ported text: it is async without ever waiting, and it may panic.

use std::cell::Cell;
use std::future::Future;
use std::panic::{catch_unwind, AssertUnwindSafe};
use std::pin::pin;
use std::task::{Context, Poll, Waker};

/// How the text came back: with a value, with its Corrupted, or by a panic.
#[derive(Clone, Copy, PartialEq, Eq, Debug)]
pub enum Ran<T> {
    Done(T),
    Corrupted,
    Panicked,
}

impl<T> Ran<T> {
    pub fn done(self) -> Option<T> {
        match self {
            Ran::Done(t) => Some(t),
            _ => None,
        }
    }
}

thread_local! {
    static INSIDE: Cell<bool> = const { Cell::new(false) };
}

/// A panic of the text is an answer and prints nothing; one of the driver's own is printed as usual.
pub fn quiet_inside() {
    let usual = std::panic::take_hook();
    std::panic::set_hook(Box::new(move |info| {
        if !INSIDE.get() {
            usual(info);
        }
    }));
}

pub fn run<T>(f: impl FnOnce() -> Result<T, ()>) -> Ran<T> {
    let outer = INSIDE.replace(true);
    let ran = catch_unwind(AssertUnwindSafe(f));
    INSIDE.set(outer);
    match ran {
        Ok(Ok(t)) => Ran::Done(t),
        Ok(Err(())) => Ran::Corrupted,
        Err(_) => Ran::Panicked,
    }
}

/// The page layer never waits, so one poll is enough.
pub fn wait<T>(f: impl Future<Output = T>) -> T {
    match pin!(f).poll(&mut Context::from_waker(Waker::noop())) {
        Poll::Ready(t) => t,
        Poll::Pending => unreachable!("the page layer is synchronous"),
    }
}
