//! Counts of places that were reached: lines of the ported text, and named places of our own.

use std::cell::RefCell;
use std::collections::BTreeMap;
use std::sync::atomic::{AtomicU32, Ordering};

const LINES: usize = 2048;
static HIT: [AtomicU32; LINES] = [const { AtomicU32::new(0) }; LINES];

thread_local! {
    static NAMED: RefCell<BTreeMap<String, u32>> = const { RefCell::new(BTreeMap::new()) };
}

/// A macro of the text was reached on this line of file.rs.
pub fn line(line: u32) {
    if let Some(n) = HIT.get(line as usize) {
        n.store(n.load(Ordering::Relaxed).saturating_add(1), Ordering::Relaxed);
    }
}

pub fn lines() -> Vec<(usize, u32)> {
    let all = HIT.iter().enumerate().map(|(i, n)| (i, n.load(Ordering::Relaxed)));
    all.filter(|(_, n)| *n != 0).collect()
}

/// A place of our own was reached.
pub fn name(name: &str) {
    NAMED.with(|all| {
        let mut all = all.borrow_mut();
        match all.get_mut(name) {
            Some(n) => *n += 1,
            None => {
                all.insert(name.to_string(), 1);
            }
        }
    });
}

pub fn names() -> BTreeMap<String, u32> {
    NAMED.with(|all| all.borrow().clone())
}
