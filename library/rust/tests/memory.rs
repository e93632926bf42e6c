//! Each request for memory of the crate fails in turn: the error says so, nothing has changed, and
//! the same call is then made.

use keyset::{Error, KeySet, NewKey, RollType};
use std::alloc::{GlobalAlloc, Layout, System};
use std::cell::Cell;
use std::ptr;

struct FailingAllocator;

thread_local! {
    /// How many requests of this thread are met before one fails; 0 if all are.
    static LEFT: Cell<usize> = const { Cell::new(0) };
}

/// Whether the next request fails.
fn fails() -> bool {
    LEFT.with(|left| {
        let count = left.get();
        left.set(count.saturating_sub(1));
        count == 1
    })
}

// SAFETY: it hands all requests on to the system, or answers that there is no memory.
unsafe impl GlobalAlloc for FailingAllocator {
    unsafe fn alloc(&self, layout: Layout) -> *mut u8 {
        match fails() {
            true => ptr::null_mut(),
            false => System.alloc(layout),
        }
    }

    unsafe fn dealloc(&self, at: *mut u8, layout: Layout) {
        System.dealloc(at, layout)
    }

    unsafe fn realloc(&self, at: *mut u8, layout: Layout, size: usize) -> *mut u8 {
        match fails() {
            true => ptr::null_mut(),
            false => System.realloc(at, layout, size),
        }
    }
}

#[global_allocator]
static ALLOCATOR: FailingAllocator = FailingAllocator;

/// Makes a call with each of its requests failing in turn, until none fails.
fn each_fails<T>(mut call: impl FnMut() -> Result<T, Error>) -> (T, usize) {
    for request in 1.. {
        LEFT.with(|left| left.set(request));
        let outcome = call();
        let is_met = LEFT.with(|left| left.replace(0)) > 0;
        match outcome {
            Ok(value) if is_met => return (value, request),
            Ok(_) => panic!("request {request} failed, and the call was made"),
            Err(error) => assert!(
                matches!(error, Error::OutOfMemory) && !is_met,
                "request {request}: {error:?}"
            ),
        }
    }
    unreachable!()
}

#[test]
fn no_memory_is_an_error() {
    let mut requests = 0;
    let mut count = |made: usize| requests += made;
    let (mut keys, made) = each_fails(|| KeySet::new("example.com"));
    count(made);
    let key = |tag| NewKey::new(13.into(), tag, 0);
    count(each_fails(|| keys.add_key_ksk("K1", Some("K1.private"), key(1))).1);
    count(each_fails(|| keys.add_key_zsk("Z1", None, key(2))).1);
    let roll = RollType::AlgorithmRoll;
    let (accepted, made) = each_fails(|| keys.start_roll(roll, &[], &["K1", "Z1"], 0));
    count(made);
    assert_eq!((accepted.number, accepted.actions.len()), (3, 4));
    count(each_fails(|| keys.note("before 1 2 3".parse().expect("a note"))).1);
    let (due, made) = each_fails(|| keys.due(100));
    count(made);
    assert_eq!(due.len(), 1);
    let (status, made) = each_fails(|| keys.status());
    count(made);
    assert_eq!((status.keys.len(), status.rolls.len()), (2, 1));
    let script = keys.script().to_owned();
    let (other, made) = each_fails(|| KeySet::resume(&script));
    count(made);
    assert_eq!(other.script(), script);
    assert!(requests > 60, "{requests}");
}
