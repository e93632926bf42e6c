//! A line is accepted once it is on disk. If the disk doesn't take it, the file is as it was.

use keyset::{Error, KeySet};
use std::cell::Cell;
use std::error::Error as _;
use std::os::raw::{c_int, c_long};
use std::{env, fs, io, process};

/// What the disk does in this thread.
#[derive(Clone, Copy, Debug, Default)]
struct Disk {
    syncs: usize,
    /// How many of the next syncs, and of the next changes of a length, fail.
    failing: usize,
    lengths_failing: usize,
    /// How many changes of a length come before those.
    lengths_before: usize,
}

thread_local! {
    static DISK: Cell<Disk> = const { Cell::new(Disk {
        syncs: 0,
        failing: 0,
        lengths_failing: 0,
        lengths_before: 0,
    }) };
}

/// Changes what the disk does, and gives what it did.
fn disk<T>(change: impl FnOnce(&mut Disk) -> T) -> T {
    DISK.with(|disk| {
        let mut now = disk.get();
        let result = change(&mut now);
        disk.set(now);
        result
    })
}

/// Whether one is left, which then is counted.
fn left(count: &mut usize) -> bool {
    let is_left = *count > 0;
    *count = count.saturating_sub(1);
    is_left
}

extern "C" {
    fn syscall(number: c_long, ...) -> c_long;
    fn __errno_location() -> *mut c_int;
}

const EIO: c_int = 5;

/// The numbers of the system's calls.
#[cfg(target_arch = "x86_64")]
mod number {
    use super::c_long;
    pub const SYNC: c_long = 74;
    pub const SYNC_DATA: c_long = 75;
    pub const SET_LENGTH: c_long = 77;
}
#[cfg(target_arch = "aarch64")]
mod number {
    use super::c_long;
    pub const SYNC: c_long = 82;
    pub const SYNC_DATA: c_long = 83;
    pub const SET_LENGTH: c_long = 46;
}

fn fault() -> c_int {
    // SAFETY: the C library gives the place of this thread's error.
    unsafe { *__errno_location() = EIO };
    -1
}

fn synced(call: c_long, file: c_int) -> c_int {
    let fails = disk(|disk| {
        disk.syncs += 1;
        left(&mut disk.failing)
    });
    match fails {
        true => fault(),
        // SAFETY: it takes a file, and reads no memory.
        false => unsafe { syscall(call, file) as c_int },
    }
}

#[no_mangle]
extern "C" fn fdatasync(file: c_int) -> c_int {
    synced(number::SYNC_DATA, file)
}

#[no_mangle]
extern "C" fn fsync(file: c_int) -> c_int {
    synced(number::SYNC, file)
}

#[no_mangle]
extern "C" fn ftruncate64(file: c_int, length: i64) -> c_int {
    let fails = disk(|disk| !left(&mut disk.lengths_before) && left(&mut disk.lengths_failing));
    match fails {
        true => fault(),
        // SAFETY: as above.
        false => unsafe { syscall(number::SET_LENGTH, file, length) as c_int },
    }
}

const ADDS: [&str; 2] = ["add-ksk K1 - 13 0 0 yes", "add-zsk Z1 - 13 1 0 yes"];

#[test]
fn a_line_that_is_not_synced_is_not_accepted() -> Result<(), Error> {
    let path = env::temp_dir().join(format!("keyset-{}.sync", process::id()));
    let mut keys = KeySet::create(&path, "example.com")?;
    let of_create_and_open = disk(|disk| disk.syncs);
    assert_eq!(of_create_and_open, 4, "the file and its folder");
    let first = fs::read_to_string(&path)?;
    let line = format!("{}\n", ADDS[0]);
    // How many syncs and lengths fail, what is said, and what stands in the file.
    for (failing, lengths_failing, lengths_before, is_cut, left) in [
        (1, 0, 0, true, ""),
        (2, 0, 0, false, ""),
        (1, 1, 1, false, &line[..]),
    ] {
        disk(|disk| {
            *disk = Disk {
                syncs: 0,
                failing,
                lengths_failing,
                lengths_before,
            }
        });
        let error = keys.call(ADDS[0]).expect_err("a fault");
        assert_eq!(matches!(error, Error::Io(_)), is_cut, "{error:?}");
        let cause = error.source().and_then(|it| it.downcast_ref::<io::Error>());
        assert_eq!(cause.and_then(|it| it.raw_os_error()), Some(EIO));
        assert_eq!(fs::read_to_string(&path)?, format!("{first}{left}"));
        assert_eq!((keys.script(), keys.calls()), (&first[..], 0));
    }
    disk(|disk| *disk = Disk::default());
    keys.call(ADDS[1])?;
    assert_eq!(disk(|disk| disk.syncs), 1);
    assert_eq!(fs::read_to_string(&path)?, format!("{first}{}\n", ADDS[1]));
    Ok(fs::remove_file(&path)?)
}
