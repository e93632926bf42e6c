//! A key set with a file: what is on disk after a call, a fault or a crash.

use keyset::{Error, KeySet, OpenOptions, Refusal};
use std::path::{Path, PathBuf};
use std::{env, fs, io, process, thread};

const ADDS: [&str; 2] = ["add-ksk K1 - 13 0 0 yes", "add-zsk Z1 - 13 1 0 yes"];

/// A path of this test, without a file.
fn path_of(name: &str) -> io::Result<PathBuf> {
    let path = env::temp_dir().join(format!("keyset-{}-{name}.script", process::id()));
    match fs::remove_file(&path) {
        Err(error) if error.kind() != io::ErrorKind::NotFound => Err(error),
        _ => Ok(path),
    }
}

fn write(path: &Path, text: &[u8]) -> Result<(), Error> {
    Ok(fs::write(path, text)?)
}

#[test]
fn a_damaged_file_is_named_by_its_line() -> Result<(), Error> {
    let path = path_of("damaged")?;
    for (text, wanted) in [
        (&b""[..], 1),
        (b"zone a\n\n", 2),
        (b"zone a\r\n", 1),
        (b"zone a..b\n", 1),
        (b"zone a\nadd-ksk K\xC3\xA9\n", 2),
        (b"zone a\ndelete K1\ndelete \xFF\n", 3),
        (b"zone a\ndelete K1\ndelete K1\r\n", 3),
    ] {
        write(&path, text)?;
        let found = KeySet::open(&path);
        assert!(
            matches!(found, Err(Error::Malformed { line }) if line == wanted),
            "{text:?}: {found:?}"
        );
        assert_eq!(fs::read(&path)?, text);
    }
    Ok(fs::remove_file(&path)?)
}

#[test]
fn a_file_keeps_the_accepted_lines() -> Result<(), Error> {
    let path = path_of("kept")?;
    let mut keys = KeySet::create(&path, "example.com")?;
    keys.call(ADDS[0])?;
    assert!(keys.call("delete K1").is_err());
    assert!(matches!(KeySet::open(&path), Err(Error::Locked)));
    drop(keys);
    let whole = fs::read_to_string(&path)?;
    assert_eq!(whole, format!("zone example.com\n{}\n", ADDS[0]));
    // A line that wasn't written to its end is replaced by the next one, if that is asked.
    let torn = format!("{whole}add-zsk Z");
    write(&path, torn.as_bytes())?;
    assert!(matches!(KeySet::open(&path), Err(Error::Torn { line: 3 })));
    assert_eq!(fs::read_to_string(&path)?, torn);
    let mut keys = OpenOptions::new().cut_torn(true).open(&path)?;
    assert_eq!(keys.script(), whole);
    keys.call(ADDS[1])?;
    drop(keys);
    assert_eq!(fs::read_to_string(&path)?, format!("{whole}{}\n", ADDS[1]));
    let again = KeySet::create(&path, "example.com");
    assert!(matches!(again, Err(Error::Io(it)) if it.kind() == io::ErrorKind::AlreadyExists));
    Ok(fs::remove_file(&path)?)
}

/// Makes a call on the file, as soon as nobody else has it.
fn add(path: &Path, tag: usize) {
    loop {
        match KeySet::open(path) {
            Ok(mut keys) => {
                let line = format!("add-zsk Z{tag} - 13 {tag} 0 yes");
                break drop(keys.call(&line).expect("a call"));
            }
            Err(Error::Locked) => thread::yield_now(),
            Err(error) => panic!("{error:?}"),
        }
    }
}

#[test]
fn writers_side_by_side_lose_no_line() -> Result<(), Error> {
    let path = path_of("turns")?;
    drop(KeySet::create(&path, "example.com")?);
    thread::scope(|scope| {
        for writer in 0..4 {
            let path = &path;
            scope.spawn(move || (0..10).for_each(|it| add(path, 10 * writer + it)));
        }
    });
    assert_eq!(KeySet::open(&path)?.calls(), 40);
    Ok(fs::remove_file(&path)?)
}

/// A program that doesn't ask for the lock writes to the file, or puts another in its place.
#[test]
fn a_changed_file_is_noticed() -> Result<(), Error> {
    let path = path_of("changed")?;
    let mut keys = KeySet::create(&path, "example.com")?;
    let first = fs::read_to_string(&path)?;
    let line = format!("{first}{}\n", ADDS[1]);
    write(&path, line.as_bytes())?;
    assert!(matches!(keys.call(ADDS[0]), Err(Error::Changed)));
    assert_eq!(fs::read_to_string(&path)?, line);
    write(&path, first.as_bytes())?;
    keys.call(ADDS[0])?;
    let other = path_of("other")?;
    fs::copy(&path, &other)?;
    fs::rename(&other, &path)?;
    assert!(matches!(keys.call(ADDS[1]), Err(Error::Changed)));
    assert_eq!(keys.calls(), 1);
    Ok(fs::remove_file(&path)?)
}

/// A script that has lost a line isn't shown as the zone of another course.
#[test]
fn a_lost_line_is_noticed() -> Result<(), Error> {
    let path = path_of("lost")?;
    let text = format!(
        "zone example.com\n{}\nstart algorithm-roll - K1,Z1 0\n",
        ADDS[0]
    );
    write(&path, text.as_bytes())?;
    let refusal = Refusal::KeyNotFound;
    let found = KeySet::open(&path);
    assert!(
        matches!(found, Err(Error::RefusedLine { line: 3, refusal: it }) if it == refusal),
        "{found:?}"
    );
    let mut keys = OpenOptions::new().allow_refused(true).open(&path)?;
    assert_eq!(keys.refused().len(), 1);
    assert_eq!(keys.call(ADDS[1])?.number, 3);
    drop(keys);
    assert_eq!(fs::read_to_string(&path)?, format!("{text}{}\n", ADDS[1]));
    Ok(fs::remove_file(&path)?)
}
