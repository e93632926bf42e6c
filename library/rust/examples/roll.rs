//! Plays a script line by line, as a tool does over days: makes each call on the key set that the
//! calls before it have left, and prints what the program `keyset` prints.
//!
//!     cargo run --example roll <../../examples/ksk-roll.script

use keyset::{Error, KeySet};
use std::io::{stdin, Read};

fn main() -> Result<(), Box<dyn std::error::Error>> {
    let mut script = String::new();
    stdin().read_to_string(&mut script)?;
    let mut lines = script.split_terminator('\n');
    let zone = lines.next().and_then(|first| first.strip_prefix("zone "));
    let mut keys = KeySet::new(zone.ok_or(Error::NotAZone)?)?;
    for line in lines {
        match keys.call(line) {
            Ok(accepted) => {
                let asked = accepted.actions.iter();
                let asked: String = asked.map(|action| format!(" {action}")).collect();
                println!("ok{asked}");
            }
            // Nothing has changed: a wait that is too early may be made again.
            Err(error @ Error::Refused(_)) => println!("{error}"),
            Err(error) => return Err(error.into()),
        }
    }
    println!("{}", keys.published()?);
    match keys.verdict()? {
        None => println!("chain safe"),
        Some(broken) => println!("chain {broken}"),
    }
    Ok(())
}
