//! Says which reports are due by notes, as `keyset notes` does: it reads a script, an empty line,
//! and the notes, with lines `due SECOND` among them.
//!
//!     cargo run --example due <../../examples/lowered-ttl.notes

use keyset::{Error, Session};
use std::io::{stdin, Read};

fn main() -> Result<(), Box<dyn std::error::Error>> {
    let mut input = String::new();
    stdin().read_to_string(&mut input)?;
    let mut parts = input.split("\n\n");
    let mut answers = Vec::new();
    while let (Some(script), Some(notes)) = (parts.next(), parts.next()) {
        let mut session = opened(script)?;
        for line in notes.lines() {
            match line.strip_prefix("due ") {
                Some(second) => answers.push(session.due(second.parse()?)?),
                None => session.note(line)?,
            }
        }
    }
    print!("{}", answers.join("\n"));
    Ok(())
}

/// A session that has made the calls of a script.
fn opened(script: &str) -> Result<Session, Error> {
    let (zone, calls) = script.split_once('\n').unwrap_or((script, ""));
    let mut session = Session::open(zone)?;
    for line in calls.lines() {
        session.call(line)?;
    }
    Ok(session)
}
