//! Each stored script, line by line, is answered as it is stored.

use keyset::{Error, KeySet, Session};
use std::fs;

const STORED: &str = concat!(env!("CARGO_MANIFEST_DIR"), "/../../replay/scripts.txt");

/// Calls the test with the name of each stored script, its zone, its other lines, and its answers.
fn each_stored(
    mut test: impl FnMut(&str, &str, &[&str], &[&str]) -> Result<(), Error>,
) -> Result<(), Error> {
    let text = fs::read_to_string(STORED)?;
    let mut found = 0;
    for part in text.split("\n== ").skip(1) {
        let (name, rest) = part.split_once('\n').expect("a name");
        let (script, answers) = rest.split_once("-- answers\n").expect("answers");
        let script: Vec<&str> = script.split_terminator('\n').collect();
        let answers: Vec<&str> = answers.split_terminator('\n').collect();
        test(name, script[0], &script[1..], &answers)?;
        found += 1;
    }
    assert!(found > 200, "{found} scripts are stored");
    Ok(())
}

#[test]
fn a_session_answers_each_line() -> Result<(), Error> {
    each_stored(|name, zone, lines, answers| {
        let mut session = Session::open(zone)?;
        for (line, wanted) in lines.iter().zip(answers) {
            assert_eq!(session.call(line)?, *wanted, "{name}: {line}");
        }
        let closing = answers[lines.len()..].join("\n") + "\n";
        assert_eq!(session.closing()?, closing, "{name}");
        Ok(())
    })
}

/// A key set leaves refused lines out, so a broken chain may have other positions.
#[test]
fn a_key_set_answers_each_call() -> Result<(), Error> {
    each_stored(|name, zone, lines, answers| {
        let mut keys = KeySet::new(&zone["zone ".len()..])?;
        for (line, wanted) in lines.iter().zip(answers) {
            let answer = match keys.call(line) {
                Ok(accepted) => accepted
                    .actions
                    .iter()
                    .fold("ok".to_owned(), |text, action| format!("{text} {action}")),
                Err(error @ Error::Refused(_)) => error.to_string(),
                Err(error) => return Err(error),
            };
            assert_eq!(answer, *wanted, "{name}: {line}");
        }
        let sets = keys.published()?.to_string();
        assert_eq!(sets, answers[lines.len()], "{name}");
        Ok(())
    })
}
