//! What a caller relies on, over the library that `make lib` has made.

use keyset::{
    next, version, Action, Algorithm, Due, Error, KeyKind, KeySet, NewKey, Next, Note, NoteRefusal,
    OpenOptions, Phase, Refusal, Report, RoleKind, RollType, Session, SetKind, State, Todo,
    WaitEnd, WaitsFor,
};
use std::error::Error as _;
use std::fmt::Display;
use std::str::FromStr;
use std::thread;

const ROLL: RollType = RollType::AlgorithmRoll;
const FIRST: [&str; 5] = [
    "add-ksk K1 - 13 0 0 yes",
    "add-zsk Z1 - 13 1 0 yes",
    "start algorithm-roll - K1,Z1 0",
    "report1 algorithm-roll 3600 100",
    "wait1 algorithm-roll 3700",
];

fn after(lines: &[&str]) -> Result<KeySet, Error> {
    let mut keys = KeySet::new("example.com")?;
    for line in lines {
        keys.call(line)?;
    }
    Ok(keys)
}

fn new_key(key_tag: u16) -> NewKey {
    NewKey::new(Algorithm::ECDSAP256SHA256, key_tag, 0)
}

#[test]
fn the_library_is_of_this_version() {
    assert_eq!(version(), 3);
}

#[test]
fn a_roll_goes_on_after_a_crash() -> Result<(), Error> {
    let keys = after(&FIRST[..4])?;
    let mut keys = KeySet::resume(&format!("{}wait1 algorithm-roll 37", keys.script()))?;
    assert_eq!(keys.actions(ROLL)?, []);
    assert_eq!(keys.wait_end(ROLL)?, Some(WaitEnd::At(3700)));
    let accepted = keys.cache_expired1(ROLL, 3700)?;
    assert_eq!(accepted.number, 5);
    assert!(accepted.actions.contains(&Action::UpdateDsRrset));
    assert_eq!(keys.actions(ROLL)?, accepted.actions);
    assert_eq!(keys.published()?.ds, ["K1"]);
    assert_eq!(keys.verdict()?, None);
    Ok(())
}

#[test]
fn the_status_has_values() -> Result<(), Error> {
    let status = after(&FIRST[..3])?.status()?;
    let key = status.key("Z1").expect("Z1");
    assert_eq!(key.algorithm, Algorithm::ECDSAP256SHA256);
    let roles: Vec<_> = key.roles.iter().map(|it| (it.role, it.state)).collect();
    assert_eq!(roles, [(RoleKind::Zsk, State::Active)]);
    let roll = status.roll(ROLL).expect("a roll");
    assert_eq!(
        (roll.phase, roll.next, roll.waits_for),
        (Phase::Propagation1, Next::Report1, WaitsFor::You)
    );
    assert!(status.key("K2").is_none() && status.roll(RollType::KskRoll).is_none());
    Ok(())
}

#[test]
fn a_refused_call_changes_nothing_and_has_no_number() -> Result<(), Error> {
    let mut keys = after(&FIRST[..4])?;
    let before = keys.script().to_owned();
    let early = keys.cache_expired1(ROLL, 3699);
    let seconds = 1;
    assert!(matches!(early, Err(Error::Refused(it)) if it == Refusal::Wait { seconds }));
    let twice = keys.add_key_ksk("K1", None, new_key(2));
    assert!(matches!(twice, Err(Error::Refused(Refusal::KeyExists))));
    assert_eq!((keys.script(), keys.calls()), (&before[..], 4));
    let would = keys.would(FIRST[4])?;
    assert!(would.actions.contains(&Action::CreateCdsRrset));
    assert_eq!(
        (keys.script(), keys.calls(), would.number),
        (&before[..], 4, 5)
    );
    Ok(())
}

/// Each cause, as a call meets it.
#[test]
fn each_refusal_has_its_cause() -> Result<(), Error> {
    let mut keys = after(&FIRST[..2])?;
    keys.call("add-ksk K2 - 13 2 0 no")?;
    keys.call("add-ksk K3 - 8 3 0 yes")?;
    for (line, wanted) in [
        ("add-zsk K1 - 13 9 0 yes", Refusal::KeyExists),
        ("add-zsk Z9 - 13 1 0 yes", Refusal::DuplicateKeyTag),
        ("delete K9", Refusal::KeyNotFound),
        ("delete K1", Refusal::KeyNotOld),
        ("set-at-parent Z1 yes", Refusal::WrongKeyType),
        ("start algorithm-roll - K2,Z1 0", Refusal::WrongKeyState),
        ("start algorithm-roll - K1 0", Refusal::NoSuitableKeyPresent),
        ("start ksk-roll K1 K3 0", Refusal::AlgorithmSetsMismatch),
        ("report1 zsk-roll 0 0", Refusal::WrongStateForRollOperation),
    ] {
        assert!(
            matches!(keys.call(line), Err(Error::Refused(it)) if it == wanted),
            "{line}"
        );
    }
    keys.call(FIRST[2])?;
    let other = keys.start_roll(RollType::ZskRoll, &["Z1"], &[], 0);
    let wanted = Refusal::ConflictingRollInProgress;
    assert!(matches!(other, Err(Error::Refused(it)) if it == wanted));
    Ok(())
}

#[test]
fn a_malformed_line_is_named() -> Result<(), Error> {
    let mut keys = after(&FIRST[..1])?;
    for line in ["delete", "delete K1\ndelete K1", "delete K1\r"] {
        assert!(matches!(keys.call(line), Err(Error::Malformed { line: 3 })));
    }
    assert!(matches!(
        KeySet::resume(""),
        Err(Error::Malformed { line: 1 })
    ));
    Ok(())
}

#[test]
fn a_wrong_argument_is_named() -> Result<(), Error> {
    let mut keys = after(&FIRST[..2])?;
    for text in ["", "-", "K 1", "K1,K2", "K\u{e9}", "K1\n"] {
        for outcome in [
            keys.delete_key(text),
            keys.start_roll(ROLL, &[], &["K1", text], 0),
            keys.add_key_csk("C1", Some(text), new_key(2)),
        ] {
            assert!(
                matches!(outcome, Err(Error::NotAReference)),
                "{text}: {outcome:?}"
            );
        }
    }
    for zone in ["a..b", "", "a\nadd-zsk Z1 - 13 1 0 yes"] {
        assert!(matches!(KeySet::new(zone), Err(Error::NotAZone)), "{zone}");
    }
    assert_eq!(keys.calls(), 2);
    Ok(())
}

#[test]
fn a_refused_line_is_an_error_unless_it_is_allowed() -> Result<(), Error> {
    let script = format!("zone example.com\n{}\ndelete K9\n{}\n", FIRST[0], FIRST[1]);
    let refusal = Refusal::KeyNotFound;
    let error = KeySet::resume(&script).expect_err("a refused line");
    assert!(matches!(error, Error::RefusedLine { line: 3, refusal: it } if it == refusal));
    assert_eq!(
        error.source().map(|it| it.to_string()),
        Some(refusal.to_string())
    );
    let mut keys = OpenOptions::new().allow_refused(true).resume(&script)?;
    let refused = keys.refused().iter().map(|it| (it.line, it.refusal));
    assert_eq!(refused.collect::<Vec<_>>(), [(3, refusal)]);
    // It keeps its line and its number.
    assert_eq!((keys.script(), keys.calls()), (&script[..], 3));
    assert_eq!(keys.call(FIRST[2])?.number, 4);
    Ok(())
}

/// A script with a refused line is numbered as the session that its lines were handed to.
#[test]
fn a_session_counts_as_its_file() -> Result<(), Error> {
    let mut session = Session::open("zone example.com")?;
    session.call(FIRST[0])?;
    assert!(matches!(
        session.accept("delete K9"),
        Err(Error::Refused(Refusal::KeyNotFound))
    ));
    assert_eq!(session.calls(), 1);
    assert_eq!(session.call("delete K9")?, "refused: key not found");
    assert_eq!(session.calls(), 2);
    assert_eq!(session.accept(FIRST[1])?, "ok");
    assert!(matches!(
        session.accept("delete"),
        Err(Error::Malformed { line: 5 })
    ));
    assert_eq!(session.calls(), 3);
    Ok(())
}

#[test]
fn a_session_may_forgo_notes() -> Result<(), Error> {
    let mut session = Session::open("zone example.com")?;
    session.note("before 60 60 60")?;
    session.forgo_notes();
    assert_eq!(session.accept(FIRST[0])?, "ok");
    let mut copy = session.try_clone()?;
    for it in [&mut session, &mut copy] {
        assert!(matches!(it.note("before 1 1 1"), Err(Error::NoNotes)));
        assert!(matches!(it.due(9), Err(Error::NoNotes)));
        assert_eq!(it.accept(FIRST[1])?, "ok");
    }
    Ok(())
}

#[test]
fn notes_say_which_reports_are_due() -> Result<(), Error> {
    let mut keys = after(&FIRST[..2])?;
    let (call, ttl, moment) = (3, 3600, 10);
    let published = |kind| Note::Published {
        kind,
        call,
        ttl,
        moment,
    };
    let everywhere = |kind, moment| Note::Everywhere { kind, moment };
    assert!(matches!(keys.due(9), Err(Error::NoNotes)));
    let early = keys.note(everywhere(SetKind::Ds, 9));
    assert!(matches!(early, Err(Error::MalformedNote { line: 1 })));
    keys.note("before 60 7200 3600".parse().expect("a note"))?;
    let early = keys.note(published(SetKind::Zone));
    let refusal = NoteRefusal::NoSuchCall;
    assert!(matches!(early, Err(Error::RefusedNote { line: 2, refusal: it }) if it == refusal));
    assert_eq!(keys.call(FIRST[2])?.number, call);
    for (kind, report) in [
        (
            SetKind::Dnskey,
            Report::NotYet {
                waits_for: SetKind::Zone,
            },
        ),
        (SetKind::Zone, Report::Now { ttl: 7191 }),
    ] {
        keys.note(published(kind))?;
        let outcome = keys.note(everywhere(kind, 9));
        let refusal = NoteRefusal::SeenEarly;
        assert!(matches!(outcome, Err(Error::RefusedNote { refusal: it, .. }) if it == refusal));
        keys.note(everywhere(kind, 30))?;
        let (roll, call) = (ROLL, Next::Report1);
        assert_eq!(keys.due(40)?, [Due { roll, call, report }]);
    }
    keys.call("report1 algorithm-roll 7190 40")?;
    assert_eq!(keys.due(40)?, []);
    let early = keys.note("published ds 4 3600 39".parse().expect("a note"));
    let refusal = NoteRefusal::PublishedEarly;
    assert!(matches!(early, Err(Error::RefusedNote { refusal: it, .. }) if it == refusal));
    keys.call("wait1 algorithm-roll 7230")?;
    let (roll, call) = (ROLL, Next::Report2);
    let report = Report::TooEarly { waits_until: 7230 };
    assert_eq!(keys.due(7229)?, [Due { roll, call, report }]);
    Ok(())
}

#[test]
fn a_session_goes_to_another_thread() -> Result<(), Error> {
    let mut threads = Vec::new();
    for count in 0..=FIRST.len() {
        let mut keys = after(&FIRST[..count])?;
        threads.push(thread::spawn(move || {
            for line in &FIRST[count..] {
                keys.call(line)?;
            }
            keys.published()
        }));
    }
    for thread in threads {
        let published = thread.join().expect("a thread that ends")?;
        assert_eq!(
            published.to_string(),
            "ds=K1 dnskey=K1,Z1 signers=K1 zone=Z1"
        );
    }
    Ok(())
}

/// Threads ask one key set side by side, and each gets its answer.
#[test]
fn questions_are_shared() -> Result<(), Error> {
    let mut keys = after(&FIRST)?;
    keys.note("before 60 60 60".parse().expect("a note"))?;
    let (status, due) = (keys.status()?, keys.due(3700)?);
    thread::scope(|scope| {
        for _ in 0..8 {
            scope.spawn(|| {
                for _ in 0..500 {
                    assert_eq!(keys.status().expect("a status"), status);
                    assert_eq!(keys.due(3700).expect("what is due"), due);
                    assert!(keys.would("done algorithm-roll").is_err());
                }
            });
        }
    });
    Ok(())
}

fn expect_names<T: FromStr + Display + PartialEq + std::fmt::Debug>(rows: &[(T, &str)]) {
    for (value, name) in rows {
        assert_eq!(value.to_string(), *name);
        assert_eq!(name.parse::<T>().ok().as_ref(), Some(value));
    }
    assert!("".parse::<T>().is_err() && "nothing".parse::<T>().is_err());
}

#[test]
fn values_have_names() {
    expect_names(&[
        (RollType::KskDoubleDsRoll, "ksk-double-ds-roll"),
        (RollType::ZskRoll, "zsk-roll"),
    ]);
    expect_names(&[
        (Algorithm::RSASHA256, "RSASHA256"),
        (Algorithm(10), "RSASHA512"),
        (Algorithm::from(13), "ECDSAP256SHA256"),
        (Algorithm(14), "ECDSAP384SHA384"),
        (Algorithm(15), "ED25519"),
        (Algorithm(16), "ED448"),
        (Algorithm(17), "17"),
    ]);
    expect_names(&[
        (Refusal::Wait { seconds: 5 }, "wait for duration 5s"),
        (Refusal::KeyNotOld, "key is still in use, not old"),
    ]);
    let (kind, moment) = (SetKind::Ds, 7);
    expect_names(&[(Note::Everywhere { kind, moment }, "everywhere ds 7")]);
    for line in [
        "everywhere ds 7 ",
        "everywhere ds +7",
        "before 1 2",
        "everywhere soa 7",
    ] {
        assert!(line.parse::<Note>().is_err(), "{line}");
    }
}

const POLICY: &str = "policy 13 ksk-roll zsk-roll\nzsk-lifetime 7776000\n";

#[test]
fn a_policy_says_what_to_do_next() -> Result<(), Error> {
    let mut keys = KeySet::new("example.com")?;
    assert!(matches!(keys.next(POLICY, 100), Err(Error::NoNotes)));
    keys.note(Note::Before {
        ds: 60,
        dnskey: 60,
        zone: 60,
    })?;
    let algorithm = Algorithm::ECDSAP256SHA256;
    for (kind, line) in [(KeyKind::Ksk, FIRST[0]), (KeyKind::Zsk, FIRST[1])] {
        assert_eq!(keys.next(POLICY, 100)?, Todo::Key { kind, algorithm });
        keys.call(line)?;
    }
    let line = "start algorithm-roll - K1,Z1 100".to_owned();
    assert_eq!(keys.next(POLICY, 100)?, Todo::Call(line.clone()));
    keys.call(&line)?;
    for kind in [SetKind::Dnskey, SetKind::Zone] {
        assert_eq!(keys.next(POLICY, 103)?, Todo::Publish(kind));
        let (call, ttl, moment) = (3, 60, 101);
        keys.note(Note::Published {
            kind,
            call,
            ttl,
            moment,
        })?;
        assert_eq!(keys.next(POLICY, 103)?, Todo::Watch(kind));
        keys.note(Note::Everywhere { kind, moment: 103 })?;
    }
    let line = "report1 algorithm-roll 61 103".to_owned();
    assert_eq!(keys.next(POLICY, 103)?, Todo::Call(line.clone()));
    keys.call(&line)?;
    assert_eq!(keys.next(POLICY, 104)?, Todo::Until(164));
    Ok(())
}

#[test]
fn a_text_that_a_policy_says_nothing_by_is_named() {
    let (script, notes) = ("zone example.com\n", "before 60 60 60\n");
    let short = "policy 13 ksk-roll zsk-roll\nzsk-lifetime 60\n";
    for (policy, script, notes, why) in [
        ("", script, notes, "policy: line 1: malformed"),
        (POLICY, "", notes, "script: line 1: malformed"),
        (POLICY, script, "", "notes: line 1: malformed"),
        (
            short,
            script,
            notes,
            "policy: a lifetime of 60 seconds is shorter than a zsk-roll takes: 122",
        ),
    ] {
        match next(policy, script, notes, 100) {
            Err(Error::NotSaid(text)) => assert_eq!(text, why),
            other => panic!("{other:?}"),
        }
    }
}
