//! The calls of `calls.rt.in` on the original's `KeySet`, course by course, on the sets of
//! `calls_sets.rs`.
//!
//! It takes the place of the `main.rs` that a script puts beside the original's text. The text is
//! patched so that it needs no other crate; stubs, as of a clock, stand for what it imports.
#![allow(dead_code)]

extern crate alloc;

mod calls_sets;
mod stubs;
use stubs::{base, mock_instant, rdata};

pub mod dnssec {
    pub mod sign {
        pub mod keys {
            pub mod keyset;
        }
    }
}

use calls_sets::{
    add, at, four_keys, lists, new_set, references, roll_over, set_clock, set_of, wait,
    waiting_sets, Algorithms, Answers, Kind, Waiting, FIRST_TTL, START,
};
use dnssec::sign::keys::keyset::KeySet;
use dnssec::sign::keys::keyset::RollType::{self, AlgorithmRoll, CskRoll, ZskRoll};
use std::env;
use std::process::ExitCode;
use std::str::FromStr;

const CROWDS: u32 = 64;
const CROWD: usize = 500;

#[derive(Clone, Copy)]
struct Rounds {
    number: u32,
    are_idle: bool,
}

#[derive(Clone, Copy)]
enum Case {
    Zsks,
    Csks,
    TwoAlgorithms,
    ListedTwice,
    OtherAlgorithm,
}

fn main() -> ExitCode {
    let Some(answers) = follow() else {
        return ExitCode::FAILURE;
    };
    let Answers { accepted, refused } = answers;
    println!("{accepted} accepted, {refused} refused");
    ExitCode::SUCCESS
}

fn follow() -> Option<Answers> {
    let mut words = env::args();
    let _program = words.next()?;
    let course = words.next()?;
    let keys = words.next()?;
    let number = words.next()?;
    let mode = words.next()?;
    let are_idle = match mode.as_str() {
        "calls" => false,
        "idle" => true,
        _ => return None,
    };
    let rounds = Rounds {
        number: number.parse().ok()?,
        are_idle,
    };
    make(&course, keys.parse().ok()?, rounds)
}

fn make(course: &str, keys: usize, rounds: Rounds) -> Option<Answers> {
    match course {
        "adds" => Some(adds(keys, rounds)),
        "deletions" => deletions(keys, rounds),
        "setters" => setters(keys, rounds),
        "waits" => waits(rounds),
        "early-waits" => early_waits(rounds),
        "crowded-waits" => crowded_waits(keys, false, rounds),
        "waits-behind-setters" => crowded_waits(keys, true, rounds),
        "start-of-zsks" => starts(Case::Zsks, keys, rounds),
        "start-of-csks" => starts(Case::Csks, keys, rounds),
        "start-of-two-algorithms" => starts(Case::TwoAlgorithms, keys, rounds),
        "start-listed-twice" => starts(Case::ListedTwice, keys, rounds),
        "start-other-algorithm" => starts(Case::OtherAlgorithm, keys, rounds),
        _ => rolls(RollType::from_str(course).ok()?, rounds),
    }
}

fn adds(keys: usize, rounds: Rounds) -> Answers {
    let mut answers = Answers::new();
    let references = references(keys);
    for _ in 0..rounds.number {
        let mut set = new_set();
        for (tag, reference) in (0..=u16::MAX).zip(&references) {
            let reference = reference.clone();
            if !rounds.are_idle {
                answers.note(add(&mut set, Kind::Ksk, reference, 13, tag));
            }
        }
    }
    answers
}

fn deletions(keys: usize, rounds: Rounds) -> Option<Answers> {
    let mut answers = Answers::new();
    let mut set = set_of(Kind::Ksk, Algorithms::One, keys)?;
    let references = references(keys);
    for reference in &references {
        set.set_stale(reference).ok()?;
    }
    for _ in 0..rounds.number {
        let mut copy = set.clone();
        if !rounds.are_idle {
            for reference in &references {
                answers.note(copy.delete_key(reference).is_ok());
            }
        }
    }
    Some(answers)
}

fn setters(keys: usize, rounds: Rounds) -> Option<Answers> {
    let mut answers = Answers::new();
    let mut set = set_of(Kind::Csk, Algorithms::One, keys)?;
    let references = references(keys);
    for _ in 0..rounds.number {
        if !rounds.are_idle {
            for reference in &references {
                set_all(&mut set, reference, &mut answers);
            }
        }
    }
    Some(answers)
}

fn set_all(set: &mut KeySet, reference: &str, answers: &mut Answers) {
    let now = at(START);
    answers.note(set.set_decoupled(reference, true).is_ok());
    answers.note(set.set_present(reference, true).is_ok());
    answers.note(set.set_signer(reference, true).is_ok());
    answers.note(set.set_at_parent(reference, true).is_ok());
    answers.note(set.set_visible(reference, now.clone()).is_ok());
    answers.note(set.set_ds_visible(reference, now.clone()).is_ok());
    answers.note(set.set_rrsig_visible(reference, now).is_ok());
    answers.note(set.set_stale(reference).is_ok());
}

fn rolls(roll: RollType, rounds: Rounds) -> Option<Answers> {
    let mut answers = Answers::new();
    let set = four_keys()?;
    let (old, new) = lists(roll);
    for _ in 0..rounds.number {
        let mut copy = set.clone();
        if !rounds.are_idle {
            roll_over(&mut copy, roll, old, new, START, &mut answers);
        }
    }
    Some(answers)
}

fn waits(rounds: Rounds) -> Option<Answers> {
    let mut answers = Answers::new();
    let sets = waiting_sets()?;
    for _ in 0..rounds.number {
        for Waiting {
            set,
            roll,
            is_second,
        } in &sets
        {
            let mut copy = set.clone();
            if !rounds.are_idle {
                answers.note(wait(&mut copy, *roll, *is_second, 600));
            }
        }
    }
    Some(answers)
}

fn early_waits(rounds: Rounds) -> Option<Answers> {
    let mut answers = Answers::new();
    let mut sets = waiting_sets()?;
    for _ in 0..rounds.number {
        if !rounds.are_idle {
            ask_early(&mut sets, &mut answers);
        }
    }
    Some(answers)
}

fn crowded_waits(keys: usize, has_setters: bool, rounds: Rounds) -> Option<Answers> {
    let mut answers = Answers::new();
    let references = references(CROWD);
    let names: Vec<&str> = references.iter().take(keys).map(String::as_str).collect();
    let mut sets = Vec::new();
    for _ in 0..CROWDS {
        sets.push(crowd(&names)?);
    }
    for _ in 0..rounds.number {
        if has_setters {
            for Waiting { set, .. } in &mut sets {
                set.set_decoupled(&references[0], true).ok()?;
            }
        }
        if !rounds.are_idle {
            ask_early(&mut sets, &mut answers);
        }
    }
    Some(answers)
}

fn crowd(names: &[&str]) -> Option<Waiting> {
    let mut set = set_of(Kind::Csk, Algorithms::One, CROWD)?;
    set_clock(START);
    set.start_roll(AlgorithmRoll, &[], names).ok()?;
    set.propagation1_complete(AlgorithmRoll, FIRST_TTL).ok()?;
    Some(Waiting {
        set,
        roll: AlgorithmRoll,
        is_second: false,
    })
}

fn ask_early(sets: &mut [Waiting], answers: &mut Answers) {
    for Waiting {
        set,
        roll,
        is_second,
    } in sets
    {
        answers.note(wait(set, *roll, *is_second, 59));
    }
}

fn starts(case: Case, keys: usize, rounds: Rounds) -> Option<Answers> {
    let mut answers = Answers::new();
    let (roll, kind) = match case {
        Case::Csks => (CskRoll, Kind::Csk),
        _ => (ZskRoll, Kind::Zsk),
    };
    let algorithms = match case {
        Case::TwoAlgorithms => Algorithms::Two,
        _ => Algorithms::One,
    };
    let mut set = set_of(kind, algorithms, 2 * keys)?;
    let references = references(2 * keys);
    let mut names: Vec<&str> = references.iter().map(String::as_str).collect();
    match case {
        Case::Zsks | Case::Csks | Case::TwoAlgorithms => {}
        Case::ListedTwice => names.push(names.last()?),
        Case::OtherAlgorithm => {
            if !add(&mut set, kind, "other".to_string(), 14, u16::MAX) {
                return None;
            }
            names.push("other");
        }
    }
    let (old, new) = names.split_at(names.len() / 2);
    for _ in 0..rounds.number {
        let mut copy = set.clone();
        if !rounds.are_idle {
            set_clock(START);
            answers.note(copy.start_roll(roll, old, new).is_ok());
        }
    }
    Some(answers)
}
