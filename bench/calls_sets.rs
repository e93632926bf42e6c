//! The sets that the courses of `calls.rs` begin with, and the calls that they share.

use crate::base::iana::SecurityAlgorithm;
use crate::base::Name;
use crate::dnssec::sign::keys::keyset::RollType::{
    self, AlgorithmRoll, CskRoll, KskDoubleDsRoll, KskRoll, ZskDoubleSignatureRoll, ZskRoll,
};
use crate::dnssec::sign::keys::keyset::{Available, KeySet, UnixTime};
use crate::mock_instant::global::{MockClock, SystemTime};
use std::str::FromStr;
use std::time::Duration;

const ROLLS: [RollType; 6] = [
    KskRoll,
    KskDoubleDsRoll,
    ZskRoll,
    ZskDoubleSignatureRoll,
    CskRoll,
    AlgorithmRoll,
];

const OLD_KSK: &str = "Kexample.com.+013+00001.key";
const NEW_KSK: &str = "Kexample.com.+013+00002.key";
const OLD_ZSK: &str = "Kexample.com.+013+00003.key";
const NEW_ZSK: &str = "Kexample.com.+013+00004.key";
pub const FIRST_TTL: u32 = 60;
const SECOND_TTL: u32 = 600;
pub const START: u64 = 2000;

#[derive(Clone, Copy)]
pub struct Answers {
    pub accepted: u64,
    pub refused: u64,
}

impl Answers {
    pub fn new() -> Answers {
        Answers {
            accepted: 0,
            refused: 0,
        }
    }

    pub fn note(&mut self, is_accepted: bool) {
        if is_accepted {
            self.accepted += 1;
        } else {
            self.refused += 1;
        }
    }
}

#[derive(Clone, Copy)]
pub enum Kind {
    Ksk,
    Zsk,
    Csk,
}

#[derive(Clone, Copy)]
pub enum Algorithms {
    One,
    Two,
}

pub struct Waiting {
    pub set: KeySet,
    pub roll: RollType,
    pub is_second: bool,
}

pub fn at(seconds: u64) -> UnixTime {
    let moment = SystemTime::at(Duration::from_secs(seconds));
    UnixTime::try_from(moment).expect("a moment after the epoch")
}

pub fn set_clock(seconds: u64) {
    MockClock::set_system_time(Duration::from_secs(seconds));
}

pub fn new_set() -> KeySet {
    KeySet::new(Name::from_str("example.com").expect("a name"))
}

fn reference(tag: u16) -> String {
    format!("Kexample.com.+013+{tag:05}.key")
}

pub fn references(keys: usize) -> Vec<String> {
    (0..=u16::MAX).take(keys).map(reference).collect()
}

pub fn add(set: &mut KeySet, kind: Kind, reference: String, algorithm: u8, tag: u16) -> bool {
    let algorithm = SecurityAlgorithm::from_int(algorithm);
    let add = match kind {
        Kind::Ksk => set.add_key_ksk(reference, None, algorithm, tag, at(0), Available::Available),
        Kind::Zsk => set.add_key_zsk(reference, None, algorithm, tag, at(0), Available::Available),
        Kind::Csk => set.add_key_csk(reference, None, algorithm, tag, at(0), Available::Available),
    };
    add.is_ok()
}

pub fn set_of(kind: Kind, algorithms: Algorithms, keys: usize) -> Option<KeySet> {
    let mut set = new_set();
    for tag in (0..=u16::MAX).take(keys) {
        let algorithm = match algorithms {
            Algorithms::One => 13,
            Algorithms::Two => algorithm_of_two(usize::from(tag), keys),
        };
        if !add(&mut set, kind, reference(tag), algorithm, tag) {
            return None;
        }
    }
    Some(set)
}

fn algorithm_of_two(place: usize, keys: usize) -> u8 {
    let half = keys / 2;
    let is_last = place + 1 == half || place + 1 == keys;
    if (place < half) == is_last { 14 } else { 13 }
}

pub fn four_keys() -> Option<KeySet> {
    let mut set = new_set();
    let mut answers = Answers::new();
    let keys = [
        (OLD_KSK, Kind::Ksk, 1),
        (NEW_KSK, Kind::Ksk, 2),
        (OLD_ZSK, Kind::Zsk, 3),
        (NEW_ZSK, Kind::Zsk, 4),
    ];
    for (reference, kind, tag) in keys {
        answers.note(add(&mut set, kind, reference.to_string(), 13, tag));
    }
    roll_over(&mut set, AlgorithmRoll, &[], &[OLD_KSK, OLD_ZSK], 0, &mut answers);
    (answers.refused == 0).then_some(set)
}

pub fn lists(roll: RollType) -> (&'static [&'static str], &'static [&'static str]) {
    match roll {
        KskRoll | KskDoubleDsRoll => (&[OLD_KSK], &[NEW_KSK]),
        ZskRoll | ZskDoubleSignatureRoll => (&[OLD_ZSK], &[NEW_ZSK]),
        CskRoll | AlgorithmRoll => (&[OLD_KSK, OLD_ZSK], &[NEW_KSK, NEW_ZSK]),
    }
}

pub fn roll_over(
    set: &mut KeySet,
    roll: RollType,
    old: &[&str],
    new: &[&str],
    start: u64,
    answers: &mut Answers,
) {
    set_clock(start);
    answers.note(set.start_roll(roll, old, new).is_ok());
    answers.note(set.propagation1_complete(roll, FIRST_TTL).is_ok());
    set_clock(start + 60);
    answers.note(set.cache_expired1(roll).is_ok());
    answers.note(set.propagation2_complete(roll, SECOND_TTL).is_ok());
    set_clock(start + 660);
    answers.note(set.cache_expired2(roll).is_ok());
    answers.note(set.roll_done(roll).is_ok());
}

pub fn waiting_sets() -> Option<Vec<Waiting>> {
    let mut sets = Vec::new();
    for roll in ROLLS {
        for is_second in [false, true] {
            sets.push(before_wait(roll, is_second)?);
        }
    }
    Some(sets)
}

fn before_wait(roll: RollType, is_second: bool) -> Option<Waiting> {
    let mut set = four_keys()?;
    let (old, new) = lists(roll);
    set_clock(START - 60);
    set.start_roll(roll, old, new).ok()?;
    if is_second {
        set.propagation1_complete(roll, FIRST_TTL).ok()?;
        set_clock(START);
        set.cache_expired1(roll).ok()?;
        set.propagation2_complete(roll, SECOND_TTL).ok()?;
    } else {
        set_clock(START);
        set.propagation1_complete(roll, FIRST_TTL).ok()?;
    }
    Some(Waiting {
        set,
        roll,
        is_second,
    })
}

pub fn wait(set: &mut KeySet, roll: RollType, is_second: bool, seconds: u64) -> bool {
    set_clock(START + seconds);
    if is_second {
        set.cache_expired2(roll).is_ok()
    } else {
        set.cache_expired1(roll).is_ok()
    }
}
