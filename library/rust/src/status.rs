//! What the key set says, as values with the names of `domain`'s module `keyset`.

use crate::algorithm::Algorithm;
use crate::names::{Action, KeyKind, Next, Phase, RoleKind, RollType, State, WaitsFor};
use std::fmt;

/// The references of the keys to publish, each list in the order of its bytes. It is written as the
/// line of the sets, as `ds=K1 dnskey=K1,Z1 signers=K1 zone=Z1`.
#[derive(Clone, Debug, Default, PartialEq, Eq)]
#[non_exhaustive]
pub struct Published {
    /// The keys with a DS at the parent.
    pub ds: Vec<String>,
    /// The keys of the DNSKEY set.
    pub dnskey: Vec<String>,
    /// The keys that sign the DNSKEY set.
    pub signers: Vec<String>,
    /// The keys that sign the rest of the zone.
    pub zone: Vec<String>,
}

impl fmt::Display for Published {
    fn fmt(&self, f: &mut fmt::Formatter<'_>) -> fmt::Result {
        for (name, keys) in [
            ("ds=", &self.ds),
            (" dnskey=", &self.dnskey),
            (" signers=", &self.signers),
            (" zone=", &self.zone),
        ] {
            f.write_str(name)?;
            listed(keys).fmt(f)?;
        }
        Ok(())
    }
}

/// References with commas between them, or `-` for none.
pub(crate) struct ReferenceList<'a, T>(&'a [T]);

pub(crate) fn listed<T: AsRef<str>>(references: &[T]) -> ReferenceList<'_, T> {
    ReferenceList(references)
}

impl<T: AsRef<str>> fmt::Display for ReferenceList<'_, T> {
    fn fmt(&self, f: &mut fmt::Formatter<'_>) -> fmt::Result {
        match self.0 {
            [] => f.write_str("-"),
            [first, others @ ..] => {
                f.write_str(first.as_ref())?;
                others
                    .iter()
                    .try_for_each(|it| write!(f, ",{}", it.as_ref()))
            }
        }
    }
}

/// The first sets without a chain of trust. They met after call `at`; the other numbers are the
/// calls that the DS set, the DNSKEY set and the zone signers are of.
#[derive(Clone, Copy, Debug, PartialEq, Eq, Hash)]
#[non_exhaustive]
pub struct Broken {
    /// After this call they may meet in a cache.
    pub at: u64,
    /// The call that the DS set is of.
    pub ds: u64,
    /// The call that the DNSKEY set and its signers are of.
    pub dnskey: u64,
    /// The call that the zone signers are of.
    pub zone: u64,
}

impl fmt::Display for Broken {
    fn fmt(&self, f: &mut fmt::Formatter<'_>) -> fmt::Result {
        let (at, ds, dnskey, zone) = (self.at, self.ds, self.dnskey, self.zone);
        write!(f, "broken at={at} ds={ds} dnskey={dnskey} zone={zone}")
    }
}

/// A role of a key.
#[derive(Clone, Copy, Debug, PartialEq, Eq, Hash)]
#[non_exhaustive]
pub struct Role {
    /// Which role it is.
    pub role: RoleKind,
    /// What its flags come to.
    pub state: State,
    /// It is on its way out.
    pub old: bool,
    /// It signs: a KSK role the DNSKEY set, a ZSK role the zone.
    pub signer: bool,
    /// It is in the DNSKEY set.
    pub present: bool,
    /// It is to have a DS.
    pub at_parent: bool,
}

/// The moments of a key, in seconds since 1970.
#[derive(Clone, Copy, Debug, Default, PartialEq, Eq, Hash)]
#[non_exhaustive]
pub struct Stamps {
    /// When it was made.
    pub creation: Option<u64>,
    /// When it was published.
    pub published: Option<u64>,
    /// When all servers gave it.
    pub visible: Option<u64>,
    /// When all servers of the parent gave its DS.
    pub ds_visible: Option<u64>,
    /// When all servers gave its signatures.
    pub rrsig_visible: Option<u64>,
    /// When it was taken out.
    pub withdrawn: Option<u64>,
}

/// A key of the set.
#[derive(Clone, Debug, PartialEq, Eq)]
#[non_exhaustive]
pub struct Key {
    /// Its public reference.
    pub reference: String,
    /// The reference of its private part.
    pub private: Option<String>,
    /// Its kind.
    pub kind: KeyKind,
    /// Its roles: a CSK has two.
    pub roles: Vec<Role>,
    /// Its algorithm.
    pub algorithm: Algorithm,
    /// Its key tag.
    pub tag: u16,
    /// Whether it is kept apart from its private key.
    pub decoupled: bool,
    /// Its moments.
    pub stamps: Stamps,
    /// Whether a roll may take it in.
    pub may_come_in: bool,
    /// Whether a deletion is accepted.
    pub may_be_deleted: bool,
    /// The rolls in progress that listed it as old.
    pub old_in: Vec<RollType>,
    /// The rolls in progress that listed it as new.
    pub new_in: Vec<RollType>,
}

/// When a wait is over.
#[derive(Clone, Copy, Debug, PartialEq, Eq, Hash)]
pub enum WaitEnd {
    /// This is the first second since 1970 in which it is accepted.
    At(u64),
    /// It ends after the last second that a call can name.
    PastTime,
}

/// A roll in progress.
#[derive(Clone, Debug, PartialEq, Eq)]
#[non_exhaustive]
pub struct Roll {
    /// Which roll it is.
    pub roll: RollType,
    /// Its phase.
    pub phase: Phase,
    /// The TTL of its report, in a phase that waits for caches.
    pub ttl: Option<u32>,
    /// The call that comes next.
    pub next: Next,
    /// When its wait is over, in a phase that waits for caches.
    pub not_before: Option<WaitEnd>,
    /// For whom it waits.
    pub waits_for: WaitsFor,
    /// What is due.
    pub due: Vec<Action>,
}

/// A roll that was ended early.
#[derive(Clone, Debug, PartialEq, Eq)]
#[non_exhaustive]
pub struct Ended {
    /// Which roll it was.
    pub roll: RollType,
    /// What its end asked for.
    pub asked: Vec<Action>,
}

/// The status of a zone.
#[derive(Clone, Debug, PartialEq, Eq)]
#[non_exhaustive]
pub struct Status {
    /// The zone's name.
    pub zone: String,
    /// None if the chain of trust held all the time.
    pub broken: Option<Broken>,
    /// What has to be published now.
    pub published: Published,
    /// The keys, in the order of the bytes of their references.
    pub keys: Vec<Key>,
    /// The rolls in progress, in the order of [`RollType`].
    pub rolls: Vec<Roll>,
    /// The rolls that were ended early, in the same order.
    pub ended: Vec<Ended>,
}

impl Status {
    /// The key of this reference.
    pub fn key(&self, reference: &str) -> Option<&Key> {
        self.keys.iter().find(|it| it.reference == reference)
    }

    /// A roll, if it is in progress.
    pub fn roll(&self, roll: RollType) -> Option<&Roll> {
        self.rolls.iter().find(|it| it.roll == roll)
    }
}
