//! A method for each call, with the names of `domain`'s `KeySet`.

use crate::algorithm::Algorithm;
use crate::error::Error;
use crate::keyset::{Accepted, KeySet};
use crate::names::RollType;
use crate::status::listed;
use crate::text::text;
use std::fmt;

/// What a key is added with.
#[derive(Clone, Copy, Debug, PartialEq, Eq, Hash)]
pub struct NewKey {
    /// Its algorithm.
    pub algorithm: Algorithm,
    /// Its key tag (RFC 4034, appendix B).
    pub key_tag: u16,
    /// When it was made, in seconds since 1970.
    pub creation: u64,
    /// Whether it may come in by a roll.
    pub available: bool,
}

impl NewKey {
    /// A key that may come in by a roll.
    pub const fn new(algorithm: Algorithm, key_tag: u16, creation: u64) -> Self {
        NewKey {
            algorithm,
            key_tag,
            creation,
            available: true,
        }
    }
}

/// It is written as the fields of a line that adds it.
struct Fields(NewKey);

impl fmt::Display for Fields {
    fn fmt(&self, f: &mut fmt::Formatter<'_>) -> fmt::Result {
        let NewKey {
            algorithm: Algorithm(algorithm),
            key_tag,
            creation,
            available,
        } = self.0;
        let available = yes(available);
        write!(f, "{algorithm} {key_tag} {creation} {available}")
    }
}

impl KeySet {
    /// Adds a KSK. `privref` is the reference of its private part.
    ///
    /// # Errors
    ///
    /// As of [`KeySet::call`], and [`Error::NotAReference`].
    pub fn add_key_ksk(
        &mut self,
        pubref: &str,
        privref: Option<&str>,
        key: NewKey,
    ) -> Result<Accepted, Error> {
        self.add("add-ksk", pubref, privref, key)
    }

    /// Adds a ZSK.
    ///
    /// # Errors
    ///
    /// As of [`KeySet::call`], and [`Error::NotAReference`].
    pub fn add_key_zsk(
        &mut self,
        pubref: &str,
        privref: Option<&str>,
        key: NewKey,
    ) -> Result<Accepted, Error> {
        self.add("add-zsk", pubref, privref, key)
    }

    /// Adds a CSK.
    ///
    /// # Errors
    ///
    /// As of [`KeySet::call`], and [`Error::NotAReference`].
    pub fn add_key_csk(
        &mut self,
        pubref: &str,
        privref: Option<&str>,
        key: NewKey,
    ) -> Result<Accepted, Error> {
        self.add("add-csk", pubref, privref, key)
    }

    /// Adds a key of another signer.
    ///
    /// # Errors
    ///
    /// As of [`KeySet::call`], and [`Error::NotAReference`].
    pub fn add_public_key(&mut self, pubref: &str, key: NewKey) -> Result<Accepted, Error> {
        let (pubref, fields) = (reference(pubref)?, Fields(key));
        self.make(format_args!("add-public {pubref} {fields}"))
    }

    fn add(
        &mut self,
        word: &str,
        pubref: &str,
        privref: Option<&str>,
        key: NewKey,
    ) -> Result<Accepted, Error> {
        let (pubref, fields) = (reference(pubref)?, Fields(key));
        let privref = privref.map_or(Ok("-"), reference)?;
        self.make(format_args!("{word} {pubref} {privref} {fields}"))
    }

    fn make(&mut self, line: fmt::Arguments<'_>) -> Result<Accepted, Error> {
        self.call(&text(line)?)
    }

    /// Deletes a key whose roles are all stale.
    ///
    /// # Errors
    ///
    /// As of [`KeySet::call`], and [`Error::NotAReference`].
    pub fn delete_key(&mut self, pubref: &str) -> Result<Accepted, Error> {
        self.make(format_args!("delete {}", reference(pubref)?))
    }

    /// Sets by hand whether the key is kept apart from its private key.
    ///
    /// # Errors
    ///
    /// As of [`KeySet::call`], and [`Error::NotAReference`].
    pub fn set_decoupled(&mut self, pubref: &str, value: bool) -> Result<Accepted, Error> {
        let (pubref, value) = (reference(pubref)?, yes(value));
        self.make(format_args!("set-decoupled {pubref} {value}"))
    }

    /// Sets by hand whether the key signs, in every role.
    ///
    /// # Errors
    ///
    /// As of [`KeySet::call`], and [`Error::NotAReference`].
    pub fn set_signer(&mut self, pubref: &str, value: bool) -> Result<Accepted, Error> {
        let (pubref, value) = (reference(pubref)?, yes(value));
        self.make(format_args!("set-signer {pubref} {value}"))
    }

    /// Sets by hand whether the key is to have a DS.
    ///
    /// # Errors
    ///
    /// As of [`KeySet::call`], and [`Error::NotAReference`].
    pub fn set_at_parent(&mut self, pubref: &str, value: bool) -> Result<Accepted, Error> {
        let (pubref, value) = (reference(pubref)?, yes(value));
        self.make(format_args!("set-at-parent {pubref} {value}"))
    }

    /// Sets by hand whether the key is in the DNSKEY set. If it comes in, `now` is its stamp
    /// "published", unless it has one.
    ///
    /// # Errors
    ///
    /// As of [`KeySet::call`], and [`Error::NotAReference`].
    pub fn set_present(&mut self, pubref: &str, value: bool, now: u64) -> Result<Accepted, Error> {
        let (pubref, value) = (reference(pubref)?, yes(value));
        self.make(format_args!("set-present {pubref} {value} {now}"))
    }

    /// Makes every role of the key old by hand, and takes the key out of all sets.
    ///
    /// # Errors
    ///
    /// As of [`KeySet::call`], and [`Error::NotAReference`].
    pub fn set_stale(&mut self, pubref: &str) -> Result<Accepted, Error> {
        self.make(format_args!("set-stale {}", reference(pubref)?))
    }

    /// Sets by hand when all servers gave the key.
    ///
    /// # Errors
    ///
    /// As of [`KeySet::call`], and [`Error::NotAReference`].
    pub fn set_visible(&mut self, pubref: &str, time: u64) -> Result<Accepted, Error> {
        self.make(format_args!("set-visible {} {time}", reference(pubref)?))
    }

    /// Sets by hand when all servers of the parent gave the DS of the key.
    ///
    /// # Errors
    ///
    /// As of [`KeySet::call`], and [`Error::NotAReference`].
    pub fn set_ds_visible(&mut self, pubref: &str, time: u64) -> Result<Accepted, Error> {
        self.make(format_args!("set-ds-visible {} {time}", reference(pubref)?))
    }

    /// Sets by hand when all servers gave the signatures of the key.
    ///
    /// # Errors
    ///
    /// As of [`KeySet::call`], and [`Error::NotAReference`].
    pub fn set_rrsig_visible(&mut self, pubref: &str, time: u64) -> Result<Accepted, Error> {
        self.make(format_args!(
            "set-rrsig-visible {} {time}",
            reference(pubref)?
        ))
    }

    /// Starts a roll from the old keys to the new ones.
    ///
    /// # Errors
    ///
    /// As of [`KeySet::call`], and [`Error::NotAReference`].
    pub fn start_roll(
        &mut self,
        roll: RollType,
        old: &[&str],
        new: &[&str],
        now: u64,
    ) -> Result<Accepted, Error> {
        let (old, new) = (references(old)?, references(new)?);
        self.make(format_args!("start {roll} {old} {new} {now}"))
    }

    /// Reports that what the start changed has spread, and that caches may hold older data for
    /// `ttl` seconds.
    ///
    /// # Errors
    ///
    /// As of [`KeySet::call`].
    pub fn propagation1_complete(
        &mut self,
        roll: RollType,
        ttl: u32,
        now: u64,
    ) -> Result<Accepted, Error> {
        self.make(format_args!("report1 {roll} {ttl} {now}"))
    }

    /// Goes on, if old data has left the caches.
    ///
    /// # Errors
    ///
    /// As of [`KeySet::call`]; if it is too early, the refusal is
    /// [`Refusal::Wait`](crate::Refusal::Wait).
    pub fn cache_expired1(&mut self, roll: RollType, now: u64) -> Result<Accepted, Error> {
        self.make(format_args!("wait1 {roll} {now}"))
    }

    /// Reports the same of what the first wait changed.
    ///
    /// # Errors
    ///
    /// As of [`KeySet::call`].
    pub fn propagation2_complete(
        &mut self,
        roll: RollType,
        ttl: u32,
        now: u64,
    ) -> Result<Accepted, Error> {
        self.make(format_args!("report2 {roll} {ttl} {now}"))
    }

    /// Goes on, if old data has left the caches after the second report.
    ///
    /// # Errors
    ///
    /// As of [`KeySet::cache_expired1`].
    pub fn cache_expired2(&mut self, roll: RollType, now: u64) -> Result<Accepted, Error> {
        self.make(format_args!("wait2 {roll} {now}"))
    }

    /// Ends the roll, once its last actions are performed.
    ///
    /// # Errors
    ///
    /// As of [`KeySet::call`].
    pub fn roll_done(&mut self, roll: RollType) -> Result<Accepted, Error> {
        self.make(format_args!("done {roll}"))
    }

    /// Ends the roll early, before its first report.
    ///
    /// # Errors
    ///
    /// As of [`KeySet::call`].
    pub fn abort_roll(&mut self, roll: RollType) -> Result<Accepted, Error> {
        self.make(format_args!("abort {roll}"))
    }
}

/// A text, if it has the form of a reference.
fn reference(text: &str) -> Result<&str, Error> {
    let is_visible = text
        .bytes()
        .all(|it| matches!(it, b'!'..=b'~') && it != b',');
    match text {
        "" | "-" => Err(Error::NotAReference),
        _ if is_visible => Ok(text),
        _ => Err(Error::NotAReference),
    }
}

fn references<'a>(texts: &'a [&'a str]) -> Result<impl fmt::Display + 'a, Error> {
    for text in texts {
        reference(text)?;
    }
    Ok(listed(texts))
}

fn yes(value: bool) -> &'static str {
    if value {
        "yes"
    } else {
        "no"
    }
}
