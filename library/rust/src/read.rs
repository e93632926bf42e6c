//! Reads the status that the library writes. A word that this crate doesn't know is an error: an
//! action that is left out would not be performed.

use crate::algorithm::Algorithm;
use crate::error::Error;
use crate::json::Json;
use crate::status::{Broken, Ended, Key, Published, Role, Roll, Stamps, Status, WaitEnd};
use crate::text::{collected, copied};
use std::str::FromStr;

pub(crate) fn status(text: &str) -> Result<Status, Error> {
    let members = Json::read(text)?;
    Ok(Status {
        zone: copied(text_of(&members, "zone")?)?,
        broken: broken(members.get("chain")),
        published: published(members.get("published"))?,
        keys: collected(members.get("keys").list().iter().map(key))?,
        rolls: collected(members.get("rolls").list().iter().map(roll))?,
        ended: collected(members.get("ended").list().iter().map(ended))?,
    })
}

fn text_of<'a>(members: &'a Json, member: &str) -> Result<&'a str, Error> {
    members.get(member).text().ok_or(Error::OtherRelease)
}

/// A word as a value.
fn named<T: FromStr>(word: &Json) -> Result<T, Error> {
    let name = word.text().ok_or(Error::OtherRelease)?;
    name.parse().map_err(|_| Error::OtherRelease)
}

/// Words as values.
fn all_named<T: FromStr>(words: &Json) -> Result<Vec<T>, Error> {
    collected(words.list().iter().map(named))
}

fn number<T: TryFrom<u64>>(number: &Json) -> Result<T, Error> {
    let number = number.number().ok_or(Error::OtherRelease)?;
    T::try_from(number).map_err(|_| Error::OtherRelease)
}

fn broken(members: &Json) -> Option<Broken> {
    Some(Broken {
        at: members.get("at").number()?,
        ds: members.get("ds").number()?,
        dnskey: members.get("dnskey").number()?,
        zone: members.get("zone").number()?,
    })
}

fn published(members: &Json) -> Result<Published, Error> {
    let references = |name| {
        let references = members.get(name).list().iter();
        collected(references.map(|it| copied(it.text().ok_or(Error::OtherRelease)?)))
    };
    Ok(Published {
        ds: references("ds")?,
        dnskey: references("dnskey")?,
        signers: references("signers")?,
        zone: references("zone")?,
    })
}

fn key(members: &Json) -> Result<Key, Error> {
    Ok(Key {
        reference: copied(text_of(members, "reference")?)?,
        private: members.get("private").text().map(copied).transpose()?,
        kind: named(members.get("kind"))?,
        roles: collected(members.get("roles").list().iter().map(role))?,
        algorithm: Algorithm(number(members.get("algorithm"))?),
        tag: number(members.get("tag"))?,
        decoupled: members.get("decoupled").flag(),
        stamps: stamps(members),
        may_come_in: members.get("may_come_in").flag(),
        may_be_deleted: members.get("may_be_deleted").flag(),
        old_in: all_named(members.get("old_in"))?,
        new_in: all_named(members.get("new_in"))?,
    })
}

fn role(members: &Json) -> Result<Role, Error> {
    Ok(Role {
        role: named(members.get("role"))?,
        state: named(members.get("state"))?,
        old: members.get("old").flag(),
        signer: members.get("signer").flag(),
        present: members.get("present").flag(),
        at_parent: members.get("at_parent").flag(),
    })
}

fn stamps(members: &Json) -> Stamps {
    Stamps {
        creation: members.get("creation").number(),
        published: members.get("published").number(),
        visible: members.get("visible").number(),
        ds_visible: members.get("ds_visible").number(),
        rrsig_visible: members.get("rrsig_visible").number(),
        withdrawn: members.get("withdrawn").number(),
    }
}

fn roll(members: &Json) -> Result<Roll, Error> {
    let ttl = members.get("ttl");
    Ok(Roll {
        roll: named(members.get("roll"))?,
        phase: named(members.get("phase"))?,
        ttl: ttl.number().map(|_| number(ttl)).transpose()?,
        next: named(members.get("next"))?,
        not_before: wait_end(members.get("not_before"))?,
        waits_for: named(members.get("waits_for"))?,
        due: all_named(members.get("due"))?,
    })
}

fn ended(members: &Json) -> Result<Ended, Error> {
    Ok(Ended {
        roll: named(members.get("roll"))?,
        asked: all_named(members.get("asked"))?,
    })
}

fn wait_end(moment: &Json) -> Result<Option<WaitEnd>, Error> {
    match moment.text() {
        None => Ok(moment.number().map(WaitEnd::At)),
        Some("past-time") => Ok(Some(WaitEnd::PastTime)),
        Some(_) => Err(Error::OtherRelease),
    }
}
