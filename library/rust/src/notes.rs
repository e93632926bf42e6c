//! Notes of a zone, and the reports that are due by them.

use crate::names::{Next, RollType, SetKind, UnknownName};
use std::fmt;
use std::str::FromStr;

/// A line of notes. TTLs and moments are whole seconds, moments since 1970. It is written and read
/// as a line without its line feed.
#[derive(Clone, Copy, Debug, PartialEq, Eq, Hash)]
pub enum Note {
    /// The first line: the highest TTLs that servers gave before the first call, or with the answer
    /// that there is none.
    Before {
        /// Of DS sets.
        ds: u32,
        /// Of DNSKEY sets.
        dnskey: u32,
        /// Of all other sets of the zone.
        zone: u32,
    },
    /// From a moment on servers may give a version that has the sets after a call, and no higher
    /// TTL. Note it before a server gets the version.
    Published {
        /// What has a new version.
        kind: SetKind,
        /// The number of the call: see [`Accepted::number`](crate::Accepted::number).
        call: usize,
        /// The highest TTL of the version.
        ttl: u32,
        /// The moment, rounded down.
        moment: u64,
    },
    /// At a moment all servers gave the version that was published last. Note it once the clock has
    /// reached the moment.
    Everywhere {
        /// What all servers gave.
        kind: SetKind,
        /// The moment, rounded up.
        moment: u64,
    },
}

impl fmt::Display for Note {
    fn fmt(&self, f: &mut fmt::Formatter<'_>) -> fmt::Result {
        match self {
            Note::Before { ds, dnskey, zone } => write!(f, "before {ds} {dnskey} {zone}"),
            Note::Published {
                kind,
                call,
                ttl,
                moment,
            } => write!(f, "published {kind} {call} {ttl} {moment}"),
            Note::Everywhere { kind, moment } => write!(f, "everywhere {kind} {moment}"),
        }
    }
}

impl FromStr for Note {
    type Err = UnknownName;

    fn from_str(line: &str) -> Result<Self, Self::Err> {
        read_note(line).ok_or(UnknownName(()))
    }
}

fn read_note(line: &str) -> Option<Note> {
    let mut words = line.split(' ');
    let note = match words.next()? {
        "before" => Note::Before {
            ds: number(words.next()?)?,
            dnskey: number(words.next()?)?,
            zone: number(words.next()?)?,
        },
        "published" => Note::Published {
            kind: words.next()?.parse().ok()?,
            call: number(words.next()?)?,
            ttl: number(words.next()?)?,
            moment: number(words.next()?)?,
        },
        "everywhere" => Note::Everywhere {
            kind: words.next()?.parse().ok()?,
            moment: number(words.next()?)?,
        },
        _ => return None,
    };
    words.next().is_none().then_some(note)
}

/// A number of a line: 1 to 20 digits, and no sign.
fn number<T: FromStr>(word: &str) -> Option<T> {
    let is_number = word.len() <= 20 && word.bytes().all(|it| it.is_ascii_digit());
    is_number.then(|| word.parse().ok()).flatten()
}

/// A report that a roll waits for.
#[derive(Clone, Copy, Debug, PartialEq, Eq, Hash)]
pub struct Due {
    /// The roll.
    pub roll: RollType,
    /// Which report it is: [`Next::Report1`] or [`Next::Report2`].
    pub call: Next,
    /// What the notes say of it.
    pub report: Report,
}

/// What notes say of a report.
#[derive(Clone, Copy, Debug, PartialEq, Eq, Hash)]
pub enum Report {
    /// It is due.
    Now {
        /// The TTL to report, in seconds.
        ttl: u32,
    },
    /// It isn't due yet.
    NotYet {
        /// The first kind whose older sets servers may still give.
        waits_for: SetKind,
    },
    /// Its moment lies before that of the roll's step, or of a call before this.
    TooEarly {
        /// The first second since 1970 that doesn't.
        waits_until: u64,
    },
}

impl Due {
    /// Reads a line of what is due, as `report1 ksk-roll 3600 130`,
    /// `not yet: report1 ksk-roll waits for ds`, or `not yet: report1 ksk-roll waits until 100`.
    pub(crate) fn read(line: &str) -> Option<Due> {
        let (waiting, line) = match line.strip_prefix("not yet: ") {
            Some(line) => (true, line),
            None => (false, line),
        };
        let mut words = line.split(' ');
        let call = words.next()?.parse().ok()?;
        let roll = words.next()?.parse().ok()?;
        let report = if waiting {
            let last = words.next_back()?;
            match words.next_back()? {
                "until" => Report::TooEarly {
                    waits_until: last.parse().ok()?,
                },
                _ => Report::NotYet {
                    waits_for: last.parse().ok()?,
                },
            }
        } else {
            let ttl = words.next()?.parse().ok()?;
            Report::Now { ttl }
        };
        Some(Due { roll, call, report })
    }
}
