use crate::c;
use crate::names::UnknownName;
use std::collections::TryReserveError;
use std::str::FromStr;
use std::{error, fmt, io};

const EARLY: &str = "wait for duration ";

/// Why the key set refuses a call, as `domain` names it. It is written and read as in an answer.
#[derive(Clone, Copy, Debug, PartialEq, Eq, Hash)]
#[non_exhaustive]
pub enum Refusal {
    /// An add: a key has the reference.
    KeyExists,
    /// No key has the reference.
    KeyNotFound,
    /// A deletion: a role isn't stale.
    KeyNotOld,
    /// An add: a key has this tag.
    DuplicateKeyTag,
    /// A setter or a start: a key of this kind has no part in it.
    WrongKeyType,
    /// A start: a new key isn't fresh. A wait: a key lacks its stamp.
    WrongKeyState,
    /// A start would leave no key to go on with.
    NoSuitableKeyPresent,
    /// Another call comes next in this roll.
    WrongStateForRollOperation,
    /// A start: another roll has to end first.
    ConflictingRollInProgress,
    /// A start: old and new keys differ in their algorithms.
    AlgorithmSetsMismatch,
    /// A wait isn't over.
    Wait {
        /// The seconds that are left.
        seconds: u64,
    },
}

impl Refusal {
    const TEXTS: [(Refusal, &'static str); 10] = [
        (Refusal::KeyExists, "key already exists"),
        (Refusal::KeyNotFound, "key not found"),
        (Refusal::KeyNotOld, "key is still in use, not old"),
        (Refusal::DuplicateKeyTag, "Key tag already present"),
        (Refusal::WrongKeyType, "key has the wrong type"),
        (Refusal::WrongKeyState, "key is in the wrong state"),
        (
            Refusal::NoSuitableKeyPresent,
            "no suitable key present after key roll",
        ),
        (
            Refusal::WrongStateForRollOperation,
            "wrong roll state for operation",
        ),
        (
            Refusal::ConflictingRollInProgress,
            "conflicting roll is in progress",
        ),
        (
            Refusal::AlgorithmSetsMismatch,
            "algorithm set mismatch for non-algorithm key roll",
        ),
    ];
}

impl fmt::Display for Refusal {
    fn fmt(&self, f: &mut fmt::Formatter<'_>) -> fmt::Result {
        if let Refusal::Wait { seconds } = self {
            return write!(f, "{EARLY}{seconds}s");
        }
        let text = Refusal::TEXTS.iter().find(|(it, _)| it == self);
        f.write_str(text.map_or("", |(_, text)| text))
    }
}

impl FromStr for Refusal {
    type Err = UnknownName;

    fn from_str(text: &str) -> Result<Self, Self::Err> {
        let left = text.strip_prefix(EARLY).and_then(|it| it.strip_suffix('s'));
        if let Some(seconds) = left.and_then(|it| it.parse().ok()) {
            return Ok(Refusal::Wait { seconds });
        }
        let found = Refusal::TEXTS.iter().find(|(_, it)| *it == text);
        found.map(|(refusal, _)| *refusal).ok_or(UnknownName(()))
    }
}

impl error::Error for Refusal {}

/// Why a fact can't follow the calls or the facts before it.
#[derive(Clone, Copy, Debug, PartialEq, Eq, Hash)]
#[non_exhaustive]
pub enum NoteRefusal {
    /// It has the sets of a call that wasn't made yet.
    NoSuchCall,
    /// A version is said to be published before a moment of its call, or of one before that.
    PublishedEarly,
    /// All servers are said to have given a version before it was published.
    SeenEarly,
    /// Its moment lies before the last one: a clock was set back, or there are two.
    MomentFalls,
}

impl fmt::Display for NoteRefusal {
    fn fmt(&self, f: &mut fmt::Formatter<'_>) -> fmt::Result {
        f.write_str(match self {
            NoteRefusal::NoSuchCall => "no such call yet",
            NoteRefusal::PublishedEarly => "published before its call",
            NoteRefusal::SeenEarly => "seen before it was published",
            NoteRefusal::MomentFalls => "moment before the last one",
        })
    }
}

impl error::Error for NoteRefusal {}

/// Why a call or a question has no answer. The key set is as it was, except after [`Error::Lost`].
#[derive(Debug)]
#[non_exhaustive]
pub enum Error {
    /// The key set refuses the call.
    Refused(Refusal),
    /// A text isn't the name of a zone.
    NotAZone,
    /// A text isn't the reference of a key: one or more visible ASCII characters without a comma,
    /// and not just `-`.
    NotAReference,
    /// A line of the script doesn't have the form of a line.
    Malformed {
        /// The number of the line, counted from 1.
        line: usize,
    },
    /// A line of a script that was opened is refused: what follows answers another course than when
    /// it was accepted. The script may have lost a line.
    RefusedLine {
        /// The number of the line, counted from 1.
        line: usize,
        /// Why it is refused.
        refusal: Refusal,
    },
    /// The last line of a file has no line feed: a crash has torn it, or an editor left it out.
    Torn {
        /// The number of the line, counted from 1.
        line: usize,
    },
    /// There are no notes: a line `before` comes first.
    NoNotes,
    /// A line of the notes doesn't have the form of a line; or the first isn't a line `before`.
    MalformedNote {
        /// The number of the line, counted from 1.
        line: usize,
    },
    /// The fact on a line of the notes isn't taken.
    RefusedNote {
        /// The number of the line, counted from 1.
        line: usize,
        /// Why it isn't taken.
        refusal: NoteRefusal,
    },
    /// What a policy says isn't said: why, as `policy: line 2: said twice`.
    NotSaid(String),
    /// There is no memory. The call may be made again.
    OutOfMemory,
    /// Memory ran out after a part of a call was made by [`Session::call`](crate::Session::call).
    /// The session is of no more use: open a new one with its lines. A [`KeySet`](crate::KeySet)
    /// never gives it.
    Lost,
    /// Another program, or another value of this one, has the file.
    Locked,
    /// Another program has changed the file, or put another one in its place, although it is
    /// locked. Open it again.
    Changed,
    /// The file can't be read or written. It is as it was.
    Io(io::Error),
    /// A line couldn't be synced, nor cut off again. In memory its call isn't made; on disk it may
    /// stand at the end of the file, or a part of it, until the next call is made or the file is
    /// opened. So look there before you open it.
    NotCutOff(io::Error),
    /// The library gives an answer of another release than this crate.
    OtherRelease,
}

impl Error {
    /// The error for a status that a question or a call has no other use for.
    pub(crate) fn of_status(status: u32) -> Error {
        match status {
            c::CLOSED | c::LOST => Error::Lost,
            _ => Error::OutOfMemory,
        }
    }

    /// The error for a refused answer.
    pub(crate) fn of_reason(reason: &str) -> Error {
        match reason.parse() {
            Ok(refusal) => Error::Refused(refusal),
            Err(_) if reason == "out of memory" => Error::OutOfMemory,
            Err(_) => Error::OtherRelease,
        }
    }
}

impl fmt::Display for Error {
    fn fmt(&self, f: &mut fmt::Formatter<'_>) -> fmt::Result {
        match self {
            Error::Refused(refusal) => write!(f, "refused: {refusal}"),
            Error::NotAZone => f.write_str("not the name of a zone"),
            Error::NotAReference => f.write_str("not the reference of a key"),
            Error::Malformed { line } => write!(f, "line {line}: malformed"),
            Error::RefusedLine { line, refusal } => write!(f, "line {line}: refused: {refusal}"),
            Error::Torn { line } => write!(f, "line {line}: no line feed at its end"),
            Error::NoNotes => f.write_str("no notes: a line `before` comes first"),
            Error::MalformedNote { line } => write!(f, "notes: line {line}: malformed"),
            Error::RefusedNote { line, refusal } => write!(f, "notes: line {line}: {refusal}"),
            Error::NotSaid(why) => f.write_str(why),
            Error::OutOfMemory => f.write_str("out of memory"),
            Error::Lost => f.write_str("out of memory in a call: the session is closed"),
            Error::Locked => f.write_str("another program has the file"),
            Error::Changed => f.write_str("another program has changed or replaced the file"),
            Error::Io(_) => f.write_str("the file can't be read or written"),
            Error::NotCutOff(_) => {
                f.write_str("the line can't be synced, and may stand at the end of the file")
            }
            Error::OtherRelease => f.write_str("the library is of another release"),
        }
    }
}

impl error::Error for Error {
    fn source(&self) -> Option<&(dyn error::Error + 'static)> {
        match self {
            Error::Refused(refusal) | Error::RefusedLine { refusal, .. } => Some(refusal),
            Error::RefusedNote { refusal, .. } => Some(refusal),
            Error::Io(error) | Error::NotCutOff(error) => Some(error),
            _ => None,
        }
    }
}

impl From<io::Error> for Error {
    fn from(error: io::Error) -> Self {
        match error.kind() {
            io::ErrorKind::OutOfMemory => Error::OutOfMemory,
            _ => Error::Io(error),
        }
    }
}

impl From<TryReserveError> for Error {
    fn from(_: TryReserveError) -> Self {
        Error::OutOfMemory
    }
}
