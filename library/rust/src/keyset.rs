//! The key set, in memory or with a file.

use crate::error::{Error, Refusal};
use crate::file::Lines;
use crate::names::{Action, RollType};
use crate::notes::{Due, Note};
use crate::read;
use crate::session::{next, Session};
use crate::status::{Broken, Key, Published, Roll, Status, WaitEnd};
use crate::text::{append_line, collected, copied, push, text};
use crate::todo::Todo;
use std::path::Path;

/// What an accepted call says.
#[derive(Clone, Debug, PartialEq, Eq)]
#[non_exhaustive]
pub struct Accepted {
    /// The number of the call, by which [notes](Note::Published) name it: that of its line in the
    /// script, less one.
    pub number: usize,
    /// What it asks for.
    pub actions: Vec<Action>,
}

/// A line that was refused when its script was opened.
#[derive(Clone, Copy, Debug, PartialEq, Eq, Hash)]
#[non_exhaustive]
pub struct RefusedLine {
    /// The number of the line, counted from 1.
    pub line: usize,
    /// Why it was refused.
    pub refusal: Refusal,
}

/// The keys of one zone.
///
/// An error leaves it as it was. Moments are whole seconds since 1970: round that of a report up,
/// and make the call once the clock has reached it; round any other down. Threads may ask one key
/// set side by side.
#[derive(Debug)]
pub struct KeySet {
    session: Session,
    script: String,
    notes: String,
    file: Option<Lines>,
    refused: Vec<RefusedLine>,
}

impl KeySet {
    /// A key set of this zone, without keys, in memory.
    ///
    /// # Errors
    ///
    /// [`Error::NotAZone`]; [`Error::OutOfMemory`].
    pub fn new(zone: &str) -> Result<Self, Error> {
        let first = first_line(zone)?;
        let mut script = String::new();
        append_line(&mut script, &first)?;
        Ok(KeySet {
            session: opened(&first)?,
            script,
            notes: String::new(),
            file: None,
            refused: Vec::new(),
        })
    }

    /// The same with a file, which must not be there yet. It is locked as long as this value is
    /// there. Each accepted line is on disk when its call returns.
    ///
    /// # Errors
    ///
    /// [`Error::NotAZone`]; [`Error::Io`], also if the file is there; [`Error::OutOfMemory`].
    pub fn create(path: impl AsRef<Path>, zone: &str) -> Result<Self, Error> {
        let line = first_line(zone)?;
        opened(&line)?;
        Lines::create(path.as_ref(), &line)?;
        KeySet::open(path)
    }

    /// The key set of a file, which is locked as long as this value is there.
    ///
    /// # Errors
    ///
    /// [`Error::RefusedLine`] if a line is refused, so that the script may have lost one before it,
    /// and [`Error::Torn`] if the last line has no line feed: [`OpenOptions`] opens such files;
    /// [`Error::Malformed`]; [`Error::Locked`]; [`Error::Io`]; [`Error::OutOfMemory`].
    pub fn open(path: impl AsRef<Path>) -> Result<Self, Error> {
        OpenOptions::new().open(path)
    }

    /// Goes on in memory with the lines of a script. Text after its last line feed was not written
    /// to its end, and is left out.
    ///
    /// # Errors
    ///
    /// [`Error::RefusedLine`] if a line is refused, so that the script may have lost one before it:
    /// [`OpenOptions`] allows that; [`Error::Malformed`]; [`Error::OutOfMemory`].
    pub fn resume(script: &str) -> Result<Self, Error> {
        OpenOptions::new().resume(script)
    }

    /// Lines that were refused when the script was opened.
    pub fn refused(&self) -> &[RefusedLine] {
        &self.refused
    }

    /// The lines of the script: those that were accepted, and those of [`KeySet::refused`].
    pub fn script(&self) -> &str {
        &self.script
    }

    /// How many calls the script has: the number of the last one.
    pub fn calls(&self) -> usize {
        self.session.calls()
    }

    /// Makes a call, a line of a script, and gives its number and what it asks for. With a file,
    /// the line is on disk when this returns.
    ///
    /// # Errors
    ///
    /// [`Error::Refused`]; [`Error::Malformed`]; [`Error::OutOfMemory`]; with a file [`Error::Io`],
    /// [`Error::NotCutOff`] and [`Error::Changed`].
    pub fn call(&mut self, line: &str) -> Result<Accepted, Error> {
        let (tried, accepted) = self.tried(line)?;
        self.script.try_reserve(line.len() + 1)?;
        if let Some(file) = &mut self.file {
            file.append(line)?;
        }
        self.session = tried;
        append_line(&mut self.script, line)?;
        Ok(accepted)
    }

    /// What a call would say, without making it.
    ///
    /// # Errors
    ///
    /// [`Error::Refused`]; [`Error::Malformed`]; [`Error::OutOfMemory`].
    pub fn would(&self, line: &str) -> Result<Accepted, Error> {
        Ok(self.tried(line)?.1)
    }

    fn tried(&self, line: &str) -> Result<(Session, Accepted), Error> {
        let mut tried = self.session.try_clone()?;
        if line.contains('\n') {
            let line = tried.calls() + 2;
            return Err(Error::Malformed { line });
        }
        let answer = tried.accept(line)?;
        let named = |name: &str| name.parse().map_err(|_| Error::OtherRelease);
        let accepted = Accepted {
            number: tried.calls(),
            actions: collected(answer.split(' ').skip(1).map(named))?,
        };
        Ok((tried, accepted))
    }

    /// Takes the next line of the zone's notes. They are kept in memory only: keep their lines in a
    /// file of your own, each before you go on, and hand them in again after you have opened the
    /// key set.
    ///
    /// # Errors
    ///
    /// [`Error::MalformedNote`] if the first one isn't [`Note::Before`], or another one is;
    /// [`Error::RefusedNote`]; [`Error::OutOfMemory`].
    pub fn note(&mut self, note: Note) -> Result<(), Error> {
        let line = text(format_args!("{note}"))?;
        self.notes.try_reserve(line.len() + 1)?;
        self.session.note(&line)?;
        append_line(&mut self.notes, &line)
    }

    /// What a policy says to do next at this moment, by the notes. The text of a policy has the
    /// form that docs/POLICY.md has. It runs the script again.
    ///
    /// # Errors
    ///
    /// [`Error::NotSaid`] if the policy is refused, or a lifetime is shorter than its roll takes;
    /// [`Error::NoNotes`]; [`Error::OutOfMemory`].
    pub fn next(&self, policy: &str, now: u64) -> Result<Todo, Error> {
        if self.notes.is_empty() {
            return Err(Error::NoNotes);
        }
        Todo::read(&next(policy, &self.script, &self.notes, now)?)
    }

    /// The reports that the rolls wait for, as they would be made at this moment, by the notes.
    ///
    /// # Errors
    ///
    /// [`Error::NoNotes`]; [`Error::OutOfMemory`].
    pub fn due(&self, now: u64) -> Result<Vec<Due>, Error> {
        let lines = self.session.due(now)?;
        collected(
            lines
                .lines()
                .map(|it| Due::read(it).ok_or(Error::OtherRelease)),
        )
    }

    /// The status of the zone, which the questions below read. They have the same errors.
    ///
    /// # Errors
    ///
    /// [`Error::OutOfMemory`]; [`Error::OtherRelease`] if the library says a word that this crate
    /// doesn't know.
    pub fn status(&self) -> Result<Status, Error> {
        read::status(&self.session.status()?)
    }

    /// The keys, in the order of the bytes of their references.
    ///
    /// # Errors
    ///
    /// As of [`KeySet::status`].
    pub fn keys(&self) -> Result<Vec<Key>, Error> {
        Ok(self.status()?.keys)
    }

    /// The rolls in progress.
    ///
    /// # Errors
    ///
    /// As of [`KeySet::status`].
    pub fn rolls(&self) -> Result<Vec<Roll>, Error> {
        Ok(self.status()?.rolls)
    }

    /// What is due in a roll that is in progress; nothing for another.
    ///
    /// # Errors
    ///
    /// As of [`KeySet::status`].
    pub fn actions(&self, roll: RollType) -> Result<Vec<Action>, Error> {
        let found = self.rolls()?.into_iter().find(|it| it.roll == roll);
        Ok(found.map_or(Vec::new(), |it| it.due))
    }

    /// The first second from which the roll's wait is accepted, if it is in one.
    ///
    /// # Errors
    ///
    /// As of [`KeySet::status`].
    pub fn wait_end(&self, roll: RollType) -> Result<Option<WaitEnd>, Error> {
        Ok(self.status()?.roll(roll).and_then(|it| it.not_before))
    }

    /// What has to be published now.
    ///
    /// # Errors
    ///
    /// As of [`KeySet::status`].
    pub fn published(&self) -> Result<Published, Error> {
        Ok(self.status()?.published)
    }

    /// None if the chain of trust held all the time; else the first sets without one.
    ///
    /// # Errors
    ///
    /// As of [`KeySet::status`].
    pub fn verdict(&self) -> Result<Option<Broken>, Error> {
        Ok(self.status()?.broken)
    }
}

/// The first line of a script.
fn first_line(zone: &str) -> Result<String, Error> {
    match zone.contains('\n') {
        true => Err(Error::NotAZone),
        false => text(format_args!("zone {zone}")),
    }
}

/// A session of the zone that a caller has named.
fn opened(line: &str) -> Result<Session, Error> {
    Session::open(line).map_err(|error| match error {
        Error::Malformed { .. } => Error::NotAZone,
        error => error,
    })
}

/// How a script is opened that isn't as it was left.
#[derive(Clone, Copy, Debug, Default, PartialEq, Eq, Hash)]
pub struct OpenOptions {
    allow_refused: bool,
    cut_torn: bool,
}

impl OpenOptions {
    /// Every fault is an error.
    pub const fn new() -> Self {
        OpenOptions {
            allow_refused: false,
            cut_torn: false,
        }
    }

    /// Whether lines may be refused. They stay in the script, and keep their numbers;
    /// [`KeySet::refused`] has them.
    #[must_use]
    pub const fn allow_refused(self, allow_refused: bool) -> Self {
        OpenOptions {
            allow_refused,
            ..self
        }
    }

    /// Whether a last line without a line feed is left out. If only this crate writes the file, a
    /// crash has torn it, and nobody acted on it. The next call cuts it off.
    #[must_use]
    pub const fn cut_torn(self, cut_torn: bool) -> Self {
        OpenOptions { cut_torn, ..self }
    }

    /// The key set of a file, which is locked as long as this value is there.
    ///
    /// # Errors
    ///
    /// As of [`KeySet::open`], except for what is allowed.
    pub fn open(self, path: impl AsRef<Path>) -> Result<KeySet, Error> {
        let (file, text) = Lines::open(path.as_ref())?;
        if file.is_torn() && !self.cut_torn {
            let line = text.split_terminator('\n').count() + 1;
            return Err(Error::Torn { line });
        }
        self.replayed(text, Some(file))
    }

    /// Goes on in memory with the lines of a script. Text after its last line feed is left out.
    ///
    /// # Errors
    ///
    /// As of [`KeySet::resume`], except for what is allowed.
    pub fn resume(self, script: &str) -> Result<KeySet, Error> {
        let end = script.rfind('\n').map_or(0, |at| at + 1);
        self.replayed(copied(&script[..end])?, None)
    }

    /// The key set after the lines of a script.
    fn replayed(self, script: String, file: Option<Lines>) -> Result<KeySet, Error> {
        // (`lines` would drop a carriage return, which makes a line malformed.)
        let mut lines = script.split_terminator('\n');
        let mut session = Session::open(lines.next().ok_or(Error::Malformed { line: 1 })?)?;
        let mut refused = Vec::new();
        for (line, call) in (2..).zip(lines) {
            let answer = match session.call(call) {
                // The session was made here, so nobody loses it.
                Err(Error::Lost) => return Err(Error::OutOfMemory),
                answer => answer?,
            };
            let refusal = match answer.strip_prefix("refused: ").map(Error::of_reason) {
                None => continue,
                Some(Error::Refused(refusal)) => refusal,
                Some(error) => return Err(error),
            };
            push(&mut refused, RefusedLine { line, refusal })?;
        }
        // (A malformed line after it comes first: then nothing is run.)
        if let (false, Some(&RefusedLine { line, refusal })) = (self.allow_refused, refused.first())
        {
            return Err(Error::RefusedLine { line, refusal });
        }
        Ok(KeySet {
            session,
            script,
            notes: String::new(),
            file,
            refused,
        })
    }
}
