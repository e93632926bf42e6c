//! The library's functions, in a value that closes its session.

use crate::c;
use crate::error::{Error, NoteRefusal};
use crate::interface::INTERFACE;
use crate::text::room;

const ROOM: usize = 4096;

/// A key set that takes a script's lines one by one, and answers each as the program `keyset` does.
///
/// Threads may ask one session side by side.
#[derive(Debug)]
pub struct Session {
    handle: c::Handle,
    notes: usize,
}

impl Session {
    /// A key set of the zone that a script's first line names.
    ///
    /// # Errors
    ///
    /// [`Error::Malformed`] if the line names no zone; [`Error::OutOfMemory`];
    /// [`Error::OtherRelease`] if the library that is linked has another interface.
    pub fn open(line: &str) -> Result<Self, Error> {
        if version() != INTERFACE {
            return Err(Error::OtherRelease);
        }
        let mut handle = c::Handle::CLOSED;
        // SAFETY: the pointer is that of the text with its length, and the handle is a closed one.
        match unsafe { c::keyset_open(line.as_ptr(), line.len(), &mut handle) } {
            c::ANSWERED => Ok(Session { handle, notes: 0 }),
            c::MALFORMED => Err(Error::Malformed { line: 1 }),
            _ => Err(Error::OutOfMemory),
        }
    }

    /// Makes the call of a line, and gives its answer, which may be a refusal. A refused call is
    /// counted too, as in a script that keeps its line.
    ///
    /// # Errors
    ///
    /// [`Error::Malformed`] if the line doesn't have the form of a line; [`Error::OutOfMemory`].
    /// The session is then as it was. After [`Error::Lost`] it is of no more use: open a new one
    /// with its lines.
    pub fn call(&mut self, line: &str) -> Result<String, Error> {
        let mut out = room(ROOM)?;
        // SAFETY: each pointer is that of a slice with its length; only we use the handle.
        let outcome = unsafe {
            let (text, room) = (out.as_mut_ptr(), out.len());
            c::keyset_call(&mut self.handle, line.as_ptr(), line.len(), text, room)
        };
        match outcome.status {
            c::ANSWERED | c::SHORT => self.last_answer(out),
            c::MALFORMED => Err(self.malformed()),
            status => Err(Error::of_status(status)),
        }
    }

    /// Makes the call of a line if the key set accepts it, and gives its answer, which begins with
    /// `ok`. [`Session::calls`] is then its number. Else the session is as it was, and the refused
    /// call has no number.
    ///
    /// # Errors
    ///
    /// [`Error::Refused`]; [`Error::Malformed`]; [`Error::OutOfMemory`].
    pub fn accept(&mut self, line: &str) -> Result<String, Error> {
        let out = room(ROOM)?;
        // SAFETY: the pointer is that of the line with its length; only we use the handle.
        match unsafe { c::keyset_accept(&mut self.handle, line.as_ptr(), line.len()) } {
            c::ANSWERED => self.last_answer(out),
            c::REFUSED => match self.last_answer(out)?.strip_prefix("refused: ") {
                Some(reason) => Err(Error::of_reason(reason)),
                None => Err(Error::OtherRelease),
            },
            c::MALFORMED => Err(self.malformed()),
            status => Err(Error::of_status(status)),
        }
    }

    /// How many calls were made: the number of the last one.
    pub fn calls(&self) -> usize {
        // SAFETY: a question writes nothing into the session.
        unsafe { c::keyset_calls(&self.handle) }
    }

    /// The answer to the last call. A buffer that is there before the call has room for it.
    fn last_answer(&self, out: Vec<u8>) -> Answer {
        let again = |handle: *const _, out, room| unsafe { c::keyset_told(handle, out, room) };
        let mut answer = self.ask_into(out, again)?;
        answer.truncate(answer.trim_end_matches('\n').len());
        Ok(answer)
    }

    fn malformed(&self) -> Error {
        let line = self.calls() + 2;
        Error::Malformed { line }
    }

    /// The line of the published sets, and the verdict, after the calls so far.
    ///
    /// # Errors
    ///
    /// [`Error::OutOfMemory`].
    pub fn closing(&self) -> Result<String, Error> {
        self.ask(|handle, out, room| unsafe { c::keyset_closing(handle, out, room) })
    }

    /// The status of the zone, as a line of JSON.
    ///
    /// # Errors
    ///
    /// [`Error::OutOfMemory`].
    pub fn status(&self) -> Result<String, Error> {
        self.ask(|handle, out, room| unsafe { c::keyset_status(handle, out, room) })
    }

    /// Takes the next line of the zone's notes. The first one begins with `before`. Notes stay when
    /// more calls are made.
    ///
    /// # Errors
    ///
    /// [`Error::MalformedNote`]; [`Error::RefusedNote`] if its fact can't follow the calls or the
    /// facts before it; [`Error::NoNotes`] if the session forgoes notes;
    /// [`Error::OutOfMemory`]. The notes are then as they were.
    pub fn note(&mut self, line: &str) -> Result<(), Error> {
        let number = self.notes + 1;
        // SAFETY: the pointer is that of the text with its length; only we use the handle.
        let refusal = match unsafe { c::keyset_note(&mut self.handle, line.as_ptr(), line.len()) } {
            c::ANSWERED => {
                self.notes = number;
                return Ok(());
            }
            c::MALFORMED => return Err(Error::MalformedNote { line: number }),
            c::NO_SUCH_CALL => NoteRefusal::NoSuchCall,
            c::SEEN_EARLY => NoteRefusal::SeenEarly,
            c::MOMENT_FALLS => NoteRefusal::MomentFalls,
            c::PUBLISHED_EARLY => NoteRefusal::PublishedEarly,
            c::NO_NOTES => return Err(Error::NoNotes),
            status => return Err(Error::of_status(status)),
        };
        Err(Error::RefusedNote {
            line: number,
            refusal,
        })
    }

    /// Gives up the notes, and what is kept for them: 16 bytes for each call. From then on the
    /// session is as small after many calls as after few.
    pub fn forgo_notes(&mut self) {
        self.notes = 0;
        // SAFETY: only we use the handle. (It is open, so nothing can fail.)
        unsafe { c::keyset_forgo_notes(&mut self.handle) };
    }

    /// The reports that are due at this second since 1970, by the notes: a line for each roll that
    /// waits for one.
    ///
    /// # Errors
    ///
    /// [`Error::NoNotes`]; [`Error::OutOfMemory`].
    pub fn due(&self, seconds: u64) -> Result<String, Error> {
        if self.notes == 0 {
            return Err(Error::NoNotes);
        }
        self.ask(|handle, out, room| unsafe { c::keyset_due(handle, seconds, out, room) })
    }

    /// Another session in the same state, with the same notes.
    ///
    /// # Errors
    ///
    /// [`Error::OutOfMemory`].
    pub fn try_clone(&self) -> Result<Self, Error> {
        let mut handle = c::Handle::CLOSED;
        // SAFETY: only we use the two handles, and the second is a closed one.
        match unsafe { c::keyset_copy(&self.handle, &mut handle) } {
            c::ANSWERED => Ok(Session {
                handle,
                notes: self.notes,
            }),
            status => Err(Error::of_status(status)),
        }
    }

    /// Asks a question.
    fn ask(&self, question: impl Question) -> Answer {
        self.ask_into(room(ROOM)?, question)
    }

    /// Asks a question, and once more if its answer is longer than the room for it. A question
    /// writes nothing into the session, and gets the room that it asks for.
    fn ask_into(&self, mut out: Vec<u8>, question: impl Question) -> Answer {
        loop {
            let outcome = question(&self.handle, out.as_mut_ptr(), out.len());
            match outcome.status {
                c::ANSWERED => return text(out, outcome.length),
                c::SHORT => out = room(outcome.length)?,
                status => return Err(Error::of_status(status)),
            }
        }
    }
}

trait Question: Fn(*const c::Handle, *mut u8, usize) -> c::Answered {}

impl<T: Fn(*const c::Handle, *mut u8, usize) -> c::Answered> Question for T {}

type Answer = Result<String, Error>;

/// The first bytes of `out`, which the library has written.
fn text(mut out: Vec<u8>, length: usize) -> Answer {
    out.truncate(length);
    String::from_utf8(out).map_err(|_| Error::OtherRelease)
}

impl Drop for Session {
    fn drop(&mut self) {
        // SAFETY: only we use the handle, and nobody uses it again.
        unsafe { c::keyset_close(&mut self.handle) }
    }
}

/// The answers to a whole script, in the form in which the program `keyset` writes them.
///
/// # Errors
///
/// [`Error::Malformed`] with the first malformed line; then nothing was run.
/// [`Error::OutOfMemory`].
pub fn answer(script: &str) -> Result<String, Error> {
    let mut out = room(ROOM)?;
    loop {
        // SAFETY: each pointer is that of a slice with its length, and only we use `out`.
        let outcome = unsafe {
            let (text, room) = (out.as_mut_ptr(), out.len());
            c::keyset_answer(script.as_ptr(), script.len(), text, room)
        };
        match outcome.status {
            c::ANSWERED => return text(out, outcome.length),
            c::SHORT => out = room(outcome.length)?,
            c::MALFORMED => return Err(Error::Malformed { line: outcome.line }),
            _ => return Err(Error::OutOfMemory),
        }
    }
}

/// What a policy says to do next at this second since 1970, after the calls of a script and by the
/// notes beside it: a line, in the form in which the program `keyset next` writes it.
///
/// # Errors
///
/// [`Error::NotSaid`] if one of the texts is refused; [`Error::OutOfMemory`].
pub fn next(policy: &str, script: &str, notes: &str, seconds: u64) -> Result<String, Error> {
    let mut out = room(ROOM)?;
    loop {
        // SAFETY: each pointer is that of a slice with its length, and only we use `out`.
        let outcome = unsafe {
            let (policy, script, notes) = (parts(policy), parts(script), parts(notes));
            let (text, room) = (out.as_mut_ptr(), out.len());
            c::keyset_next(
                policy.0, policy.1, script.0, script.1, notes.0, notes.1, seconds, text, room,
            )
        };
        match outcome.status {
            c::ANSWERED => return text(out, outcome.length),
            c::NOT_SAID => return Err(Error::NotSaid(text(out, outcome.length)?)),
            c::SHORT => out = room(outcome.length)?,
            _ => return Err(Error::OutOfMemory),
        }
    }
}

/// A text as C takes it.
fn parts(text: &str) -> (*const u8, usize) {
    (text.as_ptr(), text.len())
}

/// The version of the interface of the library that is linked.
pub fn version() -> u32 {
    // SAFETY: it takes nothing.
    unsafe { c::keyset_version() }
}
