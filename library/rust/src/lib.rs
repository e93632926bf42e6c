//! A proved DNSSEC key set: a safe wrapper of its static library.
//!
//! A [`KeySet`] has the calls of `domain`'s `KeySet`. Its state is the lines that were accepted: in
//! memory, or in a file, to which each accepted call is appended and synced before it returns. The
//! page for callers is docs/CALLERS.md.
//!
//! ```no_run
//! use keyset::{Algorithm, Error, KeySet, NewKey, Refusal, RollType};
//!
//! fn main() -> Result<(), Error> {
//!     let mut keys = KeySet::create("example.com.script", "example.com")?;
//!     let made = |key_tag| NewKey::new(Algorithm::ECDSAP256SHA256, key_tag, 0);
//!     keys.add_key_ksk("K1", None, made(1))?;
//!     keys.add_key_zsk("Z1", None, made(2))?;
//!     let roll = RollType::AlgorithmRoll;
//!     for action in keys.start_roll(roll, &[], &["K1", "Z1"], 100)?.actions {
//!         println!("{action}");
//!     }
//!     keys.propagation1_complete(roll, 3600, 200)?;
//!     match keys.cache_expired1(roll, 3700) {
//!         Err(Error::Refused(Refusal::Wait { seconds })) => println!("{seconds} seconds left"),
//!         accepted => println!("call {}", accepted?.number),
//!     }
//!     Ok(())
//! }
//! ```
//!
//! # Memory
//!
//! If there is no memory, the error is [`Error::OutOfMemory`], and nothing has changed. What the
//! standard library allocates by itself, as for a path, ends the program, as it does everywhere.

#![deny(missing_docs)]
#![warn(rustdoc::all)]

mod algorithm;
mod c;
mod calls;
mod error;
mod file;
mod interface;
mod json;
mod keyset;
mod names;
mod notes;
mod read;
mod session;
mod status;
mod text;
mod todo;

pub use self::keyset::{Accepted, KeySet, OpenOptions, RefusedLine};
pub use algorithm::Algorithm;
pub use calls::NewKey;
pub use error::{Error, NoteRefusal, Refusal};
pub use names::{
    Action, KeyKind, Next, Phase, RoleKind, RollType, SetKind, State, UnknownName, WaitsFor,
};
pub use notes::{Due, Note, Report};
pub use session::{answer, next, version, Session};
pub use status::{Broken, Ended, Key, Published, Role, Roll, Stamps, Status, WaitEnd};
pub use todo::Todo;
