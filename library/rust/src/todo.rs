//! What a policy says to do next.

use crate::algorithm::Algorithm;
use crate::error::Error;
use crate::names::{KeyKind, SetKind};
use crate::text::copied;

/// What a policy says to do next with a zone. docs/POLICY.md has its words.
#[derive(Clone, Debug, PartialEq, Eq)]
#[non_exhaustive]
pub enum Todo {
    /// Make this call at the moment at which it was said: [`KeySet::call`](crate::KeySet::call)
    /// takes the line.
    Call(String),
    /// Note that the sets of this kind are published as they are due now, and publish them.
    Publish(SetKind),
    /// See whether all servers give the newest sets of this kind, and note it.
    Watch(SetKind),
    /// Make a key, and add it.
    Key {
        /// Its kind.
        kind: KeyKind,
        /// Its algorithm.
        algorithm: Algorithm,
    },
    /// Nothing before this second since 1970, unless something is noted or the policy changes.
    Until(u64),
    /// Nothing, and why.
    Nothing(String),
}

impl Todo {
    /// Reads the line that says it.
    pub(crate) fn read(line: &str) -> Result<Todo, Error> {
        let (word, rest) = line.split_once(' ').unwrap_or((line, ""));
        match word {
            "publish" => read(rest).map(Todo::Publish),
            "watch" => read(rest).map(Todo::Watch),
            "key" => {
                let (kind, algorithm) = rest.split_once(' ').ok_or(Error::OtherRelease)?;
                Ok(Todo::Key {
                    kind: read(kind)?,
                    algorithm: Algorithm(read(algorithm)?),
                })
            }
            "until" => read(rest).map(Todo::Until),
            "nothing:" => copied(rest).map(Todo::Nothing),
            _ => copied(line).map(Todo::Call),
        }
    }
}

fn read<T: std::str::FromStr>(word: &str) -> Result<T, Error> {
    word.parse().map_err(|_| Error::OtherRelease)
}
