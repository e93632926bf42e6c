//! Texts and lists that grow as far as there is memory, and else say so.

use crate::error::Error;
use std::fmt::{self, Write};

/// A text that `write!` appends to.
struct Appender(String);

impl Write for Appender {
    fn write_str(&mut self, more: &str) -> fmt::Result {
        self.0.try_reserve(more.len()).map_err(|_| fmt::Error)?;
        self.0.push_str(more);
        Ok(())
    }
}

/// What `format!` makes.
pub(crate) fn text(arguments: fmt::Arguments<'_>) -> Result<String, Error> {
    let mut appender = Appender(String::new());
    appender
        .write_fmt(arguments)
        .map_err(|_| Error::OutOfMemory)?;
    Ok(appender.0)
}

/// A copy of a text.
pub(crate) fn copied(it: &str) -> Result<String, Error> {
    text(format_args!("{it}"))
}

/// Appends a line and its line feed.
pub(crate) fn append_line(text: &mut String, line: &str) -> Result<(), Error> {
    text.try_reserve(line.len() + 1)?;
    text.push_str(line);
    text.push('\n');
    Ok(())
}

/// Appends to a list.
pub(crate) fn push<T>(list: &mut Vec<T>, one: T) -> Result<(), Error> {
    list.try_reserve(1)?;
    list.push(one);
    Ok(())
}

/// A list of all values, or the first error.
pub(crate) fn collected<T>(
    values: impl Iterator<Item = Result<T, Error>>,
) -> Result<Vec<T>, Error> {
    let mut list = Vec::new();
    for value in values {
        push(&mut list, value?)?;
    }
    Ok(list)
}

/// Zeros for an answer.
pub(crate) fn room(length: usize) -> Result<Vec<u8>, Error> {
    let mut out = Vec::new();
    out.try_reserve_exact(length)?;
    out.resize(length, 0);
    Ok(out)
}
