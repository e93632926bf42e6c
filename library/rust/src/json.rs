//! Reads the status: JSON in one shape, with texts, numbers, flags, lists and members.

use crate::error::Error;
use crate::text::push;

/// A value of JSON.
#[derive(Debug, PartialEq)]
pub(crate) enum Json {
    Null,
    Flag(bool),
    Number(u64),
    Text(String),
    List(Vec<Json>),
    Members(Vec<(String, Json)>),
}

impl Json {
    /// Reads a value, if the whole text is one. Else the error is `OtherRelease`.
    pub(crate) fn read(text: &str) -> Result<Json, Error> {
        let mut rest = text.trim_end();
        let value = value(&mut rest)?;
        match rest {
            "" => Ok(value),
            _ => Err(Error::OtherRelease),
        }
    }

    /// The value of a member.
    pub(crate) fn get(&self, name: &str) -> &Json {
        match self {
            Json::Members(members) => members
                .iter()
                .find(|(it, _)| it == name)
                .map_or(&Json::Null, |(_, value)| value),
            _ => &Json::Null,
        }
    }

    pub(crate) fn list(&self) -> &[Json] {
        match self {
            Json::List(values) => values,
            _ => &[],
        }
    }

    pub(crate) fn text(&self) -> Option<&str> {
        match self {
            Json::Text(text) => Some(text),
            _ => None,
        }
    }

    pub(crate) fn number(&self) -> Option<u64> {
        match self {
            Json::Number(number) => Some(*number),
            _ => None,
        }
    }

    pub(crate) fn flag(&self) -> bool {
        *self == Json::Flag(true)
    }
}

fn value(rest: &mut &str) -> Result<Json, Error> {
    for (word, value) in [
        ("null", Json::Null),
        ("true", Json::Flag(true)),
        ("false", Json::Flag(false)),
    ] {
        if skipped(rest, word) {
            return Ok(value);
        }
    }
    match rest.chars().next() {
        Some('"') => text(rest).map(Json::Text),
        Some('[') => between(rest, "[", "]", value).map(Json::List),
        Some('{') => between(rest, "{", "}", member).map(Json::Members),
        _ => number(rest),
    }
}

fn member(rest: &mut &str) -> Result<(String, Json), Error> {
    let name = text(rest)?;
    skip(rest, ":")?;
    Ok((name, value(rest)?))
}

fn skipped(rest: &mut &str, word: &str) -> bool {
    match rest.strip_prefix(word) {
        Some(after) => {
            *rest = after;
            true
        }
        None => false,
    }
}

fn skip(rest: &mut &str, word: &str) -> Result<(), Error> {
    match skipped(rest, word) {
        true => Ok(()),
        false => Err(Error::OtherRelease),
    }
}

/// Values with commas between them, between two marks.
fn between<T>(
    rest: &mut &str,
    begin: &str,
    end: &str,
    one: fn(&mut &str) -> Result<T, Error>,
) -> Result<Vec<T>, Error> {
    skip(rest, begin)?;
    let mut values = Vec::new();
    while !skipped(rest, end) {
        if !values.is_empty() {
            skip(rest, ",")?;
        }
        push(&mut values, one(rest)?)?;
    }
    Ok(values)
}

fn number(rest: &mut &str) -> Result<Json, Error> {
    let end = rest
        .find(|it: char| !it.is_ascii_digit())
        .unwrap_or(rest.len());
    let (digits, after) = rest.split_at(end);
    *rest = after;
    let number = digits.parse().map_err(|_| Error::OtherRelease)?;
    Ok(Json::Number(number))
}

fn text(rest: &mut &str) -> Result<String, Error> {
    skip(rest, "\"")?;
    let mut text = String::new();
    loop {
        let next = next(rest)?;
        let read = match next {
            '"' => return Ok(text),
            '\\' => escaped(rest)?,
            _ => next,
        };
        text.try_reserve(read.len_utf8())?;
        text.push(read);
    }
}

fn next(rest: &mut &str) -> Result<char, Error> {
    let next = rest.chars().next().ok_or(Error::OtherRelease)?;
    *rest = &rest[next.len_utf8()..];
    Ok(next)
}

/// The character of an escape (RFC 8259, section 7) of the status: `"`, `\` or a control character.
fn escaped(rest: &mut &str) -> Result<char, Error> {
    let mark = next(rest)?;
    if mark != 'u' {
        return Ok(mark);
    }
    let (digits, after) = match (rest.get(..4), rest.get(4..)) {
        (Some(digits), Some(after)) => (digits, after),
        _ => return Err(Error::OtherRelease),
    };
    *rest = after;
    let code = u32::from_str_radix(digits, 16).map_err(|_| Error::OtherRelease)?;
    char::from_u32(code).ok_or(Error::OtherRelease)
}

#[cfg(test)]
mod tests {
    use super::Json;

    #[test]
    fn escapes_are_read() {
        for (text, wanted) in [
            (r#""\"\\""#, Some("\"\\")),
            (r#""\u0010\u001f\u00e9""#, Some("\u{10}\u{1f}\u{e9}")),
            (r#""\u00""#, None),
            (r#""\uD800""#, None),
            (r#""a"#, None),
            (r#""a"b"#, None),
        ] {
            let read = Json::read(text).ok();
            assert_eq!(read.as_ref().and_then(Json::text), wanted, "{text}");
        }
    }
}
