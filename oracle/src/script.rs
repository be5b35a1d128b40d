//! The script's text: first lines and command lines.

use crate::writer::Entry;

pub enum Command<'a> {
    Write(&'a [u8]),
    CheckWrite,
    Flush,
    Cancel,
    /// `X`, known to this driver only: cancel through the published shared stream.
    CancelShared,
    Turn,
    /// `T`: turns up to the first that answers wait, failed, idle or stopped.
    Turns,
    HandleWrite(usize, &'a [u8]),
    HandleFlush(usize),
    HandleDrop(usize),
}

pub enum Line<'a> {
    Plan(Entry),
    Command(Command<'a>),
    Misfit,
}

pub fn line(text: &[u8]) -> Line<'_> {
    match (command(text), plan(text)) {
        (Some(command), _) => Line::Command(command),
        (None, Some(entry)) => Line::Plan(entry),
        (None, None) => Line::Misfit,
    }
}

fn command(text: &[u8]) -> Option<Command<'_>> {
    Some(match text {
        b"c" => Command::CheckWrite,
        b"f" => Command::Flush,
        b"x" => Command::Cancel,
        b"X" => Command::CancelShared,
        b"t" => Command::Turn,
        b"T" => Command::Turns,
        [b'w', b' ', bytes @ ..] => Command::Write(bytes),
        [b'W', b' ', rest @ ..] => {
            let blank = rest.iter().position(|&byte| byte == b' ')?;
            Command::HandleWrite(number(&rest[..blank])?, &rest[blank + 1..])
        }
        [b'F', b' ', digits @ ..] => Command::HandleFlush(number(digits)?),
        [b'D', b' ', digits @ ..] => Command::HandleDrop(number(digits)?),
        _ => return None,
    })
}

fn plan(text: &[u8]) -> Option<Entry> {
    match text {
        b"q" => Some(Entry::NotYet),
        [b'p', b' ', digits @ ..] => at_most(digits, 4_096).map(Entry::AtMost),
        [b'r', b' ', digits @ ..] => at_most(digits, 255).map(|code| Entry::Fail(code as u8)),
        _ => None,
    }
}

/// The first line of a script for the shared stream: budget and count of handles.
pub fn limits(text: &[u8]) -> Option<(usize, usize)> {
    let blank = text.iter().position(|&byte| byte == b' ')?;
    Some((number(&text[..blank])?, number(&text[blank + 1..])?))
}

/// The first line of a script for the memory pipe: its capacity.
pub fn capacity(text: &[u8]) -> Option<usize> {
    at_most(text.strip_prefix(b"pipe ")?, 4_096)
}

fn at_most(digits: &[u8], most: usize) -> Option<usize> {
    number(digits).filter(|&number| number <= most)
}

fn number(digits: &[u8]) -> Option<usize> {
    if digits.is_empty() || digits.len() > 9 || !digits.iter().all(u8::is_ascii_digit) {
        return None;
    }
    std::str::from_utf8(digits).ok()?.parse().ok()
}
