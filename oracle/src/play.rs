//! What a script's run is, over either stream, and the words of the Rust's errors.

use crate::p2::StreamError;
use crate::writer::Device;
use std::io;

pub trait Play: Sized {
    /// A refused or bad first line gives the one line that is printed for it.
    fn start(first: &[u8]) -> Result<Self, &'static str>;

    /// Performs one line after the first, and gives its answer.
    fn line(&mut self, text: &[u8]) -> String;

    /// What is printed beside each answer.
    fn beside(&self) -> String;

    /// The bytes that the script has brought to their place so far.
    fn bytes(&self) -> Vec<u8>;

    /// Why the lines so far lie outside the common domain, if they do.
    fn outside(&self) -> Option<&'static str>;
}

pub fn unit(result: Result<(), StreamError>) -> String {
    match result {
        Ok(()) => "ok".into(),
        Err(error) => refusal(error),
    }
}

pub fn count(result: Result<usize, StreamError>) -> String {
    match result {
        Ok(count) => count.to_string(),
        Err(error) => refusal(error),
    }
}

fn refusal(error: StreamError) -> String {
    match error {
        StreamError::Closed => "e 21".into(),
        StreamError::LastOperationFailed(error) => fault(&error.downcast().unwrap()),
        StreamError::Trap(error) => trap(&error.to_string()).into(),
    }
}

fn trap(message: &str) -> &'static str {
    match message {
        "concurrent writes are not supported"
        | "concurrent writes not supported yet"
        | "concurrent flushes not supported yet" => "e 10",
        "write not permitted while flush pending" => "e 11",
        "write exceeded budget" => "e 12",
        "write beyond capacity of MemoryOutputPipe" => "e 14",
        _ => panic!("a trap without a number: {message}"),
    }
}

pub fn fault(error: &io::Error) -> String {
    match error.get_ref().and_then(|inner| inner.downcast_ref()) {
        Some(Device(code)) => format!("e 20 d {code}"),
        None if error.kind() == io::ErrorKind::WriteZero => "e 20 zero".into(),
        None => panic!("a fault that no writer gave: {error}"),
    }
}
