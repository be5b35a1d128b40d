//! What the published files name of wasmtime: its error, and the macro that makes one of a message.

pub use anyhow::{Error, anyhow as format_err};
