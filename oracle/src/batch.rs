//! Batches: scripts one after another, each ended by a line that holds just `=`.

use crate::play::Play;
use std::io::{self, BufRead, Write};

pub type Script = Vec<Vec<u8>>;

/// The next script of a batch, or nothing at its end.
pub fn read(input: &mut impl BufRead) -> io::Result<Option<Script>> {
    let mut script = Script::new();
    loop {
        let mut line = Vec::new();
        if input.read_until(b'\n', &mut line)? == 0 {
            return match script.is_empty() {
                true => Ok(None),
                false => Err(io::Error::other("the last script has no end line")),
            };
        }
        if line.last() == Some(&b'\n') {
            line.pop();
        }
        if line == b"=" {
            return Ok(Some(script));
        }
        script.push(line);
    }
}

pub fn write(out: &mut impl Write, script: &Script) -> io::Result<()> {
    for line in script {
        out.write_all(line)?;
        out.write_all(b"\n")?;
    }
    out.write_all(b"=\n")
}

/// Prints the answers to a script, and its end line.
pub fn answer<P: Play>(out: &mut impl Write, script: &Script) -> io::Result<()> {
    match P::start(script.first().map_or(b"", Vec::as_slice)) {
        Err(refused) => writeln!(out, "{refused}\n= "),
        Ok(mut play) => {
            for text in &script[1..] {
                let answer = play.line(text);
                writeln!(out, "{answer} | {}", play.beside())?;
            }
            let hex: String = play
                .bytes()
                .iter()
                .map(|byte| format!("{byte:02x}"))
                .collect();
            writeln!(out, "= {hex}")
        }
    }
}

/// Why a script leaves the common domain, if it does.
pub fn outside<P: Play>(script: &Script) -> Option<&'static str> {
    let mut play = P::start(script.first()?).ok()?;
    for text in &script[1..] {
        play.line(text);
    }
    play.outside()
}
