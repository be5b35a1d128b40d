//! The driver: it answers scripts with the published Rust, and makes scripts to answer.
//!
//!     oracle [--pipe]                                  answers the batch on standard input
//!     oracle filter [--pipe]                           passes on those scripts that stay in the common domain
//!     oracle generate [--pipe] --random N --seed S     makes N varied scripts
//!     oracle generate [--pipe] --exhaustive            makes all short scripts over small alphabets
//!
//! `filter` and `generate` tell on standard error how many scripts they left out, and why.

mod batch;
#[allow(dead_code)]
mod cli;
mod exhaustive;
mod p2;
mod pipe;
mod play;
mod random;
mod script;
mod shared;
mod varied;
mod varied_pipe;
mod writer;

#[allow(dead_code)]
#[path = "../target/published/src/runtime.rs"]
mod runtime;

// Named by the published pipe, whose readers nobody here makes.
const MAX_READ_SIZE_ALLOC: usize = 64 * 1024;

use batch::Script;
use play::Play;
use std::collections::BTreeMap;
use std::io::{self, BufWriter, Write};
use std::process::ExitCode;

fn main() -> ExitCode {
    let mut words: Vec<String> = std::env::args().skip(1).collect();
    let piped = words.iter().position(|word| word == "--pipe");
    let done = match piped.map(|at| words.remove(at)) {
        Some(_) => run::<pipe::Pipe>(&words, varied_pipe::script, exhaustive::pipe),
        None => run::<shared::Shared>(&words, varied::script, exhaustive::shared),
    };
    match done {
        Ok(()) => ExitCode::SUCCESS,
        Err(error) => {
            eprintln!("oracle: {error}");
            ExitCode::FAILURE
        }
    }
}

fn run<P: Play>(
    words: &[String],
    random_script: fn(&mut random::Random) -> Script,
    all_scripts: fn() -> Box<dyn Iterator<Item = Script>>,
) -> io::Result<()> {
    let words: Vec<&str> = words.iter().map(String::as_str).collect();
    match words[..] {
        [] => answer::<P>(),
        ["filter"] => {
            let mut input = io::stdin().lock();
            pass_on::<P>(std::iter::from_fn(|| batch::read(&mut input).transpose()))
        }
        ["generate", "--exhaustive"] => pass_on::<P>(all_scripts().map(Ok)),
        ["generate", "--random", count, "--seed", seed] => {
            let mut random = random::Random::new(number(seed)?);
            let scripts = (0..number(count)?).map(|_| Ok(random_script(&mut random)));
            pass_on::<P>(scripts)
        }
        _ => Err(io::Error::other("unknown words on the command line")),
    }
}

fn number(word: &str) -> io::Result<u64> {
    word.parse().map_err(io::Error::other)
}

fn answer<P: Play>() -> io::Result<()> {
    let mut input = io::stdin().lock();
    let mut out = BufWriter::new(io::stdout().lock());
    while let Some(script) = batch::read(&mut input)? {
        batch::answer::<P>(&mut out, &script)?;
    }
    out.flush()
}

fn pass_on<P: Play>(scripts: impl Iterator<Item = io::Result<Script>>) -> io::Result<()> {
    let mut out = BufWriter::new(io::stdout().lock());
    let mut left_out = BTreeMap::<&str, usize>::new();
    for script in scripts {
        let script = script?;
        match batch::outside::<P>(&script) {
            None => batch::write(&mut out, &script)?,
            Some(why) => *left_out.entry(why).or_default() += 1,
        }
    }
    out.flush()?;
    for (why, count) in &left_out {
        eprintln!("{count} with {why}");
    }
    eprintln!("left out {}", left_out.values().sum::<usize>());
    Ok(())
}
