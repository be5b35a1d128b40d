//! Varied scripts for the shared stream. Each is written while it is played, so that it goes deep: most handles
//! repeat a call that was answered "wait", and a script ends before the line that leaves the common domain.

use crate::batch::Script;
use crate::play::Play;
use crate::random::Random;
use crate::script::{self, Command, Line};
use crate::shared::Shared;

/// A longer script would not be read whole.
const LONGEST: usize = 32_768;

#[rustfmt::skip]
const BAD_LIMITS: &[&str] = &[
    "", " ", "4", "4 ", " 1", "4  1", " 4 1", "4 1 ", "4 1\r", "4\t1", "a 1", "4 b", "-1 1", "+4 1",
    "4 +1", "0x4 1", "4,1", "1234567890 1", "4 0000000001", "4 1 1", "w ab", "?", "4097 1", "4097 0",
    "04097 2", "999999999 99", "4 0", "4 17", "000000004 017", "0 999999999", "4096 00",
];

#[rustfmt::skip]
const MISFITS: &[&str] = &[
    "", " ", "w", "W", "W ", "W 0", "W 0a", "W  0 a", "W a b", "W 0\ta", "W 0000000001 a", "W -1 a", "F",
    "F ", "F 0 ", "F  0", "F 0\r", "F x", "F 1234567890", "D", "D ", "D 0 ", "D0", "c ", "c\r", "cc", "f ",
    "ff", "x ", "t ", "t 1", "tt", "T ", "TT", "q ", "q 1", "p", "p ", "p 4097", "p 1 ", "p -1", "r", "r ",
    "r 256", "r 999999999", "r 5 ", "wab", "w\tab", " c", "=c", "= ", "==", "?", "ok", "e 15", "\0", "é", "C",
];

pub fn script(random: &mut Random) -> Script {
    if random.chance(2) {
        return random.badly_begun(BAD_LIMITS);
    }
    let budget = budget(random);
    let handles = match random.between(0, 99) {
        0..75 => random.between(1, 4),
        75..95 => random.between(5, 9),
        _ => random.between(10, 16),
    };
    let first = format!("{} {}", random.digits(budget), random.digits(handles));
    let mut author = Author::new(random, first, budget, handles);
    author.plan();
    author.commands();
    author.script
}

fn budget(random: &mut Random) -> usize {
    match random.between(0, 99) {
        0..2 => 0,
        2..75 => random.pick(&[1, 2, 3, 4, 5, 7, 8]),
        75..90 => random.between(6, 64),
        90..97 => random.between(65, 4_095),
        _ => 4_096,
    }
}

#[derive(Clone, Copy)]
enum Kind {
    Round,
    Repeat,
    HandleWrite,
    HandleFlush,
    HandleDrop,
    NoHandle,
    Write,
    CheckWrite,
    Flush,
    Turn,
    Cancel,
    Misfit,
}

use Kind::*;

type Leaning = &'static [(Kind, usize)];

#[rustfmt::skip]
const LEANINGS: &[Leaning] = &[
    // A bit of everything.
    &[
        (Round, 6), (Repeat, 20), (HandleWrite, 22), (HandleFlush, 12), (HandleDrop, 2), (NoHandle, 2),
        (Write, 10), (CheckWrite, 6), (Flush, 4), (Turn, 25), (Cancel, 1), (Misfit, 3),
    ],
    // A long line.
    &[
        (Round, 3), (Repeat, 30), (HandleWrite, 35), (HandleFlush, 15), (HandleDrop, 3), (Write, 2),
        (CheckWrite, 3), (Turn, 20),
    ],
    // Flushes of many.
    &[
        (Round, 10), (Repeat, 20), (HandleWrite, 15), (HandleFlush, 25), (HandleDrop, 2), (CheckWrite, 3),
        (Flush, 3), (Turn, 25), (Cancel, 1),
    ],
    // Patient hooks and a busy host.
    &[
        (Round, 25), (Repeat, 25), (HandleWrite, 16), (HandleFlush, 10), (HandleDrop, 1), (Turn, 25),
    ],
    // Hardly a handle.
    &[
        (Round, 2), (Repeat, 4), (HandleWrite, 3), (HandleFlush, 1), (Write, 34), (CheckWrite, 12),
        (Flush, 9), (Turn, 42), (Cancel, 1), (Misfit, 2),
    ],
    // Drops and cancels.
    &[
        (Round, 6), (Repeat, 20), (HandleWrite, 24), (HandleFlush, 12), (HandleDrop, 9), (NoHandle, 3),
        (Write, 6), (CheckWrite, 5), (Flush, 3), (Turn, 20), (Cancel, 3),
    ],
];

struct Author<'a> {
    random: &'a mut Random,
    play: Shared,
    script: Script,
    budget: usize,
    /// For each handle, its call that was last answered "wait".
    waiting: Vec<Option<Vec<u8>>>,
    /// The last turn had nothing to do, and nothing was accepted since.
    resting: bool,
    leaning: Leaning,
    /// How often, of a hundred times, a handle with a waiting call starts no other.
    patience: usize,
    /// With empty direct writes among the others there are whole polls only, no single turns.
    empty_writes: bool,
    odd_bytes: bool,
}

impl<'a> Author<'a> {
    fn new(random: &'a mut Random, first: String, budget: usize, handles: usize) -> Author<'a> {
        Author {
            play: Shared::start(first.as_bytes()).expect("good limits"),
            script: vec![first.into_bytes()],
            budget,
            waiting: vec![None; handles],
            resting: true,
            leaning: random.pick(LEANINGS),
            patience: random.pick(&[0, 60, 90, 100]),
            empty_writes: random.chance(25),
            odd_bytes: random.chance(15),
            random,
        }
    }

    fn plan(&mut self) {
        let entries = match self.random.between(0, 99) {
            0..25 => 0,
            25..80 => self.random.between(1, 8),
            80..96 => self.random.between(9, 32),
            _ => self.random.between(33, 35),
        };
        let faults = self.random.pick(&[0, 5, 15, 40]);
        let delays = self.random.pick(&[0, 10, 40]);
        for entry in 0..entries {
            // An early fault makes a short story.
            let faults = if entry < 3 { faults / 4 } else { faults };
            let line = match self.random.chance(1) {
                true => self.random.misfit(MISFITS),
                false => self.entry(faults, delays).into_bytes(),
            };
            if !self.keep_line(line) {
                return;
            }
        }
    }

    fn entry(&mut self, faults: usize, delays: usize) -> String {
        let random = &mut *self.random;
        if random.chance(faults) {
            let code = random.between(0, 255);
            return format!("r {}", random.digits(code));
        }
        if random.chance(delays) {
            return "q".into();
        }
        let count = match random.between(0, 99) {
            0..3 => 0,
            3..85 => random.between(1, 4),
            85..97 => random.between(5, 100),
            _ => random.between(101, 4_096),
        };
        format!("p {}", random.digits(count))
    }

    fn commands(&mut self) {
        if self.budget >= 255 && self.random.chance(30) && !self.crowd() {
            return;
        }
        let count = match self.random.between(0, 9) {
            0 => self.random.between(1, 5),
            1..4 => self.random.between(6, 20),
            _ => self.random.between(21, 60),
        };
        let end = self.script.len() + count;
        let mut after_the_end = 0;
        while self.script.len() < end && after_the_end < 12 {
            if !self.next() {
                return;
            }
            // Once turns have stopped, little more can happen.
            after_the_end += usize::from(self.play.is_stopped());
        }
    }

    fn next(&mut self) -> bool {
        match self.random.weighed(self.leaning) {
            Round => self.round(),
            Turn if self.resting && self.random.chance(80) => true,
            Cancel if self.script.len() < 20 && self.random.chance(80) => true,
            kind => {
                let line = self.command(kind);
                self.keep_line(line)
            }
        }
    }

    /// A turn, then a poll of every waiting call.
    fn round(&mut self) -> bool {
        let turn = self.turn();
        let first = self.handle();
        self.keep_line(turn)
            && (0..self.waiting.len()).all(|step| {
                let number = (first + step) % self.waiting.len();
                match self.waiting[number].clone() {
                    Some(call) => self.keep_line(call),
                    None => true,
                }
            })
    }

    /// Nearly as many unfinished writes as the common domain has.
    fn crowd(&mut self) -> bool {
        let count = self.random.between(240, 255);
        (0..count).all(|_| self.keep_line(b"w a".to_vec()))
    }

    /// Plays a line and keeps it, unless it leaves the common domain or is too long: then the script is at its end.
    fn keep_line(&mut self, line: Vec<u8>) -> bool {
        let size: usize = self.script.iter().map(|line| line.len() + 1).sum();
        if size + line.len() + 1 > LONGEST {
            return false;
        }
        let answer = self.play.line(&line);
        if self.play.outside().is_some() {
            return false;
        }
        let refused = answer.starts_with("e ") || answer == "?";
        self.resting = answer.ends_with("idle") || answer == "stopped" || self.resting && refused;
        if let Some(number) = handle_of(&line).filter(|&number| number < self.waiting.len()) {
            self.waiting[number] = (answer == "wait").then(|| line.clone());
        }
        self.script.push(line);
        true
    }

    fn command(&mut self, kind: Kind) -> Vec<u8> {
        match kind {
            Round | Turn => self.turn(),
            Repeat => self.repeat(),
            HandleWrite => self.handle_write(),
            HandleFlush => {
                let number = self.handle();
                self.patiently(number, |author| author.flush_of(number))
            }
            HandleDrop => {
                let number = self.handle();
                format!("D {}", self.random.digits(number)).into_bytes()
            }
            NoHandle => self.no_handle(),
            Write => self.write(),
            CheckWrite => b"c".to_vec(),
            Flush => b"f".to_vec(),
            Cancel => b"x".to_vec(),
            Misfit => self.random.misfit(MISFITS),
        }
    }

    fn turn(&mut self) -> Vec<u8> {
        match self.empty_writes || self.random.chance(15) {
            true => b"T".to_vec(),
            false => b"t".to_vec(),
        }
    }

    fn repeat(&mut self) -> Vec<u8> {
        let waiting: Vec<Vec<u8>> = self.waiting.iter().flatten().cloned().collect();
        match waiting.is_empty() {
            true => self.handle_write(),
            false => waiting[self.random.between(0, waiting.len() - 1)].clone(),
        }
    }

    /// A handle, seldom a dropped one.
    fn handle(&mut self) -> usize {
        let open: Vec<usize> = (0..self.waiting.len())
            .filter(|&number| self.play.is_open(number))
            .collect();
        match open.is_empty() || self.random.chance(4) {
            true => self.random.between(0, self.waiting.len() - 1),
            false => self.random.pick(&open),
        }
    }

    fn patiently(&mut self, number: usize, new: impl FnOnce(&mut Self) -> Vec<u8>) -> Vec<u8> {
        match self.waiting[number].clone() {
            Some(call) if self.random.chance(self.patience) => call,
            _ => new(self),
        }
    }

    fn flush_of(&mut self, number: usize) -> Vec<u8> {
        format!("F {}", self.random.digits(number)).into_bytes()
    }

    fn handle_write(&mut self) -> Vec<u8> {
        let number = self.handle();
        // A write accepted from a handle with its mark set would end the script.
        if self.play.is_flushing(number) && self.random.chance(85) {
            return self.flush_of(number);
        }
        self.patiently(number, |author| {
            let length = match author.random.chance(3) {
                true => 0,
                false => author.length(),
            };
            let mut line = format!("W {} ", author.random.digits(number)).into_bytes();
            line.extend(author.random.bytes(length, author.odd_bytes));
            line
        })
    }

    fn write(&mut self) -> Vec<u8> {
        let length = match self.empty_writes && self.random.chance(40) {
            true => 0,
            false => self.length(),
        };
        let mut line = b"w ".to_vec();
        line.extend(self.random.bytes(length, self.odd_bytes));
        line
    }

    /// A length of at least 1, often near the budget.
    fn length(&mut self) -> usize {
        let random = &mut *self.random;
        match random.between(0, 99) {
            0..60 => random.between(1, 4),
            60..75 => random.between(1, self.budget.clamp(1, 64)),
            75..88 => self.budget.clamp(1, 64),
            88..90 => self.budget.max(1),
            90..97 => self.budget.min(64) + random.between(1, 3),
            _ => random.between(1, self.budget + 40),
        }
    }

    fn no_handle(&mut self) -> Vec<u8> {
        let count = self.waiting.len();
        let number = self
            .random
            .pick(&[count, count, count + 1, 16, 17, 255, 256, 999_999_999]);
        let digits = self.random.digits(number.max(count));
        let line = match self.random.between(0, 3) {
            0 => format!("W {digits} a"),
            1 => format!("W {digits} "),
            2 => format!("F {digits}"),
            _ => format!("D {digits}"),
        };
        line.into_bytes()
    }
}

fn handle_of(line: &[u8]) -> Option<usize> {
    match script::line(line) {
        Line::Command(
            Command::HandleWrite(number, _)
            | Command::HandleFlush(number)
            | Command::HandleDrop(number),
        ) => Some(number),
        _ => None,
    }
}
