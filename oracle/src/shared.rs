//! A script's run over the published shared stream: its handles, its worker task, and our writer below.

use crate::cli::StdoutStream;
use crate::cli::locked_async::{AsyncStdoutStream, flushing};
use crate::p2::OutputStream;
use crate::p2::write_stream::{AsyncWriteStream, Inside};
use crate::play::{self, Play};
use crate::runtime::poll_now;
use crate::script::{self, Command, Line};
use crate::writer::{Answer, Writer};
use bytes::Bytes;
use std::collections::VecDeque;
use std::pin::Pin;
use tokio::io::AsyncWrite;
use tokio::runtime::{self, Runtime};

type Handle = Pin<Box<dyn AsyncWrite + Send + Sync>>;

pub struct Shared {
    handles: Vec<Option<Handle>>,
    direct: Box<dyn OutputStream>,
    inner: *mut AsyncWriteStream,
    writer: Writer,
    budget: usize,
    /// Lengths of the accepted writes that are not yet told as finished.
    unfinished: VecDeque<usize>,
    commanded: bool,
    outside: Option<&'static str>,
    // Driven by turns and cancels only: between them the worker task stands still.
    runtime: Runtime,
}

impl Play for Shared {
    fn start(first: &[u8]) -> Result<Self, &'static str> {
        match script::limits(first) {
            None => Err("?"),
            Some((budget, _)) if budget > 4_096 => Err("e 1"),
            Some((_, handles)) if !(1..=16).contains(&handles) => Err("e 2"),
            Some((budget, handles)) => Ok(Shared::new(budget, handles)),
        }
    }

    fn line(&mut self, text: &[u8]) -> String {
        match script::line(text) {
            Line::Command(command) => {
                self.commanded = true;
                let answer = self.command(command);
                self.check_budget();
                answer
            }
            Line::Plan(entry) if !self.commanded => match self.writer.plan(entry) {
                true => "ok".into(),
                false => "e 3".into(),
            },
            Line::Plan(_) | Line::Misfit => "?".into(),
        }
    }

    fn beside(&self) -> String {
        let (taken, covered) = self.writer.taken_and_covered();
        format!("{taken} {covered}")
    }

    fn bytes(&self) -> Vec<u8> {
        self.writer.taken()
    }

    fn outside(&self) -> Option<&'static str> {
        self.outside
    }
}

impl Shared {
    fn new(budget: usize, handles: usize) -> Shared {
        let runtime = runtime::Builder::new_current_thread().build().unwrap();
        let writer = Writer::default();
        let stream = {
            let _entered = runtime.enter();
            AsyncStdoutStream::new(budget, writer.clone())
        };
        Shared {
            handles: (0..handles)
                .map(|_| Some(Box::into_pin(stream.async_stream())))
                .collect(),
            direct: stream.p2_stream(),
            inner: stream.inner(),
            writer,
            budget,
            unfinished: VecDeque::new(),
            commanded: false,
            outside: None,
            runtime,
        }
    }

    fn command(&mut self, command: Command<'_>) -> String {
        match command {
            Command::Write(bytes) => self.write(bytes),
            Command::CheckWrite => play::count(self.direct.check_write()),
            Command::Flush => play::unit(self.direct.flush()),
            Command::Cancel => self.cancel(),
            Command::CancelShared => self.cancel_shared(),
            Command::Turn => self.turn(),
            Command::Turns => self.turns(),
            Command::HandleWrite(number, bytes) => self.handle_write(number, bytes),
            Command::HandleFlush(number) => self.handle_flush(number),
            Command::HandleDrop(number) => self.handle_drop(number),
        }
    }

    fn write(&mut self, bytes: &[u8]) -> String {
        let result = self.direct.write(Bytes::copy_from_slice(bytes));
        if result.is_ok() {
            self.accepted(bytes.len());
        }
        play::unit(result)
    }

    fn cancel(&mut self) -> String {
        // SAFETY: `direct` keeps the stream in its place, and no poll is under way that could use it.
        let inner = unsafe { &mut *self.inner };
        self.runtime.block_on(inner.cancel());
        "ok".into()
    }

    fn cancel_shared(&mut self) -> String {
        self.leave("cancel through the shared stream");
        self.runtime.block_on(self.direct.cancel());
        "ok".into()
    }

    fn handle(&mut self, number: usize) -> Option<&mut Handle> {
        self.handles.get_mut(number)?.as_mut()
    }

    pub fn is_open(&self, number: usize) -> bool {
        self.handles[number].is_some()
    }

    pub fn is_flushing(&mut self, number: usize) -> bool {
        self.handle(number)
            .is_some_and(|handle| flushing(&**handle))
    }

    fn handle_write(&mut self, number: usize, bytes: &[u8]) -> String {
        let marked = self.is_flushing(number);
        let Some(handle) = self.handle(number) else {
            return "e 15".into();
        };
        match poll_now(|cx| handle.as_mut().poll_write(cx, bytes)) {
            None => "wait".into(),
            Some(Err(error)) => play::fault(&error),
            Some(Ok(count)) => {
                if count > 0 {
                    self.accepted(count);
                    if marked {
                        self.leave("a write of a handle whose flushing mark is set");
                    }
                }
                count.to_string()
            }
        }
    }

    fn handle_flush(&mut self, number: usize) -> String {
        let Some(handle) = self.handle(number) else {
            return "e 15".into();
        };
        match poll_now(|cx| handle.as_mut().poll_flush(cx)) {
            None => "wait".into(),
            Some(Err(error)) => play::fault(&error),
            Some(Ok(())) => "done".into(),
        }
    }

    fn handle_drop(&mut self, number: usize) -> String {
        match self.handles.get_mut(number).and_then(Option::take) {
            None => "e 15".into(),
            Some(_) => "ok".into(),
        }
    }

    fn turn(&mut self) -> String {
        if self.is_stopped() {
            return self.turns();
        }
        // The worker finishes an empty write without a call, so no writer can halt it there: it is left standing instead.
        if self.unfinished.front() == Some(&0) {
            self.leave("a single turn over an empty write");
            self.unfinished.pop_front();
            return "finished 0".into();
        }
        match self.poll_worker(1).pop() {
            Some(word) => word,
            None => self.idle(),
        }
    }

    fn turns(&mut self) -> String {
        let stopped = self.is_stopped();
        let mut words = self.poll_worker(usize::MAX);
        if stopped {
            assert!(words.is_empty(), "a stopped worker called its writer");
            words.push("stopped".into());
        } else if !matches!(words.last().map(String::as_str), Some("wait" | "failed")) {
            self.finish_empty_writes();
            words.push(self.idle());
        }
        words.join(", ")
    }

    fn idle(&self) -> String {
        let left = !self.unfinished.is_empty() || self.inside().flush_pending;
        assert!(!left, "a worker with work left rests");
        "idle".into()
    }

    /// Polls the worker task once, if anything woke it, and tells in words what its writer was asked.
    fn poll_worker(&mut self, calls: usize) -> Vec<String> {
        self.writer.allow(calls);
        self.runtime.block_on(tokio::task::yield_now());
        let answers = self.writer.stop().into_iter();
        let words: Vec<String> = answers.map(|answer| self.word(answer)).collect();
        let failed = words.last().is_some_and(|word| word == "failed");
        assert!(!failed || !self.inside().alive, "a failed worker lives");
        words
    }

    fn word(&mut self, answer: Answer) -> String {
        self.finish_empty_writes();
        match answer {
            Answer::Took { count: 0, .. } | Answer::Failed => "failed".into(),
            Answer::Took { offered, count } if count < offered => format!("moved {count}"),
            Answer::Took { .. } => match self.unfinished.pop_front() {
                Some(length) => format!("finished {length}"),
                None => panic!("the writer took bytes of no accepted write"),
            },
            Answer::Flushed => "flushed".into(),
            Answer::NotYet => "wait".into(),
        }
    }

    fn finish_empty_writes(&mut self) {
        while self.unfinished.front() == Some(&0) {
            self.unfinished.pop_front();
        }
    }

    fn accepted(&mut self, length: usize) {
        self.unfinished.push_back(length);
        if self.unfinished.len() >= 256 {
            self.leave("256 unfinished writes");
        }
    }

    fn leave(&mut self, why: &'static str) {
        self.outside.get_or_insert(why);
    }

    fn inside(&self) -> Inside {
        // SAFETY: as in `cancel`.
        unsafe { &*self.inner }.inside()
    }

    pub fn is_stopped(&self) -> bool {
        let inside = self.inside();
        inside.cancelled || !inside.alive
    }

    /// The lengths told as finished are derived here, so they are held against the worker's own budget.
    fn check_budget(&self) {
        let unfinished: usize = self.unfinished.iter().sum();
        assert_eq!(self.inside().free_budget + unfinished, self.budget);
    }
}
