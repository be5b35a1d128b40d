//! The planned writer over memory, as a tokio writer that keeps a log of its answers.

use std::collections::VecDeque;
use std::fmt;
use std::io;
use std::pin::Pin;
use std::sync::{Arc, Mutex, MutexGuard};
use std::task::{Context, Poll, Waker};
use tokio::io::AsyncWrite;

const MEMORY: usize = 32_768;
const PLAN: usize = 32;

#[derive(Clone, Copy)]
pub enum Entry {
    AtMost(usize),
    NotYet,
    Fail(u8),
}

/// One answered call.
#[derive(Clone, Copy)]
pub enum Answer {
    Took { offered: usize, count: usize },
    Flushed,
    NotYet,
    Failed,
}

/// The code of a fault on its way through an `io::Error`.
#[derive(Debug)]
pub struct Device(pub u8);

impl fmt::Display for Device {
    fn fmt(&self, f: &mut fmt::Formatter<'_>) -> fmt::Result {
        write!(f, "device {}", self.0)
    }
}

impl std::error::Error for Device {}

#[derive(Default)]
struct State {
    plan: VecDeque<Entry>,
    planned: usize,
    taken: Vec<u8>,
    covered: usize,
    calls_left: usize,
    log: Vec<Answer>,
    waker: Option<Waker>,
}

/// A clone is the same writer: the worker task owns one, the driver looks at another.
#[derive(Clone, Default)]
pub struct Writer(Arc<Mutex<State>>);

impl Writer {
    fn state(&self) -> MutexGuard<'_, State> {
        self.0.lock().unwrap()
    }

    /// Tells whether there was still room in the plan.
    pub fn plan(&self, entry: Entry) -> bool {
        let mut state = self.state();
        let room = state.planned < PLAN;
        if room {
            state.planned += 1;
            state.plan.push_back(entry);
        }
        room
    }

    /// Lets the writer answer so many calls, and wakes the task that waits for it.
    pub fn allow(&self, calls: usize) {
        let waker = {
            let mut state = self.state();
            state.calls_left = calls;
            state.waker.take()
        };
        if let Some(waker) = waker {
            waker.wake();
        }
    }

    /// Lets it answer no more, and gives the answers since it was last stopped.
    pub fn stop(&self) -> Vec<Answer> {
        let mut state = self.state();
        state.calls_left = 0;
        std::mem::take(&mut state.log)
    }

    pub fn taken(&self) -> Vec<u8> {
        self.state().taken.clone()
    }

    pub fn taken_and_covered(&self) -> (usize, usize) {
        let state = self.state();
        (state.taken.len(), state.covered)
    }
}

impl State {
    /// The plan's part of a call: how many bytes it may hand down, or the answer itself.
    fn next_call(&mut self, cx: &mut Context<'_>) -> Result<usize, Poll<io::Error>> {
        if self.calls_left == 0 {
            self.waker = Some(cx.waker().clone());
            return Err(Poll::Pending);
        }
        self.calls_left -= 1;
        match self.plan.pop_front() {
            None => Ok(usize::MAX),
            Some(Entry::AtMost(count)) => Ok(count),
            Some(Entry::NotYet) => {
                self.log.push(Answer::NotYet);
                self.waker = Some(cx.waker().clone());
                Err(Poll::Pending)
            }
            Some(Entry::Fail(code)) => {
                self.log.push(Answer::Failed);
                Err(Poll::Ready(io::Error::other(Device(code))))
            }
        }
    }
}

impl AsyncWrite for Writer {
    fn poll_write(
        self: Pin<&mut Self>,
        cx: &mut Context<'_>,
        part: &[u8],
    ) -> Poll<io::Result<usize>> {
        let mut state = self.state();
        let most = match state.next_call(cx) {
            Ok(most) => most,
            Err(answer) => return answer.map(Err),
        };
        let count = part.len().min(most).min(MEMORY - state.taken.len());
        state.taken.extend_from_slice(&part[..count]);
        state.log.push(Answer::Took {
            offered: part.len(),
            count,
        });
        Poll::Ready(Ok(count))
    }

    fn poll_flush(self: Pin<&mut Self>, cx: &mut Context<'_>) -> Poll<io::Result<()>> {
        let mut state = self.state();
        if let Err(answer) = state.next_call(cx) {
            return answer.map(Err);
        }
        state.covered = state.taken.len();
        state.log.push(Answer::Flushed);
        Poll::Ready(Ok(()))
    }

    fn poll_shutdown(self: Pin<&mut Self>, _: &mut Context<'_>) -> Poll<io::Result<()>> {
        unreachable!("no published call shuts a writer down")
    }
}
