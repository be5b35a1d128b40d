//! A script's run over the published memory pipe.

use crate::p2::OutputStream;
use crate::p2::pipe::MemoryOutputPipe;
use crate::play::{self, Play};
use crate::script::{self, Command, Line};
use bytes::Bytes;

pub struct Pipe {
    pipe: MemoryOutputPipe,
    capacity: usize,
    outside: Option<&'static str>,
}

impl Play for Pipe {
    fn start(first: &[u8]) -> Result<Self, &'static str> {
        let capacity = script::capacity(first).ok_or("?")?;
        Ok(Pipe {
            pipe: MemoryOutputPipe::new(capacity),
            capacity,
            outside: None,
        })
    }

    fn line(&mut self, text: &[u8]) -> String {
        match script::line(text) {
            Line::Command(Command::CheckWrite) => play::count(self.pipe.check_write()),
            Line::Command(Command::Write(bytes)) => {
                self.note_a_full_pipe();
                play::unit(self.pipe.write(Bytes::copy_from_slice(bytes)))
            }
            Line::Command(Command::Flush) => {
                self.note_a_full_pipe();
                play::unit(self.pipe.flush())
            }
            _ => "?".into(),
        }
    }

    fn beside(&self) -> String {
        self.bytes().len().to_string()
    }

    fn bytes(&self) -> Vec<u8> {
        self.pipe.contents().to_vec()
    }

    fn outside(&self) -> Option<&'static str> {
        self.outside
    }
}

impl Pipe {
    pub fn room(&self) -> usize {
        self.capacity - self.bytes().len()
    }

    fn note_a_full_pipe(&mut self) {
        if self.room() == 0 {
            self.outside
                .get_or_insert("a write or flush of a full pipe");
        }
    }
}
