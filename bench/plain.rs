//! The same work in plain Rust: a queue of writes in front of a vector, with no proof and no limits but the budget.
use std::collections::VecDeque;

const WRITES: usize = 100_000;
const LENGTH: usize = 16;

struct Stream {
    queue: VecDeque<Vec<u8>>,
    budget: usize,
    taken: Vec<u8>,
}

impl Stream {
    fn write(&mut self, bytes: &[u8]) -> bool {
        if bytes.len() > self.budget {
            return false;
        }
        self.budget -= bytes.len();
        self.queue.push_back(bytes.to_vec());
        true
    }

    fn turn(&mut self) -> bool {
        match self.queue.pop_front() {
            None => false,
            Some(bytes) => {
                self.taken.extend_from_slice(&bytes);
                self.budget += bytes.len();
                true
            }
        }
    }
}

fn main() {
    let mut stream = Stream {
        queue: VecDeque::new(),
        budget: 4096,
        taken: Vec::with_capacity(WRITES * LENGTH),
    };
    let mut count = 0;
    for i in 0..WRITES {
        let bytes = [(i % 256) as u8; LENGTH];
        if stream.write(&bytes) && stream.turn() {
            count += 1;
        }
    }
    let sum = stream.taken.iter().fold(0u32, |sum, &byte| sum.wrapping_add(u32::from(byte)));
    println!("{count} writes, {} bytes taken, sum {sum}", stream.taken.len());
}
