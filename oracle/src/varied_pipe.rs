//! Varied scripts for the memory pipe.

use crate::batch::Script;
use crate::pipe::Pipe;
use crate::play::Play;
use crate::random::Random;

#[rustfmt::skip]
const BAD_CAPACITIES: &[&str] = &[
    "pipe", "pipe ", "pipe4", "pipe 4 ", "pipe  4", " pipe 4", "pipe 4 1", "pipe 4097", "pipe 1234567890", "pipe -1", "pipe a", "pipe 4\r",
];

#[rustfmt::skip]
const MISFITS: &[&str] = &[
    "", " ", "w", "wab", "c ", "f ", "cc", "x", "t", "T", "q", "p 1", "r 5", "W 0 a", "F 0", "D 0", "= ", "\r",
];

pub fn script(random: &mut Random) -> Script {
    if random.chance(3) {
        return random.badly_begun(BAD_CAPACITIES);
    }
    let capacity = match random.between(0, 99) {
        0..3 => 0,
        3..70 => random.between(1, 8),
        70..95 => random.between(9, 80),
        _ => random.between(81, 4_096),
    };
    let first = format!("pipe {}", random.digits(capacity));
    let mut play = Pipe::start(first.as_bytes()).expect("a good capacity");
    let mut script = vec![first.into_bytes()];
    let odd_bytes = random.chance(20);
    for _ in 0..random.between(1, 25) {
        let line = command(random, play.room(), odd_bytes);
        play.line(&line);
        if play.outside().is_some() {
            break;
        }
        script.push(line);
        // Little can be asked of a full pipe.
        if play.room() == 0 && random.chance(40) {
            break;
        }
    }
    script
}

fn command(random: &mut Random, room: usize, odd_bytes: bool) -> Vec<u8> {
    match random.between(0, 99) {
        0..5 => random.misfit(MISFITS),
        5..30 => b"c".to_vec(),
        // A full pipe is only asked.
        _ if room == 0 => b"c".to_vec(),
        30..42 => b"f".to_vec(),
        _ => {
            let length = match random.between(0, 99) {
                0..8 => 0,
                8..60 => random.between(1, room.min(3)),
                60..80 => random.between(1, room),
                80..86 => room,
                _ => room + random.between(1, 5),
            };
            let mut line = b"w ".to_vec();
            line.extend(random.bytes(length, odd_bytes));
            line
        }
    }
}
