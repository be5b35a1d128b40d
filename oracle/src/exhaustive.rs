//! All short scripts over small alphabets, after each of some openings.

use crate::batch::Script;

struct Family {
    commands: u32,
    openings: &'static [&'static [&'static str]],
    alphabet: &'static [&'static str],
}

const SHARED: &[Family] = &[
    // Single turns.
    Family {
        commands: 4,
        openings: &[&["2 2"], &["2 2", "q"], &["2 2", "p 1"], &["2 2", "r 5"]],
        alphabet: &[
            "w ab", "c", "f", "x", "t", "W 0 a", "W 1 bcd", "F 0", "F 1", "D 0",
        ],
    },
    // Whole polls of the worker, so that empty writes may stand among the others.
    Family {
        commands: 4,
        openings: &[&["2 2"], &["2 2", "q"], &["2 2", "p 1"], &["2 2", "r 5"]],
        alphabet: &[
            "w ", "w ab", "c", "f", "T", "W 0 a", "W 1 bcd", "F 0", "F 1", "D 0",
        ],
    },
    // The budget is gone, handle 1 holds the lock for its flush, and handle 2 is in line.
    Family {
        commands: 4,
        openings: &[
            &["2 3", "W 0 ab", "F 1", "W 2 c"],
            &["2 3", "p 1", "q", "W 0 ab", "F 1", "W 2 c"],
            &["2 3", "p 2", "r 5", "W 0 ab", "F 1", "W 2 c"],
            &["2 3", "r 5", "W 0 ab", "F 1", "W 2 c"],
        ],
        alphabet: &[
            "t", "f", "c", "x", "F 1", "W 2 c", "F 0", "W 0 de", "D 1", "D 2",
        ],
    },
    // Every call in every state: a holder, one with a line behind it, a grant not learned yet, a flush begun, a fault untold,
    // a fault told, a handle dropped, a stream cancelled.
    Family {
        commands: 3,
        openings: &[
            &["1 3", "W 0 a", "W 0 b"],
            &["1 3", "W 0 a", "W 0 b", "W 1 c"],
            &["1 3", "W 2 a", "W 2 b", "W 0 c", "D 2"],
            &["2 3", "F 0"],
            &["2 3", "r 5", "w ab", "T"],
            &["2 3", "r 5", "w ab", "T", "W 0 a"],
            &["2 3", "D 0"],
            &["2 3", "w a", "x"],
        ],
        alphabet: &[
            "w ", "w a", "w abc", "c", "f", "x", "T", "W 0 ", "W 0 a", "F 0", "D 0", "W 1 bc",
            "F 1", "W 3 a",
        ],
    },
];

const PIPE: &[Family] = &[Family {
    commands: 4,
    openings: &[
        &["pipe 0"],
        &["pipe 1"],
        &["pipe 2"],
        &["pipe 3"],
        &["pipe 4"],
    ],
    alphabet: &["c", "f", "w ", "w a", "w ab", "w abcd"],
}];

pub fn shared() -> Box<dyn Iterator<Item = Script>> {
    Box::new(SHARED.iter().flat_map(all))
}

pub fn pipe() -> Box<dyn Iterator<Item = Script>> {
    Box::new(PIPE.iter().flat_map(all))
}

fn all(family: &'static Family) -> impl Iterator<Item = Script> {
    let count = family.alphabet.len().pow(family.commands);
    let numbered =
        move |opening: &'static &[&str]| (0..count).map(|number| script(opening, family, number));
    family.openings.iter().flat_map(numbered)
}

/// The digits of the number, in base of the alphabet's size, choose the commands.
fn script(opening: &[&str], family: &Family, number: usize) -> Script {
    let digit = |place| number / family.alphabet.len().pow(place) % family.alphabet.len();
    let commands = (0..family.commands)
        .rev()
        .map(|place| family.alphabet[digit(place)]);
    let lines = opening.iter().copied().chain(commands);
    lines.map(|line| line.as_bytes().to_vec()).collect()
}
