//! A small generator of random numbers, and what scripts need of it. The same seed gives the same scripts.

use crate::batch::Script;

/// SplitMix64.
pub struct Random(u64);

impl Random {
    pub fn new(seed: u64) -> Random {
        Random(seed)
    }

    fn next(&mut self) -> u64 {
        self.0 = self.0.wrapping_add(0x9e37_79b9_7f4a_7c15);
        let mut mixed = self.0;
        mixed = (mixed ^ (mixed >> 30)).wrapping_mul(0xbf58_476d_1ce4_e5b9);
        mixed = (mixed ^ (mixed >> 27)).wrapping_mul(0x94d0_49bb_1331_11eb);
        mixed ^ (mixed >> 31)
    }

    pub fn between(&mut self, least: usize, most: usize) -> usize {
        least + (self.next() % (most - least + 1) as u64) as usize
    }

    pub fn chance(&mut self, percent: usize) -> bool {
        self.between(0, 99) < percent
    }

    pub fn pick<T: Copy>(&mut self, among: &[T]) -> T {
        among[self.between(0, among.len() - 1)]
    }

    /// One of the kinds, each as likely as its weight says.
    pub fn weighed<T: Copy>(&mut self, kinds: &[(T, usize)]) -> T {
        let total: usize = kinds.iter().map(|kind| kind.1).sum();
        let mut at = self.between(0, total - 1);
        for &(kind, weight) in kinds {
            if at < weight {
                return kind;
            }
            at -= weight;
        }
        unreachable!()
    }

    /// A number as text, sometimes with leading zeros.
    pub fn digits(&mut self, number: usize) -> String {
        let width = match self.chance(8) {
            true => self.between(2, 9),
            false => 1,
        };
        format!("{number:0width$}")
    }

    pub fn bytes(&mut self, length: usize, odd: bool) -> Vec<u8> {
        (0..length)
            .map(|_| match odd {
                true => self.odd_byte(),
                false => self.pick(b"abcdefgh0123 "),
            })
            .collect()
    }

    /// Any byte that does not end a line, often a telling one.
    fn odd_byte(&mut self) -> u8 {
        let byte = self.between(0, 255) as u8;
        if byte == b'\n' || self.chance(50) {
            return self.pick(b"\x00\x01\r\t =|WFw\x7f\x80\xc3\xff");
        }
        byte
    }

    /// A line that fits no command, or a short one from the letters of commands, which may.
    pub fn misfit(&mut self, misfits: &[&str]) -> Vec<u8> {
        if self.chance(60) {
            return self.pick(misfits).as_bytes().to_vec();
        }
        (0..self.between(1, 6))
            .map(|_| self.pick(b"wcfxTWFDpqr  00129"))
            .collect()
    }

    /// A script with a bad first line, or a refused one, and a line or two that nobody reads.
    pub fn badly_begun(&mut self, firsts: &[&str]) -> Script {
        let mut script = vec![self.pick(firsts).as_bytes().to_vec()];
        for _ in 0..self.between(0, 2) {
            script.push(self.pick(&["c", "w a", "t", ""]).as_bytes().to_vec());
        }
        script
    }
}
