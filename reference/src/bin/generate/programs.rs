//! Programs that are accepted, and records that are refused.

use crate::random::Random;
use crate::sheets::record;
use reference::program;
use reference::record::{Record, Refusal};
use reference::sheet::Sheet;

/// A program under way: its records so far, and for each open command whether its `J` is still to come.
pub struct Maker<'s> {
    sheet: &'s Sheet,
    pub records: Vec<Record>,
    open: Vec<bool>,
}

pub fn bytes(records: &[Record]) -> Vec<u8> {
    records.iter().flat_map(|record| record.bytes()).collect()
}

const LETTERS: &[u8] = b"SSSS++--*<=DDDUIIQQW";

impl<'s> Maker<'s> {
    pub fn new(sheet: &'s Sheet) -> Self {
        Maker { sheet, records: Vec::new(), open: Vec::new() }
    }

    /// What a record does to the open commands.
    fn opened(&self, letter: u8) -> Vec<bool> {
        let mut open = self.open.clone();
        match letter {
            b'I' | b'Q' => open.push(true),
            b'W' => open.push(false),
            b'J' => {
                if let Some(last) = open.last_mut() {
                    *last = false;
                }
            }
            b'K' => {
                open.pop();
            }
            _ => {}
        }
        open
    }

    /// How a program with this record next, and all blocks closed after it, is answered.
    pub fn tried(&self, next: Record) -> Result<(), Refusal> {
        let mut records = self.records.clone();
        records.push(next);
        close(&self.opened(next.letter), &mut records);
        program::read(self.sheet, &bytes(&records)).map(|_| ())
    }

    /// Adds the record if it is accepted.
    pub fn push(&mut self, next: Record) -> bool {
        let accepted = self.tried(next).is_ok();
        if accepted {
            self.open = self.opened(next.letter);
            self.records.push(next);
        }
        accepted
    }

    /// A record that names what is declared.
    pub fn candidate(&self, random: &mut Random) -> Record {
        let variable = |random: &mut Random| random.below(self.sheet.fed.len().max(1)) as u8;
        let condition = |random: &mut Random| random.below(self.sheet.condition_levels.len().max(1)) as u8;
        let letter = random.pick(LETTERS);
        match letter {
            b'S' => record(b'S', variable(random), 0, 0, value(random) as u32),
            b'D' => {
                let permit = random.below(self.sheet.permit_conditions.len().max(1)) as u8;
                record(b'D', variable(random), variable(random), permit, 0)
            }
            b'U' | b'Q' => record(letter, condition(random), 0, 0, 0),
            b'I' | b'W' => record(letter, 0, variable(random), 0, 0),
            _ => record(letter, variable(random), variable(random), variable(random), 0),
        }
    }

    /// The record that ends the innermost block.
    fn end(&self) -> Option<Record> {
        self.open.last().map(|&first| record(if first { b'J' } else { b'K' }, 0, 0, 0, 0))
    }

    /// Adds accepted records until there are about so many.
    pub fn fill(&mut self, random: &mut Random, most: usize) {
        for _ in 0..4 * most + 8 {
            if self.length() >= most {
                return;
            }
            match self.end() {
                Some(end) if random.once_in(4) => {
                    self.push(end);
                }
                _ if random.once_in(10) => self.countdown(random, most),
                _ => {
                    let next = self.candidate(random);
                    self.push(next);
                }
            }
        }
    }

    /// A loop that counts a variable down, with whatever stands in it.
    pub fn countdown(&mut self, random: &mut Random, most: usize) {
        let low: Vec<u8> = (0..64).filter(|&v| self.sheet.low_variables >> v & 1 == 1).collect();
        if low.is_empty() || self.length() + 6 > most {
            return;
        }
        let (count, step) = (random.pick(&low), random.pick(&low));
        let depth = self.open.len();
        self.push(record(b'S', count, 0, 0, random.between(1, 9) as u32));
        self.push(record(b'S', step, 0, 0, 1));
        if !self.push(record(b'W', 0, count, 0, 0)) {
            return;
        }
        let room = self.length() + random.below(4) + 1;
        self.fill(random, room.min(most));
        while self.open.len() > depth + 1 {
            let end = self.end().expect("a block is open");
            self.push(end);
        }
        self.push(record(b'-', count, count, step, 0));
        self.push(record(b'K', 0, 0, 0, 0));
    }

    /// How long the program is once all blocks are closed.
    pub fn length(&self) -> usize {
        self.records.len() + self.open.len() + self.open.iter().filter(|&&first| first).count()
    }

    /// All records, with the blocks closed.
    pub fn closed(&self) -> Vec<Record> {
        let mut records = self.records.clone();
        close(&self.open, &mut records);
        records
    }
}

fn close(open: &[bool], records: &mut Vec<Record>) {
    for &first in open.iter().rev() {
        if first {
            records.push(record(b'J', 0, 0, 0, 0));
        }
        records.push(record(b'K', 0, 0, 0, 0));
    }
}

pub fn value(random: &mut Random) -> i32 {
    match random.below(5) {
        0 => random.pick(&[0, 1, -1, i32::MAX, i32::MIN, 65_536, -65_536]),
        1 => random.next() as i32,
        2 => -(random.below(10) as i32),
        _ => random.below(10) as i32,
    }
}

/// Odd values in some fields of a record.
pub fn muddle(random: &mut Random, next: Record) -> Record {
    let mut next = next;
    let bytes = [0, 1, 2, 3, 6, 7, 8, 16, 63, 64, 255];
    if random.once_in(3) {
        next.a = random.pick(&bytes);
    }
    if random.once_in(3) {
        next.b = random.pick(&bytes);
    }
    if random.once_in(3) {
        next.c = random.pick(&bytes);
    }
    if random.once_in(4) {
        next.n = random.pick(&[0, 1, 255, 256, 0x8000_0000, 0xFFFF_FFFF]);
    }
    if random.once_in(5) {
        next.letter = random.pick(b"S+-*<=DUIQWJKCVRLEhlfx\x00");
    }
    next
}
