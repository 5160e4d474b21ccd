//! Sheets that are accepted, and sheets with something wrong in them.

use crate::random::Random;
use reference::bundle::Order;
use reference::lattice::{Chain, Lattice, ReaderSets};
use reference::policy::Policy;
use reference::record::Record;
use reference::sheet::{Declared, Permit, Variable};

/// Either lattice.
#[derive(Clone, Copy)]
pub struct Any(pub Order);

impl Lattice for Any {
    fn known(self, code: u32) -> bool {
        match self.0 {
            Order::Chain(top) => Chain { top }.known(code),
            Order::Readers => ReaderSets.known(code),
        }
    }

    fn below(self, x: u32, y: u32) -> bool {
        match self.0 {
            Order::Chain(top) => Chain { top }.below(x, y),
            Order::Readers => ReaderSets.below(x, y),
        }
    }

    fn join(self, x: u32, y: u32) -> u32 {
        match self.0 {
            Order::Chain(top) => Chain { top }.join(x, y),
            Order::Readers => ReaderSets.join(x, y),
        }
    }

    fn lowest(self) -> u32 {
        match self.0 {
            Order::Chain(top) => Chain { top }.lowest(),
            Order::Readers => ReaderSets.lowest(),
        }
    }

    fn highest(self) -> u32 {
        match self.0 {
            Order::Chain(top) => Chain { top }.highest(),
            Order::Readers => ReaderSets.highest(),
        }
    }
}

#[derive(Clone, Copy)]
pub struct Sizes {
    pub conditions: usize,
    pub variables: usize,
    pub permits: usize,
    pub depth: usize,
}

pub fn small(random: &mut Random) -> Sizes {
    Sizes {
        conditions: random.pick(&[0, 1, 1, 2, 2, 2, 3, 4]),
        variables: random.pick(&[1, 2, 3, 3, 4, 4, 5, 6]),
        permits: random.pick(&[0, 0, 0, 1, 1, 2]),
        depth: random.pick(&[1, 2, 2, 2, 3, 4]),
    }
}

/// A known level; the lowest is likely.
pub fn level(random: &mut Random, lattice: Any) -> u32 {
    match lattice.0 {
        _ if random.once_in(3) => lattice.lowest(),
        Order::Chain(top) => random.below(usize::from(top) + 1) as u32,
        Order::Readers => match random.below(3) {
            0 => random.pick(&[0, 1, 2, 3, 6, 0xF, 0xF0, 0xFF, 0xFF00, 0xFFFE]),
            1 => random.next() as u32 & 0xFFFF,
            _ => (random.next() | random.next()) as u32 & 0xFFFF,
        },
    }
}

/// A code that is often unknown.
pub fn odd_level(random: &mut Random, lattice: Any) -> u32 {
    let beyond = match lattice.0 {
        Order::Chain(top) => u32::from(top) + 1,
        Order::Readers => 65_536,
    };
    match random.below(6) {
        0 => beyond,
        1 => beyond - 1,
        2 => beyond + random.below(300) as u32,
        3 => random.pick(&[256, 65_535, 65_536, 0x8000_0000, 0xFFFF_FFFF]),
        4 => random.next() as u32,
        _ => level(random, lattice),
    }
}

pub fn draft(random: &mut Random, lattice: Any, sizes: Sizes) -> Declared {
    let mut declared = Declared::default();
    for _ in 0..sizes.conditions {
        let lowest = random.once_in(2);
        declared.conditions.push(if lowest { lattice.lowest() } else { level(random, lattice) });
    }
    for _ in 0..sizes.variables {
        let policy = match declared.variables.is_empty() || random.once_in(2) {
            true => wiped(random, lattice, &declared.conditions, sizes.depth),
            false => declared.variables[random.below(declared.variables.len())].policy.clone(),
        };
        declared.variables.push(Variable { fed: !random.once_in(3), policy });
    }
    for _ in 0..sizes.permits {
        let conditions = match random.below(3) {
            0 => 0,
            1 => random.next() as u32,
            _ => 1 << random.below(16),
        };
        let conditions = conditions & ((1 << sizes.conditions) - 1);
        let from = tree_for_permit(random, lattice, &declared, sizes.depth);
        let to = tree_for_permit(random, lattice, &declared, sizes.depth);
        declared.permits.push(Permit { conditions, from, to });
    }
    declared
}

fn tree_for_permit(random: &mut Random, lattice: Any, declared: &Declared, depth: usize) -> Policy {
    if declared.variables.is_empty() || random.once_in(3) {
        let highest = lattice.highest();
        return if random.once_in(2) {
            Policy::Leaf(highest)
        } else {
            any(random, lattice, &declared.conditions, depth)
        };
    }
    declared.variables[random.below(declared.variables.len())].policy.clone()
}

/// A tree whose wipers are below its present level.
fn wiped(random: &mut Random, lattice: Any, conditions: &[u32], depth: usize) -> Policy {
    let present = level(random, lattice);
    let allowed: Vec<u8> =
        (0..conditions.len() as u8).filter(|&c| lattice.below(conditions[usize::from(c)], present)).collect();
    spine(random, lattice, conditions, depth, present, &allowed)
}

fn spine(random: &mut Random, lattice: Any, conditions: &[u32], depth: usize, present: u32, allowed: &[u8]) -> Policy {
    if depth == 1 || allowed.is_empty() || random.once_in(4) {
        return Policy::Leaf(present);
    }
    Policy::Wiping {
        condition: random.pick(allowed),
        present: Box::new(spine(random, lattice, conditions, depth - 1, present, allowed)),
        later: Box::new(any(random, lattice, conditions, depth - 1)),
    }
}

/// Any tree of the depth or less.
pub fn any(random: &mut Random, lattice: Any, conditions: &[u32], depth: usize) -> Policy {
    if depth == 1 || conditions.is_empty() || random.once_in(3) {
        return Policy::Leaf(level(random, lattice));
    }
    Policy::Wiping {
        condition: random.below(conditions.len()) as u8,
        present: Box::new(any(random, lattice, conditions, depth - 1)),
        later: Box::new(any(random, lattice, conditions, depth - 1)),
    }
}

/// A tree with a node or a leaf at every place down to the depth.
pub fn full(random: &mut Random, conditions: &[u32], depth: usize, levels: &[u32]) -> Policy {
    if depth == 1 {
        return Policy::Leaf(random.pick(levels));
    }
    Policy::Wiping {
        condition: random.below(conditions.len()) as u8,
        present: Box::new(full(random, conditions, depth - 1, levels)),
        later: Box::new(full(random, conditions, depth - 1, levels)),
    }
}

pub fn record(letter: u8, a: u8, b: u8, c: u8, n: u32) -> Record {
    Record { letter, a, b, c, n }
}

/// The records that write a sheet.
pub fn written(declared: &Declared) -> Vec<Record> {
    let mut records = Vec::new();
    for (i, &level) in declared.conditions.iter().enumerate() {
        records.push(record(b'C', i as u8, 0, 0, level));
    }
    for (i, variable) in declared.variables.iter().enumerate() {
        records.push(record(b'V', i as u8, u8::from(variable.fed), 0, 0));
        write_tree(&variable.policy, &mut records);
    }
    for (i, permit) in declared.permits.iter().enumerate() {
        records.push(record(b'R', i as u8, 0, 0, permit.conditions));
        write_tree(&permit.from, &mut records);
        write_tree(&permit.to, &mut records);
    }
    records
}

fn write_tree(policy: &Policy, records: &mut Vec<Record>) {
    match policy {
        Policy::Leaf(level) => records.push(record(b'L', 0, 0, 0, *level)),
        Policy::Wiping { condition, present, later } => {
            records.push(record(b'E', *condition, 0, 0, 0));
            write_tree(present, records);
            write_tree(later, records);
        }
    }
}

/// A change to a sheet that may break the rule.
pub fn harm(random: &mut Random, lattice: Any, rule: u32, records: &mut Vec<Record>) {
    if records.is_empty() {
        records.push(record(b'V', 0, 0, 0, 0));
    }
    let at = random.below(records.len());
    match rule {
        3 => match random.below(4) {
            0 => records[at].letter = random.pick(b"CVRLESUKcv\x00 "),
            1 => records.truncate(at),
            2 => records.insert(at, record(random.pick(b"CVRLE"), 0, 0, 0, 0)),
            _ => {
                records.remove(at);
            }
        },
        4 => match random.below(5) {
            0 => records[at].a = random.pick(&[1, 2, 255]),
            1 => records[at].b = random.pick(&[1, 2, 128, 255]),
            2 => records[at].c = random.pick(&[1, 64, 255]),
            3 => records[at].n = random.pick(&[1, 0x0100_0000, 65_536]),
            _ => records[at].b = 2 + random.below(254) as u8,
        },
        5 => records[at].a = random.pick(&[0, 1, 2, 3, 4, 7, 8, 15, 16, 63, 64, 255]),
        6 => records[at].n = odd_level(random, lattice),
        7 => match random.below(3) {
            0 => records[at].a = random.pick(&[1, 2, 3, 4, 5, 15, 16, 17, 255]),
            1 => records[at].n |= 1 << random.below(32),
            _ => records[at].n |= random.next() as u32,
        },
        8 => deepen(random, lattice, at, records),
        _ => match random.below(2) {
            0 => records[at].n = level(random, lattice),
            _ => records[at].a = random.below(4) as u8,
        },
    }
}

/// Puts a deep row of nodes in place of a record.
fn deepen(random: &mut Random, lattice: Any, at: usize, records: &mut Vec<Record>) {
    let nodes = random.between(1, 5);
    let mut tree: Vec<Record> = Vec::new();
    let later_side = random.once_in(2);
    for _ in 0..nodes {
        tree.push(record(b'E', random.below(2) as u8, 0, 0, 0));
        if later_side {
            tree.push(record(b'L', 0, 0, 0, level(random, lattice)));
        }
    }
    for _ in 0..if later_side { 1 } else { nodes + 1 } {
        tree.push(record(b'L', 0, 0, 0, odd_level(random, lattice)));
    }
    records.splice(at..at + 1, tree);
}

/// Odd values in several fields of one record, so that it may break several rules at once.
pub fn muddle(random: &mut Random, lattice: Any, records: &mut [Record]) {
    if records.is_empty() {
        return;
    }
    let at = random.below(records.len());
    let bytes = [0, 0, 1, 2, 3, 8, 16, 64, 255];
    if random.once_in(2) {
        records[at].a = random.pick(&bytes);
    }
    if random.once_in(3) {
        records[at].b = random.pick(&bytes);
    }
    if random.once_in(4) {
        records[at].c = random.pick(&bytes);
    }
    if random.once_in(2) {
        records[at].n = odd_level(random, lattice);
    }
    if random.once_in(6) {
        records[at].letter = random.pick(b"CVRLE");
    }
}
