//! Erasure policies as trees, their levels under sets of conditions, and what flows to what.

use crate::lattice::Lattice;

#[derive(Clone, Debug, PartialEq, Eq)]
pub enum Policy {
    Leaf(u32),
    Wiping { condition: u8, present: Box<Policy>, later: Box<Policy> },
}

impl Policy {
    /// The level once the conditions of the set have come up.
    pub fn level_under<L: Lattice>(&self, lattice: L, set: u16) -> u32 {
        match self {
            Policy::Leaf(level) => *level,
            Policy::Wiping { condition, present, later } => {
                let now = present.level_under(lattice, set);
                if set >> condition & 1 == 1 {
                    lattice.join(now, later.level_under(lattice, set))
                } else {
                    now
                }
            }
        }
    }

    pub fn present_level<L: Lattice>(&self, lattice: L) -> u32 {
        self.level_under(lattice, 0)
    }

    /// The conditions that wipe: those of the nodes along present parts.
    pub fn wipers(&self) -> u16 {
        match self {
            Policy::Leaf(_) => 0,
            Policy::Wiping { condition, present, .. } => 1 << condition | present.wipers(),
        }
    }

    /// All conditions that stand in the tree.
    pub fn conditions(&self) -> u16 {
        match self {
            Policy::Leaf(_) => 0,
            Policy::Wiping { condition, present, later } => 1 << condition | present.conditions() | later.conditions(),
        }
    }
}

/// A policy with its level under every set of the conditions that stand in it.
pub struct Levels {
    conditions: u16,
    levels: Vec<u32>,
}

impl Levels {
    pub fn of<L: Lattice>(lattice: L, policy: &Policy) -> Levels {
        let conditions = policy.conditions();
        let mut sets = vec![0u16];
        for condition in bits16(conditions) {
            for i in 0..sets.len() {
                sets.push(sets[i] | 1 << condition);
            }
        }
        let levels = sets.iter().map(|&set| policy.level_under(lattice, set)).collect();
        Levels { conditions, levels }
    }

    /// Whether the level is below the other's under every set of the conditions that stand in either.
    pub fn flow_to<L: Lattice>(&self, lattice: L, other: &Levels) -> bool {
        let mut sets = vec![(0usize, 0usize)];
        if !lattice.below(self.levels[0], other.levels[0]) {
            return false;
        }
        let (mut mine, mut its) = (1usize, 1usize);
        for condition in bits16(self.conditions | other.conditions) {
            let to_mine = if self.conditions >> condition & 1 == 1 { mine } else { 0 };
            let to_its = if other.conditions >> condition & 1 == 1 { its } else { 0 };
            for i in 0..sets.len() {
                let (x, y) = (sets[i].0 + to_mine, sets[i].1 + to_its);
                if !lattice.below(self.levels[x], other.levels[y]) {
                    return false;
                }
                sets.push((x, y));
            }
            mine <<= u32::from(to_mine != 0);
            its <<= u32::from(to_its != 0);
        }
        true
    }

    /// Whether the level is below the given one under every set.
    pub fn flow_to_level<L: Lattice>(&self, lattice: L, level: u32) -> bool {
        self.levels.iter().all(|&own| lattice.below(own, level))
    }
}

/// Whether the first policy flows to the second.
pub fn flows_to<L: Lattice>(lattice: L, from: &Policy, to: &Policy) -> bool {
    Levels::of(lattice, from).flow_to(lattice, &Levels::of(lattice, to))
}

/// The numbers whose bits are set, in ascending order.
pub fn bits16(mask: u16) -> impl Iterator<Item = u8> {
    (0..16u8).filter(move |i| mask >> i & 1 == 1)
}

#[cfg(test)]
mod tests {
    use super::*;
    use crate::lattice::{Chain, ReaderSets};

    fn leaf(level: u32) -> Policy {
        Policy::Leaf(level)
    }

    fn wiping(condition: u8, present: Policy, later: Policy) -> Policy {
        Policy::Wiping { condition, present: Box::new(present), later: Box::new(later) }
    }

    fn p(i: usize) -> Policy {
        match i {
            1 => wiping(0, leaf(1), leaf(3)),
            2 => leaf(1),
            3 => leaf(3),
            4 => wiping(0, leaf(1), leaf(2)),
            5 => wiping(0, leaf(1), leaf(1)),
            6 => wiping(0, leaf(1), wiping(1, leaf(1), leaf(3))),
            _ => wiping(1, leaf(1), wiping(0, leaf(1), leaf(3))),
        }
    }

    fn flows(i: usize, j: usize) -> bool {
        flows_to(Chain { top: 3 }, &p(i), &p(j))
    }

    #[test]
    fn flows_of_the_docs() {
        assert!(!flows(1, 2) && flows(2, 1) && flows(1, 3));
        assert!(flows(4, 1) && !flows(1, 4));
        assert!(flows(5, 2) && flows(2, 5));
        assert!(flows(6, 7) && flows(7, 6));
    }

    #[test]
    fn wipers_of_the_docs() {
        assert_eq!((p(5).wipers(), p(2).wipers()), (1, 0));
        assert_eq!((p(6).wipers(), p(7).wipers()), (1, 2));
        assert_eq!(wiping(3, wiping(5, leaf(0), leaf(1)), leaf(1)).wipers(), 1 << 3 | 1 << 5);
    }

    /// The table of levels against the tree, on sets over all sixteen conditions.
    #[test]
    fn levels_agree_with_trees() {
        let lattice = ReaderSets;
        let from = wiping(2, wiping(9, leaf(0xFF), leaf(0x0F)), wiping(2, leaf(0xF3), wiping(4, leaf(1), leaf(2))));
        let to = wiping(9, wiping(4, leaf(0x7F), leaf(0x05)), wiping(2, leaf(0x03), leaf(0x01)));
        for (x, y) in [(&from, &to), (&to, &from), (&from, &from), (&to, &to)] {
            let every =
                (0..=0xFFFFu16).all(|set| lattice.below(x.level_under(lattice, set), y.level_under(lattice, set)));
            assert_eq!(flows_to(lattice, x, y), every);
        }
    }
}
