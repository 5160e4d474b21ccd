//! Lattices of levels: which codes are known, their order and their joins.

pub trait Lattice: Copy {
    fn known(self, code: u32) -> bool;
    fn below(self, x: u32, y: u32) -> bool;
    fn join(self, x: u32, y: u32) -> u32;
    fn lowest(self) -> u32;
    fn highest(self) -> u32;
}

/// The codes 0 to top, ordered as numbers.
#[derive(Clone, Copy, Debug, PartialEq, Eq)]
pub struct Chain {
    pub top: u8,
}

impl Lattice for Chain {
    fn known(self, code: u32) -> bool {
        code <= u32::from(self.top)
    }

    fn below(self, x: u32, y: u32) -> bool {
        self.known(x) && self.known(y) && x <= y
    }

    fn join(self, x: u32, y: u32) -> u32 {
        if self.known(x) && self.known(y) {
            x.max(y)
        } else {
            self.highest()
        }
    }

    fn lowest(self) -> u32 {
        0
    }

    fn highest(self) -> u32 {
        u32::from(self.top)
    }
}

/// Sets of sixteen parties that may read: the more readers, the lower.
#[derive(Clone, Copy, Debug, PartialEq, Eq)]
pub struct ReaderSets;

impl Lattice for ReaderSets {
    fn known(self, code: u32) -> bool {
        code <= 0xFFFF
    }

    fn below(self, x: u32, y: u32) -> bool {
        self.known(x) && self.known(y) && x & y == y
    }

    fn join(self, x: u32, y: u32) -> u32 {
        if self.known(x) && self.known(y) {
            x & y
        } else {
            self.highest()
        }
    }

    fn lowest(self) -> u32 {
        0xFFFF
    }

    fn highest(self) -> u32 {
        0
    }
}

#[cfg(test)]
mod tests {
    use super::*;

    #[test]
    fn chain_of_the_docs() {
        let chain = Chain { top: 3 };
        assert!(chain.below(1, 3));
        assert_eq!(chain.join(1, 2), 2);
        assert!(!chain.known(4));
        assert_eq!(chain.join(0, 4), 3);
        assert!(!chain.below(4, 4) && !chain.below(0, 4));
    }

    #[test]
    fn reader_sets_of_the_docs() {
        assert_eq!(ReaderSets.join(3, 6), 2);
        assert!(ReaderSets.below(3, 2));
        assert!(!ReaderSets.below(3, 6));
        assert!(!ReaderSets.known(65_536));
        assert_eq!(ReaderSets.join(7, 65_536), 0);
        assert!(!ReaderSets.below(65_536, 0));
    }
}
