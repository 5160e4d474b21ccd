//! Sheets: the rules 2 to 9, and what is worked out of an accepted sheet once.

use crate::lattice::Lattice;
use crate::policy::{bits16, Levels, Policy};
use crate::record::{ask, ask_at, named, Record, Refusal, SIZE};

pub const MOST_BYTES: usize = 4_096;
pub const MOST_CONDITIONS: usize = 16;
pub const MOST_VARIABLES: usize = 64;
pub const MOST_PERMITS: usize = 8;
pub const MOST_DEPTH: usize = 4;

pub struct Variable {
    pub fed: bool,
    pub policy: Policy,
}

pub struct Permit {
    pub conditions: u32,
    pub from: Policy,
    pub to: Policy,
}

/// What a sheet declares.
#[derive(Default)]
pub struct Declared {
    pub conditions: Vec<u32>,
    pub variables: Vec<Variable>,
    pub permits: Vec<Permit>,
}

/// The sheet as a box keeps it. Masks have bit i for the variable, the condition or the permit i.
pub struct Sheet {
    pub condition_levels: Vec<u32>,
    pub present_levels: Vec<u32>,
    pub fed: Vec<bool>,
    /// Of each permit.
    pub permit_conditions: Vec<u16>,
    /// Of each variable: its wipers.
    pub wipers: Vec<u16>,
    /// Of each condition: the variables that it wipes.
    pub wiped: Vec<u64>,
    /// Of each variable: the variables that flow to it.
    pub into_variable: Vec<u64>,
    /// Of each variable: the conditions whose level is below its present level.
    pub below_variable: Vec<u16>,
    /// Of each variable: the permits whose to-tree flows to it.
    pub released_into: Vec<u8>,
    /// Of each condition: the variables that flow to a leaf of its level.
    pub into_condition: Vec<u64>,
    /// Of each condition: the conditions whose level is below its own.
    pub below_condition: Vec<u16>,
    /// Of each permit: the variables that flow to its from-tree.
    pub into_permit: Vec<u64>,
    /// The variables that flow to a leaf of the lowest level.
    pub low_variables: u64,
    /// The conditions that have the lowest level.
    pub low_conditions: u16,
}

/// A wiping node whose parts are not all read.
struct Open {
    condition: u8,
    present: Option<Policy>,
}

/// The declaration whose trees are being read.
enum Awaiting {
    Nothing,
    VariableTree { place: usize, fed: bool },
    FromTree { conditions: u32 },
    ToTree { conditions: u32, from: Policy },
}

struct Reader<L> {
    lattice: L,
    declared: Declared,
    awaiting: Awaiting,
    open: Vec<Open>,
}

/// Reads a sheet, or answers with the first rule that fails.
pub fn read<L: Lattice>(lattice: L, bytes: &[u8]) -> Result<Declared, Refusal> {
    ask(2, bytes.len().is_multiple_of(SIZE) && bytes.len() <= MOST_BYTES)?;
    let mut reader = Reader { lattice, declared: Declared::default(), awaiting: Awaiting::Nothing, open: Vec::new() };
    for (place, record) in bytes.chunks_exact(SIZE).map(Record::read).enumerate() {
        reader.take(place, record)?;
    }
    ask_at(3, matches!(reader.awaiting, Awaiting::Nothing), bytes.len() / SIZE, 0)?;
    Ok(reader.declared)
}

impl<L: Lattice> Reader<L> {
    fn take(&mut self, place: usize, record: Record) -> Result<(), Refusal> {
        ask_at(3, self.may_stand(record.letter), place, 0)?;
        match record.letter {
            b'C' => self.take_condition(place, record),
            b'V' => self.take_variable(place, record),
            b'R' => self.take_permit(place, record),
            b'L' => self.take_leaf(place, record),
            _ => self.take_node(place, record),
        }
    }

    fn may_stand(&self, letter: u8) -> bool {
        let between = matches!(self.awaiting, Awaiting::Nothing);
        let no_variable = self.declared.variables.is_empty();
        let no_permit = self.declared.permits.is_empty();
        match letter {
            b'C' => between && no_variable && no_permit,
            b'V' => between && no_permit,
            b'R' => between,
            b'L' | b'E' => !between,
            _ => false,
        }
    }

    fn take_condition(&mut self, place: usize, record: Record) -> Result<(), Refusal> {
        let count = self.declared.conditions.len();
        ask_at(4, record.names_only(named("an")), place, 0)?;
        ask_at(5, usize::from(record.a) == count && count < MOST_CONDITIONS, place, 0)?;
        ask_at(6, self.lattice.known(record.n), place, record.n)?;
        self.declared.conditions.push(record.n);
        Ok(())
    }

    fn take_variable(&mut self, place: usize, record: Record) -> Result<(), Refusal> {
        let count = self.declared.variables.len();
        ask_at(4, record.names_only(named("ab")) && record.b <= 1, place, 0)?;
        ask_at(5, usize::from(record.a) == count && count < MOST_VARIABLES, place, 0)?;
        self.awaiting = Awaiting::VariableTree { place, fed: record.b == 1 };
        Ok(())
    }

    fn take_permit(&mut self, place: usize, record: Record) -> Result<(), Refusal> {
        let count = self.declared.permits.len();
        ask_at(4, record.names_only(named("an")), place, 0)?;
        ask_at(5, usize::from(record.a) == count && count < MOST_PERMITS, place, 0)?;
        let undeclared = (0..32).find(|&i| record.n >> i & 1 == 1 && i as usize >= self.declared.conditions.len());
        ask_at(7, undeclared.is_none(), place, undeclared.unwrap_or(0))?;
        self.awaiting = Awaiting::FromTree { conditions: record.n };
        Ok(())
    }

    fn take_node(&mut self, place: usize, record: Record) -> Result<(), Refusal> {
        ask_at(4, record.names_only(named("a")), place, 0)?;
        ask_at(7, usize::from(record.a) < self.declared.conditions.len(), place, u32::from(record.a))?;
        ask_at(8, self.open.len() < MOST_DEPTH, place, 0)?;
        self.open.push(Open { condition: record.a, present: None });
        Ok(())
    }

    fn take_leaf(&mut self, place: usize, record: Record) -> Result<(), Refusal> {
        ask_at(4, record.names_only(named("n")), place, 0)?;
        ask_at(6, self.lattice.known(record.n), place, record.n)?;
        ask_at(8, self.open.len() < MOST_DEPTH, place, 0)?;
        match self.grow(Policy::Leaf(record.n)) {
            Some(tree) => self.finish(tree),
            None => Ok(()),
        }
    }

    /// Hangs a finished part into the tree, and gives the tree once it is whole.
    fn grow(&mut self, part: Policy) -> Option<Policy> {
        let mut part = part;
        loop {
            match self.open.pop() {
                None => return Some(part),
                Some(Open { condition, present: None }) => {
                    self.open.push(Open { condition, present: Some(part) });
                    return None;
                }
                Some(Open { condition, present: Some(present) }) => {
                    part = Policy::Wiping { condition, present: Box::new(present), later: Box::new(part) };
                }
            }
        }
    }

    fn finish(&mut self, tree: Policy) -> Result<(), Refusal> {
        match std::mem::replace(&mut self.awaiting, Awaiting::Nothing) {
            Awaiting::Nothing => {}
            Awaiting::VariableTree { place, fed } => {
                let present = tree.present_level(self.lattice);
                for wiper in bits16(tree.wipers()) {
                    let level = self.declared.conditions[usize::from(wiper)];
                    ask_at(9, self.lattice.below(level, present), place, u32::from(wiper))?;
                }
                self.declared.variables.push(Variable { fed, policy: tree });
            }
            Awaiting::FromTree { conditions } => self.awaiting = Awaiting::ToTree { conditions, from: tree },
            Awaiting::ToTree { conditions, from } => self.declared.permits.push(Permit { conditions, from, to: tree }),
        }
        Ok(())
    }
}

/// The numbers of the items for which the question is answered yes, as a mask.
fn mask<T>(items: &[T], question: impl Fn(&T) -> bool) -> u64 {
    items.iter().enumerate().fold(0, |mask, (i, item)| mask | u64::from(question(item)) << i)
}

impl Sheet {
    pub fn of<L: Lattice>(lattice: L, declared: &Declared) -> Sheet {
        let conditions = &declared.conditions;
        let all_levels = |policies: Vec<&Policy>| -> Vec<Levels> {
            policies.into_iter().map(|policy| Levels::of(lattice, policy)).collect()
        };
        let variables = all_levels(declared.variables.iter().map(|variable| &variable.policy).collect());
        let from = all_levels(declared.permits.iter().map(|permit| &permit.from).collect());
        let to = all_levels(declared.permits.iter().map(|permit| &permit.to).collect());
        let present: Vec<u32> = declared.variables.iter().map(|v| v.policy.present_level(lattice)).collect();
        let wipers: Vec<u16> = declared.variables.iter().map(|v| v.policy.wipers()).collect();
        let below = |level: u32| mask(conditions, |&condition| lattice.below(condition, level)) as u16;
        let to_level = |level: u32| mask(&variables, |v| v.flow_to_level(lattice, level));
        let lowest = lattice.lowest();
        Sheet {
            fed: declared.variables.iter().map(|v| v.fed).collect(),
            permit_conditions: declared.permits.iter().map(|permit| permit.conditions as u16).collect(),
            wiped: (0..conditions.len()).map(|c| mask(&wipers, |w| w >> c & 1 == 1)).collect(),
            into_variable: variables.iter().map(|t| mask(&variables, |v| v.flow_to(lattice, t))).collect(),
            below_variable: present.iter().map(|&level| below(level)).collect(),
            released_into: variables.iter().map(|t| mask(&to, |p| p.flow_to(lattice, t)) as u8).collect(),
            into_condition: conditions.iter().map(|&level| to_level(level)).collect(),
            below_condition: conditions.iter().map(|&level| below(level)).collect(),
            into_permit: from.iter().map(|t| mask(&variables, |v| v.flow_to(lattice, t))).collect(),
            low_variables: to_level(lowest),
            low_conditions: mask(conditions, |&level| level == lowest) as u16,
            condition_levels: conditions.clone(),
            present_levels: present,
            wipers,
        }
    }
}

#[cfg(test)]
mod tests {
    use super::*;
    use crate::lattice::Chain;
    use crate::record::tests::{refusal, text};

    const P1: &str = "E; L n=1; L n=3";

    fn answer(sheet: &str) -> Result<usize, Refusal> {
        read(Chain { top: 3 }, &text(sheet)).map(|declared| declared.variables.len())
    }

    #[test]
    fn refusals_of_the_docs() {
        assert_eq!(answer("V; L; C"), refusal(3, 2, 0));
        assert_eq!(answer("C; V; E; L n=1"), refusal(3, 4, 0));
        assert_eq!(answer("V b=2"), refusal(4, 0, 0));
        assert_eq!(answer("C a=1"), refusal(5, 0, 0));
        assert_eq!(answer("C n=4"), refusal(6, 0, 4));
        assert_eq!(answer("C; R n=65538"), refusal(7, 1, 1));
        assert_eq!(answer("C; V; E; E; E; E; L"), refusal(8, 6, 0));
        assert_eq!(answer(&format!("C n=2; V; {P1}")), refusal(9, 1, 0));
    }

    #[test]
    fn accepted() {
        assert_eq!(answer(""), Ok(0));
        let example = "C; C a=1; V b=1; E; L n=1; L n=3; V a=1; L n=1; R n=2; E; L n=1; L n=3; L n=1";
        assert_eq!(text(example).len(), 104);
        assert_eq!(answer(example), Ok(2));
        assert_eq!(answer("C; V; E; E; E; L; L; L; L"), Ok(1));
    }

    #[test]
    fn lengths() {
        let most: String = (0..64).map(|i| format!("V a={i}; E; E; L; L; E; L; L; ")).collect();
        let sheet = text(&most);
        assert_eq!(sheet.len(), 4_096);
        assert_eq!(read(Chain { top: 3 }, &sheet).err(), Some(Refusal { rule: 7, place: 1, detail: 0 }));
        assert_eq!(read(Chain { top: 3 }, &[0; 4_096]).err(), Some(Refusal { rule: 3, place: 0, detail: 0 }));
        assert_eq!(read(Chain { top: 3 }, &[0; 4_104]).err(), Some(Refusal { rule: 2, place: 0, detail: 0 }));
        assert_eq!(read(Chain { top: 3 }, &[0; 7]).err(), Some(Refusal { rule: 2, place: 0, detail: 0 }));
    }

    #[test]
    fn unfinished() {
        assert_eq!(answer("V"), refusal(3, 1, 0));
        assert_eq!(answer("R; L"), refusal(3, 2, 0));
        assert_eq!(answer("R; L; L; V"), refusal(3, 3, 0));
    }
}
