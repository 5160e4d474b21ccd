//! The box: its state and its nine calls, with a recursive interpreter.

use crate::lattice::Lattice;
use crate::program::{self, Command, Program, Sign};
use crate::record::{ask, Refusal};
use crate::sheet::{self, Sheet};
use crate::store::Store;

pub struct SiteBox<L, S> {
    lattice: L,
    store: S,
    sheet: Option<Sheet>,
    program: Option<Program>,
    /// The conditions that are up, as a mask.
    up: u16,
}

/// How a pass ended, with the turns used.
#[derive(Clone, Copy, Debug, PartialEq, Eq)]
pub enum Ending {
    Done(u32),
    Spent(u32),
}

/// Refuses by rule 10 where there is no sheet.
fn accepted(sheet: &Option<Sheet>) -> Result<&Sheet, Refusal> {
    sheet.as_ref().ok_or(Refusal { rule: 10, place: 0, detail: 0 })
}

impl<L: Lattice, S: Store> SiteBox<L, S> {
    pub fn new(lattice: L) -> Self {
        SiteBox { lattice, store: S::new(), sheet: None, program: None, up: 0 }
    }

    pub fn sheet(&mut self, bytes: &[u8]) -> Result<u32, Refusal> {
        ask(1, self.sheet.is_none())?;
        let declared = sheet::read(self.lattice, bytes)?;
        self.sheet = Some(Sheet::of(self.lattice, &declared));
        self.store = S::new();
        self.up = 0;
        Ok(declared.variables.len() as u32)
    }

    pub fn load(&mut self, bytes: &[u8]) -> Result<u32, Refusal> {
        let program = program::read(accepted(&self.sheet)?, bytes)?;
        let records = program.records;
        self.program = Some(program);
        Ok(records)
    }

    pub fn feed(&mut self, variable: u8, value: i32) -> Result<(), Refusal> {
        let sheet = accepted(&self.sheet)?;
        let number = usize::from(variable);
        ask(24, number < sheet.present_levels.len())?;
        ask(19, sheet.fed[number])?;
        ask(20, sheet.wipers[number] & self.up == 0)?;
        self.store.put(number, value);
        Ok(())
    }

    pub fn raise(&mut self, condition: u8) -> Result<(), Refusal> {
        let sheet = accepted(&self.sheet)?;
        ask(21, usize::from(condition) < sheet.condition_levels.len())?;
        Run { sheet, store: &mut self.store, up: &mut self.up, turns: 0 }.raise(condition);
        Ok(())
    }

    pub fn lower(&mut self, condition: u8) -> Result<(), Refusal> {
        let sheet = accepted(&self.sheet)?;
        ask(21, usize::from(condition) < sheet.condition_levels.len())?;
        self.up &= !(1 << condition);
        Ok(())
    }

    pub fn pass(&mut self, turns: u32) -> Result<Ending, Refusal> {
        let sheet = accepted(&self.sheet)?;
        let program = self.program.as_ref().ok_or(Refusal { rule: 22, place: 0, detail: 0 })?;
        let mut run = Run { sheet, store: &mut self.store, up: &mut self.up, turns };
        let ended = run.block(&program.block);
        let left = run.turns;
        Ok(match ended {
            Ok(()) => Ending::Done(turns - left),
            Err(NoTurnLeft) => Ending::Spent(turns),
        })
    }

    pub fn look(&self, level: u32, variable: u8) -> Result<i32, Refusal> {
        let sheet = accepted(&self.sheet)?;
        let number = usize::from(variable);
        ask(23, self.lattice.known(level))?;
        ask(24, number < sheet.present_levels.len())?;
        ask(25, self.lattice.below(sheet.present_levels[number], level))?;
        Ok(self.store.get(number))
    }

    pub fn ask(&self, level: u32, condition: u8) -> Result<u32, Refusal> {
        let sheet = accepted(&self.sheet)?;
        let number = usize::from(condition);
        ask(23, self.lattice.known(level))?;
        ask(21, number < sheet.condition_levels.len())?;
        ask(25, self.lattice.below(sheet.condition_levels[number], level))?;
        Ok(u32::from(self.up >> condition & 1))
    }

    pub fn image(&self, level: u32, buffer: &mut [u8]) -> Result<usize, Refusal> {
        let sheet = accepted(&self.sheet)?;
        ask(23, self.lattice.known(level))?;
        ask(25, sheet.present_levels.iter().all(|&present| self.lattice.below(present, level)))?;
        ask(26, buffer.len() >= S::IMAGE)?;
        self.store.image(&mut buffer[..S::IMAGE]);
        Ok(S::IMAGE)
    }
}

/// A true test found no turn left.
struct NoTurnLeft;

/// What commands work on.
struct Run<'b, S> {
    sheet: &'b Sheet,
    store: &'b mut S,
    up: &'b mut u16,
    /// The turns left.
    turns: u32,
}

impl<S: Store> Run<'_, S> {
    fn block(&mut self, commands: &[Command]) -> Result<(), NoTurnLeft> {
        for command in commands {
            self.command(command)?;
        }
        Ok(())
    }

    fn command(&mut self, command: &Command) -> Result<(), NoTurnLeft> {
        match command {
            Command::Set { target, value } => self.write(*target, *value),
            Command::Work { sign, target, left, right } => {
                let (x, y) = (self.get(*left), self.get(*right));
                self.write(*target, worked_out(*sign, x, y));
            }
            Command::Release { target, source, permit } => {
                let wanted = self.sheet.permit_conditions[usize::from(*permit)];
                let value = if wanted & !*self.up == 0 { self.get(*source) } else { 0 };
                self.write(*target, value);
            }
            Command::Raise { condition } => self.raise(*condition),
            Command::If { variable, first, second } => {
                return self.block(if self.get(*variable) != 0 { first } else { second });
            }
            Command::Ask { condition, first, second } => {
                return self.block(if *self.up >> condition & 1 == 1 { first } else { second });
            }
            Command::While { variable, block } => {
                while self.get(*variable) != 0 {
                    self.turns = self.turns.checked_sub(1).ok_or(NoTurnLeft)?;
                    self.block(block)?;
                }
            }
        }
        Ok(())
    }

    fn get(&self, variable: u8) -> i32 {
        self.store.get(usize::from(variable))
    }

    /// Writes a value, or drops it while a wiper of the variable is up.
    fn write(&mut self, variable: u8, value: i32) {
        let number = usize::from(variable);
        if self.sheet.wipers[number] & *self.up == 0 {
            self.store.put(number, value);
        }
    }

    fn raise(&mut self, condition: u8) {
        *self.up |= 1 << condition;
        let mut wiped = self.sheet.wiped[usize::from(condition)];
        while wiped != 0 {
            self.store.put(wiped.trailing_zeros() as usize, 0);
            wiped &= wiped - 1;
        }
    }
}

fn worked_out(sign: Sign, x: i32, y: i32) -> i32 {
    match sign {
        Sign::Plus => x.wrapping_add(y),
        Sign::Minus => x.wrapping_sub(y),
        Sign::Times => x.wrapping_mul(y),
        Sign::Less => i32::from(x < y),
        Sign::Equal => i32::from(x == y),
    }
}

#[cfg(test)]
mod tests {
    use super::*;
    use crate::lattice::Chain;
    use crate::record::tests::{refusal, text};
    use crate::store::{DenseStore, SparseStore};

    fn with_sheet(sheet: &str) -> SiteBox<Chain, DenseStore> {
        let mut unit = SiteBox::new(Chain { top: 3 });
        assert!(unit.sheet(&text(sheet)).is_ok());
        unit
    }

    fn countdown(turns: u32) -> (Ending, i32) {
        let mut unit = with_sheet("V; L; V a=1; L; V a=2; L; V a=3; L");
        assert_eq!(unit.load(&text("S a=1 n=3; S a=3 n=1; W b=1; - a=1 b=1 c=3; K")), Ok(5));
        let ending = unit.pass(turns).expect("a program is loaded");
        (ending, unit.look(0, 1).expect("everybody may look"))
    }

    #[test]
    fn loops_of_the_docs() {
        assert_eq!(countdown(3), (Ending::Done(3), 0));
        assert_eq!(countdown(2), (Ending::Spent(2), 1));
        assert_eq!(countdown(0), (Ending::Spent(0), 3));
    }

    #[test]
    fn signs_of_the_docs() {
        assert_eq!(worked_out(Sign::Plus, 2_147_483_647, 1), -2_147_483_648);
        assert_eq!(worked_out(Sign::Less, -1, 0), 1);
        assert_eq!(worked_out(Sign::Times, 65_536, 65_536), 0);
    }

    #[test]
    fn release_of_the_docs() {
        let mut unit = with_sheet("C; C a=1; V b=1; E; L n=1; L n=3; V a=1; L n=1; R n=2; E; L n=1; L n=3; L n=1");
        assert_eq!(unit.load(&text("Q a=1; D a=1; J; S a=1 n=4294967294; K")), Ok(5));
        assert_eq!(unit.feed(0, 8), Ok(()));
        assert_eq!((unit.pass(0), unit.look(1, 1)), (Ok(Ending::Done(0)), Ok(-2)));
        assert_eq!(unit.raise(1), Ok(()));
        assert_eq!((unit.pass(0), unit.look(1, 1)), (Ok(Ending::Done(0)), Ok(8)));
        assert_eq!(unit.raise(0), Ok(()));
        assert_eq!((unit.look(1, 0), unit.look(1, 1)), (Ok(0), Ok(8)));
    }

    #[test]
    fn order_of_the_calls() {
        let mut unit = SiteBox::<Chain, DenseStore>::new(Chain { top: 3 });
        assert_eq!(unit.load(&[0; 9]), refusal(10, 0, 0));
        assert_eq!(unit.look(9, 9), refusal(10, 0, 0));
        assert_eq!(unit.sheet(&[]), Ok(0));
        assert_eq!(unit.sheet(&[0; 9]), refusal(1, 0, 0));
        assert_eq!(unit.pass(0), refusal(22, 0, 0));
        assert_eq!(unit.load(&[]), Ok(0));
        assert_eq!(unit.pass(7), Ok(Ending::Done(0)));
        assert_eq!(unit.look(4, 0), refusal(23, 0, 0));
        assert_eq!(unit.look(3, 0), refusal(24, 0, 0));
        assert_eq!(unit.ask(3, 0), refusal(21, 0, 0));
    }

    /// Rule 26 cannot come out of a stream, whose buffer is long enough.
    #[test]
    fn buffers() {
        let mut unit = SiteBox::<Chain, SparseStore>::new(Chain { top: 3 });
        assert_eq!(unit.sheet(&[]), Ok(0));
        let mut buffer = [7u8; 330];
        assert_eq!(unit.image(0, &mut buffer[..319]), refusal(26, 0, 0));
        assert_eq!(buffer, [7; 330]);
        assert_eq!(unit.image(0, &mut buffer[..320]), Ok(320));
        assert_eq!(unit.image(0, &mut buffer), Ok(320));
        assert_eq!(&buffer[315..], &[0xFF, 0, 0, 0, 0, 7, 7, 7, 7, 7, 7, 7, 7, 7, 7]);
    }
}
