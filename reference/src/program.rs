//! Programs as trees of commands: the rules 11 to 18.

use crate::record::{ask, ask_at, named, Named, Record, Refusal, SIZE};
use crate::sheet::Sheet;

pub const MOST_BYTES: usize = 2_048;
pub const MOST_OPEN: usize = 8;

#[derive(Clone, Copy, Debug, PartialEq, Eq)]
pub enum Sign {
    Plus,
    Minus,
    Times,
    Less,
    Equal,
}

pub type Block = Vec<Command>;

#[derive(Debug)]
pub enum Command {
    Set { target: u8, value: i32 },
    Work { sign: Sign, target: u8, left: u8, right: u8 },
    Release { target: u8, source: u8, permit: u8 },
    Raise { condition: u8 },
    If { variable: u8, first: Block, second: Block },
    Ask { condition: u8, first: Block, second: Block },
    While { variable: u8, block: Block },
}

pub struct Program {
    pub block: Block,
    pub records: u32,
}

/// What steers a command: variables and conditions, as masks.
#[derive(Clone, Copy, Default)]
struct Context {
    variables: u64,
    conditions: u16,
}

/// The test of an open command.
#[derive(Clone, Copy)]
enum Test {
    If(u8),
    Ask(u8),
    While(u8),
}

/// A command whose blocks are not all read; `around` is the block in which it stands.
struct Open {
    test: Test,
    first: Option<Block>,
    around: Block,
    context: Context,
}

struct Reader<'s> {
    sheet: &'s Sheet,
    open: Vec<Open>,
    block: Block,
    context: Context,
}

/// Reads a program under a sheet, or answers with the first rule that fails.
pub fn read(sheet: &Sheet, bytes: &[u8]) -> Result<Program, Refusal> {
    ask(11, bytes.len().is_multiple_of(SIZE) && bytes.len() <= MOST_BYTES)?;
    let mut reader = Reader { sheet, open: Vec::new(), block: Vec::new(), context: Context::default() };
    for (place, record) in bytes.chunks_exact(SIZE).map(Record::read).enumerate() {
        reader.take(place, record)?;
    }
    let records = bytes.len() / SIZE;
    ask_at(12, reader.open.is_empty(), records, 0)?;
    Ok(Program { block: reader.block, records: records as u32 })
}

fn sign(letter: u8) -> Option<Sign> {
    match letter {
        b'+' => Some(Sign::Plus),
        b'-' => Some(Sign::Minus),
        b'*' => Some(Sign::Times),
        b'<' => Some(Sign::Less),
        b'=' => Some(Sign::Equal),
        _ => None,
    }
}

fn named_fields(letter: u8) -> Named {
    match letter {
        b'S' => named("an"),
        b'U' | b'Q' => named("a"),
        b'I' | b'W' => named("b"),
        b'J' | b'K' => named(""),
        _ => named("abc"),
    }
}

impl Reader<'_> {
    fn take(&mut self, place: usize, record: Record) -> Result<(), Refusal> {
        ask_at(12, self.may_stand(record.letter), place, 0)?;
        ask_at(13, record.names_only(named_fields(record.letter)), place, 0)?;
        match record.letter {
            b'S' => self.take_set(place, record),
            b'D' => self.take_release(place, record),
            b'U' => self.take_raise(place, record),
            b'I' => self.take_test(place, Test::If(record.b)),
            b'Q' => self.take_test(place, Test::Ask(record.a)),
            b'W' => self.take_test(place, Test::While(record.b)),
            b'J' => {
                self.begin_second();
                Ok(())
            }
            b'K' => {
                self.close();
                Ok(())
            }
            letter => self.take_sign(place, record, sign(letter).unwrap_or(Sign::Plus)),
        }
    }

    fn may_stand(&self, letter: u8) -> bool {
        let in_first = matches!(self.open.last(), Some(Open { test: Test::If(_) | Test::Ask(_), first: None, .. }));
        match letter {
            b'S' | b'D' | b'U' | b'I' | b'Q' | b'W' => true,
            b'J' => in_first,
            b'K' => !self.open.is_empty() && !in_first,
            _ => sign(letter).is_some(),
        }
    }

    fn ask_variable(&self, place: usize, number: u8) -> Result<(), Refusal> {
        ask_at(14, usize::from(number) < self.sheet.present_levels.len(), place, u32::from(number))
    }

    fn ask_condition(&self, place: usize, number: u8) -> Result<(), Refusal> {
        ask_at(14, usize::from(number) < self.sheet.condition_levels.len(), place, u32::from(number))
    }

    fn take_set(&mut self, place: usize, record: Record) -> Result<(), Refusal> {
        self.ask_variable(place, record.a)?;
        self.ask_write(place, record.a, self.context.variables, self.context.conditions)?;
        self.block.push(Command::Set { target: record.a, value: record.n as i32 });
        Ok(())
    }

    fn take_sign(&mut self, place: usize, record: Record, sign: Sign) -> Result<(), Refusal> {
        let Record { a: target, b: left, c: right, .. } = record;
        for variable in [target, left, right] {
            self.ask_variable(place, variable)?;
        }
        let variables = self.context.variables | 1 << left | 1 << right;
        self.ask_write(place, target, variables, self.context.conditions)?;
        self.block.push(Command::Work { sign, target, left, right });
        Ok(())
    }

    fn take_release(&mut self, place: usize, record: Record) -> Result<(), Refusal> {
        let Record { a: target, b: source, c: permit, .. } = record;
        self.ask_variable(place, target)?;
        self.ask_variable(place, source)?;
        let number = usize::from(permit);
        ask_at(14, number < self.sheet.permit_conditions.len(), place, u32::from(permit))?;
        let conditions = self.context.conditions | self.sheet.permit_conditions[number];
        self.ask_write(place, target, self.context.variables, conditions)?;
        let released = self.sheet.released_into[usize::from(target)] >> permit & 1 == 1;
        ask_at(16, released, place, 512 + u32::from(permit))?;
        ask_at(18, self.sheet.into_permit[number] >> source & 1 == 1, place, 0)?;
        self.block.push(Command::Release { target, source, permit });
        Ok(())
    }

    fn take_raise(&mut self, place: usize, record: Record) -> Result<(), Refusal> {
        self.ask_condition(place, record.a)?;
        let number = usize::from(record.a);
        ask_variables(16, place, self.context.variables, self.sheet.into_condition[number])?;
        ask_conditions(16, place, self.context.conditions, self.sheet.below_condition[number])?;
        self.block.push(Command::Raise { condition: record.a });
        Ok(())
    }

    /// Rule 16 for a variable, but for the to-tree.
    fn ask_write(&self, place: usize, target: u8, variables: u64, conditions: u16) -> Result<(), Refusal> {
        let target = usize::from(target);
        ask_variables(16, place, variables, self.sheet.into_variable[target])?;
        ask_conditions(16, place, conditions, self.sheet.below_variable[target])
    }

    fn take_test(&mut self, place: usize, test: Test) -> Result<(), Refusal> {
        match test {
            Test::If(variable) | Test::While(variable) => self.ask_variable(place, variable)?,
            Test::Ask(condition) => self.ask_condition(place, condition)?,
        }
        ask_at(15, self.open.len() < MOST_OPEN, place, 0)?;
        let mut context = self.context;
        match test {
            Test::If(variable) => context.variables |= 1 << variable,
            Test::Ask(condition) => context.conditions |= 1 << condition,
            Test::While(variable) => {
                context.variables |= 1 << variable;
                ask_variables(17, place, context.variables, self.sheet.low_variables)?;
                ask_conditions(17, place, context.conditions, self.sheet.low_conditions)?;
            }
        }
        let around = std::mem::take(&mut self.block);
        self.open.push(Open { test, first: None, around, context: self.context });
        self.context = context;
        Ok(())
    }

    fn begin_second(&mut self) {
        if let Some(open) = self.open.last_mut() {
            open.first = Some(std::mem::take(&mut self.block));
        }
    }

    fn close(&mut self) {
        if let Some(Open { test, first, around, context }) = self.open.pop() {
            let last = std::mem::replace(&mut self.block, around);
            let first = first.unwrap_or_default();
            self.block.push(match test {
                Test::If(variable) => Command::If { variable, first, second: last },
                Test::Ask(condition) => Command::Ask { condition, first, second: last },
                Test::While(variable) => Command::While { variable, block: last },
            });
            self.context = context;
        }
    }
}

/// All variables of the first mask are in the second.
fn ask_variables(rule: u32, place: usize, variables: u64, allowed: u64) -> Result<(), Refusal> {
    let failing = variables & !allowed;
    ask_at(rule, failing == 0, place, failing.trailing_zeros())
}

/// All conditions of the first mask are in the second.
fn ask_conditions(rule: u32, place: usize, conditions: u16, allowed: u16) -> Result<(), Refusal> {
    let failing = conditions & !allowed;
    ask_at(rule, failing == 0, place, 256 + failing.trailing_zeros())
}

#[cfg(test)]
mod tests {
    use super::*;
    use crate::lattice::Chain;
    use crate::record::tests::{refusal, text};
    use crate::sheet;

    const P1: &str = "E; L n=1; L n=3";

    fn under(sheet: &str, program: &str) -> Result<usize, Refusal> {
        let lattice = Chain { top: 3 };
        let declared = sheet::read(lattice, &text(sheet)).expect("the sheet is good");
        read(&Sheet::of(lattice, &declared), &text(program)).map(|program| program.records as usize)
    }

    fn answer(program: &str) -> Result<usize, Refusal> {
        under(&format!("C; V b=1; {P1}; V a=1; L; V a=2; {P1}"), program)
    }

    #[test]
    fn refusals_of_the_docs() {
        assert_eq!(answer("J"), refusal(12, 0, 0));
        assert_eq!(answer("I; J"), refusal(12, 2, 0));
        assert_eq!(answer("S b=1"), refusal(13, 0, 0));
        assert_eq!(answer("+ a=2 c=7"), refusal(14, 0, 7));
        assert_eq!(answer(&format!("{}W b=1", "I b=1; ".repeat(8))), refusal(15, 8, 0));
        assert_eq!(answer("+ a=1"), refusal(16, 0, 0));
        assert_eq!(answer("I; S a=2 n=1; J; S a=1 n=1; K"), refusal(16, 3, 0));
        assert_eq!(answer("I; U; J; K"), refusal(16, 1, 0));
        assert_eq!(answer("W; K"), refusal(17, 0, 0));
    }

    #[test]
    fn releases_of_the_docs() {
        let p1 = P1;
        let sheet = format!("C; C a=1 n=2; V b=1; {p1}; V a=1; L n=1; R n=2; {p1}; L n=1");
        assert_eq!(under(&sheet, "D a=1"), refusal(16, 0, 257));
        let sheet = format!("C; V b=1; {p1}; V a=1; L; R; {p1}; L n=1");
        assert_eq!(under(&sheet, "D a=1"), refusal(16, 0, 512));
        let sheet = format!("C; V b=1; L n=3; V a=1; L n=1; R; {p1}; L n=1");
        assert_eq!(under(&sheet, "D a=1"), refusal(18, 0, 0));
    }

    #[test]
    fn accepted() {
        assert_eq!(answer(""), Ok(0));
        assert_eq!(answer("I; J; K"), Ok(3));
        assert_eq!(answer("W b=1; U; K"), Ok(3));
        let example = "C; C a=1; V b=1; E; L n=1; L n=3; V a=1; L n=1; R n=2; E; L n=1; L n=3; L n=1";
        assert_eq!(under(example, "Q a=1; D a=1; J; S a=1 n=4294967294; K"), Ok(5));
    }
}
