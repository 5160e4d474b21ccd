//! Streams: call records in, answer lines out.

use crate::lattice::Lattice;
use crate::machine::{Ending, SiteBox};
use crate::record::{named, Named, Record, Refusal, SIZE};
use crate::store::Store;
use std::io::Write;

/// The most bytes that are read of a stream.
pub const MOST_BYTES: usize = 65_536;

/// Room for the image of either store.
const BUFFER: usize = 320;

pub enum Call<'s> {
    Sheet(&'s [u8]),
    Load(&'s [u8]),
    Feed(u8, i32),
    Raise(u8),
    Lower(u8),
    Pass(u32),
    Look(u32, u8),
    Ask(u32, u8),
    Image(u32),
}

/// What stands at the front of a stream.
pub enum Front<'s> {
    Call(Call<'s>, &'s [u8]),
    End,
    Stop,
}

/// How often calls were made, and how often each rule refused one.
#[derive(Clone, Copy, Debug, PartialEq, Eq)]
pub struct Tally {
    pub calls: u32,
    pub refused: [u32; 27],
}

impl Tally {
    pub fn new() -> Tally {
        Tally { calls: 0, refused: [0; 27] }
    }
}

impl Default for Tally {
    fn default() -> Self {
        Tally::new()
    }
}

fn named_fields(letter: u8) -> Option<Named> {
    match letter {
        b'h' | b'l' | b'p' | b'i' => Some(named("n")),
        b'f' | b'k' | b'q' => Some(named("an")),
        b'u' | b'd' => Some(named("a")),
        _ => None,
    }
}

pub fn next_call(stream: &[u8]) -> Front<'_> {
    if stream.is_empty() {
        return Front::End;
    }
    if stream.len() < SIZE {
        return Front::Stop;
    }
    let (record, rest) = (Record::read(stream), &stream[SIZE..]);
    match named_fields(record.letter) {
        Some(named) if record.names_only(named) => call_of(record, rest),
        _ => Front::Stop,
    }
}

fn call_of(record: Record, rest: &[u8]) -> Front<'_> {
    let call = match record.letter {
        b'h' | b'l' => {
            if u64::from(record.n) > (rest.len() / SIZE) as u64 {
                return Front::Stop;
            }
            let (records, rest) = rest.split_at(record.n as usize * SIZE);
            return Front::Call(if record.letter == b'h' { Call::Sheet(records) } else { Call::Load(records) }, rest);
        }
        b'f' => Call::Feed(record.a, record.n as i32),
        b'u' => Call::Raise(record.a),
        b'd' => Call::Lower(record.a),
        b'p' => Call::Pass(record.n),
        b'k' => Call::Look(record.n, record.a),
        b'q' => Call::Ask(record.n, record.a),
        _ => Call::Image(record.n),
    };
    Front::Call(call, rest)
}

/// Makes all calls of a stream on a new box, and writes a line for each.
pub fn run<L: Lattice, S: Store>(lattice: L, stream: &[u8], lines: &mut Vec<u8>) -> Tally {
    let mut unit = SiteBox::<L, S>::new(lattice);
    let mut tally = Tally::new();
    let mut rest = stream;
    loop {
        match next_call(rest) {
            Front::Call(call, after) => {
                number(lines, tally.calls);
                tally.calls += 1;
                if let Err(refusal) = make(&mut unit, call, lines) {
                    refused(lines, refusal);
                    tally.refused[refusal.rule as usize] += 1;
                }
                rest = after;
            }
            Front::End => return tally,
            Front::Stop => {
                lines.extend(b"stop\n");
                return tally;
            }
        }
    }
}

fn number(lines: &mut Vec<u8>, count: u32) {
    text(lines, format_args!("{count} "));
}

fn text(lines: &mut Vec<u8>, arguments: std::fmt::Arguments) {
    lines.write_fmt(arguments).expect("a Vec takes all bytes");
}

/// Makes a call and writes the answer of an accepted one.
fn make<L: Lattice, S: Store>(unit: &mut SiteBox<L, S>, call: Call, lines: &mut Vec<u8>) -> Result<(), Refusal> {
    match call {
        Call::Sheet(bytes) => ok(lines, i64::from(unit.sheet(bytes)?)),
        Call::Load(bytes) => ok(lines, i64::from(unit.load(bytes)?)),
        Call::Feed(variable, value) => {
            unit.feed(variable, value)?;
            ok(lines, 0);
        }
        Call::Raise(condition) => {
            unit.raise(condition)?;
            ok(lines, 0);
        }
        Call::Lower(condition) => {
            unit.lower(condition)?;
            ok(lines, 0);
        }
        Call::Pass(turns) => match unit.pass(turns)? {
            Ending::Done(used) => text(lines, format_args!("done {used}\n")),
            Ending::Spent(used) => text(lines, format_args!("spent {used}\n")),
        },
        Call::Look(level, variable) => ok(lines, i64::from(unit.look(level, variable)?)),
        Call::Ask(level, condition) => ok(lines, i64::from(unit.ask(level, condition)?)),
        Call::Image(level) => {
            let mut buffer = [0; BUFFER];
            let length = unit.image(level, &mut buffer)?;
            hexadecimal(lines, &buffer[..length]);
        }
    }
    Ok(())
}

fn ok(lines: &mut Vec<u8>, answer: i64) {
    text(lines, format_args!("ok {answer}\n"));
}

fn refused(lines: &mut Vec<u8>, refusal: Refusal) {
    text(lines, format_args!("no {} {} {}\n", refusal.rule, refusal.place, refusal.detail));
}

fn hexadecimal(lines: &mut Vec<u8>, bytes: &[u8]) {
    const DIGITS: &[u8; 16] = b"0123456789abcdef";
    lines.extend(b"ok ");
    for byte in bytes {
        lines.extend([DIGITS[usize::from(byte >> 4)], DIGITS[usize::from(byte & 15)]]);
    }
    lines.push(b'\n');
}

#[cfg(test)]
mod tests {
    use super::*;
    use crate::lattice::Chain;
    use crate::record::tests::text;
    use crate::store::DenseStore;

    const WORKED: &str = "h n=11; C; V b=1; E; L n=1; L n=3; V a=1; L; V a=2; E; L n=1; L n=3; l n=1; + a=2; \
        f n=7; p n=10; k a=2 n=1; u; k a=2 n=1; f n=9; d; f n=9; k";

    const LINES: &str =
        "0 ok 3\n1 ok 1\n2 ok 0\n3 done 0\n4 ok 14\n5 ok 0\n6 ok 0\n7 no 20 0 0\n8 ok 0\n9 ok 0\n10 no 25 0 0\n";

    fn lines(stream: &[u8]) -> String {
        let mut lines = Vec::new();
        run::<_, DenseStore>(Chain { top: 3 }, stream, &mut lines);
        String::from_utf8(lines).expect("lines are text")
    }

    #[test]
    fn stream_of_the_docs() {
        assert_eq!(text(WORKED).len(), 184);
        assert_eq!(lines(&text(WORKED)), LINES);
        let mut longer = text(&format!("{WORKED}; i n=1; q n=3"));
        longer.extend([0x66, 0, 0]);
        let image = format!("00000009{}", "0".repeat(504));
        assert_eq!(lines(&longer), format!("{LINES}11 ok {image}\n12 ok 0\nstop\n"));
    }

    #[test]
    fn stops() {
        assert_eq!(lines(b""), "");
        assert_eq!(lines(b"f"), "stop\n");
        assert_eq!(lines(&text("p; x")), "0 no 10 0 0\nstop\n");
        assert_eq!(lines(&text("p a=1")), "stop\n");
        assert_eq!(lines(&text("h n=2; C")), "stop\n");
        assert_eq!(lines(&text("h n=4294967295; C")), "stop\n");
        assert_eq!(lines(&text("h n=1; x; h; p")), "0 no 3 0 0\n1 ok 0\n2 no 22 0 0\n");
        let long = format!("h n=513; {}h; l n=257; {}p", "C; ".repeat(513), "K; ".repeat(257));
        assert_eq!(lines(&text(&long)), "0 no 2 0 0\n1 ok 0\n2 no 11 0 0\n3 no 22 0 0\n");
    }
}
