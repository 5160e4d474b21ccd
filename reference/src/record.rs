//! Records of eight bytes, and refusals.

pub const SIZE: usize = 8;

#[derive(Clone, Copy, Debug, PartialEq, Eq)]
pub struct Record {
    pub letter: u8,
    pub a: u8,
    pub b: u8,
    pub c: u8,
    pub n: u32,
}

/// The fields that a kind of record names.
#[derive(Clone, Copy)]
pub struct Named {
    pub a: bool,
    pub b: bool,
    pub c: bool,
    pub n: bool,
}

/// The fields whose letters stand in the text.
pub const fn named(fields: &str) -> Named {
    let bytes = fields.as_bytes();
    let mut named = Named { a: false, b: false, c: false, n: false };
    let mut i = 0;
    while i < bytes.len() {
        match bytes[i] {
            b'a' => named.a = true,
            b'b' => named.b = true,
            b'c' => named.c = true,
            _ => named.n = true,
        }
        i += 1;
    }
    named
}

impl Record {
    /// The record in the first eight bytes.
    pub fn read(bytes: &[u8]) -> Record {
        Record {
            letter: bytes[0],
            a: bytes[1],
            b: bytes[2],
            c: bytes[3],
            n: u32::from_be_bytes([bytes[4], bytes[5], bytes[6], bytes[7]]),
        }
    }

    pub fn bytes(self) -> [u8; SIZE] {
        let n = self.n.to_be_bytes();
        [self.letter, self.a, self.b, self.c, n[0], n[1], n[2], n[3]]
    }

    /// Whether every field that is not named is zero.
    pub fn names_only(self, named: Named) -> bool {
        (named.a || self.a == 0) && (named.b || self.b == 0) && (named.c || self.c == 0) && (named.n || self.n == 0)
    }
}

/// The first rule that failed, with its place and its detail.
#[derive(Clone, Copy, Debug, PartialEq, Eq)]
pub struct Refusal {
    pub rule: u32,
    pub place: u32,
    pub detail: u32,
}

/// Asks a rule without place and detail.
pub fn ask(rule: u32, holds: bool) -> Result<(), Refusal> {
    ask_at(rule, holds, 0, 0)
}

pub fn ask_at(rule: u32, holds: bool, place: usize, detail: u32) -> Result<(), Refusal> {
    if holds {
        Ok(())
    } else {
        Err(Refusal { rule, place: place as u32, detail })
    }
}

#[cfg(test)]
pub mod tests {
    use super::*;

    /// Records as text, with their fields that are not zero: `C; V a=1 b=1; L n=3`.
    pub fn text(records: &str) -> Vec<u8> {
        let mut bytes = Vec::new();
        for record in records.split(';').map(str::trim).filter(|record| !record.is_empty()) {
            let mut record_read = Record { letter: record.as_bytes()[0], a: 0, b: 0, c: 0, n: 0 };
            for field in record.split_whitespace().skip(1) {
                let number: u32 = field[2..].parse().expect("a number");
                match field.as_bytes()[0] {
                    b'a' => record_read.a = number as u8,
                    b'b' => record_read.b = number as u8,
                    b'c' => record_read.c = number as u8,
                    _ => record_read.n = number,
                }
            }
            bytes.extend(record_read.bytes());
        }
        bytes
    }

    pub fn refusal<T>(rule: u32, place: u32, detail: u32) -> Result<T, Refusal> {
        Err(Refusal { rule, place, detail })
    }

    #[test]
    fn record_of_the_docs() {
        let record = Record::read(&[0x53, 1, 0, 0, 0xFF, 0xFF, 0xFF, 0xFE]);
        assert_eq!(record, Record { letter: b'S', a: 1, b: 0, c: 0, n: 4_294_967_294 });
        assert_eq!(record.n as i32, -2);
        assert_eq!(record.bytes(), [0x53, 1, 0, 0, 0xFF, 0xFF, 0xFF, 0xFE]);
    }
}
