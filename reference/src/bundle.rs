//! Bundles: many streams in one file, each behind a header that says lattice, store and length.

use crate::lattice::{Chain, Lattice, ReaderSets};
use crate::record::{named, Record, SIZE};
use crate::store::{DenseStore, SparseStore};
use crate::stream::{self, Tally};
use std::io::Write;

#[derive(Clone, Copy, Debug, PartialEq, Eq)]
pub enum Order {
    Chain(u8),
    Readers,
}

#[derive(Clone, Copy, Debug, PartialEq, Eq)]
pub enum Kind {
    Dense,
    Sparse,
}

#[derive(Clone, Copy, Debug, PartialEq, Eq)]
pub struct Header {
    pub order: Order,
    pub kind: Kind,
    pub length: u32,
}

impl Header {
    pub fn bytes(self) -> [u8; SIZE] {
        let (letter, a) = match self.order {
            Order::Chain(top) => (b'c', top),
            Order::Readers => (b'r', 0),
        };
        Record { letter, a, b: u8::from(self.kind == Kind::Sparse), c: 0, n: self.length }.bytes()
    }

    fn read(record: Record) -> Option<Header> {
        let order = match record.letter {
            b'c' => Order::Chain(record.a),
            b'r' if record.a == 0 => Order::Readers,
            _ => return None,
        };
        let kind = match record.b {
            0 => Kind::Dense,
            1 => Kind::Sparse,
            _ => return None,
        };
        let fits = record.names_only(named("abn")) && record.n as usize <= stream::MOST_BYTES;
        fits.then_some(Header { order, kind, length: record.n })
    }
}

/// Runs a stream over the lattice and the store that are asked for.
pub fn run_one(order: Order, kind: Kind, bytes: &[u8], lines: &mut Vec<u8>) -> Tally {
    match order {
        Order::Chain(top) => run_on(Chain { top }, kind, bytes, lines),
        Order::Readers => run_on(ReaderSets, kind, bytes, lines),
    }
}

fn run_on<L: Lattice>(lattice: L, kind: Kind, bytes: &[u8], lines: &mut Vec<u8>) -> Tally {
    match kind {
        Kind::Dense => stream::run::<L, DenseStore>(lattice, bytes, lines),
        Kind::Sparse => stream::run::<L, SparseStore>(lattice, bytes, lines),
    }
}

/// The stream at the front of a bundle, with its header, and what follows it.
fn next_stream(bundle: &[u8]) -> Option<(Header, &[u8], &[u8])> {
    if bundle.len() < SIZE {
        return None;
    }
    let header = Header::read(Record::read(bundle))?;
    let rest = &bundle[SIZE..];
    let length = header.length as usize;
    (length <= rest.len()).then(|| (header, &rest[..length], &rest[length..]))
}

/// Runs all streams of a bundle and prints their lines and the summary.
pub fn run(bundle: &[u8], out: &mut impl Write) -> std::io::Result<()> {
    let mut rest = bundle;
    let mut streams = 0u32;
    let mut total = Tally::new();
    while !rest.is_empty() {
        let Some((header, bytes, after)) = next_stream(rest) else {
            writeln!(out, "broken")?;
            break;
        };
        let mut lines = Vec::new();
        let tally = run_one(header.order, header.kind, bytes, &mut lines);
        match header.order {
            Order::Chain(top) => write!(out, "stream {streams} chain:{top}")?,
            Order::Readers => write!(out, "stream {streams} readers")?,
        }
        writeln!(out, " {}", if header.kind == Kind::Dense { "dense" } else { "sparse" })?;
        out.write_all(&lines)?;
        streams += 1;
        total.calls += tally.calls;
        for (sum, refused) in total.refused.iter_mut().zip(tally.refused) {
            *sum += refused;
        }
        rest = after;
    }
    writeln!(out, "streams {streams}\ncalls {}", total.calls)?;
    for rule in 1..=26 {
        writeln!(out, "rule {rule} {}", total.refused[rule])?;
    }
    Ok(())
}

#[cfg(test)]
mod tests {
    use super::*;

    fn printed(bundle: &[u8]) -> String {
        let mut out = Vec::new();
        run(bundle, &mut out).expect("a Vec takes all bytes");
        String::from_utf8(out).expect("lines are text")
    }

    #[test]
    fn bundle_of_the_docs() {
        let bundle = [
            0x63, 3, 0, 0, 0, 0, 0, 8, 0x70, 0, 0, 0, 0, 0, 0, 0, 0x72, 0, 1, 0, 0, 0, 0, 9, 0x68, 0, 0, 0, 0, 0, 0, 0,
            0x66,
        ];
        let lines = printed(&bundle);
        assert!(lines.starts_with("stream 0 chain:3 dense\n0 no 10 0 0\nstream 1 readers sparse\n0 ok 0\nstop\nstreams 2\ncalls 2\nrule 1 0\n"));
        assert!(lines.contains("rule 10 1\n") && lines.ends_with("rule 26 0\n"));
    }

    #[test]
    fn broken() {
        for bytes in
            [&b"c"[..], &[0x63, 3, 2, 0, 0, 0, 0, 0], &[0x72, 1, 0, 0, 0, 0, 0, 0], &[0x63, 3, 0, 0, 0, 0, 0, 1]]
        {
            assert!(printed(bytes).starts_with("broken\nstreams 0\ncalls 0\n"));
        }
    }
}
