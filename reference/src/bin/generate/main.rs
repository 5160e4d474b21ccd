//! Prints a bundle of streams of every kind, made from a seed. Without a seed it is the bundle that is stored in
//! crates/vectors/stdin.

mod programs;
mod random;
mod sheets;
mod streams;

use random::Random;
use reference::bundle::{Header, Kind, Order};
use std::io::{self, Write};
use streams::{Stream, Wanted};

const SEED: u64 = 20_261_118;

const WHATEVER: u32 = u32::MAX;

/// What programs are refused by, with the kinds of detail told apart.
const REFUSED_PROGRAMS: [Wanted; 11] = [
    Wanted { rule: 12, least: 0, most: WHATEVER },
    Wanted { rule: 13, least: 0, most: WHATEVER },
    Wanted { rule: 14, least: 0, most: WHATEVER },
    Wanted { rule: 14, least: 0, most: 15 },
    Wanted { rule: 16, least: 0, most: 0 },
    Wanted { rule: 16, least: 1, most: 63 },
    Wanted { rule: 16, least: 256, most: 271 },
    Wanted { rule: 16, least: 512, most: 519 },
    Wanted { rule: 17, least: 0, most: 63 },
    Wanted { rule: 17, least: 256, most: 271 },
    Wanted { rule: 18, least: 0, most: 0 },
];

struct Bundle {
    random: Random,
    out: Vec<u8>,
}

fn order(random: &mut Random) -> Order {
    match random.below(8) {
        0..=2 => Order::Chain(3),
        3 => Order::Chain(random.pick(&[0, 1, 2, 4, 7, 200, 255])),
        _ => Order::Readers,
    }
}

impl Bundle {
    fn add(&mut self, order: Order, bytes: &[u8]) {
        let kind = if self.random.once_in(2) { Kind::Dense } else { Kind::Sparse };
        self.out.extend(Header { order, kind, length: bytes.len() as u32 }.bytes());
        self.out.extend(bytes);
    }

    /// Adds so many streams of a kind, over lattices and stores by chance.
    fn streams(&mut self, count: usize, make: impl Fn(&mut Stream, usize)) {
        for i in 0..count {
            let order = order(&mut self.random);
            let mut stream = streams::begin(&mut self.random, order);
            make(&mut stream, i);
            let bytes = stream.bytes();
            self.add(order, &bytes);
        }
    }

    /// The same for streams that are not rows of records.
    fn torn(&mut self, count: usize, make: impl Fn(&mut Stream) -> Vec<u8>) {
        for _ in 0..count {
            let order = order(&mut self.random);
            let bytes = make(&mut streams::begin(&mut self.random, order));
            self.add(order, &bytes);
        }
    }
}

fn main() -> io::Result<()> {
    let seed = std::env::args().nth(1).and_then(|word| word.parse().ok()).unwrap_or(SEED);
    let mut bundle = Bundle { random: Random(seed), out: Vec::new() };
    bundle.streams(900, |stream, i| streams::good(stream, usize::from(i % 6 == 0)));
    for rule in 3..=9 {
        bundle.streams(45, |stream, _| streams::refused_sheet(stream, rule));
    }
    for wanted in REFUSED_PROGRAMS {
        bundle.streams(40, |stream, _| streams::refused_program(stream, wanted));
    }
    bundle.streams(200, |stream, _| streams::flows(stream));
    bundle.streams(220, |stream, _| streams::muddled_sheet(stream));
    bundle.streams(220, |stream, _| streams::muddled_program(stream));
    bundle.streams(60, |stream, _| streams::nested(stream));
    bundle.streams(300, |stream, _| streams::odd_calls(stream));
    bundle.torn(250, streams::damaged);
    bundle.torn(120, streams::broken_off);
    bundle.streams(120, |stream, _| streams::no_call(stream));
    bundle.streams(60, |stream, _| streams::any_calls(stream));
    bundle.streams(30, |stream, _| streams::long_loops(stream));
    bundle.streams(6, |stream, i| streams::over_long(stream, b'h', 512 + i % 3, i < 3));
    bundle.streams(9, |stream, i| streams::over_long(stream, b'l', 256 + i % 3, i < 6));
    bundle.streams(30, |stream, i| streams::wide_sheet(stream, i % 5));
    for (letter, most) in [(b'C', 16), (b'V', 64), (b'R', 8)] {
        bundle.streams(6, |stream, i| streams::one_more(stream, letter, most + i % 2));
    }
    bundle.streams(20, |stream, i| streams::long_program(stream, 255 + i % 3));
    bundle.streams(60, |stream, _| streams::releases(stream));
    io::stdout().lock().write_all(&bundle.out)
}
