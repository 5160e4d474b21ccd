//! Reads a stream or a bundle from standard input and prints its lines.

use reference::bundle::{self, Kind, Order};
use reference::stream;
use std::io::{self, Read, Write};
use std::process::ExitCode;

const USAGE: &str =
    "usage: reference [--lattice chain:TOP | --lattice readers] [--store dense | --store sparse] [--repeat N]
       reference --bundle
       reference --help
Reads a stream of calls (or a bundle of streams) from standard input and prints the answers.
Without options: --lattice chain:3 --store dense --repeat 1";

struct Options {
    order: Order,
    kind: Kind,
    repeat: u32,
    bundle: bool,
}

fn order(word: &str) -> Option<Order> {
    match word.strip_prefix("chain:") {
        Some(top) => top.parse().ok().map(Order::Chain),
        None if word == "readers" => Some(Order::Readers),
        None => None,
    }
}

fn kind(word: &str) -> Option<Kind> {
    match word {
        "dense" => Some(Kind::Dense),
        "sparse" => Some(Kind::Sparse),
        _ => None,
    }
}

fn options(arguments: &[String]) -> Option<Options> {
    let mut options = Options { order: Order::Chain(3), kind: Kind::Dense, repeat: 1, bundle: false };
    let mut words = arguments.iter().map(String::as_str);
    while let Some(word) = words.next() {
        match word {
            "--lattice" => options.order = order(words.next()?)?,
            "--store" => options.kind = kind(words.next()?)?,
            "--repeat" => options.repeat = words.next()?.parse().ok()?,
            "--bundle" => options.bundle = true,
            _ => return None,
        }
    }
    Some(options)
}

fn serve(options: &Options) -> io::Result<()> {
    let mut input = Vec::new();
    let mut out = io::BufWriter::new(io::stdout().lock());
    if options.bundle {
        io::stdin().lock().read_to_end(&mut input)?;
        bundle::run(&input, &mut out)?;
    } else {
        io::stdin().lock().take(stream::MOST_BYTES as u64).read_to_end(&mut input)?;
        let mut lines = Vec::new();
        for _ in 0..options.repeat {
            lines.clear();
            bundle::run_one(options.order, options.kind, std::hint::black_box(&input), &mut lines);
        }
        out.write_all(&lines)?;
    }
    out.flush()
}

fn main() -> ExitCode {
    let arguments: Vec<String> = std::env::args().skip(1).collect();
    if arguments == ["--help"] {
        println!("{USAGE}");
        return ExitCode::SUCCESS;
    }
    let Some(options) = options(&arguments) else {
        eprintln!("{USAGE}");
        return ExitCode::from(2);
    };
    match serve(&options) {
        Ok(()) => ExitCode::SUCCESS,
        Err(error) => {
            eprintln!("reference: {error}");
            ExitCode::FAILURE
        }
    }
}
