//! A second implementation of the programs in docs/BENCH.md, written from docs/ alone.
//!
//! Build: `rustc --edition 2021 -O -o target/reference reference/main.rs`
//! Tests: `rustc --test --edition 2021 -o target/reference-test reference/main.rs`
//!
//! The first argument names the program: `reference messages`, `reference bench`,
//! `reference sessions`, `reference speed`. `reference generate SEED COUNT` prints an input
//! for `sessions` ([`generate`]).

mod bench;
mod channels;
mod compose;
mod data_message;
mod frames;
mod generate;
mod generate_messages;
mod hash;
mod image;
mod lines;
mod memory;
mod messages;
mod product;
mod random;
mod readings;
mod replies;
mod requests;
mod samples;
mod sensor;
mod sessions;
mod settings;
mod speed;
mod store;
mod unit;
mod waiting;

use std::env;
use std::io::{self, BufReader, BufWriter, Write};
use std::process::ExitCode;

use lines::{Outcome, Program};

/// Some line of the input was not understood.
const LINES_NOT_UNDERSTOOD: u8 = 1;
/// The input could not be read, the output not be written, or there was no memory.
const FAILED: u8 = 1;
/// There is no such program.
const NO_PROGRAM: u8 = 2;
/// The bytes read or written at once.
const AT_ONCE: usize = 1 << 16;

#[global_allocator]
static MEMORY: memory::OrEnd = memory::OrEnd;

fn main() -> ExitCode {
    let arguments: Vec<_> = env::args_os().skip(1).collect();
    let arguments: Vec<_> = arguments.iter().map(|word| word.to_str()).collect();
    match arguments[..] {
        [Some("messages")] => run(messages::Messages),
        [Some("bench")] => run(bench::Bench::new()),
        [Some("sessions")] => run(sessions::Sessions::new()),
        [Some("speed")] => run(speed::Speed),
        [Some("generate"), Some(seed), Some(count)] => generated(seed, count, false),
        [Some("generate"), Some(seed), Some(count), Some("garbled")] => {
            generated(seed, count, true)
        }
        _ => usage(),
    }
}

/// Runs a program from standard input to standard output and standard error.
fn run(mut program: impl Program) -> ExitCode {
    let mut input = BufReader::with_capacity(AT_ONCE, io::stdin().lock());
    let mut output = BufWriter::with_capacity(AT_ONCE, io::stdout().lock());
    let mut errors = io::stderr().lock();
    let result = lines::answer_all(&mut input, &mut output, &mut errors, &mut program);
    drop(errors);
    match result {
        Ok(Outcome::AllUnderstood) => ExitCode::SUCCESS,
        Ok(Outcome::SomeNotUnderstood) => ExitCode::from(LINES_NOT_UNDERSTOOD),
        Err(error) => failed(&error),
    }
}

/// Prints a generated input for `sessions`.
fn generated(seed: &str, count: &str, garbled: bool) -> ExitCode {
    let numbers = (
        lines::decimal(seed.as_bytes()),
        lines::decimal(count.as_bytes()),
    );
    let (Some(seed), Some(count)) = numbers else {
        return usage();
    };
    let mut output = BufWriter::with_capacity(AT_ONCE, io::stdout().lock());
    let printed = generate::print(seed, count, garbled, &mut output);
    match printed.and_then(|()| output.flush()) {
        Ok(()) => ExitCode::SUCCESS,
        Err(error) => failed(&error),
    }
}

/// Says why the program ended; if that cannot be said either, the status still tells.
fn failed(error: &io::Error) -> ExitCode {
    let _ = writeln!(io::stderr(), "Error: {error}");
    ExitCode::from(FAILED)
}

fn usage() -> ExitCode {
    let _ = writeln!(
        io::stderr(),
        "usage: reference messages | bench | sessions | speed | generate SEED COUNT [garbled]"
    );
    ExitCode::from(NO_PROGRAM)
}
