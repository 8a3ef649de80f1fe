//! The proved library against a board that steps every tick and a board that is driven by events. `bench/run` builds and runs it.

mod call;
mod check;
mod events;
mod ports;
mod proved;
mod random;
mod table;
mod ticking;
mod workloads;

use std::process::ExitCode;

type Events = workloads::Rust<events::OneTimer, events::Timer>;
type Ticking = workloads::Rust<ticking::OneTimer, ticking::Timer>;

fn main() -> ExitCode {
    let arguments: Vec<String> = std::env::args().skip(1).collect();
    match arguments.as_slice() {
        [] => table::run(""),
        [word] if word == "--check" => check::run(),
        [word] if !word.starts_with('-') => table::run(word),
        _ => {
            eprintln!("usage: bench/run [--check | WORD]");
            ExitCode::from(2)
        }
    }
}
