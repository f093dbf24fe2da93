//! What `telegate replay [--left] [--counts] CONFIG TRACE` does, written again as a plain Rust
//! program, without contracts: bench.py measures telegate against it, and agree.py compares what
//! both print. It takes the settings to be right.
mod asdu;
mod commands;
mod config;
mod connection;
mod frames;
mod gateway;
mod link;
mod trace;

use gateway::Gateway;
use std::env;
use std::fs;
use std::io;
use std::process::ExitCode;
use trace::{Event, Printer, Trace};

fn replay(gateway: &mut Gateway, trace: &Trace, printer: &mut Printer<io::StdoutLock<'_>>) {
    let mut put = |moment, action: gateway::Action<'_>| printer.put(moment, action);
    gateway.step(0, Event::Tick, &mut put);
    for (moment, event) in trace.events() {
        gateway.step(moment, event, &mut put);
    }
}

fn main() -> ExitCode {
    let words: Vec<String> = env::args().skip(1).collect();
    let has = |flag: &str| words.iter().any(|word| word == flag);
    let files: Vec<&String> = words
        .iter()
        .filter(|word| !word.starts_with("--"))
        .collect();
    let [command, settings, trace] = files.as_slice() else {
        return ExitCode::from(2);
    };
    if *command != "replay" {
        return ExitCode::from(2);
    }
    let (Ok(settings), Ok(text)) = (fs::read_to_string(settings), fs::read(trace)) else {
        return ExitCode::from(3);
    };
    let Some(config) = config::read(&settings) else {
        return ExitCode::from(1);
    };
    let trace = match Trace::read(&text) {
        Ok(trace) => trace,
        Err(line) => {
            eprintln!("trace: line {line}");
            return ExitCode::from(1);
        }
    };
    drop(text);
    let mut gateway = Gateway::new(config);
    let mut printer = Printer::new(io::stdout().lock());
    replay(&mut gateway, &trace, &mut printer);
    if has("--left") {
        gateway.kept().for_each(|piece| printer.put_left(piece));
    }
    if has("--counts") {
        printer.put_counts(gateway.counts());
    }
    match printer.end() {
        Ok(()) => ExitCode::SUCCESS,
        Err(_) => ExitCode::from(3),
    }
}
