//! A hub without proofs, to measure against: in one thread with the replies of `inst_main run`, and with a first word
//! `load` the load of `inst_loads` on a hub that threads share.
mod books;
mod fault;
mod fields;
mod hub;
mod load;
mod reading;
mod replies;
mod settings;
mod shared;
mod text;

use crate::fault::Fault;
use crate::hub::Hub;
use crate::settings::Settings;
use std::env;
use std::io::{self, BufRead, BufReader, BufWriter, Write};
use std::process::ExitCode;

const MOST_BYTES: usize = 4_096;

/// Appends the reply to a line to the output.
fn answer(hub: &mut Hub, line: &[u8], out: &mut impl Write) -> io::Result<()> {
    if line.len() > MOST_BYTES {
        return hub.write_fault(out, Fault::LineTooLong);
    }
    match reading::read(hub.settings(), line) {
        Ok(ask) => hub.answer(&ask, out),
        Err(fault) => hub.write_fault(out, fault),
    }
}

fn run(settings: Settings) -> io::Result<()> {
    let mut hub = Hub::new(settings);
    let mut input = BufReader::with_capacity(1 << 16, io::stdin().lock());
    let mut out = BufWriter::with_capacity(1 << 16, io::stdout().lock());
    let mut line = Vec::new();
    loop {
        // A client that waits for a reply before its next line gets it here.
        if input.buffer().is_empty() {
            out.flush()?;
        }
        line.clear();
        if input.read_until(b'\n', &mut line)? == 0 {
            return out.flush();
        }
        if line.last() == Some(&b'\n') {
            line.pop();
        }
        answer(&mut hub, &line, &mut out)?;
    }
}

fn run_load(words: &[String]) -> ExitCode {
    match load::run(words) {
        Some(settled) => {
            eprintln!("{settled} transfers settled");
            ExitCode::SUCCESS
        }
        None => ExitCode::FAILURE,
    }
}

fn main() -> ExitCode {
    let words: Vec<String> = env::args().skip(1).collect();
    if words.first().map(String::as_str) == Some("load") {
        return run_load(&words[1..]);
    }
    let Some(settings) = Settings::of(words.into_iter()) else {
        eprintln!("fault 15 BadSettings");
        return ExitCode::from(2);
    };
    match run(settings) {
        Ok(()) => ExitCode::SUCCESS,
        Err(error) => {
            eprintln!("{error}");
            ExitCode::from(3)
        }
    }
}
