//! The trace program, or with `--restart` the reader of stored logs.

use std::io::{self, BufReader, BufWriter};
use std::process::ExitCode;

use peer::trace;

const USAGE: &str = "usage: peer [--no-sound] [--log] | peer --restart";

fn main() -> ExitCode {
    let mut test_soundness = true;
    let mut show_log = false;
    let mut restarts = false;
    for argument in std::env::args().skip(1) {
        match argument.as_str() {
            "--no-sound" => test_soundness = false,
            "--log" => show_log = true,
            "--restart" => restarts = true,
            _ => {
                eprintln!("{USAGE}");
                return ExitCode::from(2);
            }
        }
    }
    let input = BufReader::with_capacity(1 << 16, io::stdin().lock());
    let output = io::stdout().lock();
    let result = if restarts {
        trace::run_restarts(input, BufWriter::with_capacity(1 << 16, output))
    } else {
        trace::run(input, output, test_soundness).map(|trace| {
            if show_log {
                let mut hex = Vec::new();
                trace::push_hex(&mut hex, trace.log());
                eprintln!("{}", String::from_utf8_lossy(&hex));
            }
        })
    };
    match result {
        Ok(()) => ExitCode::SUCCESS,
        Err(error) => {
            eprintln!("peer: {error}");
            ExitCode::FAILURE
        }
    }
}
