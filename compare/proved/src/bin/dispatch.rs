//! The command `dispatch`: a person's own district, answered by the proved calls.
#![forbid(unsafe_code)]

use std::ffi::OsString;
use std::io::{self, Write};
use std::process::ExitCode;

use proved::dispatch::command::answer;
use proved::dispatch::output::Output;

/// Writes warnings on standard error, then a command's output, or on standard error why there is none.
fn main() -> ExitCode {
    let arguments: Vec<OsString> = std::env::args_os().skip(1).collect();
    let warn = |output: Output| {
        tell(&output.warnings);
        output.deliver()
    };
    match answer(&arguments).and_then(warn) {
        Ok(status) => ExitCode::from(status),
        Err(fault) => {
            tell(&fault.warnings);
            tell(&[fault.message]);
            ExitCode::from(fault.status)
        }
    }
}

/// Lines on standard error.
fn tell(messages: &[String]) {
    for message in messages {
        let _ = writeln!(io::stderr(), "dispatch: {message}");
    }
}
