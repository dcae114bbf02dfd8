//! Opens or creates a file of totals, and carries out lines over it, as c/totals.c does.
use kijolvar::{Cause, Till, Totals, BUILT_PROFILE};
use std::io::{stdout, ErrorKind, Write};
use std::process::ExitCode;

fn print(text: &str) {
    stdout()
        .write_all(text.as_bytes())
        .and_then(|()| stdout().flush())
        .expect("standard output");
}

fn main() -> ExitCode {
    let words: Vec<String> = std::env::args().collect();
    let path = &words[2];
    let totals = if words[1] == "create" {
        Totals::create_new(path)
    } else {
        Totals::existing(path)
    };
    let till = match Till::open(BUILT_PROFILE, totals) {
        Ok(till) => till,
        Err(error) => {
            print(match error.cause() {
                Cause::System(cause) => match cause.kind() {
                    ErrorKind::NotFound => "missing\n",
                    ErrorKind::AlreadyExists => "exists\n",
                    ErrorKind::WouldBlock => "in use\n",
                    _ => "failed\n",
                },
                Cause::TooSmall => "ready\nlibrary 9\n",
                _ => "failed\n",
            });
            return ExitCode::FAILURE;
        }
    };
    print("ready\n");
    for line in &words[3..] {
        let Ok(text) = till.carry_out(line) else {
            print("failed\n");
            return ExitCode::FAILURE;
        };
        print(&text);
    }
    ExitCode::SUCCESS
}
