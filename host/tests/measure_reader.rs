//! What is measured has to read the whole stream: `measure_reader` counts what is known to be in a stored one.

use std::env::var;
use std::fs::{read_to_string, File};
use std::process::Command;

/// The program, under the emulator where cargo runs the tests under one.
fn program(path: &str) -> Command {
    match var("CARGO_TARGET_X86_64_UNKNOWN_LINUX_GNU_RUNNER") {
        Ok(runner) => {
            let mut command = Command::new(runner);
            command.arg(path);
            command
        }
        Err(_) => Command::new(path),
    }
}

#[test]
fn counts_all_of_a_stream() {
    let folder = concat!(env!("CARGO_MANIFEST_DIR"), "/stored/measure");
    let stream = File::open(format!("{folder}/stream")).expect("the stream is stored");
    let counts = read_to_string(format!("{folder}/counts")).expect("the counts are stored");
    let done = program(env!("CARGO_BIN_EXE_measure_reader"))
        .stdin(stream)
        .output()
        .expect("the program starts");
    assert_eq!(String::from_utf8_lossy(&done.stdout), counts);
    assert!(done.status.success());
}
