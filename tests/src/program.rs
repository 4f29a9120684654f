//! The programs, run with an input.

use std::io::Write;
use std::path::PathBuf;
use std::process::{Command, Stdio};
use std::time::Duration;

use crate::files;

/// In the folder that SETUPBOOK_PROGRAMS names, or in `../target/bin`.
fn program(name: &str) -> PathBuf {
    let folder = std::env::var_os("SETUPBOOK_PROGRAMS").unwrap_or("../target/bin".into());
    files::path(folder).join(name)
}

/// What a program prints if it is given the input in pieces, with pauses between them.
pub fn printed(name: &str, pieces: &[&[u8]]) -> String {
    let program = program(name);
    let mut child = Command::new(&program)
        .stdin(Stdio::piped())
        .stdout(Stdio::piped())
        .spawn()
        .unwrap_or_else(|error| {
            panic!(
                "{}: {error}: build it first or set SETUPBOOK_PROGRAMS",
                program.display()
            )
        });
    let mut input = child.stdin.take().unwrap();
    for (i, piece) in pieces.iter().enumerate() {
        if i > 0 {
            std::thread::sleep(Duration::from_millis(2));
        }
        // The program need not read what is too long to its end.
        if input.write_all(piece).is_err() {
            break;
        }
    }
    drop(input);
    let output = child.wait_with_output().unwrap();
    assert!(output.status.code().is_some(), "ended by a signal");
    String::from_utf8(output.stdout).unwrap()
}
