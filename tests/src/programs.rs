//! Programs, run on an input.

use std::io::{ErrorKind, Write};
use std::process::{Command, Stdio};

/// What a program prints for an input. It may end before it has read all of it; that a signal ended it is
/// said behind what it printed.
pub fn output(program: &str, input: &[u8]) -> std::io::Result<Vec<u8>> {
    let mut child = Command::new(program).stdin(Stdio::piped()).stdout(Stdio::piped()).spawn()?;
    if let Some(mut stdin) = child.stdin.take() {
        match stdin.write_all(input) {
            Err(error) if error.kind() != ErrorKind::BrokenPipe => return Err(error),
            _ => {}
        }
    }
    let output = child.wait_with_output()?;
    let mut printed = output.stdout;
    if output.status.code().is_none() {
        printed.extend(format!("({})", output.status).into_bytes());
    }
    Ok(printed)
}
