//! Programs that are run beside this one.

use std::io::Write;
use std::process::{Command, Output, Stdio};
use std::thread;

/// What a program prints for an input, where it ends well.
pub fn run(program: &str, arguments: &[&str], input: &[u8]) -> Result<Vec<u8>, String> {
    let output = output(program, arguments, input)?;
    match output.status.success() {
        true => Ok(output.stdout),
        false => Err(format!("{program}: {}", output.status)),
    }
}

/// What a program prints for an input, whatever its exit status is.
pub fn printed(program: &str, arguments: &[&str], input: &[u8]) -> Result<Vec<u8>, String> {
    Ok(output(program, arguments, input)?.stdout)
}

/// The input is written by a thread of its own, so that neither waits for the other.
fn output(program: &str, arguments: &[&str], input: &[u8]) -> Result<Output, String> {
    let mut child = Command::new(program)
        .args(arguments)
        .stdin(Stdio::piped())
        .stdout(Stdio::piped())
        .spawn()
        .map_err(|error| format!("{program}: {error}"))?;
    let mut pipe = child.stdin.take().expect("the input is a pipe");
    let (written, output) = thread::scope(|scope| {
        let writer = scope.spawn(move || pipe.write_all(input));
        let output = child.wait_with_output();
        (writer.join().expect("writing does not panic"), output)
    });
    written
        .and(output)
        .map_err(|error| format!("{program}: {error}"))
}
