//! Programs that are run beside this one.

use std::io;
use std::process::{Child, Command, Stdio};

/// Starts a program with its arguments, its input and output on pipes. What it
/// says on standard error goes where ours goes.
pub fn start(command: &[String]) -> io::Result<Child> {
    let (program, arguments) = command
        .split_first()
        .ok_or_else(|| io::Error::other("no program is named"))?;
    Command::new(program)
        .args(arguments)
        .stdin(Stdio::piped())
        .stdout(Stdio::piped())
        .spawn()
}
