// The program `engine`, as it is built, which answers an input of a sheet and commands.
use std::env;
use std::ffi::OsString;
use std::io::{self, Write};
use std::process::{Command, Stdio};

pub struct Program {
    path: OsString,
}

impl Program {
    // Where `run` says that it lies.
    pub fn new() -> Result<Self, String> {
        let path = env::var_os("ENGINE_PROGRAM").ok_or("ENGINE_PROGRAM is not set")?;
        Ok(Program { path })
    }

    // What it prints for an input. It reads all of an input before it prints.
    pub fn answer(&self, input: &[u8]) -> io::Result<Vec<u8>> {
        let mut child = Command::new(&self.path)
            .stdin(Stdio::piped())
            .stdout(Stdio::piped())
            .spawn()?;
        if let Some(mut to) = child.stdin.take() {
            to.write_all(input)?;
        }
        let output = child.wait_with_output()?;
        if output.status.success() {
            Ok(output.stdout)
        } else {
            Err(io::Error::other(format!("engine: {}", output.status)))
        }
    }
}
