//! The programs that are compared, run as child processes.

use std::io::{BufRead, BufReader, Error, ErrorKind, Result, Write};
use std::process::{Child, ChildStdin, ChildStdout, Command, Stdio};
use std::sync::atomic::{AtomicU64, Ordering};

/// The words of a command, parted by spaces.
#[derive(Clone)]
pub struct Words(Vec<String>);

impl Words {
    pub fn of(text: &str) -> Option<Words> {
        let words: Vec<String> = text.split_whitespace().map(String::from).collect();
        (!words.is_empty()).then_some(Words(words))
    }

    fn command(&self) -> Command {
        let mut command = Command::new(&self.0[0]);
        command.args(&self.0[1..]).stdin(Stdio::piped()).stdout(Stdio::piped()).stderr(Stdio::null());
        command
    }
}

/// Runs a desk program or a copyist once: whole input to whole output.
pub fn run_desk(words: &Words, input: &[u8]) -> Result<Vec<u8>> {
    let mut child = words.command().spawn()?;
    let mut stdin = child.stdin.take().expect("standard input was asked for");
    let output = std::thread::scope(|scope| {
        // Written from a thread of its own, so that neither side waits for the other. A program that has seen a
        // faulty line may stop reading: a closed pipe is no fault.
        scope.spawn(move || drop(stdin.write_all(input)));
        child.wait_with_output()
    })?;
    // What can be read and written ends with exit status 0, a faulty file too (docs/RULES.md, section 8).
    if output.status.success() {
        Ok(output.stdout)
    } else {
        Err(Error::other(format!("the desk program ended by {}", output.status)))
    }
}

/// A library driver that answers line after line.
pub struct Driver<'a> {
    child: Child,
    stdin: Option<ChildStdin>,
    stdout: BufReader<ChildStdout>,
    ended_badly: &'a AtomicU64,
}

impl Driver<'_> {
    /// A driver that ends with another exit status than 0 is counted there.
    pub fn start<'a>(words: &Words, ended_badly: &'a AtomicU64) -> Result<Driver<'a>> {
        let mut child = words.command().spawn()?;
        let stdin = child.stdin.take();
        let stdout = BufReader::new(child.stdout.take().expect("standard output was asked for"));
        Ok(Driver { child, stdin, stdout, ended_badly })
    }

    pub fn ask(&mut self, request: &str) -> Result<String> {
        let stdin = self.stdin.as_mut().expect("open until the driver is dropped");
        stdin.write_all(format!("{request}\n").as_bytes())?;
        stdin.flush()?;
        let mut reply = String::new();
        if self.stdout.read_line(&mut reply)? == 0 {
            return Err(Error::new(ErrorKind::UnexpectedEof, "the library driver ended"));
        }
        Ok(reply.trim_end_matches('\n').to_string())
    }
}

impl Drop for Driver<'_> {
    fn drop(&mut self) {
        // The end of its input ends the driver.
        drop(self.stdin.take());
        if !self.child.wait().is_ok_and(|status| status.success()) {
            self.ended_badly.fetch_add(1, Ordering::Relaxed);
        }
    }
}
