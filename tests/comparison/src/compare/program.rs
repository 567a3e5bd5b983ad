//! Runs another program on an input and gives what it prints.

use std::io::{self, Read, Write};
use std::os::fd::OwnedFd;
use std::os::unix::process::ExitStatusExt;
use std::process::{Child, Command, Stdio};
use std::sync::mpsc::{self, Receiver, RecvTimeoutError, Sender};
use std::sync::Mutex;
use std::thread;
use std::time::Duration;

/// A program that takes longer is ended.
pub const LONGEST: Duration = Duration::from_secs(60);
/// So many bytes of standard error are told.
const MOST_SHOWN: usize = 200;

/// What a program printed.
#[derive(Clone, Debug, Default, PartialEq, Eq)]
pub struct Printed {
    /// On standard output; nothing where that was given to the program.
    pub output: Vec<u8>,
    /// On standard error.
    pub errors: Vec<u8>,
}

impl Printed {
    /// The standard output of a program that has nothing to say on standard error.
    pub fn without_errors(self) -> Result<Vec<u8>, String> {
        if self.errors.is_empty() {
            return Ok(self.output);
        }
        Err(format!("printed on standard error: {}", shown(&self.errors)))
    }
}

/// The start of a text, as it is told.
pub(crate) fn shown(text: &[u8]) -> String {
    format!("{:?}", String::from_utf8_lossy(&text[..text.len().min(MOST_SHOWN)]))
}

pub(crate) fn read_all(mut from: impl Read) -> io::Result<Vec<u8>> {
    let mut bytes = Vec::new();
    from.read_to_end(&mut bytes).map(|_| bytes)
}

/// Ends a program of which nothing is said for too long; whether it did.
fn guard(child: &Mutex<Child>, goes_on: Receiver<()>) -> bool {
    loop {
        match goes_on.recv_timeout(LONGEST) {
            Ok(()) => (),
            Err(RecvTimeoutError::Disconnected) => return false,
            Err(RecvTimeoutError::Timeout) => {
                let mut child = child.lock().expect("held by no other");
                // One that has ended already needs no end.
                return matches!(child.try_wait(), Ok(None)) && child.kill().is_ok();
            }
        }
    }
}

/// Does work beside the program at a path: what the work gives, and what the program printed on standard
/// error. The work knows its process and may say that it goes on, since one that takes too long is ended.
pub fn run_beside<T>(
    path: &str,
    (input, output): (OwnedFd, OwnedFd),
    work: impl FnOnce(u32, &Sender<()>) -> Result<T, String>,
) -> Result<(T, Vec<u8>), String> {
    let failed = |what: io::Error| format!("{path}: {what}");
    let mut command = Command::new(path);
    let child = command.stdin(input).stdout(output).stderr(Stdio::piped()).spawn();
    // It holds the program's streams too: who is at their other end must see when the program ends.
    drop(command);
    let mut child = child.map_err(failed)?;
    let (process, stderr) = (child.id(), child.stderr.take().expect("piped"));
    let child = Mutex::new(child);
    let (done, errors, too_long) = thread::scope(|scope| {
        let (goes_on, said) = mpsc::channel();
        let guard = scope.spawn(|| guard(&child, said));
        // Both outputs are read at the same time, so that the program never waits for either.
        let errors = scope.spawn(|| read_all(stderr));
        let done = work(process, &goes_on);
        let errors = errors.join().expect("a reader ends");
        drop(goes_on);
        (done, errors, guard.join().expect("a guard ends"))
    });
    let status = child.into_inner().expect("held by no other").wait().map_err(failed)?;
    let (done, errors) = (done?, errors.map_err(failed)?);
    let end = match (status.code(), status.signal()) {
        _ if too_long => return Err(format!("{path}: took too long, and was ended ({status})")),
        (Some(0), _) => return Ok((done, errors)),
        (Some(code), _) => format!("with status {code}"),
        (None, Some(signal)) => format!("by signal {signal}"),
        (None, None) => status.to_string(),
    };
    Err(format!("{path}: ended {end}, standard error {}", shown(&errors)))
}

/// What the program at a path prints for a standard input. Its standard output is read, unless
/// one is given.
pub fn run_on(path: &str, input: OwnedFd, output: Option<OwnedFd>) -> Result<Printed, String> {
    let failed = |what: io::Error| format!("{path}: {what}");
    let (printed, ours) = io::pipe().map_err(failed)?;
    let output = output.unwrap_or(ours.into());
    let read = |_, _: &_| read_all(printed).map_err(failed);
    let (output, errors) = run_beside(path, (input, output), read)?;
    Ok(Printed { output, errors })
}

/// The standard output of the program at a path for an input. Its standard error must be empty.
pub fn run(path: &str, input: &[u8]) -> Result<Vec<u8>, String> {
    let (reading, mut writing) = io::pipe().map_err(|error| error.to_string())?;
    let printed = thread::scope(|scope| {
        // A program that stops before the end of its input closes the pipe.
        scope.spawn(move || writing.write_all(input).is_ok());
        run_on(path, reading.into(), None)
    });
    printed.and_then(|printed| printed.without_errors().map_err(|what| format!("{path}: {what}")))
}

#[cfg(test)]
mod tests {
    use super::*;

    const SHELL: &str = "/bin/sh";

    #[test]
    fn what_a_program_prints_is_given() {
        assert_eq!(run(SHELL, b"echo one; echo two").unwrap(), b"one\ntwo\n");
    }

    #[test]
    fn a_word_on_standard_error_is_told() {
        let what = run(SHELL, b"echo one; echo two >&2").unwrap_err();
        assert!(what.ends_with("printed on standard error: \"two\\n\""), "{what}");
    }

    #[test]
    fn much_on_standard_error_does_not_block() {
        let what = run(SHELL, b"head -c 300000 /dev/zero >&2; echo one").unwrap_err();
        assert!(what.contains("printed on standard error"));
    }

    #[test]
    fn a_status_and_a_signal_are_told() {
        let status = run(SHELL, b"echo one >&2; exit 3").unwrap_err();
        assert!(status.ends_with("ended with status 3, standard error \"one\\n\""), "{status}");
        assert!(run(SHELL, b"kill -9 $$").unwrap_err().contains("signal"));
        let signal = run(SHELL, b"echo one >&2; kill -9 $$").unwrap_err();
        assert!(signal.ends_with("ended by signal 9, standard error \"one\\n\""), "{signal}");
        let silent = run(SHELL, b"kill -9 $$").unwrap_err();
        assert!(silent.ends_with("ended by signal 9, standard error \"\""), "{silent}");
        assert!(run("/no/such/program", &[0; 1 << 20]).is_err());
    }
}
