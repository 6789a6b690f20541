//! Child processes: all questions in through a pipe, all answers out.

use std::io::{Read, Write};
use std::process::{Child, Command, Stdio};
use std::sync::mpsc::{channel, Receiver};
use std::thread::spawn;
use std::time::Duration;

pub struct Running {
    child: Child,
    answers: Receiver<Vec<u8>>,
    /// After this long the child is taken to hang and is ended.
    patience: Duration,
}

/// What a child wrote, and how it ended if that was not well.
pub struct Answers {
    pub text: Vec<u8>,
    pub ended: Option<String>,
}

/// A script of node's is handed to node; all else is run as it is.
fn command(path: &str) -> Command {
    if path.ends_with(".js") {
        let mut c = Command::new("node");
        c.arg(path);
        c
    } else {
        Command::new(path)
    }
}

/// Starts a child on its input. Writing and reading go on in threads of their
/// own, so that neither waits for the other.
pub fn start(path: &str, input: Vec<u8>) -> std::io::Result<Running> {
    let patience = Duration::from_secs(3) + Duration::from_micros(3 * input.len() as u64);
    let mut child = command(path).stdin(Stdio::piped()).stdout(Stdio::piped()).spawn()?;
    let (mut stdin, mut stdout) = (child.stdin.take().unwrap(), child.stdout.take().unwrap());
    let (sender, answers) = channel();
    // A child that ends early breaks the pipe: the missing answers tell.
    spawn(move || stdin.write_all(&input));
    spawn(move || {
        let mut text = Vec::new();
        let _ = stdout.read_to_end(&mut text);
        let _ = sender.send(text);
    });
    Ok(Running { child, answers, patience })
}

impl Running {
    /// Waits for the end.
    pub fn finish(mut self) -> Answers {
        let in_time = self.answers.recv_timeout(self.patience);
        let hangs = in_time.is_err();
        if hangs {
            let _ = self.child.kill();
        }
        let late = Duration::from_secs(1);
        let text = in_time.or_else(|_| self.answers.recv_timeout(late)).unwrap_or_default();
        let ended = match self.child.wait() {
            _ if hangs => Some("did not end".to_string()),
            Ok(status) if status.success() => None,
            Ok(status) => Some(format!("ended with {status}")),
            Err(e) => Some(e.to_string()),
        };
        Answers { text, ended }
    }
}
