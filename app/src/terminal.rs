//! The terminal: what is said, what is complained of, signs of progress, and the exit status.
use crate::failure::Failure;
use std::{
    io::{self, IsTerminal, Write},
    process::ExitCode,
    sync::mpsc::{self, RecvTimeoutError, Sender},
    thread::{self, JoinHandle},
    time::{Duration, Instant},
};

/// Turned away by the rules.
pub const REFUSED: u8 = 1;
/// Bad usage, or a file that can't be read, written or understood.
pub const BAD: u8 = 2;
/// Done, but the answer could not be printed: trying again would do it twice.
pub const DONE_UNSAID: u8 = 3;

/// What a command says.
pub struct Said {
    pub text: String,
    /// What it has done by then that stays done, whether or not the text can be printed.
    pub done: Option<String>,
    /// What it found that the rules would turn away.
    pub refused: Vec<Failure>,
}

impl Said {
    /// An answer to a command that has done something.
    pub fn after(done: String, text: String) -> Said {
        Said { text, done: Some(done), refused: Vec::new() }
    }
}

impl From<String> for Said {
    fn from(text: String) -> Said {
        Said { text, done: None, refused: Vec::new() }
    }
}

/// Writes a command's answer. A reader that stops early (`| head`) is no error.
pub fn say(said: &Said) -> ExitCode {
    let mut out = io::stdout().lock();
    match out.write_all(said.text.as_bytes()).and_then(|()| out.flush()) {
        Err(e) if e.kind() != io::ErrorKind::BrokenPipe => match &said.done {
            Some(done) => {
                complain(&format!("{done}, but the answer could not be printed: standard output: {e}"));
                ExitCode::from(DONE_UNSAID)
            }
            None => {
                complain(&format!("standard output: {e}"));
                ExitCode::from(BAD)
            }
        },
        _ if !said.refused.is_empty() => ExitCode::from(REFUSED),
        _ => ExitCode::SUCCESS,
    }
}

/// Writes a complaint; where even that fails, there is nobody left to tell.
pub fn complain(text: &str) {
    let _ = writeln!(io::stderr(), "burrcradle: {text}");
}

/// Says on standard error what takes long, from the first second on, while it lives.
pub struct Progress {
    running: Option<(Sender<()>, JoinHandle<()>)>,
}

impl Progress {
    pub fn on(what: &str) -> Progress {
        if !io::stderr().is_terminal() {
            return Progress { running: None };
        }
        let (done, wait) = mpsc::channel();
        let what = what.to_string();
        let teller = thread::spawn(move || {
            let began = Instant::now();
            let mut told = false;
            while wait.recv_timeout(Duration::from_secs(1)) == Err(RecvTimeoutError::Timeout) {
                let _ = write!(io::stderr(), "\r{what}: {} s ", began.elapsed().as_secs());
                told = true;
            }
            if told {
                let _ = write!(io::stderr(), "\r\x1b[K");
            }
        });
        Progress { running: Some((done, teller)) }
    }
}

impl Drop for Progress {
    fn drop(&mut self) {
        if let Some((done, teller)) = self.running.take() {
            drop(done);
            let _ = teller.join();
        }
    }
}
