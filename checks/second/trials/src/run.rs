//! Runs a program on journals.

use std::fmt;
use std::fs::{self, File};
use std::io::{self, Read};
use std::path::{Path, PathBuf};
use std::process::{Child, Command, ExitStatus, Stdio};
use std::sync::{Mutex, MutexGuard, PoisonError};
use std::thread;
use std::time::{Duration, Instant};

/// A program that takes longer than this for a call is ended.
const PATIENCE: Duration = Duration::from_secs(60);

/// The program's whole path, so that it is not looked for elsewhere.
pub fn find(program: &Path) -> Result<PathBuf, String> {
    let path = fs::canonicalize(program)
        .map_err(|error| format!("there is no program {}: {error}", program.display()))?;
    if path.is_file() {
        Ok(path)
    } else {
        Err(format!("{} is no file", program.display()))
    }
}

/// How a run came to its end.
#[derive(Clone, Copy, Debug, PartialEq, Eq)]
pub enum End {
    Status(i32),
    Signal,
    OutOfTime,
}

impl fmt::Display for End {
    fn fmt(&self, f: &mut fmt::Formatter<'_>) -> fmt::Result {
        match self {
            End::Status(status) => write!(f, "status {status}"),
            End::Signal => write!(f, "ended by a signal"),
            End::OutOfTime => write!(f, "ended for taking too long"),
        }
    }
}

#[derive(Clone, Debug, PartialEq, Eq)]
pub struct Run {
    pub end: End,
    pub output: Vec<u8>,
    /// Standard error.
    pub errors: Vec<u8>,
}

impl Run {
    /// The beginning of standard error, where the run did not end well.
    pub fn complaint(&self) -> String {
        if self.end == End::Status(0) {
            return String::new();
        }
        let errors = String::from_utf8_lossy(&self.errors);
        errors.trim_end().chars().take(500).collect()
    }
}

/// A program with its arguments.
#[derive(Clone, Copy, Debug)]
pub struct Call<'a> {
    pub program: &'a Path,
    pub arguments: &'a [String],
    /// The name of the journal that is its standard input; without one that
    /// is empty.
    pub input: Option<&'a str>,
}

struct Running {
    child: Child,
    since: Instant,
    ended: bool,
}

/// A place to run programs at, one after another. Journals lie in files of a
/// folder where the programs run, and one of them may be standard input.
/// Standard error goes into a file as well, so that standard output is all
/// that is read while the program runs.
pub struct Desk {
    journals: PathBuf,
    errors: PathBuf,
    running: Mutex<Option<Running>>,
}

impl Desk {
    pub fn new(folder: &Path, number: usize) -> io::Result<Desk> {
        let journals = folder.join(format!("{number}"));
        fs::create_dir_all(&journals)?;
        Ok(Desk {
            journals,
            errors: folder.join(format!("{number}.stderr")),
            running: Mutex::new(None),
        })
    }

    /// Lays a journal there, under a name, for the runs that follow.
    pub fn lay(&self, name: &str, journal: &[u8]) -> io::Result<()> {
        fs::write(self.journals.join(name), journal)
    }

    /// Takes a journal away.
    pub fn take(&self, name: &str) -> io::Result<()> {
        fs::remove_file(self.journals.join(name))
    }

    /// Runs a program to its end.
    pub fn run(&self, call: Call) -> Result<Run, String> {
        self.run_through(call)
            .map_err(|error| format!("{} cannot be run: {error}", call.program.display()))
    }

    fn run_through(&self, call: Call) -> io::Result<Run> {
        let input = match call.input {
            Some(name) => File::open(self.journals.join(name))?.into(),
            None => Stdio::null(),
        };
        let mut child = Command::new(call.program)
            .args(call.arguments)
            .current_dir(&self.journals)
            .stdin(input)
            .stdout(Stdio::piped())
            .stderr(File::create(&self.errors)?)
            .spawn()?;
        let stdout = child.stdout.take();
        *self.lock() = Some(Running {
            child,
            since: Instant::now(),
            ended: false,
        });
        let mut output = Vec::new();
        if let Some(mut stdout) = stdout {
            stdout.read_to_end(&mut output)?;
        }
        Ok(Run {
            end: self.wait()?,
            output,
            errors: fs::read(&self.errors)?,
        })
    }

    /// Ends the program that runs here, if it has taken too long.
    pub fn watch(&self) {
        if let Some(running) = self.lock().as_mut() {
            if running.since.elapsed() > PATIENCE && running.child.kill().is_ok() {
                running.ended = true;
            }
        }
    }

    /// Waits with the lock let go at times, so that the watch can take it.
    fn wait(&self) -> io::Result<End> {
        let mut pause = Duration::from_micros(20);
        loop {
            if let Some(running) = self.lock().as_mut() {
                if let Some(status) = running.child.try_wait()? {
                    return Ok(end_of(status, running.ended));
                }
            }
            thread::sleep(pause);
            pause = (pause * 2).min(Duration::from_millis(20));
        }
    }

    fn lock(&self) -> MutexGuard<'_, Option<Running>> {
        self.running.lock().unwrap_or_else(PoisonError::into_inner)
    }
}

fn end_of(status: ExitStatus, ended: bool) -> End {
    match status.code() {
        Some(status) => End::Status(status),
        None if ended => End::OutOfTime,
        None => End::Signal,
    }
}
