//! The driver's process.

use std::fmt;
use std::io::{self, BufReader, Read, Write};
use std::process::{Child, ChildStdin, ChildStdout, Command, Stdio};
use std::sync::{Arc, Mutex, MutexGuard, PoisonError};

use crate::{Answer, Batch, Change};

/// A driver that is running.
#[derive(Debug)]
pub struct Driver {
    child: Ender,
    requests: Option<ChildStdin>,
    answers: BufReader<ChildStdout>,
    /// Whether all of the last batch's answers have been read.
    idle: bool,
}

/// Ends a driver from another thread, as where a call takes too long. What the
/// driver was asked then fails as [`Failure::Ended`].
#[derive(Clone, Debug)]
pub struct Ender {
    child: Arc<Mutex<Child>>,
}

impl Ender {
    pub fn end(&self) {
        // One that has ended by itself cannot be ended, and need not be.
        let _ = self.child().kill();
    }

    fn child(&self) -> MutexGuard<'_, Child> {
        self.child.lock().unwrap_or_else(PoisonError::into_inner)
    }
}

/// Why a batch was not answered to its end.
#[derive(Debug)]
pub enum Failure {
    /// Bytes beside a buffer were changed.
    Beside,
    /// A buffer that should only be read was changed.
    ReadOnly,
    /// The driver has ended, as where a call brings it down.
    Ended(io::Error),
}

impl fmt::Display for Failure {
    fn fmt(&self, f: &mut fmt::Formatter) -> fmt::Result {
        match self {
            Failure::Beside => write!(f, "bytes beside a buffer were changed"),
            Failure::ReadOnly => write!(f, "a buffer that should only be read was changed"),
            Failure::Ended(error) => write!(f, "the driver has ended: {error}"),
        }
    }
}

impl Driver {
    /// Starts a driver. Panics, and says what to do, if the proved library has
    /// not been built.
    pub fn start() -> Driver {
        Driver::started(&mut Driver::command())
    }

    /// A driver that makes a mistake beside the answers of the store, as
    /// `driver.c` lists them.
    pub fn mistaken(mistake: &str) -> Driver {
        Driver::started(Driver::command().arg(mistake))
    }

    fn command() -> Command {
        let program = env!("DRIVER_PROVED");
        assert!(
            !program.is_empty(),
            "the proved store is missing: `tools/archives`, run at the repository root, comes first"
        );
        let mut command = Command::new(env!("RUN_X86"));
        command.arg(program);
        command
    }

    fn started(command: &mut Command) -> Driver {
        let mut child = command
            .stdin(Stdio::piped())
            .stdout(Stdio::piped())
            .spawn()
            .expect("the driver starts");
        Driver {
            requests: child.stdin.take(),
            answers: BufReader::new(child.stdout.take().expect("the driver's output is a pipe")),
            child: Ender {
                child: Arc::new(Mutex::new(child)),
            },
            idle: true,
        }
    }

    pub fn ender(&self) -> Ender {
        self.child.clone()
    }

    /// Makes all calls of a batch and hands the answers over one by one. After
    /// the first failure, which takes its call's place, there are no more.
    pub fn make(&mut self, batch: &Batch, mut each: impl FnMut(Result<Answer, Failure>)) {
        self.idle = false;
        if let Err(error) = self.send(batch) {
            each(Err(Failure::Ended(error)));
            return;
        }
        for &area in &batch.areas {
            let answer = self.answer(area);
            let failed = answer.is_err();
            each(answer);
            if failed {
                return;
            }
        }
        self.idle = true;
    }

    fn send(&mut self, batch: &Batch) -> io::Result<()> {
        let length = u32::try_from(batch.requests.len()).expect("a batch below 4 GB");
        let requests = self.requests.as_mut().expect("the driver is running");
        requests.write_all(&length.to_be_bytes())?;
        requests.write_all(&batch.requests)?;
        requests.flush()
    }

    fn answer(&mut self, area: usize) -> Result<Answer, Failure> {
        let mut wrong = [0];
        self.read(&mut wrong)?;
        let status = self.number()?;
        let reference = self.number()?;
        let area = self.bytes(area)?;
        let runs = self.number()?;
        let changes: Result<Vec<Change>, Failure> = (0..runs).map(|_| self.change()).collect();
        let changes = changes?;
        match wrong[0] {
            0 => Ok(Answer {
                status,
                reference,
                area,
                changes,
            }),
            1 => Err(Failure::Beside),
            _ => Err(Failure::ReadOnly),
        }
    }

    fn change(&mut self) -> Result<Change, Failure> {
        let offset = self.number()? as usize;
        let length = self.number()? as usize;
        let bytes = self.bytes(length)?;
        Ok(Change { offset, bytes })
    }

    fn number(&mut self) -> Result<u32, Failure> {
        let mut four = [0; 4];
        self.read(&mut four)?;
        Ok(u32::from_be_bytes(four))
    }

    fn bytes(&mut self, length: usize) -> Result<Vec<u8>, Failure> {
        let mut bytes = vec![0; length];
        self.read(&mut bytes)?;
        Ok(bytes)
    }

    fn read(&mut self, bytes: &mut [u8]) -> Result<(), Failure> {
        self.answers.read_exact(bytes).map_err(Failure::Ended)
    }
}

impl Drop for Driver {
    /// The end of its input ends the driver. One that is left in the middle of
    /// a batch, with nobody to read its answers, is ended.
    fn drop(&mut self) {
        self.requests = None;
        if !self.idle {
            self.child.end();
        }
        let _ = self.child.child().wait();
    }
}
