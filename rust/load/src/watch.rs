//! A deadline for a store that should answer.

use std::sync::mpsc::{channel, RecvTimeoutError, Sender};
use std::thread::{spawn, JoinHandle};
use std::time::Duration;

use yarugota_driver::Ender;

/// Ends the store's process where nothing is heard for too long.
pub struct Watch {
    alive: Option<Sender<()>>,
    /// Comes to whether the store was ended.
    thread: JoinHandle<bool>,
}

impl Watch {
    pub fn new(ender: Ender, deadline: Duration) -> Watch {
        let (alive, heard) = channel();
        let thread = spawn(move || loop {
            match heard.recv_timeout(deadline) {
                Ok(()) => {}
                Err(RecvTimeoutError::Disconnected) => return false,
                Err(RecvTimeoutError::Timeout) => {
                    ender.end();
                    return true;
                }
            }
        });
        Watch {
            alive: Some(alive),
            thread,
        }
    }

    /// Says that the run goes on.
    pub fn alive(&self) {
        if let Some(alive) = &self.alive {
            // Nobody listens any more where the store was ended.
            let _ = alive.send(());
        }
    }

    /// Stops watching, and tells whether the store was ended.
    pub fn ended(mut self) -> bool {
        self.alive = None;
        self.thread.join().unwrap_or(false)
    }
}
