//! One driver for each thread, started when it is first asked.

use std::cell::RefCell;
use std::io::{Read, Write};
use std::process::{Child, ChildStdin, ChildStdout, Command, Stdio};

/// The C entries, by the number under which the driver knows them.
#[derive(Clone, Copy)]
pub enum Entry {
    SchemaBlocks = 1,
    RecordPlace = 2,
    BlockSealed = 3,
    BlockSeal = 4,
}

struct Driver {
    child: Child,
    requests: Option<ChildStdin>,
    answers: ChildStdout,
}

impl Driver {
    fn start() -> Driver {
        assert!(
            !env!("DRIVER").is_empty(),
            "the proved leaves are missing: `tools/archives`, run at the repository root, comes first"
        );
        let mut child = Command::new(env!("RUN_X86"))
            .arg(env!("DRIVER"))
            .stdin(Stdio::piped())
            .stdout(Stdio::piped())
            .spawn()
            .expect("the driver starts");
        Driver {
            requests: child.stdin.take(),
            answers: child.stdout.take().expect("the driver's output is a pipe"),
            child,
        }
    }

    fn request(&mut self, entry: Entry, a: u32, b: u32, buffer: &[u8]) {
        let mut request = vec![entry as u8];
        for number in [a, b, buffer.len() as u32] {
            request.extend(number.to_be_bytes());
        }
        request.extend(buffer);
        let pipe = self.requests.as_mut().expect("the driver is running");
        pipe.write_all(&request).expect("the driver reads");
    }

    fn answer(&mut self) -> u64 {
        let mut reply = [0; 9];
        self.answers
            .read_exact(&mut reply)
            .expect("the driver answers");
        match reply[0] {
            0 => {}
            1 => panic!("bytes beside the buffer were changed"),
            2 => panic!("a buffer to read was changed"),
            other => panic!("the driver refuses the request: {other}"),
        }
        u64::from_be_bytes(reply[1..].try_into().expect("eight bytes"))
    }
}

impl Drop for Driver {
    /// The end of its input ends the driver.
    fn drop(&mut self) {
        self.requests = None;
        let _ = self.child.wait();
    }
}

thread_local! {
    static DRIVER: RefCell<Driver> = RefCell::new(Driver::start());
}

/// The answer of an entry that only reads the buffer.
pub fn ask(entry: Entry, a: u32, b: u32, buffer: &[u8]) -> u64 {
    DRIVER.with_borrow_mut(|driver| {
        driver.request(entry, a, b, buffer);
        driver.answer()
    })
}

/// The answer of an entry that may write the buffer, which it leaves as that
/// entry did.
pub fn ask_writing(entry: Entry, a: u32, b: u32, buffer: &mut [u8]) -> u64 {
    DRIVER.with_borrow_mut(|driver| {
        driver.request(entry, a, b, buffer);
        let answer = driver.answer();
        driver
            .answers
            .read_exact(buffer)
            .expect("the driver gives the buffer back");
        answer
    })
}
