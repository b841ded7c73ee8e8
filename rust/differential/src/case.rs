//! A case in which the store and the model differ, told so that it can be run
//! again.

use std::fmt::Write as _;
use std::fs;
use std::path::PathBuf;

use yarugota_driver::{Answer, Failure};
use yarugota_model::Status;
use yarugota_support::vectors::fnv_1a;
use yarugota_support::Call;

use crate::Origin;

/// One call, and what it came to on both sides.
#[derive(Debug)]
pub struct Difference {
    pub origin: Origin,
    pub schema: Vec<u8>,
    /// Before the call.
    pub base: Vec<u8>,
    pub call: Call,
    /// The model's answer.
    pub expected: Answer,
    /// The store's.
    pub answer: Result<Answer, Failure>,
}

impl Difference {
    /// Tells the case, with the commands that make it again, and writes it
    /// down for the second of them.
    pub fn report(&self) -> String {
        let Origin { suite, seed, step } = self.origin;
        [
            format!("the store and the model differ: suite {suite}, seed {seed}, step {step}"),
            self.both(),
            "again, from rust/:".to_string(),
            format!(
                "  cargo run --release -p yarugota-differential -- --suite {suite} --seed {seed}"
            ),
            self.write_down(),
        ]
        .join("\n")
    }

    /// The call, and what each side made of it.
    pub fn both(&self) -> String {
        let store = match &self.answer {
            Ok(answer) => told(answer),
            Err(failure) => failure.to_string(),
        };
        format!(
            "call {}\nmodel: {}\nstore: {store}",
            written(&self.call),
            told(&self.expected)
        )
    }

    /// Writes this call alone into a file and tells how to make it again.
    pub fn write_down(&self) -> String {
        match self.write() {
            Ok(file) => format!(
                "this call alone, from rust/:\n  cargo run --release -p yarugota-differential -- --case {}",
                file.display()
            ),
            Err(error) => format!("the case could not be written down: {error}"),
        }
    }

    /// The case in the form of the vectors, with the model's answer.
    pub fn vector(&self) -> String {
        let mut after = self.base.clone();
        let changes = self.expected.changes.iter();
        changes.for_each(|change| change.apply(&mut after));
        let mut text = format!("schema {}\nbase {}\n", hex(&self.schema), self.base.len());
        if !self.base.is_empty() {
            let _ = writeln!(text, "poke 0 {}", hex(&self.base));
        }
        let _ = writeln!(
            text,
            "call {} -> {} {} {} {:016x}",
            written(&self.call),
            self.expected.status,
            self.expected.reference,
            hex(&self.expected.area),
            fnv_1a(&after)
        );
        text
    }

    /// Writes it into a file of its own and gives that file's name.
    fn write(&self) -> std::io::Result<PathBuf> {
        let Origin { suite, seed, step } = self.origin;
        let folder = PathBuf::from(env!("CARGO_MANIFEST_DIR")).join("../target/differential");
        fs::create_dir_all(&folder)?;
        let file = folder
            .canonicalize()?
            .join(format!("{suite}-{seed}-{step}.txt"));
        fs::write(&file, self.vector())?;
        Ok(file)
    }
}

/// The parameters as the vectors have them.
fn written(call: &Call) -> String {
    format!(
        "{} {} {} {} {} {}",
        hex(&call.op),
        hex(&call.set),
        call.reference,
        hex(&call.path),
        hex(&call.key),
        hex(&call.area)
    )
}

fn told(answer: &Answer) -> String {
    let status = Status::ALL.get(answer.status as usize);
    let code = status.map_or("no such status", |status| status.code());
    let mut text = format!(
        "{} ({code}), reference {}, area {}",
        answer.status,
        answer.reference,
        hex(&answer.area)
    );
    for change in &answer.changes {
        let _ = write!(text, ", at {} {}", change.offset, hex(&change.bytes));
    }
    text
}

/// Two digits a byte; no bytes are `-`.
fn hex(bytes: &[u8]) -> String {
    if bytes.is_empty() {
        return "-".to_string();
    }
    bytes.iter().map(|byte| format!("{byte:02x}")).collect()
}
