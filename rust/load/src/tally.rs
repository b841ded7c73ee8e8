//! What a run has done, counted.

use std::collections::BTreeMap;
use std::fmt;

use yarugota_differential::Summary;
use yarugota_model::{Operation, Status};

use crate::Kind;

#[derive(Clone, Debug, Default)]
pub struct Tally {
    pub rounds: u64,
    /// Copies that SINON found sound all the same, and the others.
    pub accepted: u64,
    pub refused: u64,
    /// By kind, and whether the checks were set anew.
    pub damages: BTreeMap<(Kind, bool), u64>,
    pub other_lengths: u64,
    pub rubbish_schemas: u64,
}

impl Tally {
    pub fn damage(&mut self, kinds: &[Kind], checks_true: bool) {
        for &kind in kinds {
            *self.damages.entry((kind, checks_true)).or_default() += 1;
        }
    }

    fn times(&self, kind: Kind, checks_true: bool) -> u64 {
        let count = self.damages.get(&(kind, checks_true));
        count.copied().unwrap_or(0)
    }

    /// The whole report, with the calls by operation and status.
    pub fn report(&self, summary: &Summary) -> String {
        format!("{}{self}", by_operation(summary))
    }
}

/// A line for each operation, with the statuses that it has answered.
fn by_operation(summary: &Summary) -> String {
    let mut text = String::new();
    let known: u64 = summary.statuses.values().sum();
    for operation in Operation::ALL {
        text += &String::from_utf8_lossy(operation.name());
        for status in Status::ALL {
            let times = summary.times(operation, status);
            if times > 0 {
                text += &format!("  {} {times}", status.code());
            }
        }
        text += "\n";
    }
    text + &format!("unknown operations  {}\n", summary.calls - known)
}

impl fmt::Display for Tally {
    fn fmt(&self, f: &mut fmt::Formatter) -> fmt::Result {
        writeln!(f, "damages, checks set anew and left:")?;
        for kind in Kind::ALL {
            let (anew, left) = (self.times(kind, true), self.times(kind, false));
            writeln!(f, "  {:25}{anew:>9}{left:>9}", kind.name())?;
        }
        writeln!(
            f,
            "damaged copies: {} accepted by SINON, {} refused",
            self.accepted, self.refused
        )?;
        write!(
            f,
            "other lengths: {}; rubbish schemas: {}; rounds: {}",
            self.other_lengths, self.rubbish_schemas, self.rounds
        )
    }
}
