//! Replays a vector file on the definitions and tells every difference.

use crate::rooms::Rooms;
use crate::store::{read_definitions, Call, Outcome, Store};
use crate::vectors::{fnv, read, Expected, What};
use std::fmt::Write;
use std::thread;

#[derive(Debug, Default)]
pub struct Report {
    /// Calls that were replayed.
    pub calls: usize,
    /// Calls that could not be: after a difference in the data base the rest
    /// of the sequence would start from something else than was meant.
    pub lost: usize,
    pub differences: Vec<String>,
}

/// Replays the vectors, up to as many differences as are `enough`.
///
/// It happens on a thread of its own: recursion over all records of a set goes
/// deeper than an ordinary stack. The memory is taken only as it is used.
pub fn replay(rooms: &Rooms, vectors: &str, enough: usize) -> Result<Report, String> {
    const STACK: usize = 1 << 30;
    thread::scope(|scope| {
        thread::Builder::new()
            .stack_size(STACK)
            .spawn_scoped(scope, || replay_here(rooms, vectors, enough))
            .map_err(|fault| fault.to_string())?
            .join()
            .map_err(|_| "the replay came to a sudden end".to_string())?
    })
}

fn replay_here(rooms: &Rooms, vectors: &str, enough: usize) -> Result<Report, String> {
    let program = read_definitions(rooms)?;
    let store = Store::new(&program)?;
    let mut report = Report::default();
    let (mut schema, mut base) = (Vec::new(), Vec::new());
    let mut lost = false;
    for step in read(vectors)? {
        match step.what {
            What::Schema(bytes) => schema = bytes,
            What::Base(length) => {
                base = vec![0; length];
                lost = false;
            }
            What::Poke(offset, bytes) => {
                let place = base.get_mut(offset..offset + bytes.len());
                let place = place.ok_or(format!("line {}: a poke past the end", step.line))?;
                place.copy_from_slice(&bytes);
            }
            What::Call(..) if lost => report.lost += 1,
            What::Call(call, expected) => {
                report.calls += 1;
                let outcome = store.call(&call, &schema, &base);
                if let Some(text) = difference(&call, &outcome, &expected) {
                    let line = step.line;
                    report.differences.push(format!("line {line}: {text}"));
                    if report.differences.len() >= enough {
                        return Ok(report);
                    }
                }
                match outcome {
                    Ok(outcome) if fnv(&outcome.base) == expected.hash => base = outcome.base,
                    _ => lost = true,
                }
            }
        }
    }
    Ok(report)
}

/// The call and both outcomes, where these are not the same.
fn difference(
    call: &Call,
    outcome: &Result<Outcome, String>,
    expected: &Expected,
) -> Option<String> {
    let area = expected.area.as_ref().unwrap_or(&call.area);
    let wanted = show(expected.status, expected.reference, area, expected.hash);
    let found = match outcome {
        Ok(Outcome {
            status,
            reference,
            area,
            base,
        }) => show(*status, *reference, area, fnv(base)),
        Err(message) => message.clone(),
    };
    if wanted == found {
        return None;
    }
    let call = format!(
        "{} {} {} {} {} {}",
        String::from_utf8_lossy(&call.operation),
        String::from_utf8_lossy(&call.set),
        call.reference,
        String::from_utf8_lossy(&call.path),
        hex(&call.key),
        hex(&call.area)
    );
    Some(format!(
        "{call}\n  vectors:     {wanted}\n  definitions: {found}"
    ))
}

fn show(status: u64, reference: u64, area: &[u8], hash: u64) -> String {
    let area = hex(area);
    format!("status {status}, reference {reference}, area {area}, base {hash:016x}")
}

fn hex(bytes: &[u8]) -> String {
    let mut text = String::new();
    for byte in bytes {
        write!(text, "{byte:02x}").expect("a string takes all");
    }
    match text.is_empty() {
        true => "-".to_string(),
        false => text,
    }
}
