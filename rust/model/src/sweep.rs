//! RDNXT, which takes both kinds of set.

use crate::database::DataBase;
use crate::fault::Fault;
use crate::ladder::{rdnxt, Request};
use crate::reference::END;
use crate::status::Status;
use crate::stores::Answer;

/// "RDNXT reads the next live one above the reference, 0 to begin; none: END.
/// as above."
pub fn read_next(base: &DataBase, request: &Request) -> Result<Answer, Status> {
    let set = rdnxt(base, request)?;
    let last = set.entry.records - u32::from(set.fault == Some(Fault::SweepEndsEarly));
    let next = set
        .live_records()
        .find(|&(number, _)| number > request.reference && number <= last);
    Ok(match next {
        Some((number, record)) => Answer::read(number, record),
        None => Answer::reference(END),
    })
}
