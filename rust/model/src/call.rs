//! The call itself: tests 1 to 3, the way to each operation, and the one place
//! where data base and area are changed.

use crate::block::{seal, BLOCK};
use crate::database::DataBase;
use crate::fault::Fault;
use crate::ladder::{refuse, Request};
use crate::links::{self, Position};
use crate::masters;
use crate::operation::Operation;
use crate::schema::Schema;
use crate::sound::sound;
use crate::status::Status;
use crate::stores::Answer;
use crate::sweep;
use crate::variables::{self, Direction};

/// "A call is given: operation (5 bytes), set name (4), reference (32 bits),
/// path name (8), control key, area, schema, data base. It returns status and
/// reference."
///
/// "Nonzero: reference as given, data base and area unchanged."
#[allow(clippy::too_many_arguments)] // document 01 fixes them
pub fn call(
    op: &[u8; 5],
    set: &[u8; 4],
    reference: u32,
    path: &[u8; 8],
    key: &[u8],
    area: &mut [u8],
    schema: &[u8],
    base: &mut [u8],
) -> (Status, u32) {
    call_with(None, op, set, reference, path, key, area, schema, base)
}

/// The same with a mistake, where there is one.
#[allow(clippy::too_many_arguments)] // as above
pub fn call_with(
    fault: Option<Fault>,
    op: &[u8; 5],
    set: &[u8; 4],
    reference: u32,
    path: &[u8; 8],
    key: &[u8],
    area: &mut [u8],
    schema: &[u8],
    base: &mut [u8],
) -> (Status, u32) {
    let done = decode(fault, op, schema, base).and_then(|(operation, schema)| {
        let request = Request {
            operation,
            set,
            reference,
            path,
            key,
            area,
        };
        let answer = perform(&schema, &request, base)?;
        if let Some(read) = answer.area {
            area.copy_from_slice(&read);
        }
        Ok(answer.reference)
    });
    if fault == Some(Fault::AreaOfRefused) && done.is_err() {
        // On a copy, so that nothing but the area is changed.
        let (taken, base) = (Some(Fault::OtherKeyTaken), &mut base.to_vec());
        call_with(taken, op, set, reference, path, key, area, schema, base);
    }
    match done {
        Ok(reference) => (Status::Done, reference),
        Err(status) => (status, reference),
    }
}

/// Tests 1, 2 and 3.
fn decode(
    fault: Option<Fault>,
    op: &[u8; 5],
    schema: &[u8],
    base: &[u8],
) -> Result<(Operation, Schema), Status> {
    let schema = Schema::decode_with(fault, schema).ok_or(Status::Schm)?;
    refuse(base.len() != schema.base_length(), Status::Size)?;
    let operation = Operation::named(op).ok_or(Status::Func)?;
    Ok((operation, schema))
}

/// Makes the call's stores, but leaves the area to `call`.
fn perform(schema: &Schema, request: &Request, bytes: &mut [u8]) -> Result<Answer, Status> {
    let base = &DataBase { schema, bytes };
    let answer = match request.operation {
        // "FORMT answers only 0, 1 or 2 and ignores the data base's checks"
        Operation::Formt => {
            format(bytes);
            Answer::reference(request.reference)
        }
        Operation::Sinon => sinon(base, request)?,
        Operation::AddM => masters::add_m(base, request)?,
        Operation::DelM => masters::del_m(base, request)?,
        Operation::Readm => masters::read_m(base, request)?,
        Operation::Writm => masters::writ_m(base, request)?,
        Operation::Rqloc => masters::rqloc(base, request)?,
        Operation::Rdnxt => sweep::read_next(base, request)?,
        Operation::Readv => variables::read_along(Direction::Forward, base, request)?,
        Operation::Readr => variables::read_along(Direction::Backward, base, request)?,
        Operation::Readd => variables::read_d(base, request)?,
        Operation::Writv => variables::writ_v(base, request)?,
        Operation::Addvc => links::add(Position::Last, base, request)?,
        Operation::Addvb => links::add(Position::Before, base, request)?,
        Operation::Addva => links::add(Position::After, base, request)?,
        Operation::Delvd => links::del_vd(base, request)?,
    };
    answer.stores.carry_out(schema.fault, bytes)?;
    Ok(answer)
}

/// "SINON gives 16 exactly if the data base is not sound"
fn sinon(base: &DataBase, request: &Request) -> Result<Answer, Status> {
    refuse(!sound(base.schema, base.bytes), Status::Damg)?;
    Ok(Answer::reference(request.reference))
}

/// "FORMT zeroes everything and sets the checks."
pub fn format(base: &mut [u8]) {
    base.fill(0);
    for (number, block) in base.chunks_exact_mut(BLOCK).enumerate() {
        seal(block, number as u32);
    }
}
