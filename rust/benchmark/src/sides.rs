//! The two sides, behind one signature.

use yarugota::Call;

/// Makes a call with area, schema and data base, and gives status and
/// reference.
pub type Side = fn(&Call, &mut [u8], &[u8], &mut [u8]) -> (u32, u32);

pub fn store(call: &Call, area: &mut [u8], schema: &[u8], base: &mut [u8]) -> (u32, u32) {
    let answer = yarugota::call(call, area, schema, base);
    (answer.status.number(), answer.reference.bits())
}

pub fn model(call: &Call, area: &mut [u8], schema: &[u8], base: &mut [u8]) -> (u32, u32) {
    let (op, set, path) = (call.operation.name(), &call.set.0, &call.path.0);
    let reference = call.reference.bits();
    let (status, reference) =
        yarugota_model::call(op, set, reference, path, call.key, area, schema, base);
    (status.number(), reference)
}
