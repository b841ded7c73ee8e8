//! The model behind a C entry with the parameters of `yarugota_call`, so that
//! a program in C can make a call on both and compare; and, to try such a
//! program, the model as a wrong store.

use std::slice::{from_raw_parts, from_raw_parts_mut};
use std::sync::OnceLock;

use yarugota_model::reference::END;
use yarugota_model::{call_with, Fault, Operation, Schema, Status};

/// The model's answer: status in the upper 32 bits, reference in the lower.
/// Where `wrong`, with the mistake that `YARUGOTA_FAULT` names, if any.
///
/// # Safety
///
/// As for `yarugota_call`: no pointer is null, each leads to as many bytes as
/// its length says (`op` to 5, `set` to 4, `path` to 8), and area and data base
/// overlap nothing else.
#[no_mangle]
pub unsafe extern "C" fn model_call(
    wrong: bool,
    op: *const [u8; 5],
    set: *const [u8; 4],
    reference: u32,
    path: *const [u8; 8],
    key: *const u8,
    key_len: usize,
    area: *mut u8,
    area_len: usize,
    schema: *const u8,
    schema_len: usize,
    base: *mut u8,
    base_len: usize,
) -> u64 {
    static CHOSEN: OnceLock<Option<Fault>> = OnceLock::new();
    let fault = CHOSEN.get_or_init(Fault::chosen).filter(|_| wrong);
    let (status, reference) = call_with(
        fault,
        &*op,
        &*set,
        reference,
        &*path,
        from_raw_parts(key, key_len),
        from_raw_parts_mut(area, area_len),
        from_raw_parts(schema, schema_len),
        from_raw_parts_mut(base, base_len),
    );
    if let (Some(fault), Status::Done) = (fault, status) {
        let (key, behind_area) = (key.cast_mut(), area.add(area_len));
        do_beside(fault, &*op, reference, key, key_len, behind_area);
    }
    u64::from(status.number()) << 32 | u64::from(reference)
}

/// What the model does not do beside an answer.
unsafe fn do_beside(
    fault: Fault,
    op: &[u8; 5],
    reference: u32,
    key: *mut u8,
    key_len: usize,
    behind_area: *mut u8,
) {
    match (fault, Operation::named(op)) {
        (Fault::BesideTheArea, Some(op)) if op.is_read() && reference != END => *behind_area = 0,
        (Fault::KeyWritten, Some(Operation::DelM)) => key.write_bytes(0, key_len),
        (Fault::BroughtDown, Some(Operation::Writv)) => std::process::abort(),
        _ => {}
    }
}

/// T of a schema; 0 where it breaks a rule.
///
/// # Safety
///
/// The pointer is not null and leads to so many bytes.
#[no_mangle]
pub unsafe extern "C" fn model_blocks(schema: *const u8, schema_len: usize) -> u32 {
    let schema = Schema::decode(from_raw_parts(schema, schema_len));
    schema.map_or(0, |schema| schema.blocks() as u32)
}

/// The byte of the data base where a record begins; the largest number where
/// there is no such record.
///
/// # Safety
///
/// The pointer is not null and leads to so many bytes.
#[no_mangle]
pub unsafe extern "C" fn model_place(
    schema: *const u8,
    schema_len: usize,
    entry: usize,
    record: u32,
) -> usize {
    let schema = Schema::decode(from_raw_parts(schema, schema_len));
    let place = schema.and_then(|schema| schema.record_offset(entry, record));
    place.unwrap_or(usize::MAX)
}
