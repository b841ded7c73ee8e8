//! A call's parameters as one value, and stores to call.

use yarugota_model::{Fault, Status};

/// What a call is given, apart from schema and data base.
#[derive(Clone, Debug, PartialEq, Eq)]
pub struct Call {
    pub op: [u8; 5],
    pub set: [u8; 4],
    pub reference: u32,
    pub path: [u8; 8],
    pub key: Vec<u8>,
    pub area: Vec<u8>,
}

impl Call {
    /// A call that names an operation and nothing else.
    pub fn plain(op: &[u8; 5]) -> Call {
        Call {
            op: *op,
            set: *b"    ",
            reference: 7,
            path: *b"        ",
            key: Vec::new(),
            area: Vec::new(),
        }
    }
}

/// The model as a store: it changes the call's area and the data base, and
/// gives status and reference.
pub fn model(call: &mut Call, schema: &[u8], base: &mut [u8]) -> (Status, u32) {
    model_with(None, call, schema, base)
}

/// The same with a mistake, where there is one.
pub fn model_with(
    fault: Option<Fault>,
    call: &mut Call,
    schema: &[u8],
    base: &mut [u8],
) -> (Status, u32) {
    yarugota_model::call_with(
        fault,
        &call.op,
        &call.set,
        call.reference,
        &call.path,
        &call.key,
        &mut call.area,
        schema,
        base,
    )
}

/// What a call came to.
#[derive(Clone, Debug, PartialEq, Eq)]
pub struct Answered {
    pub status: Status,
    pub reference: u32,
    /// The area after the call.
    pub area: Vec<u8>,
}

/// Makes a call on a store. Panics if the call is refused and has changed
/// something all the same.
pub fn make(
    mut store: impl FnMut(&mut Call, &[u8], &mut [u8]) -> (Status, u32),
    call: &Call,
    schema: &[u8],
    base: &mut [u8],
) -> Answered {
    let mut made = call.clone();
    let before = base.to_vec();
    let (status, reference) = store(&mut made, schema, base);
    if status != Status::Done {
        assert_eq!(reference, call.reference, "reference of refused {call:?}");
        assert_eq!(made.area, call.area, "area of refused {call:?}");
        assert!(base == before, "data base of refused {call:?}");
    }
    Answered {
        status,
        reference,
        area: made.area,
    }
}
