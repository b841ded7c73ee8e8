//! The store by itself, a call at a time.

use yarugota_driver::{Batch, Driver};
use yarugota_model::Status;
use yarugota_support::{model_with, Call};

use crate::store::Called;
use crate::Store;

/// A store to be judged without the model, by the vectors or by plain lists.
pub struct Direct {
    store: Called,
}

impl Direct {
    pub fn new(store: Store) -> Direct {
        Direct {
            store: store.start(),
        }
    }

    /// Makes a call, changes its area and the data base as the store does, and
    /// gives status and reference. Panics if the store does anything else.
    pub fn call(&mut self, call: &mut Call, schema: &[u8], base: &mut [u8]) -> (Status, u32) {
        match &mut self.store {
            Called::Driver(driver) => driven(driver, call, schema, base),
            Called::Model(fault) => model_with(*fault, call, schema, base),
        }
    }
}

fn driven(driver: &mut Driver, call: &mut Call, schema: &[u8], base: &mut [u8]) -> (Status, u32) {
    let mut batch = Batch::new();
    batch.schema(schema);
    batch.base(base);
    let (op, set, path) = (&call.op, &call.set, &call.path);
    batch.call(op, set, call.reference, path, &call.key, &call.area);
    let mut answers = Vec::new();
    driver.make(&batch, |answer| answers.push(answer));
    let answer = match answers.pop() {
        Some(Ok(answer)) => answer,
        Some(Err(failure)) => panic!("{failure}: {call:?}"),
        None => panic!("no answer: {call:?}"),
    };
    answer.changes.iter().for_each(|change| change.apply(base));
    call.area = answer.area;
    let status = Status::ALL.get(answer.status as usize);
    let status = status.unwrap_or_else(|| panic!("status {}: {call:?}", answer.status));
    (*status, answer.reference)
}
