//! The call itself: linked in, or in a process of its own.

/// Whether the proved library is linked in. Otherwise calls go to a driver.
pub const LINKED: bool = cfg!(store_linked);

#[cfg(store_linked)]
extern "C" {
    /// As `include/yarugota.h` declares it.
    fn yarugota_call(
        op: *const u8,
        set: *const u8,
        reference: u32,
        path: *const u8,
        key: *const u8,
        key_length: usize,
        area: *mut u8,
        area_length: usize,
        schema: *const u8,
        schema_length: usize,
        base: *mut u8,
        base_length: usize,
    ) -> u64;
}

/// Status and reference in one number, as the C entry gives them.
#[cfg(store_linked)]
#[allow(clippy::too_many_arguments)] // document 01 fixes them
pub fn call(
    op: &[u8; 5],
    set: &[u8; 4],
    reference: u32,
    path: &[u8; 8],
    key: &[u8],
    area: &mut [u8],
    schema: &[u8],
    base: &mut [u8],
) -> u64 {
    // SAFETY: every pointer is that of a slice or an array, with its length,
    // and the two that are written through are borrowed mutably, so no other
    // buffer overlaps them. The entry keeps none of them.
    unsafe {
        yarugota_call(
            op.as_ptr(),
            set.as_ptr(),
            reference,
            path.as_ptr(),
            key.as_ptr(),
            key.len(),
            area.as_mut_ptr(),
            area.len(),
            schema.as_ptr(),
            schema.len(),
            base.as_mut_ptr(),
            base.len(),
        )
    }
}

/// Status and reference in one number, as the C entry gives them.
#[cfg(not(store_linked))]
#[allow(clippy::too_many_arguments)] // document 01 fixes them
pub fn call(
    op: &[u8; 5],
    set: &[u8; 4],
    reference: u32,
    path: &[u8; 8],
    key: &[u8],
    area: &mut [u8],
    schema: &[u8],
    base: &mut [u8],
) -> u64 {
    use std::cell::RefCell;
    use yarugota_driver::{Batch, Driver};

    thread_local! {
        /// One for each thread, started by its first call.
        static DRIVER: RefCell<Driver> = RefCell::new(Driver::start());
    }

    let mut batch = Batch::new();
    batch.schema(schema);
    batch.base(base);
    batch.call(op, set, reference, path, key, area);
    let mut answers = Vec::new();
    DRIVER.with_borrow_mut(|driver| driver.make(&batch, |answer| answers.push(answer)));
    let answer = match answers.pop() {
        Some(Ok(answer)) => answer,
        Some(Err(failure)) => panic!("{failure}"),
        None => panic!("the driver gave no answer"),
    };
    area.copy_from_slice(&answer.area);
    answer.changes.iter().for_each(|change| change.apply(base));
    u64::from(answer.status) << 32 | u64::from(answer.reference)
}
