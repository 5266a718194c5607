//! The value of a reference under inputs.

use crate::layout::{Reference, Store};

/// Down to a constant, at each record by way of the reference that the input of
/// its variable chooses. Byte v of the inputs is for variable v. The table is
/// an accepted one.
pub fn value(store: Store, reference: Reference, inputs: &[u8]) -> u8 {
    let Some(number) = reference.record() else {
        return reference.0 as u8;
    };
    let record = store.record(number);
    match inputs[usize::from(record.variable.0)] {
        0 => value(store, record.low, inputs),
        _ => value(store, record.high, inputs),
    }
}
