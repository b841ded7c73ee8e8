//! Which store is called, and how.

use yarugota_driver::Driver;
use yarugota_model::Fault;

/// A store to be judged.
#[derive(Clone, Copy, Debug, PartialEq, Eq)]
pub enum Store {
    /// The proved one.
    Proved,
    /// The model, with a mistake, so that the judges can be tried, or with none.
    /// What the model cannot do beside its answers is done by the driver,
    /// beside those of the proved store.
    Model(Option<Fault>),
}

impl Store {
    /// The proved store, unless `YARUGOTA_FAULT` names a mistake.
    pub fn chosen() -> Store {
        match Fault::chosen() {
            None => Store::Proved,
            Some(fault) => {
                eprintln!("this is not the proved store, but one with the mistake {fault:?}");
                Store::Model(Some(fault))
            }
        }
    }

    pub(crate) fn start(self) -> Called {
        match self {
            Store::Proved => Called::Driver(Driver::start()),
            Store::Model(Some(fault)) if fault.is_beside_the_answer() => {
                Called::Driver(Driver::mistaken(&fault.name()))
            }
            Store::Model(fault) => Called::Model(fault),
        }
    }
}

/// How a store is called.
pub(crate) enum Called {
    /// In a process of its own, with guard bytes round every buffer.
    Driver(Driver),
    /// As a function.
    Model(Option<Fault>),
}
