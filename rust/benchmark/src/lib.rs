//! Times of the proved store beside the model.
//!
//! A [`Workload`] is a list of [`Phase`]s, each a list of calls. [`measure`]
//! makes every phase by both [sides](Side) on the same buffer, compares what
//! they answered and stored, and keeps the times. [`Stop`]s are single calls
//! that get so far and no further: they tell where the time of a call goes.

mod figures;
mod rounds;
mod sides;
mod stop;
pub mod stops;
mod workload;

pub use figures::{grouped, Figures};
pub use rounds::{fill, measure, Row};
pub use sides::{model, store, Side};
pub use stop::Stop;
pub use workload::{Phase, Sizes, Step, Workload};
