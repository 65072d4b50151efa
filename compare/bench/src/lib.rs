//! What the timing programs share: medians of many runs, the batches that
//! are timed, and the port's building of a batch.

pub mod bodies;
#[cfg(feature = "port")]
pub mod builder;
pub mod timing;
