//! What the driver and the benchmark have in common: the learner's single parts.

pub mod port;
