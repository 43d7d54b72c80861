//! The inputs that speed is measured on.

pub mod chart_families;
pub mod charts;
pub mod codes;
pub mod families;
pub mod submission;
pub mod world;
