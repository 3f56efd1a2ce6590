//! What the library is measured against: its operations once more, in plain and
//! fast Rust without proofs, and the sheets to measure them on.

pub mod engine;
pub mod families;
pub mod plain;
pub mod timing;
