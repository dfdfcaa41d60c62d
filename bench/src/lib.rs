//! The proved library beside an independent implementation in plain Rust.
pub mod inputs;
pub mod plain;
pub use sheet as proved;
