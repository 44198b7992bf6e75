//! Plain Rust for the same bytes as the proved library, and the inputs on which the two are timed.

#![forbid(unsafe_code)]

pub mod catalogue;
pub mod drafting;
pub mod earning;
pub mod excluding;
pub mod hierarchy;
pub mod inputs;
pub mod naming;
pub mod ontology;
pub mod plain;
