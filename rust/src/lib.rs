//! The paper's operations written by definition, and their answers as the archive gives them.

#![deny(unsafe_code)]

#[forbid(unsafe_code)]
pub mod library;
#[allow(unsafe_code)]
pub mod memory;
pub mod plain;
#[forbid(unsafe_code)]
pub mod reference;
