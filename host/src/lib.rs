//! A host-side counterpart of the verified program, for tests and benchmarks. It is
//! written from the document alone and shares no code with the program.
//!
//! ```text
//! cargo test --offline                           all tests without the verified code
//! HEALDRIP_LIB_DIR=<folder of libhealdrip.a> \
//! BENCHCALLS_LIB_DIR=<folder of libbenchcalls.a> \
//! cargo test --offline                           the same, and against it
//! ```
//!
//! The scripts `test` and `bench` at the top of the repository build the archives
//! and run this project.

pub mod accessed;
mod banks;
pub mod bitwalk;
pub mod faults;
pub mod generate;
pub mod grouped;
pub mod hostile;
pub mod large;
pub mod library;
pub mod propagate;
pub mod reference;
pub mod sheet;
pub mod sheet_texts;
#[cfg(any(healdrip_library, benchcalls_library))]
pub mod stack;
