//! Address sheets: what they give, typed in by hand; generated and damaged sheets; and walks
//! over the tables that are made, held to what the lines say. All of it for the reference
//! and, with BENCHCALLS_LIB_DIR set, for the verified call.

mod asking;
mod buffers;
mod example;
mod file_rules;
mod generated;
mod limits;
mod ranges;
mod tables;
mod walks;
