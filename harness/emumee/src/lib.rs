//! The originals, compiled as they stand: whole files, but of `pe.rs` only `Architecture`.
include!(concat!(env!("OUT_DIR"), "/sources.rs"));
pub use sources::*;
