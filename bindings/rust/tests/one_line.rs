//! The cases of `common/cases.rs` on the proved bench. `harness/emumee/tests/one_line.rs` has them on the Rust bench: this line is all
//! that differs.
use driver_bench::{clock::*, pe::*, scheduler::*};

include!("common/cases.rs");
