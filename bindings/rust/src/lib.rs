//! The proved driver bench with the modules, types and method names of the Rust bench: where that is used as
//! `use emumee_core::scheduler::..`, this is `use driver_bench::scheduler::..`, or `use driver_bench::..`.
//!
//! What is not as there:
//! - `SchedulerError` carries the number of document 01's table in the place of a message, and `ClockError` prints its number
//!   behind the message and has a case for public fields set out of range;
//! - what was lent (`&Thread`, `&Timer`, `&Dpc`, `&DpcCounters`) is given by value, and a `Timer` cannot be made by hand;
//! - no type has `Serialize`, and `pe` has `Architecture` alone;
//! - `qpc` and `tsc` panic past 2^64 - 1 in every build, and with `tick64` on public fields out of range; `observe` is done
//!   whole or not at all, and `instruction` refuses pending cycles past 2^64 - 1;
//! - `Scheduler::with_limits`, which opens a smaller scheduler, `set_timer_signed`, `checked_qpc`, `checked_tsc` and the
//!   `number` and `message` of errors are added; `is_dirty`, `mark_synced` and `shared_data_page` are left out.
pub mod clock;
mod ffi;
pub mod pe;
pub mod scheduler;

pub use clock::*;
pub use pe::*;
pub use scheduler::*;
