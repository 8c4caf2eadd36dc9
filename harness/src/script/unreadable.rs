//! Lines that cannot be read.
use crate::random::Random;

const LINES: [&str; 66] = [
    "resume 2",
    "open",
    "create",
    "create eight",
    "create 8 8",
    "create 18446744073709551616",
    "priority 1",
    "event 4096 0",
    "event 4096 2 0",
    "event 4096 0 yes",
    "set",
    "set -1",
    "set 0x1000",
    "set 99999999999999999999999999999",
    "reset_event 4096 0",
    "wait",
    "wait some never 0 event 4096",
    "wait any soon 0 event 4096",
    "wait any never 0 semaphore 4096",
    "wait any never 0 event x",
    "adopt_mutex 4096 nobody",
    "adopt_mutex 4096",
    "delay_until 5",
    "advance_to",
    "dispatch now",
    "clock",
    "clock stop",
    "clock new 0 0 0",
    "initialize_timer 1048576 x64 image 1048576 64",
    "initialize_timer 1048576 x64 image 1048576 64 2",
    "initialize_timer 1048576 x64 image 1048576 64 64 0",
    "initialize_timer 1048576 arm image 1048576 64 0",
    "initialize_timer 1048576 x64 stack 1048576 64 0",
    "initialize_timer 1048576 x64 pool 1048576 64 0",
    "initialize_timer 1048576 image 1048576 64 0",
    "initialize_dpc 1048640 x64 image 1048576 128 1",
    "initialize_dpc 1048640 x86 pool 1048576 128 1 1",
    "initialize_dpc 1048640 x64 image 1048576 128 1 1 0",
    "set_timer 1048576 10 0 0",
    "set_timer 1048576 10 2 0 0",
    "set_timer 1048576 -10 0 0 0",
    "set_timer 1048576 10 0 - 0",
    "set_timer_signed 1048576 -10 0 0",
    "cancel_timer",
    "require_timer_release 1048576",
    "retire_timer_backing 1048576 64 8",
    "configure_dpc_dispatch 1",
    "configure_dpc_dispatch 1 2 3",
    "insert_queue_dpc 1048640 1",
    "remove_queue_dpc",
    "start_dpc 1048640 1",
    "returned_dpc 1048640",
    "restored_dpc 1048640 one",
    "queued_dpcs",
    "timer_initializations 1",
    "dpc_initializations 0",
    "timer_read_overlap 1048576",
    "timer_metadata_overlap 1048576 64 8",
    "timer 1048576",
    "timers 0",
    "dpc 1048640",
    "active_dpc",
    "next_dpc",
    "dpc_policy",
    "dpc_counters",
    "pending_timer_dpc",
];

/// The most bytes of a line.
const LONGEST: usize = 4096;

pub fn line(random: &Random) -> String {
    if random.once_in(12) {
        return too_long(random);
    }
    random.pick(&LINES).to_string()
}

/// A wait that could be read if it were shorter.
fn too_long(random: &Random) -> String {
    let mut line = "wait any never 0".to_string();
    let mut key = 4096;
    while line.len() <= LONGEST + random.below(100) as usize {
        line += &format!(" event {key}");
        key += 1;
    }
    line
}
