//! The functions of the proved library, as in `include/driver_bench.h`. A slice passes as a pointer and a length.

unsafe extern "C" {
    pub fn clock_new(
        words: *mut u64,
        length: usize,
        utc_filetime: u64,
        uptime_ms: u64,
        utc_offset_minutes: i32,
        base_mhz: u32,
    ) -> u64;
    pub fn clock_instruction(words: *mut u64, length: usize) -> u64;
    pub fn clock_flush_cycles(words: *mut u64, length: usize) -> u64;
    pub fn clock_observe(words: *mut u64, length: usize) -> u64;
    pub fn clock_advance_microseconds(words: *mut u64, length: usize, amount: u64) -> u64;
    pub fn clock_advance_100ns(words: *mut u64, length: usize, ticks: u64) -> u64;
    pub fn clock_advance_milliseconds(words: *mut u64, length: usize, amount: u32) -> u64;
    pub fn clock_qpc(words: *const u64, length: usize, out: *mut u64, out_length: usize) -> u64;
    pub fn clock_tick64(words: *const u64, length: usize, out: *mut u64, out_length: usize) -> u64;
    pub fn clock_tsc(words: *const u64, length: usize, out: *mut u64, out_length: usize) -> u64;
}

// The scheduler's words `w`, `n` of them, come first, and the answer `o`, `m` words, last.
unsafe extern "C" {
    pub fn scheduler_words_needed(
        threads: u64,
        objects: u64,
        dpcs: u64,
        o: *mut u64,
        m: usize,
    ) -> u64;
    pub fn scheduler_open(
        w: *mut u64,
        n: usize,
        priority: u64,
        threads: u64,
        objects: u64,
        dpcs: u64,
        o: *mut u64,
        m: usize,
    ) -> u64;

    pub fn scheduler_current(w: *const u64, n: usize, o: *mut u64, m: usize) -> u64;
    pub fn scheduler_create_thread(
        w: *mut u64,
        n: usize,
        priority: u64,
        o: *mut u64,
        m: usize,
    ) -> u64;
    pub fn scheduler_priority(
        w: *mut u64,
        n: usize,
        id: u64,
        priority: u64,
        o: *mut u64,
        m: usize,
    ) -> u64;
    pub fn scheduler_yield_current(w: *mut u64, n: usize, o: *mut u64, m: usize) -> u64;
    pub fn scheduler_terminate(w: *mut u64, n: usize, status: u32, o: *mut u64, m: usize) -> u64;

    pub fn scheduler_initialize_mutex(
        w: *mut u64,
        n: usize,
        key: u64,
        o: *mut u64,
        m: usize,
    ) -> u64;
    pub fn scheduler_adopt_mutex(
        w: *mut u64,
        n: usize,
        key: u64,
        owned: u64,
        owner: u64,
        o: *mut u64,
        m: usize,
    ) -> u64;
    pub fn scheduler_mutex_owner(w: *const u64, n: usize, key: u64, o: *mut u64, m: usize) -> u64;
    pub fn scheduler_mutex_waiters(w: *const u64, n: usize, key: u64, o: *mut u64, m: usize)
    -> u64;
    pub fn scheduler_release_mutex(w: *mut u64, n: usize, key: u64, o: *mut u64, m: usize) -> u64;

    pub fn scheduler_initialize_event(
        w: *mut u64,
        n: usize,
        key: u64,
        manual: u64,
        signaled: u64,
        o: *mut u64,
        m: usize,
    ) -> u64;
    pub fn scheduler_set_event(w: *mut u64, n: usize, key: u64, o: *mut u64, m: usize) -> u64;
    pub fn scheduler_reset_event(w: *mut u64, n: usize, key: u64, o: *mut u64, m: usize) -> u64;
    pub fn scheduler_event_state(w: *const u64, n: usize, key: u64, o: *mut u64, m: usize) -> u64;
    pub fn scheduler_event_states(
        w: *const u64,
        n: usize,
        position: u64,
        o: *mut u64,
        m: usize,
    ) -> u64;
    pub fn scheduler_require_event_release(
        w: *const u64,
        n: usize,
        base: u64,
        size: u64,
        layout: u64,
        o: *mut u64,
        m: usize,
    ) -> u64;
    pub fn scheduler_retire_event_backing(
        w: *mut u64,
        n: usize,
        base: u64,
        size: u64,
        layout: u64,
        o: *mut u64,
        m: usize,
    ) -> u64;

    pub fn scheduler_wait(
        w: *mut u64,
        n: usize,
        list: *const u64,
        list_length: usize,
        all: u64,
        timed: u64,
        deadline: u64,
        irql: u8,
        o: *mut u64,
        m: usize,
    ) -> u64;
    pub fn scheduler_delay_until(
        w: *mut u64,
        n: usize,
        deadline: u64,
        irql: u8,
        o: *mut u64,
        m: usize,
    ) -> u64;
    pub fn scheduler_advance_to(w: *mut u64, n: usize, time: u64, o: *mut u64, m: usize) -> u64;
    pub fn scheduler_dispatch(
        w: *mut u64,
        n: usize,
        waiting: *mut u64,
        waiting_length: usize,
        o: *mut u64,
        m: usize,
    ) -> u64;
}

// Threads as records, timers and DPCs. An architecture is 0 for x64, else x86; a backing is 0 for an image, else pool.
unsafe extern "C" {
    pub fn scheduler_thread(w: *const u64, n: usize, id: u64, o: *mut u64, m: usize) -> u64;
    pub fn scheduler_threads(w: *const u64, n: usize, position: u64, o: *mut u64, m: usize) -> u64;
    pub fn scheduler_waited_object(
        w: *const u64,
        n: usize,
        id: u64,
        position: u64,
        o: *mut u64,
        m: usize,
    ) -> u64;
    pub fn scheduler_initialize_timer(
        w: *mut u64,
        n: usize,
        address: u64,
        architecture: u64,
        backing: u64,
        base: u64,
        size: u64,
        mapped: u64,
        manual: u64,
        o: *mut u64,
        m: usize,
    ) -> u64;
    pub fn scheduler_set_timer(
        w: *mut u64,
        n: usize,
        address: u64,
        due: u64,
        absolute: u64,
        period: i32,
        dpc: u64,
        o: *mut u64,
        m: usize,
    ) -> u64;
    pub fn scheduler_set_timer_signed(
        w: *mut u64,
        n: usize,
        address: u64,
        due: i64,
        period: i32,
        dpc: u64,
        o: *mut u64,
        m: usize,
    ) -> u64;
    pub fn scheduler_cancel_timer(
        w: *mut u64,
        n: usize,
        address: u64,
        o: *mut u64,
        m: usize,
    ) -> u64;
    pub fn scheduler_require_timer_release(
        w: *const u64,
        n: usize,
        address: u64,
        size: u64,
        o: *mut u64,
        m: usize,
    ) -> u64;
    pub fn scheduler_retire_timer_backing(
        w: *mut u64,
        n: usize,
        address: u64,
        size: u64,
        o: *mut u64,
        m: usize,
    ) -> u64;
    pub fn scheduler_timer(w: *const u64, n: usize, address: u64, o: *mut u64, m: usize) -> u64;
    pub fn scheduler_timers(w: *const u64, n: usize, position: u64, o: *mut u64, m: usize) -> u64;
    pub fn scheduler_pending_timer_dpc(w: *const u64, n: usize, o: *mut u64, m: usize) -> u64;
    pub fn scheduler_timer_initializations(w: *const u64, n: usize, o: *mut u64, m: usize) -> u64;
    pub fn scheduler_timer_read_overlap(
        w: *const u64,
        n: usize,
        address: u64,
        size: u64,
        o: *mut u64,
        m: usize,
    ) -> u64;
    pub fn scheduler_timer_metadata_overlap(
        w: *const u64,
        n: usize,
        address: u64,
        size: u64,
        o: *mut u64,
        m: usize,
    ) -> u64;
    pub fn scheduler_timer_image(
        w: *const u64,
        n: usize,
        address: u64,
        bytes: *mut u8,
        bytes_length: usize,
        o: *mut u64,
        m: usize,
    ) -> u64;
    pub fn scheduler_configure_dpc_dispatch(
        w: *mut u64,
        n: usize,
        first: u64,
        second: u64,
        o: *mut u64,
        m: usize,
    ) -> u64;
    pub fn scheduler_initialize_dpc(
        w: *mut u64,
        n: usize,
        address: u64,
        architecture: u64,
        backing: u64,
        base: u64,
        size: u64,
        mapped: u64,
        routine: u64,
        context: u64,
        o: *mut u64,
        m: usize,
    ) -> u64;
    pub fn scheduler_insert_queue_dpc(
        w: *mut u64,
        n: usize,
        address: u64,
        first: u64,
        second: u64,
        o: *mut u64,
        m: usize,
    ) -> u64;
    pub fn scheduler_remove_queue_dpc(
        w: *mut u64,
        n: usize,
        address: u64,
        o: *mut u64,
        m: usize,
    ) -> u64;
    pub fn scheduler_start_dpc(w: *mut u64, n: usize, address: u64, o: *mut u64, m: usize) -> u64;
    pub fn scheduler_returned_dpc(
        w: *mut u64,
        n: usize,
        address: u64,
        sequence: u64,
        o: *mut u64,
        m: usize,
    ) -> u64;
    pub fn scheduler_restored_dpc(
        w: *mut u64,
        n: usize,
        address: u64,
        sequence: u64,
        o: *mut u64,
        m: usize,
    ) -> u64;
    pub fn scheduler_dpc(w: *const u64, n: usize, address: u64, o: *mut u64, m: usize) -> u64;
    pub fn scheduler_dpcs(w: *const u64, n: usize, position: u64, o: *mut u64, m: usize) -> u64;
    pub fn scheduler_active_dpc(w: *const u64, n: usize, o: *mut u64, m: usize) -> u64;
    pub fn scheduler_next_dpc(w: *const u64, n: usize, o: *mut u64, m: usize) -> u64;
    pub fn scheduler_queued_dpcs(
        w: *const u64,
        n: usize,
        position: u64,
        o: *mut u64,
        m: usize,
    ) -> u64;
    pub fn scheduler_dpc_policy(w: *const u64, n: usize, o: *mut u64, m: usize) -> u64;
    pub fn scheduler_dpc_counters(w: *const u64, n: usize, o: *mut u64, m: usize) -> u64;
    pub fn scheduler_dpc_initializations(w: *const u64, n: usize, o: *mut u64, m: usize) -> u64;
    pub fn scheduler_dpc_image(
        w: *const u64,
        n: usize,
        address: u64,
        bytes: *mut u8,
        bytes_length: usize,
        o: *mut u64,
        m: usize,
    ) -> u64;
}
