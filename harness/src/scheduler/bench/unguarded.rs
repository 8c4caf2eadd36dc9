//! The calls that change the words, without the check of their form.
use crate::scheduler::Call;
use crate::scheduler::proved::{Lent, numbers, yes};

// The functions of the crate `raw_exports`, each with the arguments of its like in `ffi`.
unsafe extern "C" {
    fn raw_create_thread(w: *mut u64, n: usize, priority: u64, o: *mut u64, m: usize) -> u64;
    fn raw_priority(w: *mut u64, n: usize, id: u64, priority: u64, o: *mut u64, m: usize) -> u64;
    fn raw_yield_current(w: *mut u64, n: usize, o: *mut u64, m: usize) -> u64;
    fn raw_terminate(w: *mut u64, n: usize, status: u32, o: *mut u64, m: usize) -> u64;
    fn raw_initialize_mutex(w: *mut u64, n: usize, key: u64, o: *mut u64, m: usize) -> u64;
    fn raw_adopt_mutex(
        w: *mut u64,
        n: usize,
        key: u64,
        owned: u64,
        owner: u64,
        o: *mut u64,
        m: usize,
    ) -> u64;
    fn raw_release_mutex(w: *mut u64, n: usize, key: u64, o: *mut u64, m: usize) -> u64;
    fn raw_initialize_event(
        w: *mut u64,
        n: usize,
        key: u64,
        manual: u64,
        signaled: u64,
        o: *mut u64,
        m: usize,
    ) -> u64;
    fn raw_set_event(w: *mut u64, n: usize, key: u64, o: *mut u64, m: usize) -> u64;
    fn raw_reset_event(w: *mut u64, n: usize, key: u64, o: *mut u64, m: usize) -> u64;
    fn raw_retire_event_backing(
        w: *mut u64,
        n: usize,
        base: u64,
        size: u64,
        layout: u64,
        o: *mut u64,
        m: usize,
    ) -> u64;
    fn raw_wait(
        w: *mut u64,
        n: usize,
        list: *const u64,
        list_length: usize,
        all: u64,
        timed: u64,
        deadline: u64,
        irql: u8,
        o: *mut u64,
        m: usize,
    ) -> u64;
    fn raw_delay_until(
        w: *mut u64,
        n: usize,
        deadline: u64,
        irql: u8,
        o: *mut u64,
        m: usize,
    ) -> u64;
    fn raw_advance_to(w: *mut u64, n: usize, time: u64, o: *mut u64, m: usize) -> u64;
    fn raw_dispatch(
        w: *mut u64,
        n: usize,
        waiting: *mut u64,
        waiting_length: usize,
        o: *mut u64,
        m: usize,
    ) -> u64;
    fn raw_initialize_timer(
        w: *mut u64,
        n: usize,
        address: u64,
        architecture: u64,
        backing: u64,
        base: u64,
        size: u64,
        mapped: u64,
        manual: u64,
        o: *mut u64,
        m: usize,
    ) -> u64;
    fn raw_set_timer(
        w: *mut u64,
        n: usize,
        address: u64,
        due: u64,
        absolute: u64,
        period: i32,
        dpc: u64,
        o: *mut u64,
        m: usize,
    ) -> u64;
    fn raw_cancel_timer(w: *mut u64, n: usize, address: u64, o: *mut u64, m: usize) -> u64;
    fn raw_retire_timer_backing(
        w: *mut u64,
        n: usize,
        address: u64,
        size: u64,
        o: *mut u64,
        m: usize,
    ) -> u64;
    fn raw_configure_dpc_dispatch(
        w: *mut u64,
        n: usize,
        first: u64,
        second: u64,
        o: *mut u64,
        m: usize,
    ) -> u64;
    fn raw_initialize_dpc(
        w: *mut u64,
        n: usize,
        address: u64,
        architecture: u64,
        backing: u64,
        base: u64,
        size: u64,
        mapped: u64,
        routine: u64,
        context: u64,
        o: *mut u64,
        m: usize,
    ) -> u64;
    fn raw_insert_queue_dpc(
        w: *mut u64,
        n: usize,
        address: u64,
        first: u64,
        second: u64,
        o: *mut u64,
        m: usize,
    ) -> u64;
    fn raw_remove_queue_dpc(w: *mut u64, n: usize, address: u64, o: *mut u64, m: usize) -> u64;
    fn raw_start_dpc(w: *mut u64, n: usize, address: u64, o: *mut u64, m: usize) -> u64;
    fn raw_returned_dpc(
        w: *mut u64,
        n: usize,
        address: u64,
        sequence: u64,
        o: *mut u64,
        m: usize,
    ) -> u64;
    fn raw_restored_dpc(
        w: *mut u64,
        n: usize,
        address: u64,
        sequence: u64,
        o: *mut u64,
        m: usize,
    ) -> u64;
}

pub fn unguarded(lent: Lent, call: &Call) -> u64 {
    let (w, n) = (lent.words.as_mut_ptr(), lent.words.len());
    let (o, m) = (lent.out.as_mut_ptr(), lent.out.len());
    // SAFETY: each pointer comes with the length of its slice, and the slices are apart.
    unsafe {
        match *call {
            Call::CreateThread { priority } => raw_create_thread(w, n, priority, o, m),
            Call::Priority { id, priority } => raw_priority(w, n, id, priority, o, m),
            Call::YieldCurrent => raw_yield_current(w, n, o, m),
            Call::Terminate { status } => raw_terminate(w, n, status, o, m),
            Call::InitializeMutex { key } => raw_initialize_mutex(w, n, key, o, m),
            Call::AdoptMutex { key, owned, owner } => {
                raw_adopt_mutex(w, n, key, yes(owned, owner), owner, o, m)
            }
            Call::ReleaseMutex { key } => raw_release_mutex(w, n, key, o, m),
            Call::InitializeEvent {
                key,
                manual,
                signaled,
            } => {
                let (manual, signaled) = (yes(manual, key), yes(signaled, key / 8));
                raw_initialize_event(w, n, key, manual, signaled, o, m)
            }
            Call::SetEvent { key } => raw_set_event(w, n, key, o, m),
            Call::ResetEvent { key } => raw_reset_event(w, n, key, o, m),
            Call::RetireEventBacking(b) => {
                raw_retire_event_backing(w, n, b.base, b.size, b.layout, o, m)
            }
            Call::Wait {
                ref list,
                all,
                timed,
                deadline,
                irql,
            } => {
                let (l, k) = (list.as_ptr(), list.len());
                let (all, timed) = (yes(all, deadline), yes(timed, deadline / 4));
                raw_wait(w, n, l, k, all, timed, deadline, irql, o, m)
            }
            Call::DelayUntil { deadline, irql } => raw_delay_until(w, n, deadline, irql, o, m),
            Call::AdvanceTo { time } => raw_advance_to(w, n, time, o, m),
            Call::Dispatch => {
                let (l, k) = (lent.waiting.as_mut_ptr(), lent.waiting.len());
                raw_dispatch(w, n, l, k, o, m)
            }
            Call::InitializeTimer { location, manual } => {
                let (address, x86, [pool, base, size, mapped]) = numbers(location);
                let manual = yes(manual, base);
                raw_initialize_timer(w, n, address, x86, pool, base, size, mapped, manual, o, m)
            }
            Call::SetTimer {
                address,
                due,
                absolute,
                period,
                dpc,
            } => {
                let absolute = yes(absolute, due);
                raw_set_timer(w, n, address, due, absolute, period, dpc, o, m)
            }
            Call::CancelTimer { address } => raw_cancel_timer(w, n, address, o, m),
            Call::RetireTimerBacking(span) => {
                raw_retire_timer_backing(w, n, span.address, span.size, o, m)
            }
            Call::ConfigureDpcDispatch { arguments } => {
                let [first, second] = arguments;
                raw_configure_dpc_dispatch(w, n, first, second, o, m)
            }
            Call::InitializeDpc {
                location,
                routine,
                context,
            } => {
                let (address, x86, [pool, base, size, mapped]) = numbers(location);
                raw_initialize_dpc(
                    w, n, address, x86, pool, base, size, mapped, routine, context, o, m,
                )
            }
            Call::InsertQueueDpc { address, arguments } => {
                let [first, second] = arguments;
                raw_insert_queue_dpc(w, n, address, first, second, o, m)
            }
            Call::RemoveQueueDpc { address } => raw_remove_queue_dpc(w, n, address, o, m),
            Call::StartDpc { address } => raw_start_dpc(w, n, address, o, m),
            Call::ReturnedDpc { address, sequence } => {
                raw_returned_dpc(w, n, address, sequence, o, m)
            }
            Call::RestoredDpc { address, sequence } => {
                raw_restored_dpc(w, n, address, sequence, o, m)
            }
            _ => unreachable!("a call that the lists do not make"),
        }
    }
}
