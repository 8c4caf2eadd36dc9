//! The proved library's calls.
mod timers;

use super::Call;
use crate::ffi::*;
pub use timers::numbers;

/// What a call is lent. The slices are apart.
pub struct Lent<'a> {
    pub words: &'a mut [u64],
    pub out: &'a mut [u64],
    pub waiting: &'a mut [u64],
    pub bytes: &'a mut [u8],
}

/// A function that makes a call and answers 0 or the number of the refusal.
pub type Side = fn(Lent, &Call) -> u64;

/// The calls as exported, each of which checks the form of the words first.
pub fn proved(lent: Lent, call: &Call) -> u64 {
    let (w, n) = (lent.words.as_mut_ptr(), lent.words.len());
    let (o, m) = (lent.out.as_mut_ptr(), lent.out.len());
    // SAFETY: each pointer comes with the length of its slice, and the slices are apart.
    unsafe {
        match *call {
            Call::WordsNeeded(l) => scheduler_words_needed(l.threads, l.objects, l.dpcs, o, m),
            Call::Open {
                priority,
                limits: l,
            } => scheduler_open(w, n, priority, l.threads, l.objects, l.dpcs, o, m),
            Call::Current => scheduler_current(w, n, o, m),
            Call::CreateThread { priority } => scheduler_create_thread(w, n, priority, o, m),
            Call::Priority { id, priority } => scheduler_priority(w, n, id, priority, o, m),
            Call::YieldCurrent => scheduler_yield_current(w, n, o, m),
            Call::Terminate { status } => scheduler_terminate(w, n, status, o, m),
            Call::Thread { id } => scheduler_thread(w, n, id, o, m),
            Call::Threads { position } => scheduler_threads(w, n, position, o, m),
            Call::WaitedObject { id, position } => {
                scheduler_waited_object(w, n, id, position, o, m)
            }
            Call::InitializeMutex { key } => scheduler_initialize_mutex(w, n, key, o, m),
            Call::AdoptMutex { key, owned, owner } => {
                scheduler_adopt_mutex(w, n, key, yes(owned, owner), owner, o, m)
            }
            Call::MutexOwner { key } => scheduler_mutex_owner(w, n, key, o, m),
            Call::MutexWaiters { key } => scheduler_mutex_waiters(w, n, key, o, m),
            Call::ReleaseMutex { key } => scheduler_release_mutex(w, n, key, o, m),
            Call::InitializeEvent {
                key,
                manual,
                signaled,
            } => {
                let (manual, signaled) = (yes(manual, key), yes(signaled, key / 8));
                scheduler_initialize_event(w, n, key, manual, signaled, o, m)
            }
            Call::SetEvent { key } => scheduler_set_event(w, n, key, o, m),
            Call::ResetEvent { key } => scheduler_reset_event(w, n, key, o, m),
            Call::EventState { key } => scheduler_event_state(w, n, key, o, m),
            Call::EventStates { position } => scheduler_event_states(w, n, position, o, m),
            Call::RequireEventRelease(b) => {
                scheduler_require_event_release(w, n, b.base, b.size, b.layout, o, m)
            }
            Call::RetireEventBacking(b) => {
                scheduler_retire_event_backing(w, n, b.base, b.size, b.layout, o, m)
            }
            Call::Wait {
                ref list,
                all,
                timed,
                deadline,
                irql,
            } => {
                let (l, k) = (list.as_ptr(), list.len());
                let (all, timed) = (yes(all, deadline), yes(timed, deadline / 4));
                scheduler_wait(w, n, l, k, all, timed, deadline, irql, o, m)
            }
            Call::DelayUntil { deadline, irql } => {
                scheduler_delay_until(w, n, deadline, irql, o, m)
            }
            Call::AdvanceTo { time } => scheduler_advance_to(w, n, time, o, m),
            Call::Dispatch => {
                let (l, k) = (lent.waiting.as_mut_ptr(), lent.waiting.len());
                scheduler_dispatch(w, n, l, k, o, m)
            }
            _ => timers::proved(lent, call),
        }
    }
}

/// A truth value as a number: 0 for no, and any other for yes, by the number that comes with it.
pub fn yes(flag: bool, beside: u64) -> u64 {
    let numbers = [1, 1, 2, 1 << 32, u64::MAX];
    match flag {
        false => 0,
        true => numbers[beside as usize % numbers.len()],
    }
}
