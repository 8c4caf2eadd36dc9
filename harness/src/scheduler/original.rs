//! The original's calls.
mod timers;

use super::answer::Answer;
use super::answer::thread::ThreadView;
use super::{Call, view};
use emumee::scheduler::{
    Dispatch, Object, Scheduler, SchedulerError, ThreadState, WaitOutcome, WaitResult,
};
pub use timers::signed_due;

/// The objects of a wait, as the original takes them; nothing for a list that it cannot be given.
pub fn objects(call: &Call) -> Option<Vec<Object>> {
    let Call::Wait { list, .. } = call else {
        return Some(Vec::new());
    };
    let (pairs, []) = list.as_chunks() else {
        return None;
    };
    pairs
        .iter()
        .map(|pair| match *pair {
            [0, key] => Some(Object::Mutex(key)),
            [1, key] => Some(Object::Event(key)),
            [2, key] => Some(Object::Timer(key)),
            [3, id] => Some(Object::Thread(id)),
            _ => None,
        })
        .collect()
}

/// The original's answer to a call that is on an open scheduler; `objects` are those of a wait.
pub fn original(
    scheduler: &mut Scheduler,
    call: &Call,
    objects: &[Object],
) -> Result<Answer, SchedulerError> {
    let done = |(): ()| Answer::Done;
    let some = |id: Option<u64>| id.map_or(Answer::None, Answer::Thread);
    match *call {
        Call::WordsNeeded(_) | Call::Open { .. } => unreachable!("no call on a scheduler"),
        Call::Current => Ok(some(scheduler.current())),
        Call::CreateThread { priority } => {
            scheduler.create_thread(priority as u8).map(Answer::Thread)
        }
        Call::Priority { id, priority } => scheduler.priority(id, priority as u8).map(done),
        Call::YieldCurrent => scheduler.yield_current().map(done),
        Call::Terminate { status } => scheduler.terminate(status).map(done),
        Call::Thread { id } => Ok(thread(scheduler, id)),
        Call::Threads { position } => {
            Ok(nth(scheduler.threads(), position).map_or(Answer::None, thread_view))
        }
        Call::WaitedObject { id, position } => Ok(waited_object(scheduler, id, position)),
        Call::InitializeMutex { key } => scheduler.initialize_mutex(key).map(done),
        Call::AdoptMutex { key, owned, owner } => {
            scheduler.adopt_mutex(key, owned.then_some(owner)).map(done)
        }
        Call::MutexOwner { key } => scheduler.mutex_owner(key).map(some),
        Call::MutexWaiters { key } => Ok(Answer::Count(scheduler.mutex_waiters(key) as u64)),
        Call::ReleaseMutex { key } => scheduler.release_mutex(key).map(done),
        Call::InitializeEvent {
            key,
            manual,
            signaled,
        } => scheduler.initialize_event(key, manual, signaled).map(done),
        Call::SetEvent { key } => scheduler.set_event(key).map(Answer::Flag),
        Call::ResetEvent { key } => scheduler.reset_event(key).map(Answer::Flag),
        Call::EventState { key } => Ok(event(
            scheduler
                .event_state(key)
                .ok()
                .map(|(manual, signaled)| (key, manual, signaled)),
        )),
        Call::EventStates { position } => Ok(event(nth(scheduler.event_states(), position))),
        Call::RequireEventRelease(b) => scheduler
            .require_event_release(b.base, b.size, b.layout)
            .map(done),
        Call::RetireEventBacking(b) => scheduler
            .retire_event_backing(b.base, b.size, b.layout)
            .map(done),
        Call::Wait {
            all,
            timed,
            deadline,
            irql,
            ..
        } => scheduler
            .wait(objects, all, timed.then_some(deadline), irql)
            .map(waited),
        Call::DelayUntil { deadline, irql } => scheduler.delay_until(deadline, irql).map(waited),
        Call::AdvanceTo { time } => scheduler.advance_to(time).map(done),
        Call::Dispatch => Ok(match scheduler.dispatch() {
            Dispatch::Dpc => unreachable!("declared, and never given"),
            Dispatch::Run(id) => Answer::Run(id),
            Dispatch::AdvanceTo(time) => Answer::AdvanceTo(time),
            Dispatch::Deadlocked(waiting) => Answer::Deadlocked(waiting),
            Dispatch::Finished => Answer::Finished,
        }),
        _ => timers::original(scheduler, call),
    }
}

fn nth<T>(mut all: impl Iterator<Item = T>, position: u64) -> Option<T> {
    all.nth(usize::try_from(position).ok()?)
}

fn thread(scheduler: &Scheduler, id: u64) -> Answer {
    scheduler.thread(id).map_or(Answer::None, thread_view)
}

fn thread_view(thread: &emumee::scheduler::Thread) -> Answer {
    Answer::ThreadView(ThreadView::new(thread.id, &view::thread(thread)))
}

fn waited_object(scheduler: &Scheduler, id: u64, position: u64) -> Answer {
    let objects = match scheduler.thread(id).map(|thread| &thread.state) {
        Some(ThreadState::Waiting { objects, .. }) => objects.as_slice(),
        _ => &[],
    };
    nth(objects.iter(), position).map_or(Answer::None, |object| Answer::Object(view::pair(*object)))
}

fn event(found: Option<(u64, bool, bool)>) -> Answer {
    found.map_or(Answer::None, |(key, manual, signaled)| Answer::Event {
        key,
        manual,
        signaled,
    })
}

fn waited(outcome: WaitOutcome) -> Answer {
    match outcome {
        WaitOutcome::Immediate(WaitResult::Satisfied(index)) => Answer::Satisfied(index as u64),
        WaitOutcome::Immediate(WaitResult::Timeout) => Answer::Timeout,
        WaitOutcome::Blocked => Answer::Blocked,
    }
}
