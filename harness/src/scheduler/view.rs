//! The original's state, and an original with a state. `ready_mut` and its like come from the
//! stand-in for `Serialize`.
mod inverse;

use super::state::{Counters, Dpc, Ended, Event, State, Status, Thread, Timer, Wait};
use emumee::scheduler::{DpcPolicy, Object, Scheduler, ThreadState, WaitResult};

pub use inverse::scheduler;

pub fn state(scheduler: &mut Scheduler) -> State {
    let threads: Vec<Thread> = scheduler.threads().map(thread).collect();
    let mut waiters: Vec<(u64, u64)> = (1..)
        .zip(&threads)
        .filter_map(|(id, thread)| match &thread.status {
            Status::Waiting(wait) => Some((wait.sequence, id)),
            _ => None,
        })
        .collect();
    waiters.sort_unstable();
    let queues = scheduler.ready_mut().iter();
    let ready = queues
        .filter(|(_, queue)| !queue.is_empty())
        .map(|(priority, queue)| (u64::from(*priority), queue.iter().copied().collect()))
        .collect();
    State {
        now: *scheduler.now_mut(),
        sequence: *scheduler.sequence_mut(),
        current: scheduler.current(),
        threads,
        ready,
        waiters: waiters.into_iter().map(|(_, id)| id).collect(),
        mutexes: scheduler
            .mutexes_mut()
            .iter()
            .map(|(key, owner)| (*key, *owner))
            .collect(),
        events: scheduler
            .event_states()
            .map(|(key, manual, signaled)| Event {
                key,
                manual,
                signaled,
            })
            .collect(),
        timers: scheduler.timers().map(timer).collect(),
        dpcs: scheduler.dpcs().map(dpc).collect(),
        queue: scheduler.queued_dpcs().collect(),
        active: scheduler.active_dpc().map(|dpc| dpc.address),
        next: scheduler
            .next_dpc()
            .expect("a queue of queued DPCs")
            .map(|dpc| dpc.address),
        policy: policy(scheduler),
        counters: counters(scheduler),
        timer_initializations: scheduler.timer_initializations(),
        dpc_initializations: scheduler.dpc_initializations(),
    }
}

pub fn timer(timer: &emumee::scheduler::Timer) -> Timer {
    Timer {
        address: timer.address,
        architecture: timer.architecture,
        backing: timer.backing,
        manual: timer.manual_reset,
        signaled: timer.signaled,
        inserted: timer.inserted,
        due: timer.due,
        period: timer.period_ms.into(),
        dpc: timer.dpc,
        absolute: timer.absolute,
        arm: timer.arm_generation,
        initialization: timer.initialization,
    }
}

pub fn dpc(dpc: &emumee::scheduler::Dpc) -> Dpc {
    Dpc {
        address: dpc.address,
        architecture: dpc.architecture,
        backing: dpc.backing,
        routine: dpc.routine,
        context: dpc.context,
        phase: dpc.phase.clone(),
    }
}

pub fn policy(scheduler: &Scheduler) -> Option<[u64; 2]> {
    match scheduler.dpc_policy() {
        DpcPolicy::Unselected => None,
        DpcPolicy::LegacyMetadataOnly => unreachable!("chosen by tests of the original alone"),
        DpcPolicy::Cpu0Dispatch { timer_arguments } => Some(timer_arguments),
    }
}

pub fn counters(scheduler: &Scheduler) -> Counters {
    let counters = scheduler.dpc_counters();
    Counters {
        accepted: counters.accepted,
        duplicates: counters.duplicates,
        removed: counters.removed,
        started: counters.started,
        returned: counters.returned,
        restored: counters.restored,
    }
}

pub fn thread(thread: &emumee::scheduler::Thread) -> Thread {
    Thread {
        priority: thread.priority.into(),
        status: match &thread.state {
            ThreadState::Running => Status::Running,
            ThreadState::Ready => Status::Ready,
            ThreadState::Waiting {
                objects,
                all,
                deadline,
                sequence,
            } => Status::Waiting(Wait {
                list: objects.iter().copied().flat_map(pair).collect(),
                all: *all,
                deadline: *deadline,
                sequence: *sequence,
            }),
            ThreadState::Exited { status } => Status::Exited((*status).into()),
        },
        result: thread.wait_result.as_ref().map(|result| match result {
            WaitResult::Timeout => Ended::Timeout,
            WaitResult::Satisfied(index) => Ended::Satisfied(*index as u64),
        }),
    }
}

pub fn pair(object: Object) -> [u64; 2] {
    match object {
        Object::Mutex(key) => [0, key],
        Object::Event(key) => [1, key],
        Object::Timer(key) => [2, key],
        Object::Thread(id) => [3, id],
    }
}
