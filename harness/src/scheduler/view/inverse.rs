//! An original with a state.
use crate::scheduler::state::{Counters, Ended, State, Status, Thread};
use emumee::scheduler::{
    Dpc, DpcCounters, DpcPolicy, Object, Scheduler, ThreadState, Timer, WaitResult,
};

pub fn scheduler(state: &State) -> Scheduler {
    let mut scheduler = Scheduler::new(1).expect("a good priority");
    for event in &state.events {
        scheduler
            .initialize_event(event.key, event.manual, event.signaled)
            .expect("a new key");
    }
    *scheduler.now_mut() = state.now;
    *scheduler.sequence_mut() = state.sequence;
    *scheduler.current_mut() = state.current;
    *scheduler.next_thread_mut() = state.threads.len() as u64 + 1;
    *scheduler.threads_mut() = (1..)
        .zip(&state.threads)
        .map(|(id, each)| (id, thread(id, each)))
        .collect();
    *scheduler.ready_mut() = state
        .ready
        .iter()
        .map(|(priority, queue)| (*priority as u8, queue.iter().copied().collect()))
        .collect();
    *scheduler.mutexes_mut() = state.mutexes.iter().copied().collect();
    *scheduler.timers_mut() = state.timers.iter().map(timer).collect();
    *scheduler.dpcs_mut() = state.dpcs.iter().map(dpc).collect();
    *scheduler.timer_initializations_mut() = state.timer_initializations;
    *scheduler.dpc_initializations_mut() = state.dpc_initializations;
    *scheduler.dpc_policy_mut() = match state.policy {
        None => DpcPolicy::Unselected,
        Some(timer_arguments) => DpcPolicy::Cpu0Dispatch { timer_arguments },
    };
    *scheduler.dpc_queue_mut() = state.queue.iter().copied().collect();
    *scheduler.dpc_counters_mut() = counters(state.counters);
    scheduler
}

fn thread(id: u64, thread: &Thread) -> emumee::scheduler::Thread {
    emumee::scheduler::Thread {
        id,
        priority: thread.priority as u8,
        state: match &thread.status {
            Status::Running => ThreadState::Running,
            Status::Ready => ThreadState::Ready,
            Status::Waiting(wait) => ThreadState::Waiting {
                objects: wait.list.chunks_exact(2).map(object).collect(),
                all: wait.all,
                deadline: wait.deadline,
                sequence: wait.sequence,
            },
            Status::Exited(status) => ThreadState::Exited {
                status: *status as u32,
            },
        },
        wait_result: thread.result.map(|result| match result {
            Ended::Timeout => WaitResult::Timeout,
            Ended::Satisfied(index) => WaitResult::Satisfied(index as usize),
        }),
    }
}

fn object(pair: &[u64]) -> Object {
    match *pair {
        [0, key] => Object::Mutex(key),
        [1, key] => Object::Event(key),
        [2, key] => Object::Timer(key),
        [_, id] => Object::Thread(id),
        _ => unreachable!("a kind and a key"),
    }
}

fn timer(timer: &crate::scheduler::state::Timer) -> (u64, Timer) {
    let made = Timer {
        address: timer.address,
        architecture: timer.architecture,
        backing: timer.backing,
        manual_reset: timer.manual,
        signaled: timer.signaled,
        inserted: timer.inserted,
        due: timer.due,
        period_ms: timer.period as u32,
        dpc: timer.dpc,
        absolute: timer.absolute,
        arm_generation: timer.arm,
        initialization: timer.initialization,
    };
    (timer.address, made)
}

fn dpc(dpc: &crate::scheduler::state::Dpc) -> (u64, Dpc) {
    let made = Dpc {
        address: dpc.address,
        architecture: dpc.architecture,
        backing: dpc.backing,
        routine: dpc.routine,
        context: dpc.context,
        phase: dpc.phase.clone(),
    };
    (dpc.address, made)
}

fn counters(counters: Counters) -> DpcCounters {
    DpcCounters {
        accepted: counters.accepted,
        duplicates: counters.duplicates,
        removed: counters.removed,
        started: counters.started,
        returned: counters.returned,
        restored: counters.restored,
    }
}
