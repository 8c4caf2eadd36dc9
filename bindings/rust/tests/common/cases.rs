// Cases that are the same for the Rust bench and for this crate: the file that includes it says where the names come from.

const IMAGE: TimerBacking = TimerBacking::Image {
    base: 0x1000,
    size: 0x1000,
};
const POOL: TimerBacking = TimerBacking::NonpagedPool {
    base: 0x2000,
    requested: 0x80,
    mapped: 0x1000,
};
const EVENT: u64 = 0x8000;
const MUTEX: u64 = 0x8100;
const TIMER: u64 = 0x1000;
const DPC: u64 = 0x1040;

fn dpc(address: u64, architecture: Architecture, backing: TimerBacking) -> Dpc {
    Dpc {
        address,
        architecture,
        backing,
        routine: 0x1122_3344_5566,
        context: 0x7788,
        phase: DpcPhase::Idle,
    }
}

/// A scheduler with a policy, a timer and a DPC.
fn with_timer() -> Scheduler {
    let mut bench = Scheduler::new(8).unwrap();
    bench.configure_dpc_dispatch([5, 6]).unwrap();
    bench
        .initialize_timer(TIMER, Architecture::X64, IMAGE, false)
        .unwrap();
    bench
        .initialize_dpc(dpc(DPC, Architecture::X64, IMAGE))
        .unwrap();
    bench
}

#[test]
fn the_example_of_document_01() {
    let mut bench = Scheduler::new(8).unwrap();
    bench.initialize_event(4096, false, false).unwrap();
    assert_eq!(bench.create_thread(9).unwrap(), 2);
    let blocked = bench.wait(&[Object::Event(4096)], false, None, 0).unwrap();
    assert_eq!(blocked, WaitOutcome::Blocked);
    assert_eq!(bench.dispatch(), Dispatch::Run(2));
    assert!(!bench.set_event(4096).unwrap());
    bench.yield_current().unwrap();
    assert_eq!(bench.dispatch(), Dispatch::Run(2));
}

/// A timer's DPC runs and sets the event that a thread waits for.
#[test]
fn an_overload_event() {
    let mut bench = with_timer();
    bench.initialize_event(EVENT, false, false).unwrap();
    assert!(!bench.set_timer(TIMER, 100, false, 0, DPC).unwrap());
    assert_eq!(bench.pending_timer_dpc().unwrap().address, TIMER);
    let blocked = bench.wait(&[Object::Event(EVENT)], false, None, 0).unwrap();
    assert_eq!(blocked, WaitOutcome::Blocked);
    assert_eq!(bench.dispatch(), Dispatch::AdvanceTo(100));
    bench.advance_to(100).unwrap();
    assert_eq!(bench.queued_dpcs().collect::<Vec<_>>(), [DPC]);
    assert_eq!(bench.next_dpc().unwrap().unwrap().address, DPC);
    assert!(bench.active_dpc().is_none());
    let work = bench.start_dpc(DPC).unwrap();
    assert_eq!((work.sequence, work.arguments), (1, [5, 6]));
    let origin = DpcOrigin::Timer {
        address: TIMER,
        arm: 1,
        initialization: 1,
        deadline: 100,
        observed: 100,
        periodic: false,
    };
    assert_eq!(work.origin, origin);
    assert_eq!(
        bench.active_dpc().unwrap().phase,
        DpcPhase::Running(work.clone())
    );
    assert!(!bench.set_event(EVENT).unwrap());
    bench.returned_dpc(DPC, work.sequence).unwrap();
    assert_eq!(
        bench.dpc(DPC).unwrap().phase,
        DpcPhase::Returning(work.clone())
    );
    bench.restored_dpc(DPC, work.sequence).unwrap();
    assert_eq!(bench.dpc(DPC).unwrap().phase, DpcPhase::Idle);
    assert_eq!(bench.dispatch(), Dispatch::Run(1));
    assert_eq!(
        bench.thread(1).unwrap().wait_result,
        Some(WaitResult::Satisfied(0))
    );
    let timer = bench.timer(TIMER).unwrap().clone();
    assert!(timer.signaled && !timer.inserted);
}

#[test]
fn a_periodic_timer() {
    let mut bench = with_timer();
    bench.set_timer(TIMER, 100, true, 1, DPC).unwrap();
    bench.advance_to(20_099).unwrap();
    assert_eq!(bench.timer(TIMER).unwrap().due, 20_100);
    bench.advance_to(20_100).unwrap();
    let timer = bench.timer(TIMER).unwrap().clone();
    assert_eq!((timer.due, timer.period_ms, timer.dpc), (30_100, 1, DPC));
    assert!(timer.absolute && timer.signaled && timer.inserted && !timer.manual_reset);
    assert_eq!((timer.arm_generation, timer.initialization), (1, 1));
    assert!(bench.insert_queue_dpc(DPC, [1, 2]).is_err());
    assert!(bench.set_timer(TIMER, 5, true, -1, 0).is_err());
    assert!(bench.cancel_timer(TIMER).unwrap());
    assert!(!bench.cancel_timer(TIMER).unwrap());
    let counters = bench.dpc_counters().clone();
    assert_eq!(
        (counters.accepted, counters.duplicates, counters.removed),
        (1, 1, 1)
    );
    assert_eq!(
        (counters.started, counters.returned, counters.restored),
        (0, 0, 0)
    );
    assert!(bench.pending_timer_dpc().is_none());
}

#[test]
fn images() {
    let mut bench = with_timer();
    bench
        .set_timer(TIMER, 0x0102_0304_0506_0708, true, 7, DPC)
        .unwrap();
    let mut timer = vec![
        9, 1, 16, 0x40, 0, 0, 0, 0, 8, 0x10, 0, 0, 0, 0, 0, 0, 8, 0x10, 0, 0, 0, 0, 0, 0,
    ];
    timer.extend([8, 7, 6, 5, 4, 3, 2, 1]);
    timer.extend([0; 16]);
    timer.extend([0x40, 0x10, 0, 0, 0, 0, 0, 0, 0, 0, 0, 0, 7, 0, 0, 0]);
    assert_eq!(bench.timer(TIMER).unwrap().bytes(), timer);
    assert_eq!(bench.timer(TIMER).unwrap().size(), timer.len());

    let small = 0x2020;
    bench
        .initialize_dpc(dpc(small, Architecture::X86, POOL))
        .unwrap();
    assert!(
        bench
            .insert_queue_dpc(small, [0x0a0b_0c0d, 0x1_0000_0001])
            .unwrap()
    );
    let mut image = vec![
        0x13, 1, 0, 0, 0, 0, 0, 0, 0, 0, 0, 0, 0x66, 0x55, 0x44, 0x33, 0x88, 0x77, 0, 0,
    ];
    image.extend([0x0d, 0x0c, 0x0b, 0x0a, 1, 0, 0, 0, 0, 0, 0, 0]);
    assert_eq!(bench.dpc(small).unwrap().bytes(), image);
    assert_eq!(bench.dpc(small).unwrap().size(), image.len());
    assert_eq!(bench.dpc(DPC).unwrap().bytes()[..2], [0x13, 1]);
    assert_eq!(
        bench.dpc(DPC).unwrap().bytes()[24..40],
        [
            0x66, 0x55, 0x44, 0x33, 0x22, 0x11, 0, 0, 0x88, 0x77, 0, 0, 0, 0, 0, 0
        ]
    );
}

#[test]
fn memory_given_back() {
    let mut bench = with_timer();
    bench
        .initialize_timer(0x2000, Architecture::X86, POOL, true)
        .unwrap();
    assert_eq!(
        (bench.timer_initializations(), bench.dpc_initializations()),
        (2, 1)
    );
    assert_eq!(bench.timer(0x2000).unwrap().backing, POOL);
    assert_eq!(bench.timer(0x2000).unwrap().architecture, Architecture::X86);
    assert!(bench.timer_read_overlap(0x2027, 1) && !bench.timer_read_overlap(0x2028, 1));
    assert!(!bench.timer_read_overlap(DPC, 8) && bench.timer_metadata_overlap(DPC, 8));
    bench.set_timer(TIMER, 100, false, 0, DPC).unwrap();
    assert!(bench.require_timer_release(TIMER, 1).is_err());
    assert!(bench.retire_timer_backing(DPC, 1).is_err());
    bench.require_timer_release(0x2000, 0x80).unwrap();
    bench.retire_timer_backing(0x2000, 0x80).unwrap();
    assert_eq!(
        bench
            .timers()
            .map(|timer| timer.address)
            .collect::<Vec<_>>(),
        [TIMER]
    );
    assert_eq!(
        bench.dpcs().map(|dpc| dpc.address).collect::<Vec<_>>(),
        [DPC]
    );

    bench.initialize_event(EVENT, true, true).unwrap();
    assert_eq!(
        bench.event_states().collect::<Vec<_>>(),
        [(EVENT, true, true)]
    );
    assert_eq!(bench.event_state(EVENT).unwrap(), (true, true));
    assert!(bench.require_event_release(EVENT + 1, 30, 24).is_err());
    bench.require_event_release(EVENT, 24, 24).unwrap();
    bench.retire_event_backing(EVENT, 24, 24).unwrap();
    assert!(bench.event_state(EVENT).is_err());
}

#[test]
fn waits() {
    let mut bench = with_timer();
    bench.initialize_mutex(MUTEX).unwrap();
    bench.initialize_event(EVENT, true, false).unwrap();
    let satisfied = |index| WaitOutcome::Immediate(WaitResult::Satisfied(index));
    let timeout = WaitOutcome::Immediate(WaitResult::Timeout);
    let either = [Object::Event(EVENT), Object::Mutex(MUTEX)];
    assert_eq!(bench.wait(&either, false, None, 0).unwrap(), satisfied(1));
    assert_eq!(bench.mutex_owner(MUTEX).unwrap(), Some(1));
    assert_eq!(bench.wait(&either[..1], true, Some(0), 2).unwrap(), timeout);
    assert_eq!(bench.delay_until(0, 1).unwrap(), timeout);
    assert!(bench.delay_until(0, 2).is_err());

    assert_eq!(bench.create_thread(7).unwrap(), 2);
    bench.set_timer(TIMER, 50, false, 0, 0).unwrap();
    let all = [Object::Timer(TIMER), Object::Thread(2)];
    assert_eq!(
        bench.wait(&all, true, Some(90), 1).unwrap(),
        WaitOutcome::Blocked
    );
    match &bench.thread(1).unwrap().state {
        ThreadState::Waiting {
            objects,
            all: is_all,
            deadline,
            sequence,
        } => {
            assert_eq!(
                (&objects[..], *is_all, *deadline, *sequence),
                (&all[..], true, Some(90), 0)
            );
        }
        other => panic!("{other:?}"),
    }
    assert_eq!(bench.dispatch(), Dispatch::Run(2));
    assert_eq!(bench.current(), Some(2));
    let mutex = bench.wait(&[Object::Mutex(MUTEX)], false, None, 0).unwrap();
    assert_eq!(
        (mutex, bench.mutex_waiters(MUTEX)),
        (WaitOutcome::Blocked, 1)
    );
    assert_eq!(bench.dispatch(), Dispatch::AdvanceTo(50));
    bench.advance_to(90).unwrap();
    assert_eq!(bench.dispatch(), Dispatch::Run(1));
    assert_eq!(
        bench.thread(1).unwrap().wait_result,
        Some(WaitResult::Timeout)
    );
    bench.release_mutex(MUTEX).unwrap();
    assert_eq!(bench.mutex_owner(MUTEX).unwrap(), Some(2));
    bench.priority(2, 9).unwrap();
    let states: Vec<(u64, u8)> = bench
        .threads()
        .map(|thread| (thread.id, thread.priority))
        .collect();
    assert_eq!(states, [(1, 8), (2, 9)]);
    bench.terminate(3).unwrap();
    let exited = |status: u32| matches!(bench.thread(1).unwrap().state, ThreadState::Exited { status: found } if found == status);
    assert!(exited(3));
    assert_eq!(bench.dispatch(), Dispatch::Run(2));
    assert!(bench.terminate(0).is_err());
    bench.release_mutex(MUTEX).unwrap();
    bench.adopt_mutex(MUTEX + 56, Some(2)).unwrap();
    bench.adopt_mutex(MUTEX + 112, None).unwrap();
    assert_eq!(
        bench.wait(&[Object::Event(EVENT)], false, None, 0).unwrap(),
        WaitOutcome::Blocked
    );
    assert_eq!(bench.dispatch(), Dispatch::Deadlocked(vec![2]));
    assert!(!bench.set_event(EVENT).unwrap() && bench.reset_event(EVENT).unwrap());
    assert_eq!(bench.dispatch(), Dispatch::Run(2));
    bench.release_mutex(MUTEX + 56).unwrap();
    bench.terminate(0).unwrap();
    assert_eq!(bench.dispatch(), Dispatch::Finished);
}

#[test]
fn the_queue() {
    let mut bench = with_timer();
    let second = 0x1080;
    bench
        .initialize_dpc(dpc(second, Architecture::X64, IMAGE))
        .unwrap();
    assert_eq!(
        bench.dpc_policy(),
        DpcPolicy::Cpu0Dispatch {
            timer_arguments: [5, 6]
        }
    );
    assert!(bench.insert_queue_dpc(second, [1, 2]).unwrap());
    assert!(bench.insert_queue_dpc(DPC, [3, 4]).unwrap());
    assert!(!bench.insert_queue_dpc(second, [8, 9]).unwrap());
    assert_eq!(bench.queued_dpcs().collect::<Vec<_>>(), [second, DPC]);
    assert!(bench.start_dpc(DPC).is_err());
    let work = DpcWork {
        sequence: 1,
        arguments: [1, 2],
        origin: DpcOrigin::Caller,
    };
    assert_eq!(bench.start_dpc(second).unwrap(), work);
    assert!(bench.start_dpc(DPC).is_err() && bench.next_dpc().unwrap().is_none());
    assert!(bench.remove_queue_dpc(DPC).unwrap() && !bench.remove_queue_dpc(second).unwrap());
    assert!(bench.returned_dpc(second, 2).is_err());
    bench.returned_dpc(second, 1).unwrap();
    bench.restored_dpc(second, 1).unwrap();
    let counters = bench.dpc_counters().clone();
    assert_eq!(
        (counters.accepted, counters.duplicates, counters.removed),
        (2, 1, 1)
    );
    assert_eq!(
        (counters.started, counters.returned, counters.restored),
        (1, 1, 1)
    );
    let busy = Dpc {
        phase: DpcPhase::Queued(work),
        ..dpc(DPC, Architecture::X64, IMAGE)
    };
    assert!(bench.initialize_dpc(busy).is_err());
    assert_eq!(
        Scheduler::new(8).unwrap().dpc_policy(),
        DpcPolicy::Unselected
    );
}

#[test]
fn a_clock() {
    let mut clock = GuestClock::new(7, 0, -60, 3).unwrap();
    for _ in 0..1000 {
        clock.instruction().unwrap();
    }
    assert_eq!((clock.uptime_ms, clock.submillisecond_100ns), (33, 3330));
    assert_eq!(
        (clock.qpc(), clock.tick64(), clock.tsc()),
        (333_330, 32, 100_000)
    );
    clock.advance_100ns(5).unwrap();
    clock.advance_microseconds(2).unwrap();
    clock.advance_milliseconds(1).unwrap();
    clock.flush_cycles().unwrap();
    clock.observe().unwrap();
    assert_eq!((clock.qpc(), clock.utc_filetime), (343_365, 343_372));
    assert_eq!((clock.utc_offset_minutes, clock.base_mhz), (-60, 3));
    assert!(GuestClock::new(0, 0, 841, 3).is_err());
}
