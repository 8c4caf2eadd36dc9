//! What is this crate's own: the numbers of refusals, limits, and the signed due.
use driver_bench::*;

const IMAGE: TimerBacking = TimerBacking::Image {
    base: 0x1000,
    size: 0x1000,
};

fn number<T>(answer: Result<T, SchedulerError>) -> u64 {
    answer.err().map_or(0, SchedulerError::number)
}

fn small() -> Scheduler {
    let limits = Limits {
        threads: 2,
        objects: 2,
        dpcs: 1,
    };
    Scheduler::with_limits(8, limits).unwrap()
}

fn dpc(address: u64) -> Dpc {
    Dpc {
        address,
        architecture: Architecture::X64,
        backing: IMAGE,
        routine: 1,
        context: 2,
        phase: DpcPhase::Idle,
    }
}

#[test]
fn refusals() {
    assert_eq!(number(Scheduler::new(0)), 1);
    let bad = Limits {
        threads: 257,
        ..Limits::MOST
    };
    assert_eq!(number(Scheduler::with_limits(8, bad)), 27);
    assert_eq!(number(Scheduler::with_limits(0, bad)), 1);

    let mut bench = small();
    bench.configure_dpc_dispatch([1, 2]).unwrap();
    assert_eq!(number(bench.configure_dpc_dispatch([1, 2])), 20);
    assert_eq!(number(bench.timer(0x1000)), 2);
    assert_eq!(number(bench.event_state(5)), 2);
    bench.create_thread(8).unwrap();
    assert_eq!(number(bench.create_thread(8)), 4);
    bench
        .initialize_timer(0x1000, Architecture::X64, IMAGE, false)
        .unwrap();
    assert_eq!(number(bench.initialize_event(0x1000, false, false)), 5);
    assert_eq!(
        number(bench.initialize_timer(0x1004, Architecture::X64, IMAGE, false)),
        15
    );
    assert_eq!(number(bench.initialize_dpc(dpc(0x1008))), 16);
    bench.initialize_dpc(dpc(0x1040)).unwrap();
    assert_eq!(number(bench.initialize_dpc(dpc(0x1080))), 4);
    bench.set_timer(0x1000, 5, false, 0, 0x1040).unwrap();
    assert_eq!(number(bench.insert_queue_dpc(0x1040, [1, 2])), 18);
    assert_eq!(number(bench.set_timer(0x1000, 5, false, -1, 0)), 17);
    assert_eq!(number(bench.retire_timer_backing(0x1000, 1)), 23);
    bench.advance_to(5).unwrap();
    assert_eq!(number(bench.advance_to(4)), 12);
    assert_eq!(number(bench.set_timer(0x1000, 9, false, 0, 0)), 19);
    assert_eq!(number(bench.start_dpc(0x1000)), 22);
    assert_eq!(number(bench.insert_queue_dpc(0x1040, [1, 2])), 21);
    let work = bench.start_dpc(0x1040).unwrap();
    let busy = |address| Dpc {
        phase: DpcPhase::Running(work.clone()),
        ..dpc(address)
    };
    assert_eq!(number(bench.initialize_dpc(busy(0x1000))), 5);
    assert_eq!(number(bench.initialize_dpc(busy(0x1080))), 4);
    assert_eq!(number(bench.initialize_dpc(busy(0x1040))), 19);
    let error = bench.wait(&[], false, None, 0).unwrap_err();
    assert_eq!(
        error.to_string(),
        "Kernel scheduler: the list has none, over 64, or one twice (7)"
    );
}

#[test]
fn signed_dues() {
    const TIMER: u64 = 0x1000;
    const UNKNOWN: u64 = 0x1040;
    let mut bench = small();
    bench
        .initialize_timer(TIMER, Architecture::X64, IMAGE, false)
        .unwrap();
    bench.advance_to(50).unwrap();
    let due = |bench: &Scheduler| {
        let timer = bench.timer(TIMER).unwrap();
        (timer.due, timer.absolute)
    };
    assert!(!bench.set_timer_signed(TIMER, -100, 0, 0).unwrap());
    assert_eq!(due(&bench), (150, false));
    assert!(bench.set_timer_signed(TIMER, 400, 7, 0).unwrap());
    assert_eq!(due(&bench), (400, true));
    assert_eq!(bench.timer(TIMER).unwrap().period_ms, 7);
    assert!(bench.set_timer_signed(TIMER, i64::MIN, 0, 0).unwrap());
    assert_eq!(due(&bench), ((1 << 63) + 50, false));
    bench.advance_to(1 << 63).unwrap();
    assert_eq!(number(bench.set_timer_signed(TIMER, i64::MIN, 0, 0)), 13);
    assert_eq!(number(bench.set_timer_signed(TIMER, i64::MIN, -1, 0)), 17);
    assert_eq!(number(bench.set_timer_signed(UNKNOWN, i64::MIN, 0, 0)), 13);
    assert_eq!(number(bench.set_timer_signed(UNKNOWN, -1, 0, 0)), 2);
    assert_eq!(due(&bench), ((1 << 63) + 50, false));
    assert!(bench.set_timer_signed(TIMER, i64::MIN + 1, 0, 0).unwrap());
    assert_eq!(due(&bench), (u64::MAX, false));
}

#[test]
fn a_copy_goes_its_own_way() {
    let mut bench = small();
    let mut copy = bench.clone();
    bench.create_thread(9).unwrap();
    copy.terminate(1).unwrap();
    assert_eq!(bench.dispatch(), Dispatch::Run(1));
    assert_eq!(copy.dispatch(), Dispatch::Finished);
}

#[test]
fn clock_errors() {
    let error = GuestClock::new(0, 0, 0, 0).unwrap_err();
    assert_eq!(
        (error, error.number()),
        (ClockError::InvalidConfiguration, 25)
    );
    assert_eq!(
        error.to_string(),
        "Invalid guest CPU frequency or UTC offset (25)"
    );
    let mut clock = GuestClock::new(0, 1_844_674_407_370_955, 0, 1).unwrap();
    clock.advance_100ns(1615).unwrap();
    assert_eq!(clock.checked_qpc(), Ok(u64::MAX));
    clock.advance_100ns(1).unwrap();
    assert_eq!(clock.checked_qpc().unwrap_err().number(), 26);
    clock.utc_offset_minutes = i32::MIN;
    assert_eq!(clock.observe().unwrap_err().number(), 27);
    assert_eq!(clock.utc_offset_minutes, i32::MIN);
}
