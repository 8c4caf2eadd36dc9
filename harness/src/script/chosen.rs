//! Scripts for what random ones leave alike: each list tells two rules apart that most scripts do not.
use crate::scheduler::{Call, Location, Span};
use emumee::pe::Architecture;
use emumee::scheduler::TimerBacking;

const MUTEX: u64 = 4096;
const EVENT: u64 = 8192;
const TIMER: u64 = 0x10000;
const OTHER_TIMER: u64 = 0x10040;
const DPC: u64 = 0x10080;
const OTHER_DPC: u64 = 0x100c0;

/// Calls after an `open` with priority 8.
pub fn lists() -> Vec<Vec<Call>> {
    vec![
        longest_waiter(),
        every_listed(),
        own_priority(),
        late_policy(),
        overlaps(),
        retirement(),
        periodic_origin(),
        reset(),
        awaited_timer(),
        exit(),
    ]
}

fn create(priority: u64) -> Call {
    Call::CreateThread { priority }
}

fn wait(all: bool, list: &[u64]) -> Call {
    Call::Wait {
        list: list.to_vec(),
        all,
        timed: false,
        deadline: 0,
        irql: 0,
    }
}

fn event(key: u64, manual: bool, signaled: bool) -> Call {
    Call::InitializeEvent {
        key,
        manual,
        signaled,
    }
}

fn at(address: u64) -> Location {
    let backing = TimerBacking::NonpagedPool {
        base: 0x10000,
        requested: 0x1000,
        mapped: 0x2000,
    };
    Location {
        address,
        architecture: Architecture::X86,
        backing,
    }
}

fn timer(address: u64, manual: bool) -> Call {
    Call::InitializeTimer {
        location: at(address),
        manual,
    }
}

fn dpc(address: u64) -> Call {
    Call::InitializeDpc {
        location: at(address),
        routine: 1,
        context: 2,
    }
}

fn set(address: u64, due: u64, period: i32, dpc: u64) -> Call {
    Call::SetTimer {
        address,
        due,
        absolute: false,
        period,
        dpc,
    }
}

fn span(address: u64, size: u64) -> Span {
    Span { address, size }
}

const POLICY: Call = Call::ConfigureDpcDispatch { arguments: [7, 9] };

/// Threads 3, 4 and 2 wait in this order for a mutex that thread 1 releases.
fn longest_waiter() -> Vec<Call> {
    let mut list = vec![
        Call::InitializeMutex { key: MUTEX },
        create(9),
        create(11),
        create(10),
    ];
    list.extend([wait(false, &[0, MUTEX]), Call::YieldCurrent]);
    for _ in 0..3 {
        list.extend([Call::Dispatch, wait(false, &[0, MUTEX])]);
    }
    list.push(Call::Dispatch);
    for _ in 0..4 {
        list.extend([
            Call::MutexWaiters { key: MUTEX },
            Call::ReleaseMutex { key: MUTEX },
            Call::MutexOwner { key: MUTEX },
            Call::MutexWaiters { key: MUTEX },
            Call::Terminate { status: 0 },
            Call::Dispatch,
        ]);
    }
    list
}

/// A wake grants a wait for a mutex and an auto-reset event; both are taken, and nothing before it.
fn every_listed() -> Vec<Call> {
    let other = MUTEX + 64;
    vec![
        Call::InitializeMutex { key: MUTEX },
        Call::InitializeMutex { key: other },
        event(EVENT, false, false),
        wait(false, &[0, MUTEX]),
        create(9),
        create(10),
        Call::YieldCurrent,
        Call::Dispatch,
        wait(true, &[1, EVENT, 0, MUTEX, 0, other]),
        Call::Dispatch,
        wait(false, &[1, EVENT]),
        Call::Dispatch,
        Call::MutexOwner { key: other },
        Call::ReleaseMutex { key: MUTEX },
        Call::MutexOwner { key: MUTEX },
        Call::SetEvent { key: EVENT },
        Call::MutexOwner { key: MUTEX },
        Call::MutexOwner { key: other },
        Call::SetEvent { key: EVENT },
        Call::ResetEvent { key: EVENT },
        Call::Dispatch,
        Call::YieldCurrent,
        Call::Dispatch,
        Call::YieldCurrent,
        Call::Dispatch,
        Call::Terminate { status: 1 },
        Call::ReleaseMutex { key: MUTEX },
        Call::ReleaseMutex { key: other },
        Call::Terminate { status: 1 },
        Call::Dispatch,
    ]
}

/// A ready thread that is given its own priority goes behind the others of that priority.
fn own_priority() -> Vec<Call> {
    let mut list = vec![create(8), create(8), create(8)];
    list.extend([
        Call::Priority { id: 2, priority: 8 },
        Call::Priority { id: 1, priority: 8 },
    ]);
    for _ in 0..5 {
        list.extend([Call::YieldCurrent, Call::Dispatch]);
    }
    list
}

/// A policy after time has passed.
fn late_policy() -> Vec<Call> {
    vec![
        Call::AdvanceTo { time: 0 },
        Call::AdvanceTo { time: 1 },
        POLICY,
    ]
}

/// Reads of memory that a timer or a DPC takes, and of the bytes around it.
fn overlaps() -> Vec<Call> {
    let mut list = vec![timer(TIMER, true), dpc(DPC)];
    for address in [TIMER, DPC] {
        for (start, size) in [
            (address - 1, 1),
            (address - 1, 2),
            (address, 0),
            (address + 1, 1),
            (address + 39, 1),
            (address + 40, 1),
            (address + 31, 1),
            (address + 32, 1),
        ] {
            list.push(Call::TimerReadOverlap(span(start, size)));
            list.push(Call::TimerMetadataOverlap(span(start, size)));
        }
    }
    list
}

/// A retirement takes timers and DPCs, and leaves those beside.
fn retirement() -> Vec<Call> {
    vec![
        POLICY,
        timer(TIMER, false),
        timer(OTHER_TIMER, false),
        dpc(DPC),
        dpc(OTHER_DPC),
        Call::RequireTimerRelease(span(OTHER_TIMER, 65)),
        Call::RetireTimerBacking(span(OTHER_TIMER, 65)),
        Call::CancelTimer { address: TIMER },
        Call::CancelTimer {
            address: OTHER_TIMER,
        },
        Call::RemoveQueueDpc { address: DPC },
        Call::RemoveQueueDpc { address: OTHER_DPC },
        Call::InsertQueueDpc {
            address: OTHER_DPC,
            arguments: [1, 2],
        },
        Call::RetireTimerBacking(span(OTHER_DPC, 1)),
        Call::RemoveQueueDpc { address: OTHER_DPC },
        Call::RetireTimerBacking(span(OTHER_DPC, 1)),
        Call::RemoveQueueDpc { address: OTHER_DPC },
    ]
}

/// A timer whose periodic work is active holds its memory, also once it is cancelled; one whose work is not
/// periodic does not.
fn periodic_origin() -> Vec<Call> {
    let mut list = vec![
        POLICY,
        timer(TIMER, false),
        timer(OTHER_TIMER, false),
        dpc(DPC),
        dpc(OTHER_DPC),
    ];
    list.extend([
        set(TIMER, 100, 1, DPC),
        set(OTHER_TIMER, 200, 0, OTHER_DPC),
        Call::AdvanceTo { time: 300 },
    ]);
    for (timer, dpc, sequence) in [(TIMER, DPC, 1), (OTHER_TIMER, OTHER_DPC, 2)] {
        list.extend([
            Call::StartDpc { address: dpc },
            Call::CancelTimer { address: timer },
            Call::RequireTimerRelease(span(timer, 8)),
            Call::ReturnedDpc {
                address: dpc,
                sequence,
            },
            Call::RequireTimerRelease(span(timer, 8)),
            Call::RestoredDpc {
                address: dpc,
                sequence,
            },
            Call::RequireTimerRelease(span(timer, 8)),
        ]);
    }
    list
}

/// Events that are reset: with something to reset, without, manual and not.
fn reset() -> Vec<Call> {
    let mut list = vec![event(EVENT, true, true), event(EVENT + 64, false, true)];
    for key in [EVENT, EVENT + 64] {
        list.extend([
            Call::ResetEvent { key },
            Call::ResetEvent { key },
            Call::SetEvent { key },
            Call::SetEvent { key },
            Call::ResetEvent { key },
            Call::Wait {
                list: vec![1, key],
                all: false,
                timed: true,
                deadline: 0,
                irql: 0,
            },
        ]);
    }
    list
}

/// A timer without a DPC, awaited, as the only thing to wait for; and one that nobody awaits.
fn awaited_timer() -> Vec<Call> {
    vec![
        timer(TIMER, false),
        timer(OTHER_TIMER, false),
        set(TIMER, 100, 0, 0),
        set(OTHER_TIMER, 50, 0, 0),
        Call::Dispatch,
        wait(true, &[2, TIMER]),
        Call::Dispatch,
        Call::AdvanceTo { time: 60 },
        Call::Dispatch,
        Call::AdvanceTo { time: 100 },
        Call::Dispatch,
        wait(false, &[2, TIMER]),
        Call::Dispatch,
    ]
}

/// An exit goes to all who wait for the thread.
fn exit() -> Vec<Call> {
    vec![
        create(9),
        create(10),
        Call::YieldCurrent,
        Call::Dispatch,
        wait(false, &[3, 1]),
        Call::Dispatch,
        wait(true, &[3, 1, 3, 3]),
        Call::Dispatch,
        Call::Terminate { status: 5 },
        Call::Dispatch,
        Call::Terminate { status: 6 },
        Call::Dispatch,
        wait(false, &[3, 2]),
    ]
}
