//! Lists that no random one makes: each limit of a lifetime, dues at the end of time, openings.
use super::made::Made;
use crate::scheduler::reference::Lengths;
use crate::scheduler::{Backing, Call, Limits, Location, Span};
use emumee::pe::Architecture;
use emumee::scheduler::TimerBacking;

/// How many initializations, and how many acceptances, there may be.
const LIFETIME: u64 = 65_536;

const SMALL: Limits = Limits::new(4, 8, 4);

pub fn lists() -> Vec<Vec<Made>> {
    vec![
        openings(),
        most(),
        timers(),
        dpcs(),
        acceptances(),
        expiries(),
        horizon(),
        arguments(),
        policies(),
        signaled_timer(),
        neighbours(),
        orders(),
        waited_mutex(),
        other_yes(),
    ]
}

fn made(call: Call) -> Made {
    let lent = Lengths::needed(SMALL, &call);
    Made::once(call, lent)
}

fn open() -> Made {
    made(Call::Open {
        priority: 8,
        limits: SMALL,
    })
}

fn many(call: Call, times: u64) -> Made {
    Made {
        times,
        ..made(call)
    }
}

fn at(address: u64, architecture: Architecture) -> Location {
    let backing = TimerBacking::Image {
        base: 0x10000,
        size: 0x1000,
    };
    Location {
        address,
        architecture,
        backing,
    }
}

fn timer(address: u64, manual: bool) -> Call {
    Call::InitializeTimer {
        location: at(address, Architecture::X64),
        manual,
    }
}

fn dpc(address: u64) -> Call {
    Call::InitializeDpc {
        location: at(address, Architecture::X64),
        routine: 0x1111,
        context: 0x2222,
    }
}

fn set(address: u64, due: u64, period: i32, dpc: u64) -> Call {
    Call::SetTimer {
        address,
        due,
        absolute: false,
        period,
        dpc,
    }
}

const TIMER: u64 = 0x10000;
const OTHER: u64 = 0x10040;
const DPC: u64 = 0x10080;
const OTHER_DPC: u64 = 0x100c0;
const ARGUMENTS: [u64; 2] = [0xaaaa, 0xbbbb];

/// The sizing call and openings at the ends of what is allowed, with as many words as are needed, one
/// fewer and one more.
fn openings() -> Vec<Made> {
    let mut list = vec![open()];
    let limits = [
        (1, 0, 0),
        (0, 0, 0),
        (256, 4096, 4096),
        (257, 0, 0),
        (1, 4097, 0),
        (1, 0, 4097),
        (4, 8, 4),
        (16, 64, 64),
    ];
    for (threads, objects, dpcs) in limits {
        let limits = Limits::new(threads, objects, dpcs);
        list.push(made(Call::WordsNeeded(limits)));
        for priority in [8, 0, 31, 32] {
            let call = Call::Open { priority, limits };
            let needed = Lengths::needed(SMALL, &call);
            for words in [limits.words() - 1, limits.words(), limits.words() + 1] {
                list.push(Made::once(call.clone(), Lengths { words, ..needed }));
            }
        }
    }
    list
}

/// The largest of everything: a record at each end.
fn most() -> Vec<Made> {
    let made = |call: Call| {
        let lent = Lengths::needed(Limits::MOST, &call);
        Made::once(call, lent)
    };
    let mut list = vec![made(Call::Open {
        priority: 31,
        limits: Limits::MOST,
    })];
    list.push(made(Call::ConfigureDpcDispatch {
        arguments: ARGUMENTS,
    }));
    let create = made(Call::CreateThread { priority: 1 });
    list.push(Made {
        times: 254,
        ..create.clone()
    });
    list.extend([create.clone(), create]);
    for key in [1, u64::MAX] {
        list.push(made(Call::InitializeEvent {
            key,
            manual: false,
            signaled: false,
        }));
    }
    list.push(made(Call::InitializeMutex { key: 2 }));
    list.push(made(timer(TIMER, true)));
    list.push(made(dpc(DPC)));
    list.push(made(set(TIMER, 100, 1, DPC)));
    list.push(made(Call::AdvanceTo { time: 100 }));
    list.push(made(Call::StartDpc { address: DPC }));
    list.push(made(Call::Wait {
        list: vec![0, 2, 1, 1, 3, 256],
        all: true,
        timed: false,
        deadline: 0,
        irql: 0,
    }));
    list.push(made(Call::Dispatch));
    list.push(made(Call::Terminate { status: u32::MAX }));
    list
}

/// 14 for timers, and 4 where no object fits.
fn timers() -> Vec<Made> {
    let mut list = vec![open()];
    list.push(many(timer(TIMER, false), LIFETIME - 1));
    list.push(made(timer(OTHER, true)));
    list.push(made(timer(OTHER, true)));
    list.push(made(timer(TIMER, true)));
    list.push(open());
    for index in 0..9 {
        list.push(made(timer(TIMER + 64 * index, index % 2 == 0)));
    }
    list
}

/// 14 for DPCs, and 4 where none fits.
fn dpcs() -> Vec<Made> {
    let mut list = vec![open()];
    list.push(many(dpc(DPC), LIFETIME - 1));
    list.push(made(dpc(OTHER_DPC)));
    list.push(made(dpc(OTHER_DPC)));
    list.push(made(dpc(DPC)));
    list.push(open());
    for index in 0..5 {
        list.push(made(dpc(TIMER + 64 * index)));
    }
    list
}

/// 14 at an insertion, and at an advance.
fn acceptances() -> Vec<Made> {
    let insert = Call::InsertQueueDpc {
        address: DPC,
        arguments: [1, 2],
    };
    let mut list = vec![open()];
    list.push(made(Call::ConfigureDpcDispatch {
        arguments: ARGUMENTS,
    }));
    list.push(made(dpc(DPC)));
    list.push(made(dpc(OTHER_DPC)));
    list.push(made(timer(TIMER, false)));
    list.push(Made {
        removed: true,
        ..many(insert.clone(), LIFETIME - 1)
    });
    list.push(made(set(TIMER, 100, 1, OTHER_DPC)));
    list.push(made(Call::AdvanceTo { time: 100 }));
    list.push(made(insert));
    list.push(made(Call::StartDpc { address: OTHER_DPC }));
    list.push(made(Call::ReturnedDpc {
        address: OTHER_DPC,
        sequence: LIFETIME,
    }));
    list.push(made(Call::RestoredDpc {
        address: OTHER_DPC,
        sequence: LIFETIME,
    }));
    list.push(made(Call::AdvanceTo { time: 20_000 }));
    list.push(made(Call::CancelTimer { address: TIMER }));
    list.push(made(Call::AdvanceTo { time: 20_000 }));
    list
}

/// Two DPCs of one due and one of an earlier, in the queue behind a caller's; then each is done, removed or
/// cancelled.
fn expiries() -> Vec<Made> {
    let mut list = vec![open()];
    list.push(made(Call::ConfigureDpcDispatch {
        arguments: ARGUMENTS,
    }));
    let dpcs = [0x10100, 0x10140, 0x10180, 0x101c0];
    list.extend(dpcs.map(|address| made(dpc(address))));
    let timers = [0x10000, 0x10040, 0x10080];
    list.extend(timers.map(|address| made(timer(address, address == 0x10040))));
    list.push(made(Call::InsertQueueDpc {
        address: dpcs[3],
        arguments: [3, 4],
    }));
    list.push(made(Call::InsertQueueDpc {
        address: dpcs[3],
        arguments: [5, 6],
    }));
    list.push(made(set(timers[0], 300, 2, dpcs[0])));
    list.push(made(set(timers[1], 300, 0, dpcs[1])));
    list.push(made(set(timers[2], 200, 1, dpcs[2])));
    list.push(made(Call::AdvanceTo { time: 400 }));
    list.push(made(Call::AdvanceTo { time: 30_000 }));
    for (index, address) in [3, 2, 0, 1]
        .map(|index| dpcs[index])
        .into_iter()
        .enumerate()
    {
        let sequence = index as u64 + 1;
        list.push(made(Call::StartDpc { address }));
        list.push(made(Call::DpcImage { address }));
        list.push(made(Call::RetireTimerBacking(Span {
            address: timers[0],
            size: 1,
        })));
        list.push(made(Call::ReturnedDpc { address, sequence }));
        list.push(made(Call::RestoredDpc { address, sequence }));
    }
    list.push(made(Call::CancelTimer { address: timers[0] }));
    list.push(made(Call::CancelTimer { address: timers[2] }));
    list.push(made(Call::RetireTimerBacking(Span {
        address: 0x10000,
        size: 0x1000,
    })));
    list
}

/// 13 at an advance: the next due passes the end of time.
fn horizon() -> Vec<Made> {
    let mut list = vec![open()];
    list.push(made(timer(TIMER, true)));
    list.push(made(set(TIMER, u64::MAX - 10_000, 1, 0)));
    list.push(made(Call::AdvanceTo {
        time: u64::MAX - 10_001,
    }));
    list.push(made(Call::AdvanceTo {
        time: u64::MAX - 10_000,
    }));
    list.push(made(Call::AdvanceTo { time: u64::MAX }));
    let signed = |due: i64, period: i32| Call::SetTimerSigned {
        address: TIMER,
        due,
        period,
        dpc: 0,
    };
    for (due, period) in [
        (-10_000, 0),
        (-10_001, 0),
        (-10_002, 0),
        (i64::MIN, 0),
        (i64::MAX, 3),
        (0, 0),
        (5, -1),
    ] {
        list.push(made(signed(due, period)));
    }
    list
}

/// Each argument told apart from its neighbour.
fn arguments() -> Vec<Made> {
    let mut list = vec![open()];
    list.push(made(Call::ConfigureDpcDispatch {
        arguments: ARGUMENTS,
    }));
    list.push(made(dpc(DPC)));
    list.push(made(Call::DpcImage { address: DPC }));
    list.push(made(Call::InsertQueueDpc {
        address: DPC,
        arguments: [0x3333, 0x4444],
    }));
    list.push(made(Call::DpcImage { address: DPC }));
    list.push(made(Call::StartDpc { address: DPC }));
    list.push(made(Call::CreateThread { priority: 9 }));
    list.push(made(Call::Terminate { status: 77 }));
    list.push(made(Call::Thread { id: 1 }));
    list
}

/// A policy once there is a thread, a DPC, time or a wait: each alone forbids it.
fn policies() -> Vec<Made> {
    let policy = made(Call::ConfigureDpcDispatch {
        arguments: ARGUMENTS,
    });
    let event = 4096;
    let mut list = vec![
        open(),
        made(Call::CreateThread { priority: 8 }),
        policy.clone(),
    ];
    list.extend([open(), made(dpc(DPC)), policy.clone()]);
    list.extend([open(), made(Call::AdvanceTo { time: 1 }), policy.clone()]);
    list.push(open());
    list.push(made(Call::InitializeEvent {
        key: event,
        manual: false,
        signaled: false,
    }));
    list.push(made(wait(&[1, event], false)));
    list.push(made(Call::SetEvent { key: event }));
    list.push(made(Call::Dispatch));
    list.push(made(Call::RetireEventBacking(Backing {
        base: event,
        size: 24,
        layout: 24,
    })));
    list.push(policy);
    list
}

fn wait(list: &[u64], all: bool) -> Call {
    Call::Wait {
        list: list.to_vec(),
        all,
        timed: false,
        deadline: 0,
        irql: 0,
    }
}

/// A timer that is signaled does not count, though it is due again and awaited.
fn signaled_timer() -> Vec<Made> {
    let event = 4096;
    vec![
        open(),
        made(timer(TIMER, true)),
        made(Call::InitializeEvent {
            key: event,
            manual: false,
            signaled: false,
        }),
        made(set(TIMER, 100, 1, 0)),
        made(Call::AdvanceTo { time: 100 }),
        made(wait(&[2, TIMER, 1, event], true)),
        made(Call::Dispatch),
        made(Call::SetEvent { key: event }),
        made(Call::Dispatch),
    ]
}

/// Memory that ends where other memory begins: events released, timers and DPCs behind events and mutexes, and at
/// the end of what x86 addresses.
fn neighbours() -> Vec<Made> {
    let event = |key: u64| {
        made(Call::InitializeEvent {
            key,
            manual: true,
            signaled: true,
        })
    };
    let mut list = vec![open(), event(4096), event(4120)];
    list.push(made(Call::RetireEventBacking(Backing {
        base: 4096,
        size: 24,
        layout: 24,
    })));
    for key in [TIMER - 23, TIMER - 24] {
        list.extend([
            open(),
            event(key),
            made(timer(TIMER, false)),
            made(dpc(TIMER)),
        ]);
    }
    for key in [TIMER - 55, TIMER - 56] {
        list.extend([
            open(),
            made(Call::InitializeMutex { key }),
            made(timer(TIMER, false)),
            made(dpc(TIMER)),
        ]);
    }
    let high = |address: u64| Location {
        address,
        architecture: Architecture::X86,
        backing: TimerBacking::Image {
            base: (1 << 32) - 4096,
            size: 4100,
        },
    };
    for address in [(1 << 32) - 40, (1 << 32) - 36] {
        list.extend([
            open(),
            made(Call::InitializeTimer {
                location: high(address),
                manual: true,
            }),
        ]);
    }
    for address in [(1 << 32) - 32, (1 << 32) - 28] {
        list.extend([
            open(),
            made(Call::InitializeDpc {
                location: high(address),
                routine: 1,
                context: 2,
            }),
        ]);
    }
    list
}

/// Which of two refusals comes first, and the last insertion of a lifetime.
fn orders() -> Vec<Made> {
    let mut list = vec![
        open(),
        made(Call::Priority {
            id: 99,
            priority: 0,
        }),
    ];
    let end = u64::MAX;
    list.push(made(Call::ConfigureDpcDispatch {
        arguments: ARGUMENTS,
    }));
    list.extend([
        made(timer(TIMER, false)),
        made(timer(OTHER, false)),
        made(dpc(DPC)),
    ]);
    list.push(made(set(TIMER, end - 25_000, 1, DPC)));
    list.push(made(Call::AdvanceTo { time: end - 25_000 }));
    list.push(made(Call::StartDpc { address: DPC }));
    list.push(made(set(OTHER, end - 16_000, 2, 0)));
    list.push(made(Call::AdvanceTo { time: end - 10_001 }));
    let insert = Call::InsertQueueDpc {
        address: DPC,
        arguments: [1, 2],
    };
    list.extend([
        open(),
        made(Call::ConfigureDpcDispatch {
            arguments: ARGUMENTS,
        }),
        made(dpc(DPC)),
    ]);
    list.push(Made {
        removed: true,
        ..many(insert.clone(), LIFETIME - 1)
    });
    list.push(made(insert.clone()));
    list.push(made(Call::RemoveQueueDpc { address: DPC }));
    list.push(made(insert));
    list
}

/// A mutex without an owner that is waited for, beside something that is not there.
fn waited_mutex() -> Vec<Made> {
    let (mutex, event) = (4096, 8192);
    vec![
        open(),
        made(Call::InitializeMutex { key: mutex }),
        made(Call::InitializeEvent {
            key: event,
            manual: false,
            signaled: false,
        }),
        made(wait(&[0, mutex, 1, event], true)),
        made(Call::InitializeMutex { key: mutex }),
    ]
}

/// Yes as another number than 1.
fn other_yes() -> Vec<Made> {
    let yes = |call: Call, yes: u64| Made { yes, ..made(call) };
    vec![
        open(),
        yes(timer(TIMER, true), 2),
        yes(
            Call::InitializeEvent {
                key: 4096,
                manual: true,
                signaled: true,
            },
            3,
        ),
        yes(
            Call::AdoptMutex {
                key: 8192,
                owned: true,
                owner: 1,
            },
            u64::MAX,
        ),
        yes(wait(&[1, 4096, 2, TIMER], true), 4),
        yes(
            Call::Wait {
                list: vec![2, TIMER],
                all: false,
                timed: true,
                deadline: 0,
                irql: 0,
            },
            5,
        ),
    ]
}
