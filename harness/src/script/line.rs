//! Calls and answers as the script language writes them.
use crate::clock;
use crate::scheduler::answer::Answer;
use crate::scheduler::original::objects;
use crate::scheduler::{Backing, Call, Location, Span};
use emumee::pe::Architecture;
use emumee::scheduler::TimerBacking;

/// The line of a call; nothing for one that has no line, or that a line cannot hold.
pub fn scheduler(call: &Call) -> Option<String> {
    let backing =
        |name, Backing { base, size, layout }: Backing| format!("{name} {base} {size} {layout}");
    Some(match *call {
        Call::CreateThread { priority } if priority < 256 => format!("create {priority}"),
        Call::Priority { id, priority } if priority < 256 => format!("priority {id} {priority}"),
        Call::InitializeMutex { key } => format!("initialize_mutex {key}"),
        Call::AdoptMutex { key, owned, owner } => match owned {
            false => format!("adopt_mutex {key} none"),
            true => format!("adopt_mutex {key} {owner}"),
        },
        Call::MutexOwner { key } => format!("mutex_owner {key}"),
        Call::MutexWaiters { key } => format!("mutex_waiters {key}"),
        Call::ReleaseMutex { key } => format!("release_mutex {key}"),
        Call::InitializeEvent {
            key,
            manual,
            signaled,
        } => format!("event {key} {} {}", u8::from(manual), u8::from(signaled)),
        Call::SetEvent { key } => format!("set {key}"),
        Call::ResetEvent { key } => format!("reset_event {key}"),
        Call::RequireEventRelease(memory) => backing("require_event_release", memory),
        Call::RetireEventBacking(memory) => backing("retire_event_backing", memory),
        Call::Terminate { status } => format!("terminate {status}"),
        Call::Wait { .. } => return wait(call),
        Call::DelayUntil { deadline, irql } => format!("delay_until {deadline} {irql}"),
        Call::AdvanceTo { time } => format!("advance_to {time}"),
        Call::YieldCurrent => "yield".to_string(),
        Call::Current => "current".to_string(),
        Call::Dispatch => "dispatch".to_string(),
        _ => return timers(call),
    })
}

/// The line of a call on timers or DPCs.
fn timers(call: &Call) -> Option<String> {
    let name = call.name();
    Some(match *call {
        Call::InitializeTimer { location, manual } => {
            format!("{name} {} {}", place(location), u8::from(manual))
        }
        Call::SetTimer {
            address,
            due,
            absolute,
            period,
            dpc,
        } => format!(
            "{name} {address} {due} {} {period} {dpc}",
            u8::from(absolute)
        ),
        Call::InitializeDpc {
            location,
            routine,
            context,
        } => format!("{name} {} {routine} {context}", place(location)),
        Call::ConfigureDpcDispatch {
            arguments: [first, second],
        } => format!("{name} {first} {second}"),
        Call::InsertQueueDpc {
            address,
            arguments: [first, second],
        } => format!("{name} {address} {first} {second}"),
        Call::CancelTimer { address }
        | Call::RemoveQueueDpc { address }
        | Call::StartDpc { address } => format!("{name} {address}"),
        Call::ReturnedDpc { address, sequence } | Call::RestoredDpc { address, sequence } => {
            format!("{name} {address} {sequence}")
        }
        Call::RequireTimerRelease(Span { address, size })
        | Call::RetireTimerBacking(Span { address, size })
        | Call::TimerReadOverlap(Span { address, size })
        | Call::TimerMetadataOverlap(Span { address, size }) => format!("{name} {address} {size}"),
        Call::QueuedDpcs { position } => format!("{name} {position}"),
        Call::TimerInitializations | Call::DpcInitializations => name.to_string(),
        _ => return None,
    })
}

fn place(location: Location) -> String {
    let Location {
        address,
        architecture,
        backing,
    } = location;
    let architecture = match architecture {
        Architecture::X64 => "x64",
        Architecture::X86 => "x86",
    };
    let backing = match backing {
        TimerBacking::Image { base, size } => format!("image {base} {size}"),
        TimerBacking::NonpagedPool {
            base,
            requested,
            mapped,
        } => format!("pool {base} {requested} {mapped}"),
    };
    format!("{address} {architecture} {backing}")
}

/// A list of none, of odd length or with another kind has no line.
fn wait(call: &Call) -> Option<String> {
    let Call::Wait {
        list,
        all,
        timed,
        deadline,
        irql,
    } = call
    else {
        return None;
    };
    if list.is_empty() || objects(call).is_none() {
        return None;
    }
    let deadline = match timed {
        false => "never".to_string(),
        true => deadline.to_string(),
    };
    let mut line = format!(
        "wait {} {deadline} {irql}",
        if *all { "all" } else { "any" }
    );
    for pair in list.chunks_exact(2) {
        let kind = ["mutex", "event", "timer", "thread"][pair[0] as usize];
        line += &format!(" {kind} {}", pair[1]);
    }
    Some(line)
}

pub fn scheduler_answer(call: &Call, answer: &Answer) -> String {
    match (call, answer) {
        (Call::CreateThread { .. }, Answer::Thread(id)) => format!("thread {id}"),
        (_, Answer::Refused(number)) => format!("refused {number}"),
        (_, Answer::Done) => "ok".to_string(),
        (_, Answer::None) => "none".to_string(),
        (_, Answer::Thread(number) | Answer::Count(number)) => number.to_string(),
        (_, Answer::Flag(flag)) => if *flag { "yes" } else { "no" }.to_string(),
        (_, Answer::Satisfied(index)) => format!("satisfied {index}"),
        (_, Answer::Timeout) => "timeout".to_string(),
        (_, Answer::Blocked) => "blocked".to_string(),
        (_, Answer::Run(id)) => format!("run {id}"),
        (_, Answer::AdvanceTo(time)) => format!("advance {time}"),
        (_, Answer::Deadlocked(waiting)) => {
            let waiting: Vec<String> = waiting.iter().map(u64::to_string).collect();
            format!("deadlocked {}", waiting.join(" "))
        }
        (_, Answer::Finished) => "finished".to_string(),
        (_, Answer::Work(work)) => work.sequence.to_string(),
        (_, _) => unreachable!("a record has no line"),
    }
}

pub fn clock(call: clock::Call) -> String {
    let name = call.name();
    match call {
        clock::Call::New(clock::Configuration {
            utc_filetime,
            uptime_ms,
            utc_offset_minutes,
            base_mhz,
        }) => format!("clock new {utc_filetime} {uptime_ms} {utc_offset_minutes} {base_mhz}"),
        clock::Call::AdvanceMicroseconds(amount) | clock::Call::Advance100ns(amount) => {
            format!("clock {name} {amount}")
        }
        clock::Call::AdvanceMilliseconds(amount) => format!("clock {name} {amount}"),
        _ => format!("clock {name}"),
    }
}

pub fn clock_answer(call: clock::Call, answer: clock::reference::Answer) -> String {
    match answer.number {
        0 if call.reads() => answer.value.to_string(),
        0 => "ok".to_string(),
        number => format!("refused {number}"),
    }
}
