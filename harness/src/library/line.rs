//! A call as a line: its name, and its numbers in decimal.
use super::made::Made;
use crate::scheduler::answer::record;
use crate::scheduler::{Backing, Call, Location, Span};
use emumee::pe::Architecture;

pub fn line(made: &Made) -> String {
    let name = match made.removed {
        true => "insert_and_remove",
        false => made.call.name(),
    };
    match made.call {
        Call::SetTimer {
            address,
            due,
            absolute,
            period,
            dpc,
        } => {
            let absolute = u8::from(absolute);
            format!("{name} {address} {due} {absolute} {period} {dpc}")
        }
        // The due as whether it is less than 0, and its magnitude.
        Call::SetTimerSigned {
            address,
            due,
            period,
            dpc,
        } => {
            let (less, due) = (u8::from(due < 0), due.unsigned_abs());
            format!("{name} {address} {less} {due} {period} {dpc}")
        }
        _ => {
            let numbers = numbers(made).into_iter().map(|number| format!(" {number}"));
            name.to_string() + &numbers.collect::<String>()
        }
    }
}

fn location(location: Location) -> Vec<u64> {
    let Location {
        address,
        architecture,
        backing,
    } = location;
    let architecture = match architecture {
        Architecture::X64 => 0,
        Architecture::X86 => 1,
    };
    [
        &[address, architecture][..],
        &record::backing_words(backing),
    ]
    .concat()
}

/// Those of a call without a signed one.
fn numbers(made: &Made) -> Vec<u64> {
    let truth = |is: &bool| u64::from(*is) * made.yes;
    match &made.call {
        Call::SetTimer { .. } | Call::SetTimerSigned { .. } => vec![],
        Call::WordsNeeded(limits) => vec![limits.threads, limits.objects, limits.dpcs],
        Call::Open { priority, limits } => vec![
            made.lent.words as u64,
            *priority,
            limits.threads,
            limits.objects,
            limits.dpcs,
        ],
        Call::Current
        | Call::YieldCurrent
        | Call::PendingTimerDpc
        | Call::TimerInitializations
        | Call::ActiveDpc
        | Call::NextDpc
        | Call::DpcPolicy
        | Call::DpcCounters
        | Call::DpcInitializations => vec![],
        Call::CreateThread { priority } => vec![*priority],
        Call::Priority { id, priority } => vec![*id, *priority],
        Call::Terminate { status } => vec![(*status).into()],
        Call::Thread { id } => vec![*id],
        Call::WaitedObject { id, position } => vec![*id, *position],
        Call::Threads { position }
        | Call::EventStates { position }
        | Call::Timers { position }
        | Call::Dpcs { position }
        | Call::QueuedDpcs { position } => vec![*position],
        Call::InitializeMutex { key }
        | Call::MutexOwner { key }
        | Call::MutexWaiters { key }
        | Call::ReleaseMutex { key }
        | Call::SetEvent { key }
        | Call::ResetEvent { key }
        | Call::EventState { key } => vec![*key],
        Call::AdoptMutex { key, owned, owner } => vec![*key, truth(owned), *owner],
        Call::InitializeEvent {
            key,
            manual,
            signaled,
        } => {
            vec![*key, truth(manual), truth(signaled)]
        }
        Call::RequireEventRelease(Backing { base, size, layout })
        | Call::RetireEventBacking(Backing { base, size, layout }) => vec![*base, *size, *layout],
        Call::Wait {
            list,
            all,
            timed,
            deadline,
            irql,
        } => {
            let terms = [truth(all), truth(timed), *deadline, (*irql).into()];
            [&terms[..], list].concat()
        }
        Call::DelayUntil { deadline, irql } => vec![*deadline, (*irql).into()],
        Call::AdvanceTo { time } => vec![*time],
        Call::Dispatch => vec![made.lent.waiting as u64],
        Call::InitializeTimer {
            location: at,
            manual,
        } => [location(*at), vec![truth(manual)]].concat(),
        Call::CancelTimer { address }
        | Call::Timer { address }
        | Call::Dpc { address }
        | Call::RemoveQueueDpc { address }
        | Call::StartDpc { address } => vec![*address],
        Call::RequireTimerRelease(Span { address, size })
        | Call::RetireTimerBacking(Span { address, size })
        | Call::TimerReadOverlap(Span { address, size })
        | Call::TimerMetadataOverlap(Span { address, size }) => vec![*address, *size],
        Call::TimerImage { address } | Call::DpcImage { address } => {
            vec![*address, made.lent.bytes as u64]
        }
        Call::ConfigureDpcDispatch {
            arguments: [first, second],
        } => vec![*first, *second],
        Call::InitializeDpc {
            location: at,
            routine,
            context,
        } => [location(*at), vec![*routine, *context]].concat(),
        Call::InsertQueueDpc {
            address,
            arguments: [first, second],
        } => {
            vec![*address, *first, *second]
        }
        Call::ReturnedDpc { address, sequence } | Call::RestoredDpc { address, sequence } => {
            vec![*address, *sequence]
        }
    }
}
