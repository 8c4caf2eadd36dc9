//! The original's calls on timers and DPCs.
use super::nth;
use crate::scheduler::answer::Answer;
use crate::scheduler::{Call, Location, view};
use emumee::scheduler::{Dpc, DpcPhase, Scheduler, SchedulerError, Timer};

pub fn original(scheduler: &mut Scheduler, call: &Call) -> Result<Answer, SchedulerError> {
    let done = |(): ()| Answer::Done;
    match *call {
        Call::InitializeTimer { location, manual } => {
            let Location {
                address,
                architecture,
                backing,
            } = location;
            scheduler
                .initialize_timer(address, architecture, backing, manual)
                .map(done)
        }
        Call::SetTimer {
            address,
            due,
            absolute,
            period,
            dpc,
        } => scheduler
            .set_timer(address, due, absolute, period, dpc)
            .map(Answer::Flag),
        Call::SetTimerSigned {
            address,
            due,
            period,
            dpc,
        } => {
            let (due, absolute) = signed_due(*scheduler.now_mut(), due).expect("a due that fits");
            scheduler
                .set_timer(address, due, absolute, period, dpc)
                .map(Answer::Flag)
        }
        Call::CancelTimer { address } => scheduler.cancel_timer(address).map(Answer::Flag),
        Call::RequireTimerRelease(span) => scheduler
            .require_timer_release(span.address, span.size)
            .map(done),
        Call::RetireTimerBacking(span) => scheduler
            .retire_timer_backing(span.address, span.size)
            .map(done),
        Call::Timer { address } => scheduler.timer(address).map(timer),
        Call::Timers { position } => Ok(some(nth(scheduler.timers(), position), timer)),
        Call::PendingTimerDpc => Ok(some(scheduler.pending_timer_dpc(), timer)),
        Call::TimerInitializations => Ok(Answer::Count(scheduler.timer_initializations())),
        Call::TimerReadOverlap(span) => Ok(Answer::Flag(
            scheduler.timer_read_overlap(span.address, span.size),
        )),
        Call::TimerMetadataOverlap(span) => Ok(Answer::Flag(
            scheduler.timer_metadata_overlap(span.address, span.size),
        )),
        Call::TimerImage { address } => scheduler
            .timer(address)
            .map(|timer| Answer::Image(timer.bytes())),
        Call::ConfigureDpcDispatch { arguments } => {
            scheduler.configure_dpc_dispatch(arguments).map(done)
        }
        Call::InitializeDpc {
            location,
            routine,
            context,
        } => scheduler
            .initialize_dpc(new_dpc(location, routine, context))
            .map(done),
        Call::InsertQueueDpc { address, arguments } => scheduler
            .insert_queue_dpc(address, arguments)
            .map(Answer::Flag),
        Call::RemoveQueueDpc { address } => scheduler.remove_queue_dpc(address).map(Answer::Flag),
        Call::StartDpc { address } => scheduler.start_dpc(address).map(Answer::Work),
        Call::ReturnedDpc { address, sequence } => {
            scheduler.returned_dpc(address, sequence).map(done)
        }
        Call::RestoredDpc { address, sequence } => {
            scheduler.restored_dpc(address, sequence).map(done)
        }
        Call::Dpc { address } => scheduler.dpc(address).map(dpc),
        Call::Dpcs { position } => Ok(some(nth(scheduler.dpcs(), position), dpc)),
        Call::ActiveDpc => Ok(some(scheduler.active_dpc(), dpc)),
        Call::NextDpc => Ok(some(scheduler.next_dpc()?, dpc)),
        Call::QueuedDpcs { position } => {
            Ok(nth(scheduler.queued_dpcs(), position).map_or(Answer::None, Answer::Count))
        }
        Call::DpcPolicy => Ok(view::policy(scheduler).map_or(Answer::NoPolicy, Answer::Policy)),
        Call::DpcCounters => Ok(Answer::Counters(view::counters(scheduler))),
        Call::DpcInitializations => Ok(Answer::Count(scheduler.dpc_initializations())),
        Call::DpcImage { address } => scheduler.dpc(address).map(|dpc| Answer::Image(dpc.bytes())),
        _ => unreachable!("no call on timers or DPCs"),
    }
}

/// A signed due as `set_timer` takes it, and whether it is absolute; nothing past 2^64 - 1.
pub fn signed_due(now: u64, due: i64) -> Option<(u64, bool)> {
    match u64::try_from(due) {
        Ok(time) => Some((time, true)),
        Err(_) => Some((now.checked_add(due.unsigned_abs())?, false)),
    }
}

fn new_dpc(location: Location, routine: u64, context: u64) -> Dpc {
    Dpc {
        address: location.address,
        architecture: location.architecture,
        backing: location.backing,
        routine,
        context,
        phase: DpcPhase::Idle,
    }
}

fn some<T>(found: Option<T>, answer: impl Fn(T) -> Answer) -> Answer {
    found.map_or(Answer::None, answer)
}

fn timer(timer: &Timer) -> Answer {
    Answer::Timer(view::timer(timer))
}

fn dpc(dpc: &Dpc) -> Answer {
    Answer::Dpc(view::dpc(dpc))
}
