//! The proved library's calls on timers and DPCs.
use super::{Lent, yes};
use crate::ffi::*;
use crate::scheduler::{Call, Location};
use emumee::pe::Architecture;
use emumee::scheduler::TimerBacking;

pub fn proved(lent: Lent, call: &Call) -> u64 {
    let (w, n) = (lent.words.as_mut_ptr(), lent.words.len());
    let (o, m) = (lent.out.as_mut_ptr(), lent.out.len());
    let (b, k) = (lent.bytes.as_mut_ptr(), lent.bytes.len());
    // SAFETY: each pointer comes with the length of its slice, and the slices are apart.
    unsafe {
        match *call {
            Call::InitializeTimer { location, manual } => {
                let (address, x86, [pool, base, size, mapped]) = numbers(location);
                let manual = yes(manual, base);
                scheduler_initialize_timer(
                    w, n, address, x86, pool, base, size, mapped, manual, o, m,
                )
            }
            Call::SetTimer {
                address,
                due,
                absolute,
                period,
                dpc,
            } => {
                let absolute = yes(absolute, due);
                scheduler_set_timer(w, n, address, due, absolute, period, dpc, o, m)
            }
            Call::SetTimerSigned {
                address,
                due,
                period,
                dpc,
            } => scheduler_set_timer_signed(w, n, address, due, period, dpc, o, m),
            Call::CancelTimer { address } => scheduler_cancel_timer(w, n, address, o, m),
            Call::RequireTimerRelease(span) => {
                scheduler_require_timer_release(w, n, span.address, span.size, o, m)
            }
            Call::RetireTimerBacking(span) => {
                scheduler_retire_timer_backing(w, n, span.address, span.size, o, m)
            }
            Call::Timer { address } => scheduler_timer(w, n, address, o, m),
            Call::Timers { position } => scheduler_timers(w, n, position, o, m),
            Call::PendingTimerDpc => scheduler_pending_timer_dpc(w, n, o, m),
            Call::TimerInitializations => scheduler_timer_initializations(w, n, o, m),
            Call::TimerReadOverlap(span) => {
                scheduler_timer_read_overlap(w, n, span.address, span.size, o, m)
            }
            Call::TimerMetadataOverlap(span) => {
                scheduler_timer_metadata_overlap(w, n, span.address, span.size, o, m)
            }
            Call::TimerImage { address } => scheduler_timer_image(w, n, address, b, k, o, m),
            Call::ConfigureDpcDispatch { arguments } => {
                let [first, second] = arguments;
                scheduler_configure_dpc_dispatch(w, n, first, second, o, m)
            }
            Call::InitializeDpc {
                location,
                routine,
                context,
            } => {
                let (address, x86, [pool, base, size, mapped]) = numbers(location);
                scheduler_initialize_dpc(
                    w, n, address, x86, pool, base, size, mapped, routine, context, o, m,
                )
            }
            Call::InsertQueueDpc { address, arguments } => {
                let [first, second] = arguments;
                scheduler_insert_queue_dpc(w, n, address, first, second, o, m)
            }
            Call::RemoveQueueDpc { address } => scheduler_remove_queue_dpc(w, n, address, o, m),
            Call::StartDpc { address } => scheduler_start_dpc(w, n, address, o, m),
            Call::ReturnedDpc { address, sequence } => {
                scheduler_returned_dpc(w, n, address, sequence, o, m)
            }
            Call::RestoredDpc { address, sequence } => {
                scheduler_restored_dpc(w, n, address, sequence, o, m)
            }
            Call::Dpc { address } => scheduler_dpc(w, n, address, o, m),
            Call::Dpcs { position } => scheduler_dpcs(w, n, position, o, m),
            Call::ActiveDpc => scheduler_active_dpc(w, n, o, m),
            Call::NextDpc => scheduler_next_dpc(w, n, o, m),
            Call::QueuedDpcs { position } => scheduler_queued_dpcs(w, n, position, o, m),
            Call::DpcPolicy => scheduler_dpc_policy(w, n, o, m),
            Call::DpcCounters => scheduler_dpc_counters(w, n, o, m),
            Call::DpcInitializations => scheduler_dpc_initializations(w, n, o, m),
            Call::DpcImage { address } => scheduler_dpc_image(w, n, address, b, k, o, m),
            _ => unreachable!("no call on timers or DPCs"),
        }
    }
}

/// The address, the architecture and the backing. What an image has for mapped bytes does not count.
pub fn numbers(location: Location) -> (u64, u64, [u64; 4]) {
    let address = location.address;
    let x86 = yes(location.architecture == Architecture::X86, address / 4);
    let backing = match location.backing {
        TimerBacking::Image { base, size } => [0, base, size, address],
        TimerBacking::NonpagedPool {
            base,
            requested,
            mapped,
        } => [yes(true, address / 8), base, requested, mapped],
    };
    (address, x86, backing)
}
