//! The DPC queue.
use super::lent::{self, Out, Record, Result, flag, some};
use super::{Dpc, Scheduler};
use crate::ffi::*;

/// How much work can be accepted, all together.
pub const DPC_WORK_LIMIT: u64 = 65_536;

#[derive(Clone, Copy, Debug, PartialEq, Eq)]
pub enum DpcPolicy {
    Unselected,
    /// Declared, and never chosen.
    LegacyMetadataOnly,
    Cpu0Dispatch {
        timer_arguments: [u64; 2],
    },
}

#[derive(Clone, Debug, PartialEq, Eq)]
pub enum DpcOrigin {
    Caller,
    Timer {
        address: u64,
        arm: u64,
        initialization: u64,
        deadline: u64,
        observed: u64,
        periodic: bool,
    },
}

#[derive(Clone, Debug, PartialEq, Eq)]
pub struct DpcWork {
    pub sequence: u64,
    pub arguments: [u64; 2],
    pub origin: DpcOrigin,
}

impl DpcWork {
    /// From ten words on, of which a caller's work has four.
    pub(crate) fn of(words: &[u64]) -> Self {
        Self {
            sequence: words[0],
            arguments: [words[1], words[2]],
            origin: match words[3] {
                0 => DpcOrigin::Caller,
                _ => DpcOrigin::Timer {
                    address: words[4],
                    arm: words[5],
                    initialization: words[6],
                    deadline: words[7],
                    observed: words[8],
                    periodic: words[9] != 0,
                },
            },
        }
    }
}

#[derive(Clone, Debug, PartialEq, Eq)]
pub enum DpcPhase {
    Idle,
    Queued(DpcWork),
    Running(DpcWork),
    Returning(DpcWork),
}

impl DpcPhase {
    pub fn work(&self) -> Option<&DpcWork> {
        match self {
            Self::Idle => None,
            Self::Queued(work) | Self::Running(work) | Self::Returning(work) => Some(work),
        }
    }

    pub fn busy(&self) -> bool {
        !matches!(self, Self::Idle)
    }
}

#[derive(Clone, Debug, Default)]
pub struct DpcCounters {
    pub accepted: u64,
    pub duplicates: u64,
    pub removed: u64,
    pub started: u64,
    pub returned: u64,
    pub restored: u64,
}

impl Scheduler {
    pub fn configure_dpc_dispatch(&mut self, timer_arguments: [u64; 2]) -> Result<()> {
        let [first, second] = timer_arguments;
        let _: Out = self.change(|w, n, o, m| unsafe {
            scheduler_configure_dpc_dispatch(w, n, first, second, o, m)
        })?;
        Ok(())
    }

    pub fn dpc_policy(&self) -> DpcPolicy {
        let [tag, first, second, ..]: Record =
            self.always(|w, n, o, m| unsafe { scheduler_dpc_policy(w, n, o, m) });
        match tag {
            lent::NO_POLICY => DpcPolicy::Unselected,
            _ => DpcPolicy::Cpu0Dispatch {
                timer_arguments: [first, second],
            },
        }
    }

    pub fn dpc_counters(&self) -> DpcCounters {
        let out: Record = self.always(|w, n, o, m| unsafe { scheduler_dpc_counters(w, n, o, m) });
        let [
            _,
            accepted,
            duplicates,
            removed,
            started,
            returned,
            restored,
            ..,
        ] = out;
        DpcCounters {
            accepted,
            duplicates,
            removed,
            started,
            returned,
            restored,
        }
    }

    pub fn queued_dpcs(&self) -> impl Iterator<Item = u64> + '_ {
        (0..).map_while(|position| {
            some(self.always(|w, n, o, m| unsafe { scheduler_queued_dpcs(w, n, position, o, m) }))
        })
    }

    pub fn active_dpc(&self) -> Option<Dpc> {
        Dpc::of(self.always(|w, n, o, m| unsafe { scheduler_active_dpc(w, n, o, m) }))
    }

    pub fn insert_queue_dpc(&mut self, address: u64, arguments: [u64; 2]) -> Result<bool> {
        let [first, second] = arguments;
        self.change(|w, n, o, m| unsafe {
            scheduler_insert_queue_dpc(w, n, address, first, second, o, m)
        })
        .map(flag)
    }

    pub fn remove_queue_dpc(&mut self, address: u64) -> Result<bool> {
        self.change(|w, n, o, m| unsafe { scheduler_remove_queue_dpc(w, n, address, o, m) })
            .map(flag)
    }

    pub fn next_dpc(&self) -> Result<Option<Dpc>> {
        self.read(|w, n, o, m| unsafe { scheduler_next_dpc(w, n, o, m) })
            .map(Dpc::of)
    }

    pub fn start_dpc(&mut self, address: u64) -> Result<DpcWork> {
        let out: Record =
            self.change(|w, n, o, m| unsafe { scheduler_start_dpc(w, n, address, o, m) })?;
        Ok(DpcWork::of(&out[1..]))
    }

    pub fn returned_dpc(&mut self, address: u64, sequence: u64) -> Result<()> {
        let _: Out = self.change(|w, n, o, m| unsafe {
            scheduler_returned_dpc(w, n, address, sequence, o, m)
        })?;
        Ok(())
    }

    pub fn restored_dpc(&mut self, address: u64, sequence: u64) -> Result<()> {
        let _: Out = self.change(|w, n, o, m| unsafe {
            scheduler_restored_dpc(w, n, address, sequence, o, m)
        })?;
        Ok(())
    }
}
