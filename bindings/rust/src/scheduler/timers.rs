//! Timers, and DPCs as records.
use super::dpc::{DpcPhase, DpcWork};
use super::lent::{self, IMAGE_BYTES, Out, Record, Result, flag};
use super::{Limits, Scheduler, SchedulerError};
use crate::ffi::*;
use crate::pe::Architecture;

/// The refusal of a DPC that is queued, runs or returns.
const BUSY: u64 = 19;

/// How many times a timer or a DPC can be initialized, all together.
pub const TIMER_LIFETIME_LIMIT: u64 = 65_536;

#[derive(Clone, Copy, Debug, PartialEq, Eq)]
pub enum TimerBacking {
    Image {
        base: u64,
        size: u64,
    },
    NonpagedPool {
        base: u64,
        requested: u64,
        mapped: u64,
    },
}

impl TimerBacking {
    fn words(self) -> [u64; 4] {
        match self {
            Self::Image { base, size } => [0, base, size, 0],
            Self::NonpagedPool {
                base,
                requested,
                mapped,
            } => [1, base, requested, mapped],
        }
    }

    fn of([kind, base, size, mapped]: [u64; 4]) -> Self {
        match kind {
            0 => Self::Image { base, size },
            _ => Self::NonpagedPool {
                base,
                requested: size,
                mapped,
            },
        }
    }
}

#[derive(Clone, Debug)]
pub struct Timer {
    pub address: u64,
    pub architecture: Architecture,
    pub backing: TimerBacking,
    pub manual_reset: bool,
    pub signaled: bool,
    pub inserted: bool,
    pub due: u64,
    pub period_ms: u32,
    pub dpc: u64,
    pub absolute: bool,
    pub arm_generation: u64,
    pub initialization: u64,
    image: Vec<u8>,
}

impl Timer {
    pub fn size(&self) -> usize {
        match self.architecture {
            Architecture::X64 => 64,
            Architecture::X86 => 40,
        }
    }

    /// The bytes in guest memory at the time of the reading.
    pub fn bytes(&self) -> Vec<u8> {
        self.image.clone()
    }

    fn of(scheduler: &Scheduler, out: Record) -> Option<Self> {
        let [tag, address, architecture, kind, base, size, mapped, ..] = out;
        (tag != lent::NONE).then(|| Self {
            address,
            architecture: Architecture::of(architecture),
            backing: TimerBacking::of([kind, base, size, mapped]),
            manual_reset: out[7] != 0,
            signaled: out[8] != 0,
            inserted: out[9] != 0,
            due: out[10],
            period_ms: out[11] as u32,
            dpc: out[12],
            absolute: out[13] != 0,
            arm_generation: out[14],
            initialization: out[15],
            image: scheduler.timer_image(address).expect("a known timer"),
        })
    }
}

#[derive(Clone, Debug)]
pub struct Dpc {
    pub address: u64,
    pub architecture: Architecture,
    pub backing: TimerBacking,
    pub routine: u64,
    pub context: u64,
    pub phase: DpcPhase,
}

impl Dpc {
    pub fn size(&self) -> usize {
        match self.architecture {
            Architecture::X64 => 64,
            Architecture::X86 => 32,
        }
    }

    /// The bytes in guest memory, which do not depend on the location: those of a DPC of the same
    /// routine, context and work in a scheduler of its own.
    pub fn bytes(&self) -> Vec<u8> {
        let mut alone = Scheduler::with_limits(
            1,
            Limits {
                threads: 1,
                objects: 0,
                dpcs: 1,
            },
        )
        .expect("good limits");
        let (address, size) = (8, 64);
        alone
            .configure_dpc_dispatch([1, 2])
            .expect("a new scheduler");
        alone
            .initialize_dpc(Self {
                address,
                backing: TimerBacking::Image {
                    base: address,
                    size,
                },
                phase: DpcPhase::Idle,
                ..self.clone()
            })
            .expect("a good location");
        if let Some(work) = self.phase.work() {
            alone
                .insert_queue_dpc(address, work.arguments)
                .expect("an idle DPC");
        }
        alone.dpc_image(address).expect("a known DPC")
    }

    pub(crate) fn of(out: Record) -> Option<Self> {
        let [tag, address, architecture, kind, base, size, mapped, ..] = out;
        let work = || DpcWork::of(&out[10..]);
        (tag != lent::NONE).then(|| Self {
            address,
            architecture: Architecture::of(architecture),
            backing: TimerBacking::of([kind, base, size, mapped]),
            routine: out[7],
            context: out[8],
            phase: match out[9] {
                0 => DpcPhase::Idle,
                1 => DpcPhase::Queued(work()),
                2 => DpcPhase::Running(work()),
                _ => DpcPhase::Returning(work()),
            },
        })
    }
}

impl Scheduler {
    pub fn timers(&self) -> impl Iterator<Item = Timer> + '_ {
        (0..).map_while(|position| {
            let out = self.always(|w, n, o, m| unsafe { scheduler_timers(w, n, position, o, m) });
            Timer::of(self, out)
        })
    }

    pub fn dpcs(&self) -> impl Iterator<Item = Dpc> + '_ {
        (0..).map_while(|position| {
            Dpc::of(self.always(|w, n, o, m| unsafe { scheduler_dpcs(w, n, position, o, m) }))
        })
    }

    pub fn timer(&self, address: u64) -> Result<Timer> {
        let out = self.read(|w, n, o, m| unsafe { scheduler_timer(w, n, address, o, m) })?;
        Timer::of(self, out).ok_or(SchedulerError(lent::UNKNOWN))
    }

    pub fn dpc(&self, address: u64) -> Result<Dpc> {
        let out = self.read(|w, n, o, m| unsafe { scheduler_dpc(w, n, address, o, m) })?;
        Dpc::of(out).ok_or(SchedulerError(lent::UNKNOWN))
    }

    fn timer_image(&self, address: u64) -> Result<Vec<u8>> {
        let mut bytes = vec![0; IMAGE_BYTES];
        let (b, k) = (bytes.as_mut_ptr(), bytes.len());
        // SAFETY: `b` has `k` bytes too, apart from the others.
        let [_, size, ..]: Out =
            self.read(|w, n, o, m| unsafe { scheduler_timer_image(w, n, address, b, k, o, m) })?;
        bytes.truncate(size as usize);
        Ok(bytes)
    }

    fn dpc_image(&self, address: u64) -> Result<Vec<u8>> {
        let mut bytes = vec![0; IMAGE_BYTES];
        let (b, k) = (bytes.as_mut_ptr(), bytes.len());
        // SAFETY: `b` has `k` bytes too, apart from the others.
        let [_, size, ..]: Out =
            self.read(|w, n, o, m| unsafe { scheduler_dpc_image(w, n, address, b, k, o, m) })?;
        bytes.truncate(size as usize);
        Ok(bytes)
    }

    pub fn timer_initializations(&self) -> u64 {
        let [_, count, ..]: Out =
            self.always(|w, n, o, m| unsafe { scheduler_timer_initializations(w, n, o, m) });
        count
    }

    pub fn dpc_initializations(&self) -> u64 {
        let [_, count, ..]: Out =
            self.always(|w, n, o, m| unsafe { scheduler_dpc_initializations(w, n, o, m) });
        count
    }

    pub fn timer_read_overlap(&self, address: u64, size: u64) -> bool {
        flag(self.always(|w, n, o, m| unsafe {
            scheduler_timer_read_overlap(w, n, address, size, o, m)
        }))
    }

    pub fn timer_metadata_overlap(&self, address: u64, size: u64) -> bool {
        flag(self.always(|w, n, o, m| unsafe {
            scheduler_timer_metadata_overlap(w, n, address, size, o, m)
        }))
    }

    pub fn initialize_timer(
        &mut self,
        address: u64,
        architecture: Architecture,
        backing: TimerBacking,
        manual_reset: bool,
    ) -> Result<()> {
        let [pool, base, size, mapped] = backing.words();
        let (x86, manual) = (architecture.word(), manual_reset.into());
        let _: Out = self.change(|w, n, o, m| unsafe {
            scheduler_initialize_timer(w, n, address, x86, pool, base, size, mapped, manual, o, m)
        })?;
        Ok(())
    }

    /// A DPC that is not idle is refused with 19, where the Rust bench looks at it.
    pub fn initialize_dpc(&mut self, dpc: Dpc) -> Result<()> {
        if dpc.phase.busy() {
            return Err(match self.clone().initialize_idle(&dpc) {
                Err(SchedulerError(number @ (4 | 5 | 14))) => SchedulerError(number),
                _ => SchedulerError(BUSY),
            });
        }
        self.initialize_idle(&dpc)
    }

    fn initialize_idle(&mut self, dpc: &Dpc) -> Result<()> {
        let [pool, base, size, mapped] = dpc.backing.words();
        let x86 = dpc.architecture.word();
        let Dpc {
            address,
            routine,
            context,
            ..
        } = *dpc;
        let _: Out = self.change(|w, n, o, m| unsafe {
            scheduler_initialize_dpc(
                w, n, address, x86, pool, base, size, mapped, routine, context, o, m,
            )
        })?;
        Ok(())
    }

    pub fn set_timer(
        &mut self,
        address: u64,
        due: u64,
        absolute: bool,
        period: i32,
        dpc: u64,
    ) -> Result<bool> {
        self.change(|w, n, o, m| unsafe {
            scheduler_set_timer(w, n, address, due, absolute.into(), period, dpc, o, m)
        })
        .map(flag)
    }

    /// Added: the Rust bench has no such method. A due of -d is d ticks from now, any other a time.
    pub fn set_timer_signed(
        &mut self,
        address: u64,
        due: i64,
        period: i32,
        dpc: u64,
    ) -> Result<bool> {
        self.change(|w, n, o, m| unsafe {
            scheduler_set_timer_signed(w, n, address, due, period, dpc, o, m)
        })
        .map(flag)
    }

    pub fn cancel_timer(&mut self, address: u64) -> Result<bool> {
        self.change(|w, n, o, m| unsafe { scheduler_cancel_timer(w, n, address, o, m) })
            .map(flag)
    }

    pub fn pending_timer_dpc(&self) -> Option<Timer> {
        let out = self.always(|w, n, o, m| unsafe { scheduler_pending_timer_dpc(w, n, o, m) });
        Timer::of(self, out)
    }

    pub fn require_timer_release(&self, address: u64, size: u64) -> Result<()> {
        let _: Out = self.read(|w, n, o, m| unsafe {
            scheduler_require_timer_release(w, n, address, size, o, m)
        })?;
        Ok(())
    }

    pub fn retire_timer_backing(&mut self, address: u64, size: u64) -> Result<()> {
        let _: Out = self.change(|w, n, o, m| unsafe {
            scheduler_retire_timer_backing(w, n, address, size, o, m)
        })?;
        Ok(())
    }
}
