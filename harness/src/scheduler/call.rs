//! The calls on a scheduler.
use super::Limits;
use super::answer::{RECORD_WORDS, WORDS};
use emumee::pe::Architecture;
use emumee::scheduler::TimerBacking;

/// Memory that the guest gives back, and the bytes of an event in it.
#[derive(Clone, Copy, Debug)]
pub struct Backing {
    pub base: u64,
    pub size: u64,
    pub layout: u64,
}

/// Guest memory.
#[derive(Clone, Copy, Debug)]
pub struct Span {
    pub address: u64,
    pub size: u64,
}

/// Where a timer or a DPC stands.
#[derive(Clone, Copy, Debug)]
pub struct Location {
    pub address: u64,
    pub architecture: Architecture,
    pub backing: TimerBacking,
}

#[derive(Clone, Debug)]
pub enum Call {
    WordsNeeded(Limits),
    Open {
        priority: u64,
        limits: Limits,
    },
    Current,
    CreateThread {
        priority: u64,
    },
    Priority {
        id: u64,
        priority: u64,
    },
    YieldCurrent,
    Terminate {
        status: u32,
    },
    Thread {
        id: u64,
    },
    Threads {
        position: u64,
    },
    /// An object of a thread's wait.
    WaitedObject {
        id: u64,
        position: u64,
    },
    InitializeMutex {
        key: u64,
    },
    /// Without `owned` the owner does not count.
    AdoptMutex {
        key: u64,
        owned: bool,
        owner: u64,
    },
    MutexOwner {
        key: u64,
    },
    MutexWaiters {
        key: u64,
    },
    ReleaseMutex {
        key: u64,
    },
    InitializeEvent {
        key: u64,
        manual: bool,
        signaled: bool,
    },
    SetEvent {
        key: u64,
    },
    ResetEvent {
        key: u64,
    },
    EventState {
        key: u64,
    },
    EventStates {
        position: u64,
    },
    RequireEventRelease(Backing),
    RetireEventBacking(Backing),
    /// `list` is pairs of a kind and a key. Without `timed` the deadline does not count.
    Wait {
        list: Vec<u64>,
        all: bool,
        timed: bool,
        deadline: u64,
        irql: u8,
    },
    DelayUntil {
        deadline: u64,
        irql: u8,
    },
    AdvanceTo {
        time: u64,
    },
    Dispatch,
    InitializeTimer {
        location: Location,
        manual: bool,
    },
    SetTimer {
        address: u64,
        due: u64,
        absolute: bool,
        period: i32,
        dpc: u64,
    },
    /// Added: the original has no such call.
    SetTimerSigned {
        address: u64,
        due: i64,
        period: i32,
        dpc: u64,
    },
    CancelTimer {
        address: u64,
    },
    RequireTimerRelease(Span),
    RetireTimerBacking(Span),
    Timer {
        address: u64,
    },
    Timers {
        position: u64,
    },
    PendingTimerDpc,
    TimerInitializations,
    TimerReadOverlap(Span),
    TimerMetadataOverlap(Span),
    TimerImage {
        address: u64,
    },
    ConfigureDpcDispatch {
        arguments: [u64; 2],
    },
    InitializeDpc {
        location: Location,
        routine: u64,
        context: u64,
    },
    InsertQueueDpc {
        address: u64,
        arguments: [u64; 2],
    },
    RemoveQueueDpc {
        address: u64,
    },
    StartDpc {
        address: u64,
    },
    ReturnedDpc {
        address: u64,
        sequence: u64,
    },
    RestoredDpc {
        address: u64,
        sequence: u64,
    },
    Dpc {
        address: u64,
    },
    Dpcs {
        position: u64,
    },
    ActiveDpc,
    NextDpc,
    QueuedDpcs {
        position: u64,
    },
    DpcPolicy,
    DpcCounters,
    DpcInitializations,
    DpcImage {
        address: u64,
    },
}

impl Call {
    pub fn name(&self) -> &'static str {
        match self {
            Self::WordsNeeded(_) => "words_needed",
            Self::Open { .. } => "open",
            Self::Current => "current",
            Self::CreateThread { .. } => "create_thread",
            Self::Priority { .. } => "priority",
            Self::YieldCurrent => "yield_current",
            Self::Terminate { .. } => "terminate",
            Self::Thread { .. } => "thread",
            Self::Threads { .. } => "threads",
            Self::WaitedObject { .. } => "waited_object",
            Self::InitializeMutex { .. } => "initialize_mutex",
            Self::AdoptMutex { .. } => "adopt_mutex",
            Self::MutexOwner { .. } => "mutex_owner",
            Self::MutexWaiters { .. } => "mutex_waiters",
            Self::ReleaseMutex { .. } => "release_mutex",
            Self::InitializeEvent { .. } => "initialize_event",
            Self::SetEvent { .. } => "set_event",
            Self::ResetEvent { .. } => "reset_event",
            Self::EventState { .. } => "event_state",
            Self::EventStates { .. } => "event_states",
            Self::RequireEventRelease(_) => "require_event_release",
            Self::RetireEventBacking(_) => "retire_event_backing",
            Self::Wait { .. } => "wait",
            Self::DelayUntil { .. } => "delay_until",
            Self::AdvanceTo { .. } => "advance_to",
            Self::Dispatch => "dispatch",
            Self::InitializeTimer { .. } => "initialize_timer",
            Self::SetTimer { .. } => "set_timer",
            Self::SetTimerSigned { .. } => "set_timer_signed",
            Self::CancelTimer { .. } => "cancel_timer",
            Self::RequireTimerRelease(_) => "require_timer_release",
            Self::RetireTimerBacking(_) => "retire_timer_backing",
            Self::Timer { .. } => "timer",
            Self::Timers { .. } => "timers",
            Self::PendingTimerDpc => "pending_timer_dpc",
            Self::TimerInitializations => "timer_initializations",
            Self::TimerReadOverlap(_) => "timer_read_overlap",
            Self::TimerMetadataOverlap(_) => "timer_metadata_overlap",
            Self::TimerImage { .. } => "timer_image",
            Self::ConfigureDpcDispatch { .. } => "configure_dpc_dispatch",
            Self::InitializeDpc { .. } => "initialize_dpc",
            Self::InsertQueueDpc { .. } => "insert_queue_dpc",
            Self::RemoveQueueDpc { .. } => "remove_queue_dpc",
            Self::StartDpc { .. } => "start_dpc",
            Self::ReturnedDpc { .. } => "returned_dpc",
            Self::RestoredDpc { .. } => "restored_dpc",
            Self::Dpc { .. } => "dpc",
            Self::Dpcs { .. } => "dpcs",
            Self::ActiveDpc => "active_dpc",
            Self::NextDpc => "next_dpc",
            Self::QueuedDpcs { .. } => "queued_dpcs",
            Self::DpcPolicy => "dpc_policy",
            Self::DpcCounters => "dpc_counters",
            Self::DpcInitializations => "dpc_initializations",
            Self::DpcImage { .. } => "dpc_image",
        }
    }

    /// Whether the words need not be in form.
    pub fn opens(&self) -> bool {
        matches!(self, Self::WordsNeeded(_) | Self::Open { .. })
    }

    /// Whether the words are lent to be read only.
    pub fn reads(&self) -> bool {
        self.answers_record() && !matches!(self, Self::StartDpc { .. })
            || self.answers_image()
            || matches!(
                self,
                Self::WordsNeeded(_)
                    | Self::Current
                    | Self::MutexOwner { .. }
                    | Self::MutexWaiters { .. }
                    | Self::EventState { .. }
                    | Self::EventStates { .. }
                    | Self::RequireEventRelease(_)
                    | Self::RequireTimerRelease(_)
                    | Self::TimerInitializations
                    | Self::TimerReadOverlap(_)
                    | Self::TimerMetadataOverlap(_)
                    | Self::QueuedDpcs { .. }
                    | Self::DpcInitializations
            )
    }

    pub fn answers_image(&self) -> bool {
        matches!(self, Self::TimerImage { .. } | Self::DpcImage { .. })
    }

    /// How many words the answer must be lent.
    pub fn out_words(&self) -> usize {
        if self.answers_record() {
            RECORD_WORDS
        } else {
            WORDS
        }
    }

    fn answers_record(&self) -> bool {
        matches!(
            self,
            Self::Thread { .. }
                | Self::Threads { .. }
                | Self::WaitedObject { .. }
                | Self::Timer { .. }
                | Self::Timers { .. }
                | Self::PendingTimerDpc
                | Self::StartDpc { .. }
                | Self::Dpc { .. }
                | Self::Dpcs { .. }
                | Self::ActiveDpc
                | Self::NextDpc
                | Self::DpcPolicy
                | Self::DpcCounters
        )
    }
}
