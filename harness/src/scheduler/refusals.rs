//! Document 01's numbers, and what each of the original's messages is among them, by call.
use super::Call;

pub const PRIORITY: u64 = 1;
pub const UNKNOWN: u64 = 2;
pub const NO_CURRENT: u64 = 3;
pub const FULL: u64 = 4;
pub const LIST: u64 = 7;
pub const DUE_PAST_END: u64 = 13;
const LIFETIME: u64 = 14;
pub const PERIOD: u64 = 17;
pub const FORM: u64 = 27;

/// The refusals of a call besides 27, by the original's messages.
type Messages = &'static [(&'static str, u64)];

/// The number of the original's message; nothing for one that the table does not give the call.
pub fn number(call: &Call, message: &str) -> Option<u64> {
    messages(call)
        .iter()
        .find(|(known, _)| *known == message)
        .map(|(_, number)| *number)
}

fn messages(call: &Call) -> Messages {
    TABLE
        .iter()
        .find(|(name, _)| *name == call.name())
        .map_or(&[], |(_, messages)| messages)
}

const COLLISION: (&str, u64) = ("dispatcher object kind collision", 5);
const MUTEX_BOUND: (&str, u64) = ("invalid mutex/object bound", FULL);
const MUTEX_LIVE: (&str, u64) = ("reinitializing a live mutex", 6);
const NO_THREAD: (&str, u64) = ("no current thread", NO_CURRENT);
const NO_SEQUENCE: (&str, u64) = ("wait sequence overflow", 24);
const UNKNOWN_TIMER: (&str, u64) = ("unsupported or uninitialized timer", UNKNOWN);
const UNKNOWN_DPC: (&str, u64) = ("uninitialized timer DPC", UNKNOWN);
const PAST_MEMORY: (&str, u64) = ("timer/DPC location overflow", 15);
const SHORT_POOL: (&str, u64) = ("timer/DPC Pool extent mismatch", 15);
const OUTSIDE: (&str, u64) = ("timer/DPC location outside backing/guest width", 15);
const OVERLAP: (&str, u64) = ("timer/DPC dispatcher backing collision", 16);
const SHARED_DPC: (&str, u64) = ("multiple active timers share one DPC", 18);
const ARM_BUSY: (&str, u64) = ("timer rearm overlaps queued/running DPC work", 19);
const PRIOR_BUSY: (&str, u64) = (
    "timer replacement overlaps prior queued/running DPC work",
    19,
);
const NO_ARM: (&str, u64) = ("timer arm generation exhausted", 24);
const OTHER_ORIGIN: (&str, u64) = ("DPC queued work has ambiguous timer/caller origin", 21);
const NO_DUPLICATE: (&str, u64) = ("DPC observation counter overflow", 24);
const RUNS: (&str, u64) = (
    "requeue of running DPC requires a separate execution profile",
    19,
);
const WORK_BOUND: (&str, u64) = ("DPC accepted work/lifetime bound", LIFETIME);
const RELEASE: Messages = &[
    ("event backing release range overflow", 23),
    ("invalid event backing release range", 23),
    ("event layout overflow", 23),
    ("memory release splits initialized event", 23),
    ("memory release overlaps waited event", 23),
];
const TIMER_RELEASE: Messages = &[
    ("memory release overlaps inserted/waited timer", 23),
    ("memory release overlaps referenced timer DPC", 23),
];

pub const TABLE: &[(&str, Messages)] = &[
    ("open", &[("invalid root priority", PRIORITY)]),
    (
        "create_thread",
        &[
            ("invalid thread priority", PRIORITY),
            ("thread count exceeds 256", FULL),
        ],
    ),
    (
        "priority",
        &[
            ("invalid thread priority", PRIORITY),
            ("unknown thread", UNKNOWN),
            ("thread has exited", 11),
        ],
    ),
    ("yield_current", &[NO_THREAD]),
    (
        "terminate",
        &[NO_THREAD, ("thread exit while owning guarded mutex", 10)],
    ),
    ("initialize_mutex", &[COLLISION, MUTEX_BOUND, MUTEX_LIVE]),
    (
        "adopt_mutex",
        &[
            ("mutex owner is not a live thread", 10),
            ("guest mutex owner diverges from scheduler", 10),
            COLLISION,
            MUTEX_BOUND,
        ],
    ),
    ("mutex_owner", &[("unknown mutex", UNKNOWN)]),
    (
        "release_mutex",
        &[
            NO_THREAD,
            ("unknown mutex", UNKNOWN),
            ("mutex released by non-owner", 10),
        ],
    ),
    (
        "initialize_event",
        &[
            COLLISION,
            ("invalid event/object bound", FULL),
            ("reinitializing a waited event", 6),
        ],
    ),
    ("set_event", &[("unknown event", UNKNOWN)]),
    ("reset_event", &[("unknown event", UNKNOWN)]),
    ("require_event_release", RELEASE),
    ("retire_event_backing", RELEASE),
    (
        "wait",
        &[
            NO_THREAD,
            ("invalid or duplicate wait objects", LIST),
            ("unknown wait object", UNKNOWN),
            ("recursive guarded mutex wait", 8),
            ("blocking wait above APC_LEVEL", 9),
            NO_SEQUENCE,
        ],
    ),
    (
        "delay_until",
        &[("delay above APC_LEVEL", 9), NO_THREAD, NO_SEQUENCE],
    ),
    (
        "advance_to",
        &[
            ("guest time moved backwards", 12),
            ("due timer DPC requires callback scheduling", 20),
            ("periodic timer horizon overflow", DUE_PAST_END),
            NO_DUPLICATE,
            OTHER_ORIGIN,
            RUNS,
            WORK_BOUND,
        ],
    ),
    (
        "initialize_timer",
        &[
            COLLISION,
            ("timer dispatcher object bound", FULL),
            ("timer initialization lifetime bound", LIFETIME),
            ("reinitializing inserted/waited timer", 6),
            PAST_MEMORY,
            SHORT_POOL,
            OUTSIDE,
            OVERLAP,
        ],
    ),
    (
        "initialize_dpc",
        &[
            ("DPC dispatcher object kind collision", 5),
            ("DPC object bound", FULL),
            ("DPC initialization lifetime bound", LIFETIME),
            ("reinitializing queued/running DPC", 19),
            ("reinitializing referenced timer DPC", 19),
            PAST_MEMORY,
            SHORT_POOL,
            OUTSIDE,
            OVERLAP,
        ],
    ),
    (
        "set_timer",
        &[
            ("negative timer period", PERIOD),
            UNKNOWN_DPC,
            SHARED_DPC,
            ARM_BUSY,
            PRIOR_BUSY,
            UNKNOWN_TIMER,
            NO_ARM,
        ],
    ),
    (
        "set_timer_signed",
        &[
            UNKNOWN_DPC,
            SHARED_DPC,
            ARM_BUSY,
            PRIOR_BUSY,
            UNKNOWN_TIMER,
            NO_ARM,
        ],
    ),
    ("cancel_timer", &[UNKNOWN_TIMER]),
    ("timer", &[UNKNOWN_TIMER]),
    ("timer_image", &[UNKNOWN_TIMER]),
    ("require_timer_release", TIMER_RELEASE),
    ("retire_timer_backing", TIMER_RELEASE),
    (
        "configure_dpc_dispatch",
        &[
            ("DPC policy changes after dispatcher publication", 20),
            ("DPC timer opaque argument policy is invalid", 20),
        ],
    ),
    (
        "insert_queue_dpc",
        &[
            ("direct insert shares an active timer DPC", 18),
            ("DPC execution policy is metadata-only", 20),
            UNKNOWN_DPC,
            OTHER_ORIGIN,
            NO_DUPLICATE,
            RUNS,
            WORK_BOUND,
        ],
    ),
    ("remove_queue_dpc", &[UNKNOWN_DPC]),
    (
        "start_dpc",
        &[("DPC start does not name the actual FIFO head", 22)],
    ),
    (
        "returned_dpc",
        &[
            UNKNOWN_DPC,
            ("DPC return lacks actual matching running work", 22),
        ],
    ),
    (
        "restored_dpc",
        &[
            UNKNOWN_DPC,
            ("DPC restore lacks actual matching returned work", 22),
        ],
    ),
    ("dpc", &[UNKNOWN_DPC]),
    ("dpc_image", &[UNKNOWN_DPC]),
];
