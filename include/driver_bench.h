/*
 * The driver bench for C: every function of the library that `bindings/library exports` writes
 * (target/staticlib/libexports.a).
 *
 * A scheduler and a clock are words that the caller lends. Each slice is a pointer and a length; slices of one call must be
 * apart, and a pointer may be anything where its length is 0. Words lent as const are only read.
 *
 * Each function returns 0, or the number of the refusal (enum bench_refusal). A refused call changes nothing, except
 * clock_instruction: when its flush overflows, the 100 cycles stay added and the countdown is 1000. The answer of an accepted
 * call on a scheduler stands in `out`: a tag (enum bench_tag), and the values named there behind it. What is left of `out` stays.
 *
 * Truth values are numbers: 0 no, anything else yes. Times are in ticks of 100 ns.
 */
#ifndef DRIVER_BENCH_H
#define DRIVER_BENCH_H

#include <stddef.h>
#include <stdint.h>

#ifdef __cplusplus
extern "C" {
#endif

/* How long the slices must be. */
enum {
    BENCH_CLOCK_WORDS = 7,   /* a clock */
    BENCH_OUT_WORDS = 4,     /* `out`, unless a record is answered */
    BENCH_RECORD_WORDS = 24, /* `out`, where a record is answered */
    BENCH_IMAGE_BYTES = 64,  /* `bytes` */
    BENCH_MOST_THREADS = 256,
    BENCH_MOST_OBJECTS = 4096,
    BENCH_MOST_DPCS = 4096,
    BENCH_MOST_WAITED = 64 /* objects in one wait */
};

/* The words that a scheduler of these limits needs; scheduler_words_needed says the same, and checks the limits. */
#define BENCH_SCHEDULER_WORDS(threads, objects, dpcs) (256 + 160 * (threads) + 32 * ((objects) + (dpcs)))

/* Why a call is refused. */
enum bench_refusal {
    BENCH_PRIORITY = 1,       /* a priority outside 1 to 31 */
    BENCH_UNKNOWN = 2,        /* no such thread, object or DPC */
    BENCH_NO_CURRENT = 3,     /* no thread runs */
    BENCH_FULL = 4,           /* the table is full, or the key 0 */
    BENCH_OTHER_KIND = 5,     /* the key is one of another kind */
    BENCH_IN_USE = 6,         /* initialized again while owned, inserted or waited on */
    BENCH_LIST = 7,           /* a list of none, over 64, with one twice, of odd length, or with a kind over 3 */
    BENCH_OWN_MUTEX = 8,      /* a wait for a mutex that is the caller's own */
    BENCH_IRQL = 9,           /* a wait that would block above IRQL 1 */
    BENCH_OWNER = 10,         /* another owner, or an exit while owning */
    BENCH_EXITED = 11,        /* the thread has exited */
    BENCH_TIME_BACK = 12,     /* time goes back */
    BENCH_DUE_PAST_END = 13,  /* a due passes 2^64 - 1 */
    BENCH_LIFETIME = 14,      /* 65,536 initializations or acceptances */
    BENCH_LOCATION = 15,      /* a bad location for a timer or a DPC */
    BENCH_OVERLAP = 16,       /* its bytes are another's too */
    BENCH_PERIOD = 17,        /* a negative period */
    BENCH_NAMED = 18,         /* an inserted timer has the DPC */
    BENCH_BUSY = 19,          /* the DPC is queued, runs or returns */
    BENCH_POLICY = 20,        /* the policy is missing, or cannot be chosen */
    BENCH_ORIGIN = 21,        /* the queued work has another origin */
    BENCH_WORK = 22,          /* not the head of the queue, or another phase or sequence */
    BENCH_RELEASE = 23,       /* memory that cannot be given back */
    BENCH_COUNT_END = 24,     /* a count at 2^64 - 1 */
    BENCH_CONFIGURATION = 25, /* a clock's bad configuration */
    BENCH_CLOCK_OVERFLOW = 26,
    BENCH_FORM = 27 /* words out of form, a slice too short, or bad limits; before all else, but for clock_new and
                       scheduler_open, see there */
};

/* What an accepted call answers: out[0], and what stands behind it. */
enum bench_tag {
    BENCH_DONE = 1,
    BENCH_NONE = 2,
    BENCH_THREAD = 3,       /* 1 the thread's number */
    BENCH_FLAG = 4,         /* 1 yes or no */
    BENCH_COUNT = 5,        /* 1 a number */
    BENCH_SATISFIED = 6,    /* 1 the index in the list */
    BENCH_TIMEOUT = 7,
    BENCH_BLOCKED = 8,
    BENCH_RUN = 9,          /* 1 the thread to run */
    BENCH_ADVANCE_TO = 10,  /* 1 the time */
    BENCH_DEADLOCKED = 11,  /* 1 how many wait: their numbers stand in `waiting` */
    BENCH_FINISHED = 12,
    BENCH_EVENT = 13,       /* 1 key, 2 manual, 3 signaled */
    BENCH_TIMER = 14,       /* 1 address, 2 architecture, 3 backing, 4 base, 5 size, 6 mapped, 7 manual, 8 signaled,
                               9 inserted, 10 due, 11 period, 12 DPC, 13 absolute, 14 arm, 15 initialization */
    BENCH_DPC = 15,         /* 1 address, 2 architecture, 3 backing, 4 base, 5 size, 6 mapped, 7 routine, 8 context, 9 phase;
                               unless idle, 10 to 19 its work, as in BENCH_WORK_OF_DPC */
    BENCH_WORK_OF_DPC = 16, /* 1 sequence, 2 and 3 arguments, 4 origin (0 a caller, 1 a timer); a timer's: 5 its address,
                               6 arm, 7 initialization, 8 deadline, 9 observed, 10 periodic */
    BENCH_NO_POLICY = 17,
    BENCH_DISPATCH_POLICY = 18, /* 1 and 2 the arguments of a timer's work */
    BENCH_COUNTERS = 19,    /* 1 accepted, 2 duplicates, 3 removed, 4 started, 5 returned, 6 restored */
    BENCH_THREAD_RECORD = 20, /* 1 number, 2 priority, 3 state, 4 result (0 none, 1 timeout, else 2 + index), 5 status if exited;
                                 if waiting 6 all, 7 timed, 8 deadline if timed, 9 sequence, 10 how many objects, else these are 0 */
    BENCH_OBJECT = 21       /* 1 kind, 2 key */
};

enum bench_kind { BENCH_MUTEX_KIND = 0, BENCH_EVENT_KIND = 1, BENCH_TIMER_KIND = 2, BENCH_THREAD_KIND = 3 };
enum bench_thread_state { BENCH_RUNNING = 1, BENCH_READY = 2, BENCH_WAITING = 3, BENCH_THREAD_EXITED = 4 };
enum bench_phase { BENCH_DPC_IDLE = 0, BENCH_DPC_QUEUED = 1, BENCH_DPC_RUNNING = 2, BENCH_DPC_RETURNING = 3 };
enum bench_architecture { BENCH_X64 = 0, BENCH_X86 = 1 };
/* An image has a base and a size; pool has a base, the requested bytes as its size, and the mapped bytes. */
enum bench_backing { BENCH_IMAGE = 0, BENCH_POOL = 1 };

/* ---- The clock: seven words (UTC, uptime in ms, ticks, offset + 840, MHz, pending cycles, countdown) ---- */

/* Whatever the words held. A bad configuration, 25, comes before too few words, 27. */
uint64_t clock_new(uint64_t *words, size_t length, uint64_t utc_filetime, uint64_t uptime_ms, int32_t utc_offset_minutes, uint32_t base_mhz);
uint64_t clock_instruction(uint64_t *words, size_t length);
uint64_t clock_flush_cycles(uint64_t *words, size_t length);
uint64_t clock_observe(uint64_t *words, size_t length);
uint64_t clock_advance_microseconds(uint64_t *words, size_t length, uint64_t amount);
uint64_t clock_advance_100ns(uint64_t *words, size_t length, uint64_t ticks);
uint64_t clock_advance_milliseconds(uint64_t *words, size_t length, uint32_t amount);
/* These three write the value to out[0], with no tag. */
uint64_t clock_qpc(const uint64_t *words, size_t length, uint64_t *out, size_t out_length);
uint64_t clock_tick64(const uint64_t *words, size_t length, uint64_t *out, size_t out_length);
uint64_t clock_tsc(const uint64_t *words, size_t length, uint64_t *out, size_t out_length);

/* ---- The scheduler: opening ---- */

/* BENCH_COUNT. Limits: 1 to 256 threads, 0 to 4096 objects, 0 to 4096 DPCs. */
uint64_t scheduler_words_needed(uint64_t threads, uint64_t objects, uint64_t dpcs, uint64_t *out, size_t out_length);
/* BENCH_DONE. Whatever the words held; thread 1 runs, with the priority. A short `out` is 27; then a bad priority is 1; then
   bad limits or too few words are 27. */
uint64_t scheduler_open(uint64_t *words, size_t length, uint64_t priority, uint64_t threads, uint64_t objects, uint64_t dpcs, uint64_t *out, size_t out_length);

/* ---- Threads ---- */

/* BENCH_THREAD or BENCH_NONE. */
uint64_t scheduler_current(const uint64_t *words, size_t length, uint64_t *out, size_t out_length);
/* BENCH_THREAD: the new thread. */
uint64_t scheduler_create_thread(uint64_t *words, size_t length, uint64_t priority, uint64_t *out, size_t out_length);
/* BENCH_DONE. */
uint64_t scheduler_priority(uint64_t *words, size_t length, uint64_t id, uint64_t priority, uint64_t *out, size_t out_length);
uint64_t scheduler_yield_current(uint64_t *words, size_t length, uint64_t *out, size_t out_length);
uint64_t scheduler_terminate(uint64_t *words, size_t length, uint32_t status, uint64_t *out, size_t out_length);
/* BENCH_THREAD_RECORD or BENCH_NONE; position 0 is thread 1. */
uint64_t scheduler_thread(const uint64_t *words, size_t length, uint64_t id, uint64_t *out, size_t out_length);
uint64_t scheduler_threads(const uint64_t *words, size_t length, uint64_t position, uint64_t *out, size_t out_length);
/* BENCH_OBJECT or BENCH_NONE: an object in the list of a thread that waits; of another BENCH_NONE. */
uint64_t scheduler_waited_object(const uint64_t *words, size_t length, uint64_t id, uint64_t position, uint64_t *out, size_t out_length);

/* ---- Mutexes ---- */

/* BENCH_DONE. */
uint64_t scheduler_initialize_mutex(uint64_t *words, size_t length, uint64_t key, uint64_t *out, size_t out_length);
/* BENCH_DONE. Unless owned the owner does not count. */
uint64_t scheduler_adopt_mutex(uint64_t *words, size_t length, uint64_t key, uint64_t owned, uint64_t owner, uint64_t *out, size_t out_length);
/* BENCH_THREAD or BENCH_NONE. */
uint64_t scheduler_mutex_owner(const uint64_t *words, size_t length, uint64_t key, uint64_t *out, size_t out_length);
/* BENCH_COUNT. */
uint64_t scheduler_mutex_waiters(const uint64_t *words, size_t length, uint64_t key, uint64_t *out, size_t out_length);
/* BENCH_DONE. */
uint64_t scheduler_release_mutex(uint64_t *words, size_t length, uint64_t key, uint64_t *out, size_t out_length);

/* ---- Events ---- */

/* BENCH_DONE. */
uint64_t scheduler_initialize_event(uint64_t *words, size_t length, uint64_t key, uint64_t manual, uint64_t signaled, uint64_t *out, size_t out_length);
/* BENCH_FLAG: whether it was signaled. */
uint64_t scheduler_set_event(uint64_t *words, size_t length, uint64_t key, uint64_t *out, size_t out_length);
uint64_t scheduler_reset_event(uint64_t *words, size_t length, uint64_t key, uint64_t *out, size_t out_length);
/* BENCH_EVENT or BENCH_NONE. */
uint64_t scheduler_event_state(const uint64_t *words, size_t length, uint64_t key, uint64_t *out, size_t out_length);
uint64_t scheduler_event_states(const uint64_t *words, size_t length, uint64_t position, uint64_t *out, size_t out_length);
/* BENCH_DONE. `layout` is the bytes of an event. */
uint64_t scheduler_require_event_release(const uint64_t *words, size_t length, uint64_t base, uint64_t size, uint64_t layout, uint64_t *out, size_t out_length);
uint64_t scheduler_retire_event_backing(uint64_t *words, size_t length, uint64_t base, uint64_t size, uint64_t layout, uint64_t *out, size_t out_length);

/* ---- Waiting, time and dispatch ---- */

/* BENCH_SATISFIED, BENCH_TIMEOUT or BENCH_BLOCKED. The list is pairs of a kind and a key; unless timed the deadline does not count. */
uint64_t scheduler_wait(uint64_t *words, size_t length, const uint64_t *list, size_t list_length, uint64_t all, uint64_t timed, uint64_t deadline, uint8_t irql, uint64_t *out, size_t out_length);
/* BENCH_TIMEOUT or BENCH_BLOCKED. */
uint64_t scheduler_delay_until(uint64_t *words, size_t length, uint64_t deadline, uint8_t irql, uint64_t *out, size_t out_length);
/* BENCH_DONE. Timers that are due expire. */
uint64_t scheduler_advance_to(uint64_t *words, size_t length, uint64_t time, uint64_t *out, size_t out_length);
/* BENCH_RUN, BENCH_ADVANCE_TO, BENCH_DEADLOCKED or BENCH_FINISHED. `waiting` has at least as many words as there may be threads. */
uint64_t scheduler_dispatch(uint64_t *words, size_t length, uint64_t *waiting, size_t waiting_length, uint64_t *out, size_t out_length);

/* ---- Timers ---- */

/* BENCH_DONE. */
uint64_t scheduler_initialize_timer(uint64_t *words, size_t length, uint64_t address, uint64_t architecture, uint64_t backing, uint64_t base, uint64_t size, uint64_t mapped, uint64_t manual, uint64_t *out, size_t out_length);
/* BENCH_FLAG: whether it was inserted. The period is in milliseconds, 0 for once; a DPC of 0 is none. */
uint64_t scheduler_set_timer(uint64_t *words, size_t length, uint64_t address, uint64_t due, uint64_t absolute, int32_t period, uint64_t dpc, uint64_t *out, size_t out_length);
/* BENCH_FLAG: whether it was inserted. A due of -d is d ticks from now, any other a time; the rest as above. */
uint64_t scheduler_set_timer_signed(uint64_t *words, size_t length, uint64_t address, int64_t due, int32_t period, uint64_t dpc, uint64_t *out, size_t out_length);
/* BENCH_FLAG: whether it was inserted. */
uint64_t scheduler_cancel_timer(uint64_t *words, size_t length, uint64_t address, uint64_t *out, size_t out_length);
/* BENCH_DONE. Timers and DPCs that the memory overlaps go. */
uint64_t scheduler_require_timer_release(const uint64_t *words, size_t length, uint64_t address, uint64_t size, uint64_t *out, size_t out_length);
uint64_t scheduler_retire_timer_backing(uint64_t *words, size_t length, uint64_t address, uint64_t size, uint64_t *out, size_t out_length);
/* BENCH_TIMER; by position, or none pending, BENCH_NONE too. */
uint64_t scheduler_timer(const uint64_t *words, size_t length, uint64_t address, uint64_t *out, size_t out_length);
uint64_t scheduler_timers(const uint64_t *words, size_t length, uint64_t position, uint64_t *out, size_t out_length);
uint64_t scheduler_pending_timer_dpc(const uint64_t *words, size_t length, uint64_t *out, size_t out_length);
/* BENCH_COUNT. */
uint64_t scheduler_timer_initializations(const uint64_t *words, size_t length, uint64_t *out, size_t out_length);
/* BENCH_FLAG. */
uint64_t scheduler_timer_read_overlap(const uint64_t *words, size_t length, uint64_t address, uint64_t size, uint64_t *out, size_t out_length);
uint64_t scheduler_timer_metadata_overlap(const uint64_t *words, size_t length, uint64_t address, uint64_t size, uint64_t *out, size_t out_length);
/* BENCH_COUNT: how many bytes the image has, which begin `bytes`. */
uint64_t scheduler_timer_image(const uint64_t *words, size_t length, uint64_t address, uint8_t *bytes, size_t bytes_length, uint64_t *out, size_t out_length);

/* ---- DPCs ---- */

/* BENCH_DONE. Before all else but scheduler_open; the two arguments are those of a timer's work. */
uint64_t scheduler_configure_dpc_dispatch(uint64_t *words, size_t length, uint64_t first, uint64_t second, uint64_t *out, size_t out_length);
/* BENCH_DONE. */
uint64_t scheduler_initialize_dpc(uint64_t *words, size_t length, uint64_t address, uint64_t architecture, uint64_t backing, uint64_t base, uint64_t size, uint64_t mapped, uint64_t routine, uint64_t context, uint64_t *out, size_t out_length);
/* BENCH_FLAG: whether it was not in the queue, and now is. */
uint64_t scheduler_insert_queue_dpc(uint64_t *words, size_t length, uint64_t address, uint64_t first, uint64_t second, uint64_t *out, size_t out_length);
/* BENCH_FLAG: whether it was in the queue. */
uint64_t scheduler_remove_queue_dpc(uint64_t *words, size_t length, uint64_t address, uint64_t *out, size_t out_length);
/* BENCH_WORK_OF_DPC. The DPC must be the head of the queue. */
uint64_t scheduler_start_dpc(uint64_t *words, size_t length, uint64_t address, uint64_t *out, size_t out_length);
/* BENCH_DONE. */
uint64_t scheduler_returned_dpc(uint64_t *words, size_t length, uint64_t address, uint64_t sequence, uint64_t *out, size_t out_length);
uint64_t scheduler_restored_dpc(uint64_t *words, size_t length, uint64_t address, uint64_t sequence, uint64_t *out, size_t out_length);
/* BENCH_DPC; by position, or where none is active or next, BENCH_NONE too. */
uint64_t scheduler_dpc(const uint64_t *words, size_t length, uint64_t address, uint64_t *out, size_t out_length);
uint64_t scheduler_dpcs(const uint64_t *words, size_t length, uint64_t position, uint64_t *out, size_t out_length);
uint64_t scheduler_active_dpc(const uint64_t *words, size_t length, uint64_t *out, size_t out_length);
uint64_t scheduler_next_dpc(const uint64_t *words, size_t length, uint64_t *out, size_t out_length);
/* BENCH_COUNT, the address of the DPC at the position in the queue, or BENCH_NONE. */
uint64_t scheduler_queued_dpcs(const uint64_t *words, size_t length, uint64_t position, uint64_t *out, size_t out_length);
/* BENCH_NO_POLICY or BENCH_DISPATCH_POLICY. */
uint64_t scheduler_dpc_policy(const uint64_t *words, size_t length, uint64_t *out, size_t out_length);
/* BENCH_COUNTERS. */
uint64_t scheduler_dpc_counters(const uint64_t *words, size_t length, uint64_t *out, size_t out_length);
/* BENCH_COUNT. */
uint64_t scheduler_dpc_initializations(const uint64_t *words, size_t length, uint64_t *out, size_t out_length);
/* BENCH_COUNT: how many bytes the image has, which begin `bytes`. */
uint64_t scheduler_dpc_image(const uint64_t *words, size_t length, uint64_t address, uint8_t *bytes, size_t bytes_length, uint64_t *out, size_t out_length);

#ifdef __cplusplus
}
#endif

#endif
