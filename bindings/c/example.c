/* Three runs on the proved bench: the example of document 01, a timer whose DPC sets the event that a thread waits for, and signed dues. */
#include "driver_bench.h"
#include <inttypes.h>
#include <stdio.h>

enum { THREADS = 4, OBJECTS = 8, DPCS = 4, WORDS = BENCH_SCHEDULER_WORDS(THREADS, OBJECTS, DPCS) };

static uint64_t words[WORDS];
static uint64_t out[BENCH_RECORD_WORDS];
static uint64_t waiting[THREADS];

/* Each call on the scheduler ends with these. */
#define W words, WORDS
#define O out, BENCH_RECORD_WORDS

/* Prints what a call answered: its refusal, or its tag and as many values. */
static void told(const char *call, uint64_t refusal, int values)
{
    printf("%-24s", call);
    if (refusal != 0) {
        printf("refused %" PRIu64 "\n", refusal);
        return;
    }
    for (int i = 0; i <= values; i++)
        printf(i == 0 ? "tag %" PRIu64 : " %" PRIu64, out[i]);
    printf("\n");
}

static void document(void)
{
    const uint64_t event = 4096;
    const uint64_t list[] = {BENCH_EVENT_KIND, event};
    told("open", scheduler_open(W, 8, THREADS, OBJECTS, DPCS, O), 0);
    told("initialize_event", scheduler_initialize_event(W, event, 0, 0, O), 0);
    told("create_thread", scheduler_create_thread(W, 9, O), 1);
    told("wait", scheduler_wait(W, list, 2, 0, 0, 0, 0, O), 0);
    told("dispatch", scheduler_dispatch(W, waiting, THREADS, O), 1);
    told("set_event", scheduler_set_event(W, event, O), 1);
    told("yield_current", scheduler_yield_current(W, O), 0);
    told("dispatch", scheduler_dispatch(W, waiting, THREADS, O), 1);
}

static void overload(void)
{
    const uint64_t event = 4096, timer = 8192, dpc = 8256, base = 8192, size = 128;
    const uint64_t list[] = {BENCH_EVENT_KIND, event};
    uint8_t bytes[BENCH_IMAGE_BYTES];
    told("open", scheduler_open(W, 8, THREADS, OBJECTS, DPCS, O), 0);
    told("configure_dpc_dispatch", scheduler_configure_dpc_dispatch(W, 5, 6, O), 0);
    told("initialize_event", scheduler_initialize_event(W, event, 0, 0, O), 0);
    told("initialize_timer", scheduler_initialize_timer(W, timer, BENCH_X64, BENCH_IMAGE, base, size, 0, 0, O), 0);
    told("initialize_dpc", scheduler_initialize_dpc(W, dpc, BENCH_X64, BENCH_IMAGE, base, size, 0, 4660, 7, O), 0);
    told("set_timer", scheduler_set_timer(W, timer, 100, 0, 1, dpc, O), 1);
    told("wait", scheduler_wait(W, list, 2, 0, 0, 0, 0, O), 0);
    told("dispatch", scheduler_dispatch(W, waiting, THREADS, O), 1);
    told("advance_to", scheduler_advance_to(W, 100, O), 0);
    told("timer", scheduler_timer(W, timer, O), 15);
    told("start_dpc", scheduler_start_dpc(W, dpc, O), 10);
    told("set_event", scheduler_set_event(W, event, O), 1);
    told("returned_dpc", scheduler_returned_dpc(W, dpc, 2, O), 0);
    told("returned_dpc", scheduler_returned_dpc(W, dpc, 1, O), 0);
    told("dpc", scheduler_dpc(W, dpc, O), 19);
    told("restored_dpc", scheduler_restored_dpc(W, dpc, 1, O), 0);
    told("dispatch", scheduler_dispatch(W, waiting, THREADS, O), 1);
    told("cancel_timer", scheduler_cancel_timer(W, timer, O), 1);
    told("dpc_counters", scheduler_dpc_counters(W, O), 6);
    told("dpc_image", scheduler_dpc_image(W, dpc, bytes, sizeof bytes, O), 1);
    printf("%-24s", "its bytes");
    for (uint64_t i = 0; i < out[1]; i++)
        printf("%02x", bytes[i]);
    printf("\n");
}

static void signed_dues(void)
{
    const uint64_t timer = 8192, base = 8192, size = 64;
    told("open", scheduler_open(W, 8, THREADS, OBJECTS, DPCS, O), 0);
    told("initialize_timer", scheduler_initialize_timer(W, timer, BENCH_X64, BENCH_IMAGE, base, size, 0, 0, O), 0);
    told("advance_to", scheduler_advance_to(W, 50, O), 0);
    told("set_timer_signed -100", scheduler_set_timer_signed(W, timer, -100, 0, 0, O), 1);
    told("timer", scheduler_timer(W, timer, O), 15);
    told("set_timer_signed 400", scheduler_set_timer_signed(W, timer, 400, 0, 0, O), 1);
    told("timer", scheduler_timer(W, timer, O), 15);
    told("set_timer_signed -2^63", scheduler_set_timer_signed(W, timer, INT64_MIN, 0, 0, O), 1);
    told("timer", scheduler_timer(W, timer, O), 15);
    told("advance_to 2^63", scheduler_advance_to(W, (uint64_t)1 << 63, O), 0);
    told("set_timer_signed -2^63", scheduler_set_timer_signed(W, timer, INT64_MIN, 0, 0, O), 1);
    told("with a period of -1", scheduler_set_timer_signed(W, timer, INT64_MIN, -1, 0, O), 1);
}

static void time_passes(void)
{
    uint64_t clock[BENCH_CLOCK_WORDS], qpc;
    uint64_t refusal = clock_new(clock, BENCH_CLOCK_WORDS, 0, 0, 0, 3);
    for (int i = 0; i < 1000 && refusal == 0; i++)
        refusal = clock_instruction(clock, BENCH_CLOCK_WORDS);
    if (refusal == 0)
        refusal = clock_qpc(clock, BENCH_CLOCK_WORDS, &qpc, 1);
    if (refusal != 0)
        printf("clock refused %" PRIu64 "\n", refusal);
    else
        printf("qpc after 1000 instructions at 3 MHz: %" PRIu64 "\n", qpc);
}

int main(void)
{
    document();
    printf("\n");
    overload();
    printf("\n");
    signed_dues();
    printf("\n");
    time_passes();
    return 0;
}
