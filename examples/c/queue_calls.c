/* Calls each function of pmq.h as it may be called, with each argument that can be wrong, and where an allocation fails.
 * tests/queue.sh builds it, with -Wl,--wrap=malloc, and runs it. */
#include <pmq.h>
#include <stdbool.h>
#include <stdio.h>
#include <stdlib.h>
#include <string.h>

static void wanted(bool holds, const char *what, int line) {
    if (!holds) {
        fprintf(stderr, "queue_calls.c:%d: not so: %s\n", line, what);
        exit(1);
    }
}

#define WANT(holds) wanted(holds, #holds, __LINE__)

static struct pmq_queue queue = PMQ_INIT;
static struct pmq_seat seat = PMQ_INIT, other = PMQ_INIT;
static struct pmq_closed closed = PMQ_INIT;
static struct pmq_answer answer;
static uint8_t choice[8 * (2 * PMQ_OPERATIONS + 1)];
static size_t words;

/* How many allocations succeed before one fails; where it is negative, all do. Whether just that one fails. */
static long allocations = -1;
static bool alone = false;

void *__real_malloc(size_t size);
void *__wrap_malloc(size_t size);

void *__wrap_malloc(size_t size) {
    if (allocations == 0) {
        allocations -= alone;
        return NULL;
    }
    allocations -= allocations > 0;
    return __real_malloc(size);
}

/* What was answered. */
static bool answered(uint32_t kind, size_t number, uint64_t value) {
    return answer.kind == kind && answer.number == number && answer.value == value;
}

static void handles(void) {
    WANT(pmq_queue_make(NULL, 1) == PMQ_NULL);
    WANT(pmq_queue_free(NULL) == PMQ_NULL);
    WANT(pmq_queue_take(NULL, 0, &seat) == PMQ_NULL);
    WANT(pmq_queue_take(&queue, 0, NULL) == PMQ_NULL);
    WANT(pmq_queue_close(NULL, &closed) == PMQ_NULL);
    WANT(pmq_queue_close(&queue, NULL) == PMQ_NULL);
    WANT(pmq_queue_free(&queue) == PMQ_EMPTY_HANDLE);
    WANT(pmq_queue_take(&queue, 0, &seat) == PMQ_EMPTY_HANDLE);
    WANT(pmq_queue_close(&queue, &closed) == PMQ_EMPTY_HANDLE);
    WANT(pmq_queue_make(&queue, 0) == PMQ_BAD_COUNT);
    WANT(pmq_queue_make(&queue, 16384) == PMQ_BAD_COUNT);
    WANT(pmq_queue_make(&queue, SIZE_MAX) == PMQ_BAD_COUNT);
    WANT(pmq_queue_make(&queue, 2) == PMQ_OK);
    WANT(pmq_queue_make(&queue, 2) == PMQ_FULL_HANDLE);
}

static void seats(void) {
    WANT(pmq_seat_enqueue(NULL, 7, PMQ_NO_FUSE, &answer) == PMQ_NULL);
    WANT(pmq_seat_enqueue(&seat, 7, PMQ_NO_FUSE, NULL) == PMQ_NULL);
    WANT(pmq_seat_dequeue(NULL, PMQ_NO_FUSE, &answer) == PMQ_NULL);
    WANT(pmq_seat_recover(NULL, PMQ_NO_FUSE, &answer) == PMQ_NULL);
    WANT(pmq_seat_free(NULL) == PMQ_NULL);
    WANT(pmq_seat_enqueue(&seat, 7, PMQ_NO_FUSE, &answer) == PMQ_EMPTY_HANDLE);
    WANT(pmq_seat_free(&seat) == PMQ_EMPTY_HANDLE);
    WANT(pmq_queue_take(&queue, 2, &seat) == PMQ_NO_PROCESS);
    WANT(pmq_queue_take(&queue, SIZE_MAX, &seat) == PMQ_NO_PROCESS);
    WANT(pmq_queue_take(&queue, 0, &seat) == PMQ_OK);
    WANT(pmq_queue_take(&queue, 0, &other) == PMQ_SEAT_TAKEN);
    WANT(pmq_queue_take(&queue, 1, &seat) == PMQ_FULL_HANDLE);
    WANT(pmq_queue_take(&queue, 1, &other) == PMQ_OK);
    WANT(pmq_queue_close(&queue, &closed) == PMQ_SEAT_TAKEN);
    struct pmq_seat wrong;
    memcpy(&wrong, &queue, sizeof wrong);
    WANT(pmq_seat_dequeue(&wrong, PMQ_NO_FUSE, &answer) == PMQ_WRONG_HANDLE);
    WANT(pmq_seat_free(&wrong) == PMQ_WRONG_HANDLE);
    memcpy(&queue, &wrong, sizeof wrong);
}

static void operations(void) {
    WANT(pmq_seat_dequeue(&seat, PMQ_NO_FUSE, &answer) == PMQ_OK && answered(PMQ_EMPTY, 0, 0));
    WANT(pmq_seat_enqueue(&seat, 7, PMQ_NO_FUSE, &answer) == PMQ_OK && answered(PMQ_ENQUEUED, 1, 0));
    WANT(pmq_seat_enqueue(&seat, 8, PMQ_NO_FUSE, &answer) == PMQ_OK && answered(PMQ_ENQUEUED, 2, 0));
    WANT(pmq_seat_dequeue(&other, PMQ_NO_FUSE, &answer) == PMQ_OK && answered(PMQ_GOT, 0, 7));
    WANT(pmq_seat_recover(&other, PMQ_NO_FUSE, &answer) == PMQ_OK && answered(PMQ_GOT, 0, 7));
    WANT(pmq_seat_recover(&seat, PMQ_NO_FUSE, &answer) == PMQ_OK && answered(PMQ_WAS_ENQUEUED, 2, 0));
    /* stopped before it is announced, and after; and before its link, and after */
    WANT(pmq_seat_enqueue(&seat, 9, 3, &answer) == PMQ_OK && answered(PMQ_STOPPED, 3, 0));
    WANT(pmq_seat_enqueue(&seat, 9, PMQ_NO_FUSE, &answer) == PMQ_MUST_RECOVER);
    WANT(pmq_seat_dequeue(&seat, PMQ_NO_FUSE, &answer) == PMQ_MUST_RECOVER);
    WANT(pmq_seat_recover(&seat, 2, &answer) == PMQ_OK && answered(PMQ_STOPPED, 0, 0));
    WANT(pmq_seat_dequeue(&seat, PMQ_NO_FUSE, &answer) == PMQ_MUST_RECOVER);
    WANT(pmq_seat_recover(&seat, PMQ_NO_FUSE, &answer) == PMQ_OK && answered(PMQ_WAS_ENQUEUED, 2, 0));
    WANT(pmq_seat_enqueue(&seat, 9, 7, &answer) == PMQ_OK && answered(PMQ_STOPPED, 3, 0));
    WANT(pmq_seat_recover(&seat, PMQ_NO_FUSE, &answer) == PMQ_OK && answered(PMQ_NOT_ENQUEUED, 3, 0));
    WANT(pmq_seat_enqueue(&seat, 10, 14, &answer) == PMQ_OK && answered(PMQ_STOPPED, 4, 0));
    WANT(pmq_seat_recover(&seat, PMQ_NO_FUSE, &answer) == PMQ_OK && answered(PMQ_WAS_ENQUEUED, 4, 0));
    WANT(pmq_seat_dequeue(&other, 5, &answer) == PMQ_OK && answered(PMQ_STOPPED, 1, 0));
    WANT(pmq_seat_recover(&other, PMQ_NO_FUSE, &answer) == PMQ_OK && answered(PMQ_NOT_DEQUEUED, 1, 0));
    WANT(pmq_seat_dequeue(&other, 14, &answer) == PMQ_OK && answered(PMQ_STOPPED, 2, 0));
    WANT(pmq_seat_recover(&other, PMQ_NO_FUSE, &answer) == PMQ_OK && answered(PMQ_GOT, 2, 8));
    /* the seat goes back, and is taken again: its process goes on */
    WANT(pmq_seat_free(&other) == PMQ_OK);
    WANT(pmq_queue_take(&queue, 1, &other) == PMQ_OK);
    WANT(pmq_seat_enqueue(&other, 11, PMQ_NO_FUSE, &answer) == PMQ_OK && answered(PMQ_ENQUEUED, 3, 0));
}

static void crashes(void) {
    WANT(pmq_seat_free(&seat) == PMQ_OK);
    WANT(pmq_seat_free(&other) == PMQ_OK);
    WANT(pmq_closed_crash(NULL, choice, sizeof choice, &words) == PMQ_NULL);
    WANT(pmq_closed_crash(&closed, NULL, 1, &words) == PMQ_NULL);
    WANT(pmq_closed_reopen(NULL, &queue) == PMQ_NULL);
    WANT(pmq_closed_free(NULL) == PMQ_NULL);
    WANT(pmq_closed_crash(&closed, choice, sizeof choice, &words) == PMQ_EMPTY_HANDLE);
    WANT(pmq_closed_reopen(&closed, &queue) == PMQ_FULL_HANDLE);
    WANT(pmq_queue_close(&queue, &closed) == PMQ_OK);
    WANT(pmq_queue_close(&queue, &closed) == PMQ_FULL_HANDLE);
    WANT(pmq_closed_reopen(&closed, &queue) == PMQ_OK);
    WANT(pmq_queue_close(&queue, &closed) == PMQ_OK);
    WANT(pmq_closed_crash(&closed, NULL, 0, &words) == PMQ_TOO_SMALL && words == sizeof choice);
    WANT(pmq_closed_crash(&closed, choice, words - 1, &words) == PMQ_TOO_SMALL && words == sizeof choice);
    WANT(pmq_closed_crash(&closed, choice, words, &words) == PMQ_OK);
    WANT(pmq_closed_reopen(&closed, &queue) == PMQ_OK);
    WANT(pmq_queue_take(&queue, 0, &seat) == PMQ_OK);
    WANT(pmq_seat_dequeue(&seat, PMQ_NO_FUSE, &answer) == PMQ_MUST_RECOVER);
    WANT(pmq_seat_recover(&seat, PMQ_NO_FUSE, &answer) == PMQ_OK && answered(PMQ_WAS_ENQUEUED, 4, 0));
    WANT(pmq_seat_dequeue(&seat, PMQ_NO_FUSE, &answer) == PMQ_OK && answered(PMQ_GOT, 5, 10));
    WANT(pmq_seat_dequeue(&seat, PMQ_NO_FUSE, &answer) == PMQ_OK && answered(PMQ_GOT, 6, 11));
    for (size_t i = 7; i < PMQ_OPERATIONS; i++)
        WANT(pmq_seat_dequeue(&seat, PMQ_NO_FUSE, &answer) == PMQ_OK && answered(PMQ_EMPTY, i, 0));
    WANT(pmq_seat_dequeue(&seat, PMQ_NO_FUSE, &answer) == PMQ_SPENT);
    WANT(pmq_seat_enqueue(&seat, 1, PMQ_NO_FUSE, &answer) == PMQ_SPENT);
    WANT(pmq_seat_recover(&seat, PMQ_NO_FUSE, &answer) == PMQ_OK && answered(PMQ_EMPTY, PMQ_OPERATIONS - 1, 0));
    WANT(pmq_queue_take(&queue, 1, &other) == PMQ_OK);
    WANT(pmq_seat_recover(&other, PMQ_NO_FUSE, &answer) == PMQ_OK && answered(PMQ_WAS_ENQUEUED, 3, 0));
    WANT(pmq_seat_free(&other) == PMQ_OK);
    /* the owner lets go of it first */
    WANT(pmq_queue_free(&queue) == PMQ_OK);
    WANT(pmq_seat_free(&seat) == PMQ_OK);
}

/* The call is out of memory until it has enough, and changes nothing before. */
#define UNTIL_OK(call)                                                      \
    do {                                                                    \
        long succeed = 0;                                                   \
        uint32_t status;                                                    \
        do {                                                                \
            allocations = succeed++;                                        \
            status = (call);                                                \
            allocations = -1;                                               \
            WANT(status == PMQ_NO_MEMORY || status == PMQ_OK);              \
        } while (status != PMQ_OK);                                         \
        WANT(succeed > 1);                                                  \
    } while (0)

static void memory(void) {
    UNTIL_OK(pmq_queue_make(&queue, 2));
    UNTIL_OK(pmq_queue_take(&queue, 0, &seat));
    allocations = 0;
    WANT(pmq_seat_enqueue(&seat, 7, PMQ_NO_FUSE, &answer) == PMQ_OK && answered(PMQ_ENQUEUED, 0, 0));
    WANT(pmq_seat_free(&seat) == PMQ_OK);
    allocations = -1;
    UNTIL_OK(pmq_queue_close(&queue, &closed));
    UNTIL_OK(pmq_closed_crash(&closed, choice, sizeof choice, &words));
    UNTIL_OK(pmq_closed_reopen(&closed, &queue));
    WANT(pmq_queue_take(&queue, 0, &seat) == PMQ_OK);
    WANT(pmq_seat_recover(&seat, PMQ_NO_FUSE, &answer) == PMQ_OK && answered(PMQ_WAS_ENQUEUED, 0, 0));
    WANT(pmq_seat_free(&seat) == PMQ_OK);
    WANT(pmq_queue_close(&queue, &closed) == PMQ_OK);
    WANT(pmq_closed_free(&closed) == PMQ_OK);
    WANT(pmq_closed_free(&closed) == PMQ_EMPTY_HANDLE);
}

/* The seats of many processes come back, and the queue is closed; not while one is out. */
static void all_seats(void) {
    struct pmq_seat seats[64] = {PMQ_INIT};
    WANT(pmq_queue_make(&queue, 64) == PMQ_OK);
    for (size_t process = 0; process < 64; process++)
        WANT(pmq_queue_take(&queue, process, &seats[process]) == PMQ_OK);
    for (size_t process = 0; process < 64; process++) {
        WANT(pmq_queue_close(&queue, &closed) == PMQ_SEAT_TAKEN);
        WANT(pmq_seat_free(&seats[process]) == PMQ_OK);
    }
    WANT(pmq_queue_close(&queue, &closed) == PMQ_OK && pmq_closed_free(&closed) == PMQ_OK);
}

/* What a recovery says of an enqueue that was stopped after that number of steps, where the queue was closed then and opened:
 * at once, or after each allocation of the opening failed alone. Whether the enqueue was stopped. */
static bool reopened(uint64_t steps, bool fails) {
    bool stopped;
    uint32_t status = PMQ_NO_MEMORY;
    WANT(pmq_queue_make(&queue, 1) == PMQ_OK && pmq_queue_take(&queue, 0, &seat) == PMQ_OK);
    WANT(pmq_seat_enqueue(&seat, 7, steps, &answer) == PMQ_OK);
    stopped = answer.kind == PMQ_STOPPED;
    WANT(pmq_seat_free(&seat) == PMQ_OK && pmq_queue_close(&queue, &closed) == PMQ_OK);
    alone = true;
    for (long made = 0; status != PMQ_OK; made++) {
        allocations = fails ? made : -1;
        status = pmq_closed_reopen(&closed, &queue);
        allocations = -1;
        WANT(status == PMQ_OK || (fails && status == PMQ_NO_MEMORY));
    }
    alone = false;
    WANT(pmq_queue_take(&queue, 0, &seat) == PMQ_OK);
    WANT(pmq_seat_recover(&seat, PMQ_NO_FUSE, &answer) == PMQ_OK);
    WANT(pmq_seat_free(&seat) == PMQ_OK && pmq_queue_free(&queue) == PMQ_OK);
    return stopped;
}

/* An opening that fails leaves each word what it was, though a crash would lose some of them. */
static void failed_reopenings(void) {
    bool stopped = true;
    for (uint64_t steps = 0; stopped; steps++) {
        struct pmq_answer at_once;
        stopped = reopened(steps, false);
        at_once = answer;
        WANT(reopened(steps, true) == stopped);
        WANT(answered(at_once.kind, at_once.number, at_once.value));
    }
}

int main(void) {
    handles();
    seats();
    operations();
    crashes();
    memory();
    all_seats();
    failed_reopenings();
    return 0;
}
