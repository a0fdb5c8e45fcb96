/* pmq: a detectable queue whose state survives crashes of a simulated persistent memory, for C99 and C++.
 *
 * Threads share a queue with no lock. Its owner takes a seat of it for each process; the thread that has a seat enqueues
 * and dequeues beside the others, each call under a fuse of a number of steps. Once all seats are freed the owner closes
 * the queue, lets it crash, and opens it again. Then each process recovers: it learns whether its last operation took
 * effect, and of a dequeue what it took.
 *
 * Every function returns a status. After every status but PMQ_OK nothing has changed: neither the queue nor what the
 * pointers of the call point to, but for PMQ_TOO_SMALL, which gives the size that is needed.
 *
 * What each function does is proved (the clause of its export in crates/pq_c), if its caller does what is said above it,
 * and the following, which nothing can check:
 *   - A pointer that is not null points to an object of its type, aligned for it, and a buffer has as many items as the
 *     call says. They are the call's alone while it runs: no two pointers of one call overlap.
 *   - A handle is zero, or as the library left it. Of two copies only one may be used. One call at a time uses a handle;
 *     another thread may use it later, if a join or the like stands between. Calls on different seats of one queue may
 *     run at once, and beside those on the queue's own handle.
 *   - malloc, realloc and free are those of one allocator, which aligns a block to each power of two up to 16 that
 *     divides its size. No call comes from a signal handler, nor from the child of a fork of a process with threads.
 *
 * No function ends the process, waits for another thread, keeps a pointer of its caller's, or writes anything but its own
 * memory and what its pointers point to. docs/EMBEDDING.md says how to build a program. */
#ifndef PMQ_H
#define PMQ_H

#include <stddef.h>
#include <stdint.h>

#ifdef __cplusplus
extern "C" {
#endif

/* How a function ended. Those that dsheet.h has, too, have the same numbers there. */
enum pmq_status {
    PMQ_OK = 0,            /* It was carried out. What was answered stands in the row of the call. */
    PMQ_EMPTY_HANDLE = 1,  /* The handle holds nothing: nothing was put into it, or it was freed. */
    PMQ_FULL_HANDLE = 2,   /* The handle holds something already. */
    PMQ_BAD_COUNT = 3,     /* No queue has this many processes. */
    PMQ_NO_PROCESS = 4,    /* The queue has no such process. */
    PMQ_TOO_SMALL = 8,     /* The choice is too short. The call gives how many items it needs. */
    PMQ_NO_MEMORY = 9,     /* An allocation failed. */
    PMQ_NULL = 10,         /* A pointer is null that may not be. */
    PMQ_WRONG_HANDLE = 11, /* The handle holds something else: a seat where a queue is wanted, or the like. */
    PMQ_SEAT_TAKEN = 12,   /* The seat has been taken, and was not freed; for a close, that of any process. */
    PMQ_MUST_RECOVER = 13, /* The process was stopped: pmq_seat_recover comes first. */
    PMQ_SPENT = 14         /* The process has made its PMQ_OPERATIONS operations. */
};

/* How many operations each process of a queue may make: nodes are never used again. */
#define PMQ_OPERATIONS 1024

/* Handles of a queue, in the hands of its owner; of a seat, for one process; and of a closed queue. Begin with PMQ_INIT,
 * and leave their fields alone. */
struct pmq_queue {
    uint64_t held;
    void *at;
};
struct pmq_seat {
    uint64_t held;
    void *at;
};
struct pmq_closed {
    uint64_t held;
    void *at;
};

#define PMQ_INIT {0, 0}

/* A fuse that no call burns down: none makes that number of steps. */
#define PMQ_NO_FUSE UINT64_MAX

/* Which answer a pmq_answer is, and which of its fields are used. The others are 0. */
enum pmq_kind {
    PMQ_ENQUEUED = 1, /* The value is in the queue: no crash takes it back. number. */
    PMQ_GOT = 2,      /* The dequeue took the value, which no other one takes. number, value. Also of a recovery. */
    PMQ_EMPTY = 3,    /* The queue was empty at a moment of the dequeue. number. Also of a recovery. */
    PMQ_STOPPED = 4,  /* The fuse has burnt down: the process has to recover. number; of a recovery 0. */
    PMQ_TORN = 5,     /* A word was not one of a queue. No run of a queue comes here. */
    /* answers of a recovery alone */
    PMQ_NOTHING = 6,      /* The process has announced no operation. */
    PMQ_WAS_ENQUEUED = 7, /* Its last operation, an enqueue, took effect. number. */
    PMQ_NOT_ENQUEUED = 8, /* Its last operation, an enqueue, did not, and never will. number. */
    PMQ_NOT_DEQUEUED = 9  /* Its last operation, a dequeue, took nothing, and never will. number. */
};

/* How a call ended. */
struct pmq_answer {
    uint32_t kind;  /* enum pmq_kind */
    size_t number;  /* which operation of the process, from 0 */
    uint64_t value; /* the value that was taken */
};

/* The exports of the archive. Their pointers may not be null, nor that of an empty buffer: call the functions below
 * instead, which see to it. */
uint32_t pq_c_queue_make(struct pmq_queue *, size_t processes);
uint32_t pq_c_queue_take(struct pmq_queue *, size_t process, struct pmq_seat *);
uint32_t pq_c_queue_close(struct pmq_queue *, struct pmq_closed *);
uint32_t pq_c_queue_free(struct pmq_queue *);
uint32_t pq_c_seat_enqueue(struct pmq_seat *, uint64_t value, uint64_t steps, struct pmq_answer *);
uint32_t pq_c_seat_dequeue(struct pmq_seat *, uint64_t steps, struct pmq_answer *);
uint32_t pq_c_seat_recover(struct pmq_seat *, uint64_t steps, struct pmq_answer *);
uint32_t pq_c_seat_free(struct pmq_seat *);
uint32_t pq_c_closed_crash(struct pmq_closed *, const uint8_t *choice, size_t length, size_t *words);
uint32_t pq_c_closed_reopen(struct pmq_closed *, struct pmq_queue *);
uint32_t pq_c_closed_free(struct pmq_closed *);

/* The functions. They are inline; a shared object has them as symbols too, if it is built with -DPMQ_FUNCTION=. */
#ifndef PMQ_FUNCTION
#define PMQ_FUNCTION static inline
#endif

/* ---- A queue, in the hands of its owner ---- */

/* Makes an empty queue of this number of processes (1 to 16,383) in a handle that holds nothing. Each process takes some
 * 600 KB. PMQ_FULL_HANDLE, PMQ_BAD_COUNT, PMQ_NO_MEMORY, PMQ_NULL. */
PMQ_FUNCTION uint32_t pmq_queue_make(struct pmq_queue *queue, size_t processes) {
    if (!queue)
        return PMQ_NULL;
    return pq_c_queue_make(queue, processes);
}

/* Takes the seat of a process, from 0, into a handle that holds nothing. It can go to another thread, and be taken again
 * once it is freed; so no process ever has two. Of a queue that was opened again, and of a process whose call was stopped,
 * it has to recover first. PMQ_EMPTY_HANDLE, PMQ_FULL_HANDLE, PMQ_WRONG_HANDLE, PMQ_NO_PROCESS, PMQ_SEAT_TAKEN,
 * PMQ_NO_MEMORY, PMQ_NULL. */
PMQ_FUNCTION uint32_t pmq_queue_take(struct pmq_queue *queue, size_t process, struct pmq_seat *seat) {
    if (!queue || !seat)
        return PMQ_NULL;
    return pq_c_queue_take(queue, process, seat);
}

/* Closes the queue, whose seats have all been freed, into a handle that holds nothing; the queue's handle holds nothing
 * then. PMQ_EMPTY_HANDLE, PMQ_FULL_HANDLE, PMQ_WRONG_HANDLE, PMQ_SEAT_TAKEN, PMQ_NO_MEMORY, PMQ_NULL. */
PMQ_FUNCTION uint32_t pmq_queue_close(struct pmq_queue *queue, struct pmq_closed *closed) {
    if (!queue || !closed)
        return PMQ_NULL;
    return pq_c_queue_close(queue, closed);
}

/* Lets the queue go. Its memory is given back once its seats are freed, too. PMQ_EMPTY_HANDLE, PMQ_WRONG_HANDLE,
 * PMQ_NULL. */
PMQ_FUNCTION uint32_t pmq_queue_free(struct pmq_queue *queue) {
    if (!queue)
        return PMQ_NULL;
    return pq_c_queue_free(queue);
}

/* ---- A seat ----
 * Each of these: PMQ_EMPTY_HANDLE, PMQ_WRONG_HANDLE, PMQ_NULL. */

/* Puts a value into the queue, by the next operation of the process, in at most `steps` steps: PMQ_ENQUEUED, or
 * PMQ_STOPPED. Among n processes no enqueue takes more than 9 * (1024 * n + 1) + 15. PMQ_MUST_RECOVER, PMQ_SPENT. */
PMQ_FUNCTION uint32_t pmq_seat_enqueue(struct pmq_seat *seat, uint64_t value, uint64_t steps,
                                       struct pmq_answer *answer) {
    if (!seat || !answer)
        return PMQ_NULL;
    return pq_c_seat_enqueue(seat, value, steps, answer);
}

/* Takes the first value of the queue: PMQ_GOT, PMQ_EMPTY, or PMQ_STOPPED. Among n processes no dequeue takes more than
 * 12 * (1024 * n + 1) + 15 steps. PMQ_MUST_RECOVER, PMQ_SPENT. */
PMQ_FUNCTION uint32_t pmq_seat_dequeue(struct pmq_seat *seat, uint64_t steps, struct pmq_answer *answer) {
    if (!seat || !answer)
        return PMQ_NULL;
    return pq_c_seat_dequeue(seat, steps, answer);
}

/* What became of the last operation that the process announced, stopped or not: PMQ_NOTHING, PMQ_WAS_ENQUEUED,
 * PMQ_NOT_ENQUEUED, PMQ_GOT, PMQ_EMPTY, PMQ_NOT_DEQUEUED, or PMQ_STOPPED. An operation that was stopped before it was
 * announced has not begun: the answer is that of the one before it, by its number. */
PMQ_FUNCTION uint32_t pmq_seat_recover(struct pmq_seat *seat, uint64_t steps, struct pmq_answer *answer) {
    if (!seat || !answer)
        return PMQ_NULL;
    return pq_c_seat_recover(seat, steps, answer);
}

/* Gives the seat back to its queue. The handle holds nothing then. */
PMQ_FUNCTION uint32_t pmq_seat_free(struct pmq_seat *seat) {
    if (!seat)
        return PMQ_NULL;
    return pq_c_seat_free(seat);
}

/* ---- A closed queue ---- */

/* A crash. Of each word whose item of the choice is not 0 what processes saw is left, as if it had been evicted before;
 * of each other one what was persisted. `words` is set to how many words there are; a choice of none tells it, too.
 * PMQ_EMPTY_HANDLE, PMQ_WRONG_HANDLE, PMQ_TOO_SMALL, PMQ_NO_MEMORY, PMQ_NULL. */
PMQ_FUNCTION uint32_t pmq_closed_crash(struct pmq_closed *closed, const uint8_t *choice, size_t length, size_t *words) {
    if (!closed || !words || (!choice && length))
        return PMQ_NULL;
    return pq_c_closed_crash(closed, choice ? choice : (const uint8_t *)"", length, words);
}

/* Opens the queue again, with its words, in a handle that holds nothing; the closed one's holds nothing then. Every
 * process has to recover. PMQ_EMPTY_HANDLE, PMQ_FULL_HANDLE, PMQ_WRONG_HANDLE, PMQ_NO_MEMORY, PMQ_NULL. */
PMQ_FUNCTION uint32_t pmq_closed_reopen(struct pmq_closed *closed, struct pmq_queue *queue) {
    if (!closed || !queue)
        return PMQ_NULL;
    return pq_c_closed_reopen(closed, queue);
}

/* Gives the memory of a closed queue back. PMQ_EMPTY_HANDLE, PMQ_WRONG_HANDLE, PMQ_NULL. */
PMQ_FUNCTION uint32_t pmq_closed_free(struct pmq_closed *closed) {
    if (!closed)
        return PMQ_NULL;
    return pq_c_closed_free(closed);
}

#ifdef __cplusplus
}
#endif

#endif
