/* Two producers and two consumers share a queue, each in a thread of its own with a seat of its own and no lock; the fuse
 * of each burns down in the midst of its last call. The queue is closed, crashes, and is opened again: every process is
 * asked what became of that call. Then the rest is dequeued. Whatever the schedule, each value that was enqueued is
 * dequeued once, and those of a producer in their order. */
#include <pmq.h>
#include <pthread.h>
#include <stdio.h>
#include <stdlib.h>

enum { PRODUCERS = 2, CONSUMERS = 2, PROCESSES = PRODUCERS + CONSUMERS, VALUES = 200, TRIES = 300, MOST = 1024 };

/* What a thread works with: what it enqueued, or what it took, in order. */
struct job {
    struct pmq_seat seat;
    size_t process;
    uint64_t fuse;   /* that of its last call */
    size_t stopped;  /* the number of that call */
    size_t count;    /* how many values */
    uint64_t values[MOST];
};

/* Every call here has arguments that are right, so that only an allocation can fail. */
static void need(uint32_t status, const char *what) {
    if (status != PMQ_OK) {
        fprintf(stderr, "%s: status %u\n", what, (unsigned)status);
        exit(1);
    }
}

static void check(int holds, const char *what) {
    if (!holds) {
        fprintf(stderr, "%s: not so\n", what);
        exit(1);
    }
}

/* The value that a producer enqueues by an operation: a consumer sees whose it is, and which. */
static uint64_t value_of(size_t process, size_t number) {
    return (uint64_t)process << 32 | (uint64_t)number;
}

static void *produce(void *given) {
    struct job *job = given;
    struct pmq_answer answer;
    for (size_t i = 0; i < VALUES; i++) {
        need(pmq_seat_enqueue(&job->seat, value_of(job->process, i), PMQ_NO_FUSE, &answer), "enqueue");
        check(answer.kind == PMQ_ENQUEUED && answer.number == i, "enqueued");
        job->values[job->count++] = value_of(job->process, i);
    }
    need(pmq_seat_enqueue(&job->seat, value_of(job->process, VALUES), job->fuse, &answer), "enqueue");
    check(answer.kind == PMQ_STOPPED, "an enqueue of few steps is stopped");
    job->stopped = answer.number;
    check(pmq_seat_enqueue(&job->seat, 0, PMQ_NO_FUSE, &answer) == PMQ_MUST_RECOVER, "it has to recover");
    return NULL;
}

static void *consume(void *given) {
    struct job *job = given;
    struct pmq_answer answer;
    for (size_t i = 0; i < TRIES; i++) {
        need(pmq_seat_dequeue(&job->seat, PMQ_NO_FUSE, &answer), "dequeue");
        if (answer.kind == PMQ_GOT)
            job->values[job->count++] = answer.value;
        else
            check(answer.kind == PMQ_EMPTY, "got or empty");
    }
    need(pmq_seat_dequeue(&job->seat, job->fuse, &answer), "dequeue");
    check(answer.kind == PMQ_STOPPED || answer.kind == PMQ_EMPTY, "a dequeue of few steps takes nothing");
    job->stopped = answer.number;
    return NULL;
}

/* A thread for each seat, to its end; then the seats go back to the queue. */
static void run(struct pmq_queue *queue, struct job *jobs) {
    pthread_t threads[PROCESSES];
    for (size_t i = 0; i < PROCESSES; i++) {
        need(pmq_queue_take(queue, i, &jobs[i].seat), "take");
        if (pthread_create(&threads[i], NULL, i < PRODUCERS ? produce : consume, &jobs[i]) != 0)
            exit(1);
    }
    struct pmq_seat second = PMQ_INIT;
    check(pmq_queue_take(queue, 0, &second) != PMQ_OK || pmq_seat_free(&second) == PMQ_OK, "a second seat");
    for (size_t i = 0; i < PROCESSES; i++) {
        pthread_join(threads[i], NULL);
        need(pmq_seat_free(&jobs[i].seat), "free");
    }
}

/* A crash that leaves what processes saw of each word in which one of these bits of its number is set, of others what was
 * persisted. */
static void crash(struct pmq_closed *closed, size_t bits) {
    size_t words = 0;
    check(pmq_closed_crash(closed, NULL, 0, &words) == PMQ_TOO_SMALL, "too small");
    uint8_t *choice = malloc(words);
    if (!choice)
        exit(1);
    for (size_t i = 0; i < words; i++)
        choice[i] = (i & bits) != 0;
    need(pmq_closed_crash(closed, choice, words, &words), "crash");
    free(choice);
}

/* A process is asked what became of its last call, and its values are those that count. */
static void ask(struct pmq_queue *queue, struct job *job) {
    struct pmq_answer answer;
    need(pmq_queue_take(queue, job->process, &job->seat), "take");
    check(pmq_seat_dequeue(&job->seat, PMQ_NO_FUSE, &answer) == PMQ_MUST_RECOVER, "it has to recover");
    need(pmq_seat_recover(&job->seat, PMQ_NO_FUSE, &answer), "recover");
    int is_last = answer.number == job->stopped;
    check(is_last || answer.number + 1 == job->stopped, "the last call, or the one before it was announced");
    if (is_last && answer.kind == PMQ_WAS_ENQUEUED)
        job->values[job->count++] = value_of(job->process, VALUES);
    else if (is_last && answer.kind == PMQ_GOT)
        job->values[job->count++] = answer.value;
    else
        check(!is_last || answer.kind == PMQ_NOT_ENQUEUED || answer.kind == PMQ_NOT_DEQUEUED || answer.kind == PMQ_EMPTY, "answer");
    need(pmq_seat_free(&job->seat), "free");
}

/* All that is left goes to one process. */
static void drain(struct pmq_queue *queue, struct job *rest) {
    struct pmq_answer answer;
    need(pmq_queue_take(queue, 0, &rest->seat), "take");
    need(pmq_seat_recover(&rest->seat, PMQ_NO_FUSE, &answer), "recover");
    do {
        need(pmq_seat_dequeue(&rest->seat, PMQ_NO_FUSE, &answer), "dequeue");
        if (answer.kind == PMQ_GOT)
            rest->values[rest->count++] = answer.value;
    } while (answer.kind == PMQ_GOT);
    check(answer.kind == PMQ_EMPTY, "empty at last");
    need(pmq_seat_free(&rest->seat), "free");
}

/* How often a value was taken; and what was taken of a producer by one consumer comes in order. */
static size_t times_taken(const struct job *taken, uint64_t value) {
    size_t times = 0;
    for (size_t k = 0; k < taken->count; k++)
        times += taken->values[k] == value;
    return times;
}

static int is_in_order(const struct job *taken, size_t producer) {
    uint64_t next = value_of(producer, 0);
    for (size_t k = 0; k < taken->count; k++) {
        if (taken->values[k] >> 32 != producer)
            continue;
        if (taken->values[k] < next)
            return 0;
        next = taken->values[k] + 1;
    }
    return 1;
}

static void compare(const struct job *jobs, const struct job *rest) {
    size_t enqueued = 0, taken = rest->count;
    for (size_t i = PRODUCERS; i < PROCESSES; i++)
        taken += jobs[i].count;
    for (size_t p = 0; p < PRODUCERS; p++) {
        enqueued += jobs[p].count;
        for (size_t k = 0; k < jobs[p].count; k++) {
            size_t times = times_taken(rest, jobs[p].values[k]);
            for (size_t i = PRODUCERS; i < PROCESSES; i++)
                times += times_taken(&jobs[i], jobs[p].values[k]);
            check(times == 1, "each value that was enqueued is dequeued once");
        }
        for (size_t i = PRODUCERS; i < PROCESSES; i++)
            check(is_in_order(&jobs[i], p), "in order");
        check(is_in_order(rest, p), "in order");
    }
    check(enqueued == taken, "as many dequeued as enqueued");
}

int main(void) {
    static const uint64_t fuses[] = {5, 8, 10, 14};
    static struct job jobs[PROCESSES], rest;
    for (size_t round = 0; round < 4; round++) {
        struct pmq_queue queue = PMQ_INIT;
        struct pmq_closed closed = PMQ_INIT;
        for (size_t i = 0; i < PROCESSES; i++)
            jobs[i].process = i, jobs[i].fuse = fuses[(round + i) % 4], jobs[i].count = 0;
        rest.count = 0;
        need(pmq_queue_make(&queue, PROCESSES), "make");
        run(&queue, jobs);
        need(pmq_queue_close(&queue, &closed), "close");
        crash(&closed, round == 0 ? 0 : round == 1 ? (size_t)-1 : round);
        need(pmq_closed_reopen(&closed, &queue), "reopen");
        for (size_t i = 0; i < PROCESSES; i++)
            ask(&queue, &jobs[i]);
        drain(&queue, &rest);
        compare(jobs, &rest);
        printf("crash %zu: each value enqueued was dequeued once, in the order of its producer\n", round);
        need(pmq_queue_free(&queue), "free");
    }
    return 0;
}
