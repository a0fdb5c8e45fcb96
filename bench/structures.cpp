// Enqueues and dequeues of threads on the proved queue (pmq.h), beside the same steps on plain C++ atomics with the same
// simulated flushes, and beside a queue of Michael and Scott that no crash survives: what bench/structures.sh measures.
//
// structures proved|plain|volatile THREADS QUEUES: each thread enqueues and dequeues in turn, 1,024 operations on each of
// the queues, one queue after the other. It prints how many operations there were, how many nanoseconds passed from the
// first one's begin to the last one's end, how many flushes the plain steps had, and whether each value that was enqueued
// was dequeued, or is left.
// structures steps: how many steps an enqueue and a dequeue take alone, by the fuses of the proved queue.
#include <pmq.h>

#include <algorithm>
#include <atomic>
#include <chrono>
#include <cstdint>
#include <cstdio>
#include <cstdlib>
#include <memory>
#include <string>
#include <thread>
#include <vector>

namespace {

constexpr size_t OPERATIONS = PMQ_OPERATIONS;

uint64_t now() {
    auto time = std::chrono::steady_clock::now().time_since_epoch();
    return uint64_t(std::chrono::duration_cast<std::chrono::nanoseconds>(time).count());
}

[[noreturn]] void fail(const char *what) {
    std::fprintf(stderr, "structures: %s\n", what);
    std::exit(1);
}

// The proved queue, through the library for C.
class Proved {
  public:
    explicit Proved(size_t processes) {
        if (pmq_queue_make(&queue, processes) != PMQ_OK) fail("no memory");
    }
    ~Proved() { pmq_queue_free(&queue); }

    class Process {
      public:
        Process(Proved &owner, size_t number) {
            if (pmq_queue_take(&owner.queue, number, &seat) != PMQ_OK) fail("no seat");
        }
        Process(const Process &) = delete;
        ~Process() { pmq_seat_free(&seat); }

        void enqueue(uint64_t value) {
            pmq_answer answer;
            if (pmq_seat_enqueue(&seat, value, PMQ_NO_FUSE, &answer) != PMQ_OK || answer.kind != PMQ_ENQUEUED) fail("enqueue");
        }

        bool dequeue(uint64_t &value) {
            pmq_answer answer;
            if (pmq_seat_dequeue(&seat, PMQ_NO_FUSE, &answer) != PMQ_OK) fail("dequeue");
            value = answer.value;
            return answer.kind == PMQ_GOT;
        }

        uint64_t flushes = 0;

      private:
        pmq_seat seat = PMQ_INIT;
    };

  private:
    pmq_queue queue = PMQ_INIT;
};

// The same steps on plain atomics. Both sides of a word lie beside each other, and 64 bytes after those of the word before.
class Plain {
  public:
    explicit Plain(size_t processes) : words(new std::atomic<uint64_t>[SPREAD * 8 * (OPERATIONS * processes + 1)]()) {}

    class Process {
      public:
        Process(Plain &queue, size_t number) : queue(queue), process(number), next(OPERATIONS * number + 1) {}

        void enqueue(uint64_t value) {
            uint64_t own = next++;
            queue.store(8 * own + VALUE, value), flush(8 * own + VALUE), back();
            queue.store(8 * process + ANNOUNCE, 2 * own), flush(8 * process + ANNOUNCE), back();
            for (;;) {
                uint64_t tail = queue.load(TAIL), after = queue.load(8 * tail);
                if (after == 0 && queue.swap(8 * tail, 0, own, after)) after = own;
                flush(8 * tail), back();
                queue.store(8 * after + LINKED, 1), flush(8 * after + LINKED), back();
                uint64_t seen;
                queue.swap(TAIL, tail, after, seen);
                if (after == own) return;
            }
        }

        bool dequeue(uint64_t &value) {
            uint64_t own = next++;
            queue.store(8 * process + ANNOUNCE, 2 * own + 1), flush(8 * process + ANNOUNCE), back();
            for (;;) {
                uint64_t head = queue.load(HEAD), after = queue.load(8 * head);
                if (after == 0) {
                    queue.store(8 * own + RESULT, EMPTY), flush(8 * own + RESULT), back();
                    return false;
                }
                flush(8 * head), back();
                uint64_t by = 0;
                if (queue.swap(8 * after + TAKER, 0, own, by)) by = own;
                flush(8 * after + TAKER), back();
                queue.store(8 * by + RESULT, after), flush(8 * by + RESULT), back();
                uint64_t seen;
                queue.swap(HEAD, head, after, seen);
                if (by == own) {
                    value = queue.load(8 * after + VALUE);
                    return true;
                }
            }
        }

        uint64_t flushes = 0;

      private:
        Plain &queue;
        size_t process;
        uint64_t next;
        size_t flushed = 0;
        uint64_t kept = 0;

        void flush(size_t place) { flushed = place, kept = queue.load(place), flushes++; }
        void back() { queue.words[SPREAD * flushed + 1].store(kept); }
    };

  private:
    static constexpr size_t SPREAD = 8, TAKER = 1, VALUE = 2, LINKED = 3, RESULT = 4, ANNOUNCE = 5, TAIL = 6, HEAD = 7;
    static constexpr uint64_t EMPTY = uint64_t(1) << 32;
    std::unique_ptr<std::atomic<uint64_t>[]> words;

    uint64_t load(size_t place) { return words[SPREAD * place].load(); }
    void store(size_t place, uint64_t value) { words[SPREAD * place].store(value); }
    bool swap(size_t place, uint64_t expected, uint64_t value, uint64_t &seen) {
        seen = expected;
        return words[SPREAD * place].compare_exchange_strong(seen, value);
    }
};

// Michael and Scott's queue of nodes that are never used again: nothing of it survives a crash.
class Volatile {
  public:
    explicit Volatile(size_t processes) : nodes(new Node[OPERATIONS * processes + 1]()) {}

    class Process {
      public:
        Process(Volatile &queue, size_t number) : queue(queue), next(OPERATIONS * number + 1) {}

        void enqueue(uint64_t value) {
            uint64_t own = next++;
            queue.nodes[own].value.store(value, std::memory_order_relaxed);
            for (;;) {
                uint64_t tail = queue.tail.at.load(), after = queue.nodes[tail].next.load();
                if (after == 0 && queue.nodes[tail].next.compare_exchange_strong(after, own)) after = own;
                queue.tail.at.compare_exchange_strong(tail, after);
                if (after == own) return;
            }
        }

        bool dequeue(uint64_t &value) {
            for (;;) {
                uint64_t head = queue.head.at.load(), tail = queue.tail.at.load(), after = queue.nodes[head].next.load();
                if (after == 0) return false;
                if (head == tail) {
                    queue.tail.at.compare_exchange_strong(tail, after);
                    continue;
                }
                value = queue.nodes[after].value.load(std::memory_order_relaxed);
                if (queue.head.at.compare_exchange_strong(head, after)) return true;
            }
        }

        uint64_t flushes = 0;

      private:
        Volatile &queue;
        uint64_t next;
    };

  private:
    struct alignas(64) Node {
        std::atomic<uint64_t> next{0}, value{0};
    };
    struct alignas(64) Line {
        std::atomic<uint64_t> at{0};
    };
    std::unique_ptr<Node[]> nodes;
    Line head, tail;
};

struct Tally {
    uint64_t operations = 0, flushes = 0, begun = UINT64_MAX, ended = 0, balance = 0;
};

// The operations of a thread: an enqueue and a dequeue in turn.
template <class Seats> Tally run(Seats &seats, size_t process, std::atomic<size_t> &come, size_t threads) {
    Tally tally;
    come++;
    while (come < threads) {}
    tally.begun = now();
    for (auto &seat : seats) {
        for (size_t i = 0; i < OPERATIONS / 2; i++) {
            uint64_t value = process << 32 | i, taken = 0;
            seat->enqueue(value), tally.balance += value + 1;
            if (seat->dequeue(taken)) tally.balance -= taken + 1;
        }
        tally.operations += OPERATIONS;
    }
    tally.ended = now();
    for (auto &seat : seats) tally.flushes += seat->flushes;
    return tally;
}

template <class Queue> void measure(size_t threads, size_t count) {
    std::vector<std::unique_ptr<Queue>> queues;
    for (size_t i = 0; i < count; i++) queues.push_back(std::make_unique<Queue>(threads + 1));
    std::vector<std::vector<std::unique_ptr<typename Queue::Process>>> seats(threads);
    for (size_t process = 0; process < threads; process++)
        for (auto &queue : queues) seats[process].push_back(std::make_unique<typename Queue::Process>(*queue, process));
    std::vector<Tally> tallies(threads);
    std::atomic<size_t> come{0};
    std::vector<std::thread> running;
    for (size_t process = 0; process < threads; process++)
        running.emplace_back([&, process] { tallies[process] = run(seats[process], process, come, threads); });
    for (auto &thread : running) thread.join();
    seats.clear();
    Tally all;
    for (const Tally &tally : tallies) {
        all.operations += tally.operations, all.flushes += tally.flushes, all.balance += tally.balance;
        all.begun = std::min(all.begun, tally.begun), all.ended = std::max(all.ended, tally.ended);
    }
    for (auto &queue : queues) {
        typename Queue::Process rest(*queue, threads);
        uint64_t value;
        while (rest.dequeue(value)) all.balance -= value + 1;
    }
    std::printf("%llu %llu %llu %s\n", (unsigned long long)all.operations, (unsigned long long)(all.ended - all.begun), (unsigned long long)all.flushes, all.balance == 0 ? "whole" : "TORN");
}

// The least fuse under which a call of the proved queue is not stopped.
uint64_t steps_of(bool is_enqueue) {
    for (uint64_t steps = 1;; steps++) {
        pmq_queue queue = PMQ_INIT;
        pmq_seat seat = PMQ_INIT;
        pmq_answer answer;
        if (pmq_queue_make(&queue, 1) != PMQ_OK || pmq_queue_take(&queue, 0, &seat) != PMQ_OK) fail("no memory");
        if (!is_enqueue && pmq_seat_enqueue(&seat, 7, PMQ_NO_FUSE, &answer) != PMQ_OK) fail("enqueue");
        uint32_t status = is_enqueue ? pmq_seat_enqueue(&seat, 7, steps, &answer) : pmq_seat_dequeue(&seat, steps, &answer);
        pmq_seat_free(&seat), pmq_queue_free(&queue);
        if (status != PMQ_OK) fail("a call");
        if (answer.kind != PMQ_STOPPED) return steps;
    }
}

} // namespace

int main(int count, char **arguments) {
    std::string word = count > 1 ? arguments[1] : "";
    if (word == "steps") {
        std::printf("enqueue %llu dequeue %llu\n", (unsigned long long)steps_of(true), (unsigned long long)steps_of(false));
        return 0;
    }
    if (count != 4) return 2;
    size_t threads = std::strtoul(arguments[2], nullptr, 10), queues = std::strtoul(arguments[3], nullptr, 10);
    if (threads < 1 || threads > 64) return 2;
    if (word == "proved") measure<Proved>(threads, queues);
    else if (word == "plain") measure<Plain>(threads, queues);
    else if (word == "volatile") measure<Volatile>(threads, queues);
    else return 2;
}
