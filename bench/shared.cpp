// Threads on a sheet of plain C++ atomics: what bench/shared.sh compares shared and locked sheets with.
//
// It makes the same steps on the same words: for each word a cached side, which all threads load and store, and a persisted
// side, to which write-backs go. Texts are whole numbers, which refer to nothing. Edits, works and reports are whole calls;
// nothing is stopped, and nothing recovers.
//
// shared KIND THREADS SHEETS: the threads make 256 calls each on each of the sheets, one sheet after the other. It prints
// how many calls there were, how many nanoseconds passed from the first one's begin to the last one's end, and how many ended
// as they do where nobody is in the way; of `report` so for the edits beside, too.
#include <algorithm>
#include <atomic>
#include <chrono>
#include <cstdint>
#include <cstdio>
#include <cstdlib>
#include <cstring>
#include <memory>
#include <string>
#include <string_view>
#include <thread>
#include <vector>

namespace {

constexpr size_t CELLS = 8, PROCESSES = 8, RECORDS = 256, PARTS = 15, DONE_PARTS = RECORDS / 64;

enum class Class : uint8_t { Stamped, Bit, Owned };

struct Entry {
    size_t place;
    Class kind;
    uint64_t value;
};

enum class End { Done, Overtaken, NotDirty, Missed, Published, Again, Settled, Unsettled, Refused };

class Sheet {
  public:
    Sheet() : words(new std::atomic<uint64_t>[at(WORDS)]()) {}

    class Process {
      public:
        Process(Sheet &sheet, size_t number) : sheet(sheet), process(number) { buffer.reserve(17); }

        // a whole edit: Done, or Overtaken by another process's edit of the cell
        End edit(size_t cell, std::string_view text) {
            int64_t value;
            if (next == RECORDS || !read(text, value)) return End::Refused;
            size_t number = next++;
            size_t header = HEADERS + process * RECORDS + number, record = TEXTS + (process * RECORDS + number) * PARTS;
            size_t parts = (text.size() + 7) / 8;
            sheet.store(header, cell * 128 + text.size());
            for (size_t part = 0; part < parts; part++) sheet.store(record + part, part_of(text, part));
            flush(header, Class::Owned);
            for (size_t part = 0; part < parts; part++) flush(record + part, Class::Owned);
            for (size_t part = 0; part <= parts; part++) back();
            announce(number * 4 + 5);
            uint64_t noted = sheet.load(HEADS + cell);
            if (noted >> 16) help(cell, noted);
            uint64_t own = ((noted >> 16) + 1) << 16 | process << 8 | number;
            bool counts = sheet.swap(HEADS + cell, noted, own);
            if (counts) {
                flush(HEADS + cell, Class::Stamped), back();
                sheet.add(MARKS + cell, 1);
                flush(MARKS + cell, Class::Stamped), back();
            }
            announce(number * 4 + (counts ? 6 : 7));
            return counts ? End::Done : End::Overtaken;
        }

        // a whole work: the cell is claimed, evaluated and published
        End work(size_t cell) {
            uint64_t mark = sheet.load(MARKS + cell);
            if (mark % 2 == 0 && mark / 2 % 16 == 0) return End::NotDirty;
            if (mark / 2 % 16) return End::Missed;
            uint64_t held = (mark / 32 + 1) * 32 + (process + 1) * 2;
            if (!sheet.swap(MARKS + cell, mark, held)) return End::Missed;
            flush(MARKS + cell, Class::Stamped), back();
            std::string text = read_text(sheet.load(HEADS + cell));
            int64_t number = 0;
            bool is_number = read(text, number);
            uint64_t value = is_number ? uint64_t(number) : 0, kind = is_number ? 1 : 0;
            bool changed = sheet.load(VALUES + cell) != value;
            changed = (sheet.load(KINDS + cell) != kind) | changed;
            if (changed) publish(cell, value, kind);
            return clear(cell, held, changed);
        }

        // a whole report: the values of one moment, where nothing was under way
        End report(std::vector<uint64_t> &values, std::vector<uint64_t> &marks) {
            values.clear(), marks.clear();
            for (size_t place = ANNOUNCEMENTS; place < ANNOUNCEMENTS + PROCESSES; place++) {
                marks.push_back(sheet.load(place));
                if (marks.back() % 4 == 1) return End::Unsettled;
            }
            for (size_t place = MARKS; place < MARKS + CELLS; place++) {
                marks.push_back(sheet.load(place));
                if (marks.back() % 32) return End::Unsettled;
            }
            for (size_t place = VALUES; place < VALUES + 2 * CELLS; place++) values.push_back(sheet.load(place));
            for (size_t cell = 0; cell < CELLS; cell++)
                if (sheet.load(MARKS + cell) != marks[PROCESSES + cell]) return End::Unsettled;
            for (size_t other = 0; other < PROCESSES; other++)
                if (sheet.load(ANNOUNCEMENTS + other) != marks[other]) return End::Unsettled;
            return End::Settled;
        }

      private:
        Sheet &sheet;
        size_t process, next = 0;
        std::vector<Entry> buffer;

        static bool read(std::string_view text, int64_t &value) {
            if (text.empty()) return false;
            bool minus = text[0] == '-';
            uint64_t sum = 0;
            for (char digit : text.substr(minus)) {
                if (digit < '0' || digit > '9' || sum > (INT64_MAX - 9) / 10) return false;
                sum = sum * 10 + uint64_t(digit - '0');
            }
            value = minus ? -int64_t(sum) : int64_t(sum);
            return text.size() > size_t(minus);
        }

        static uint64_t part_of(std::string_view text, size_t part) {
            char bytes[8] = {};
            std::memcpy(bytes, text.data() + part * 8, std::min<size_t>(8, text.size() - part * 8));
            uint64_t word;
            std::memcpy(&word, bytes, 8);
            return word;
        }

        void flush(size_t place, Class kind) { buffer.push_back({place, kind, sheet.load(place)}); }

        void back() {
            Entry entry = buffer.front();
            buffer.erase(buffer.begin());
            sheet.persist(entry);
        }

        void announce(uint64_t word) {
            sheet.store(ANNOUNCEMENTS + process, word);
            flush(ANNOUNCEMENTS + process, Class::Owned), back();
        }

        // the edit that stands there counts before it loses its place
        void help(size_t cell, uint64_t noted) {
            flush(HEADS + cell, Class::Stamped), back();
            size_t bits = DONE + (noted >> 8 & 255) * DONE_PARTS + (noted & 255) / 64;
            sheet.add(bits, uint64_t(1) << (noted & 63));
            flush(bits, Class::Bit), back();
        }

        std::string read_text(uint64_t head) {
            std::string text;
            if (head >> 16 == 0) return text;
            size_t record = (head >> 8 & 255) * RECORDS + (head & 255);
            size_t length = sheet.load(HEADERS + record) % 128;
            for (size_t part = 0; part * 8 < length; part++) {
                uint64_t word = sheet.load(TEXTS + record * PARTS + part);
                text.append(reinterpret_cast<const char *>(&word), std::min<size_t>(8, length - part * 8));
            }
            return text;
        }

        // both words, and then the cells that refer to this one
        void publish(size_t cell, uint64_t value, uint64_t kind) {
            sheet.store(VALUES + cell, value), sheet.store(KINDS + cell, kind);
            flush(VALUES + cell, Class::Owned), flush(KINDS + cell, Class::Owned), back(), back();
            uint64_t row = sheet.load(INDEX + cell);
            for (size_t other = 0; other < CELLS; other++) {
                if (row >> other & 1) sheet.add(MARKS + other, 1), flush(MARKS + other, Class::Stamped), back();
            }
        }

        End clear(size_t cell, uint64_t held, bool) {
            uint64_t free = (held / 32 + 1) * 32;
            bool clean = sheet.swap(MARKS + cell, held, free);
            if (!clean) sheet.swap(MARKS + cell, held + 1, free + 1);
            flush(MARKS + cell, Class::Stamped), back();
            return clean ? End::Published : End::Again;
        }
    };

  private:
    static constexpr size_t HEADS = 1, MARKS = HEADS + CELLS, VALUES = MARKS + CELLS, KINDS = VALUES + CELLS, INDEX = KINDS + CELLS,
                            ANNOUNCEMENTS = INDEX + CELLS, HEADERS = ANNOUNCEMENTS + PROCESSES,
                            TEXTS = HEADERS + PROCESSES * RECORDS, DONE = TEXTS + PROCESSES * RECORDS * PARTS,
                            WORDS = DONE + PROCESSES * DONE_PARTS;
    std::unique_ptr<std::atomic<uint64_t>[]> words;

    // Both sides of a word lie beside each other. The words before the records lie 64 bytes apart, no two in a line of a cache;
    // those of records, to which one process stores, follow one on the other. With -DALL_APART those lie apart, too.
#ifdef ALL_APART
    static constexpr size_t APART = WORDS;
#else
    static constexpr size_t APART = HEADERS;
#endif
    static constexpr size_t at(size_t place) { return place < APART ? 8 * place : 6 * APART + 2 * place; }

    uint64_t load(size_t place) { return words[at(place)].load(); }
    void store(size_t place, uint64_t value) { words[at(place)].store(value); }
    void add(size_t place, uint64_t bits) { words[at(place)].fetch_or(bits); }
    bool swap(size_t place, uint64_t expected, uint64_t value) { return words[at(place)].compare_exchange_strong(expected, value); }

    // a write-back never makes a word older
    void persist(const Entry &entry) {
        std::atomic<uint64_t> &side = words[at(entry.place) + 1];
        if (entry.kind == Class::Owned) {
            side.store(entry.value);
        } else if (entry.kind == Class::Bit) {
            side.fetch_or(entry.value);
        } else {
            uint64_t there = side.load();
            while (there < entry.value && !side.compare_exchange_weak(there, entry.value)) {}
        }
    }
};

enum class Kind { Own, One, Work, Report };

struct Tally {
    uint64_t calls = 0, good = 0, begun = UINT64_MAX, ended = 0;
};

uint64_t now() {
    auto time = std::chrono::steady_clock::now().time_since_epoch();
    return uint64_t(std::chrono::duration_cast<std::chrono::nanoseconds>(time).count());
}

// 256 calls of a process on each sheet: of `work` each is an edit of its own cell and a work on it, and of `report`, too, where
// the first process reports
Tally run(Kind kind, std::vector<std::unique_ptr<Sheet>> &sheets, size_t process, std::atomic<size_t> &come, size_t threads) {
    const char *texts[] = {"1234", "5678"};
    Tally tally;
    std::vector<uint64_t> values, marks;
    come++;
    while (come < threads) {}
    tally.begun = now();
    for (auto &sheet : sheets) {
        Sheet::Process mine(*sheet, process);
        for (size_t call = 0; call < RECORDS; call++) {
            if (kind == Kind::Report && process == 0) {
                tally.good += mine.report(values, marks) == End::Settled;
            } else {
                tally.good += mine.edit(kind == Kind::One ? 0 : process, texts[call % 2]) == End::Done;
                if (kind != Kind::Own && kind != Kind::One) tally.good += mine.work(process) == End::Published;
            }
            tally.calls++;
        }
    }
    tally.ended = now();
    return tally;
}

void print(const char *name, const std::vector<Tally> &tallies, size_t from, size_t to) {
    Tally all;
    for (size_t i = from; i < to; i++) {
        all.calls += tallies[i].calls, all.good += tallies[i].good;
        all.begun = std::min(all.begun, tallies[i].begun), all.ended = std::max(all.ended, tallies[i].ended);
    }
    if (to > from) std::printf("%s %llu %llu %llu\n", name, (unsigned long long)all.calls, (unsigned long long)(all.ended - all.begun), (unsigned long long)all.good);
}

} // namespace

int main(int count, char **arguments) {
    if (count != 4) return 2;
    std::string word = arguments[1];
    Kind kind = word == "own" ? Kind::Own : word == "one" ? Kind::One : word == "work" ? Kind::Work : Kind::Report;
    size_t threads = std::strtoul(arguments[2], nullptr, 10), sheet_count = std::strtoul(arguments[3], nullptr, 10);
    if (threads < 1 || threads > PROCESSES) return 2;
    std::vector<std::unique_ptr<Sheet>> sheets;
    for (size_t i = 0; i < sheet_count; i++) sheets.push_back(std::make_unique<Sheet>());
    std::vector<Tally> tallies(threads);
    std::atomic<size_t> come{0};
    std::vector<std::thread> running;
    for (size_t process = 0; process < threads; process++)
        running.emplace_back([&, process] { tallies[process] = run(kind, sheets, process, come, threads); });
    for (auto &thread : running) thread.join();
    bool reports = kind == Kind::Report;
    if (reports) print("reports", tallies, 0, 1);
    print("edits", tallies, reports ? 1 : 0, threads);
}
