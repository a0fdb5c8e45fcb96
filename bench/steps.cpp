// The steps of edits and works as a plain program makes them: what bench/run.sh compares whole calls of `dsheet run` with.
//
// It reads a script of `sheet`, `set`, `work` and `settle` lines, makes the steps of each call on two arrays of words, those in the
// cache and those that persist, and prints the answers. Texts are sums of references, ranges and numbers. Nothing else runs beside
// a call here, so a step that could fail is made but its failure is not handled.
#include <algorithm>
#include <cctype>
#include <cstdint>
#include <cstdio>
#include <cstring>
#include <string>
#include <string_view>
#include <vector>

namespace {

enum class Class : uint8_t { Stamped, Bit, Owned };

struct Entry {
    size_t place;
    uint64_t value;
};

struct Text {
    std::vector<int> references; // ascending
    std::vector<int> terms;      // as written
    int64_t constant = 0;
};

class Sheet {
  public:
    Sheet(int columns, int rows, int processes)
        : columns(columns), cells(columns * rows), parts((cells + 63) / 64), heads(1), marks(heads + cells), values(marks + cells),
          kinds(values + cells), index(kinds + cells), announcements(index + size_t(cells) * parts), headers(announcements + processes),
          texts(headers + 256 * size_t(processes)), done(texts + 15 * 256 * size_t(processes)), cached(done + 4 * size_t(processes)),
          persisted(cached.size()), classes(cached.size(), Class::Owned), next(processes) {
        for (size_t place = 0; place < values; place++) classes[place] = Class::Stamped;
        for (size_t place = index; place < announcements; place++) classes[place] = Class::Bit;
        for (size_t place = done; place < classes.size(); place++) classes[place] = Class::Bit;
        buffer.reserve(17);
    }

    int columns, cells, parts;

    // a whole edit; its number, or -1 where no record is left
    int edit(int process, int cell, std::string_view text, const Text &read) {
        int number = next[process];
        if (number == 256) return -1;
        next[process]++;
        write_record(process, number, cell, text);
        keep(announcements + process, uint64_t(number + 1) * 4 + 1);
        for (int reference : read.references) add(index + size_t(reference) * parts + cell / 64, 1ull << (cell % 64));
        uint64_t noted = cached[heads + cell];
        if (noted >> 16) {
            flush(heads + cell), back();
            add(done + (noted >> 8 & 255) * 4 + (noted & 255) / 64, 1ull << (noted & 63));
        }
        swap(heads + cell, noted, ((noted >> 16) + 1) * 65536 + uint64_t(process) * 256 + number);
        counted.push_back({process, number, cell, std::string(text)});
        flush(heads + cell), back();
        add(marks + cell, 1);
        keep(announcements + process, uint64_t(number + 1) * 4 + 2);
        return number;
    }

    // a whole work on a cell: whether it was marked; then `changed` says whether its value is another one
    bool work(int process, int cell, bool &changed) {
        uint64_t mark = cached[marks + cell];
        if ((mark & 31) != 1) return false;
        uint64_t held = (mark / 32 + 1) * 32 + uint64_t(process + 1) * 2;
        swap(marks + cell, mark, held), flush(marks + cell), back();
        Text read = read_text(cell);
        uint64_t sum = uint64_t(read.constant), height = 0;
        std::vector<uint64_t> shown(read.references.size()); // what each input counts
        for (size_t i = 0; i < shown.size(); i++) {
            uint64_t value = cached[values + read.references[i]], kind = cached[kinds + read.references[i]];
            shown[i] = kind % 8 == 1 ? value : 0;
            height = std::max(height, kind / 8 + 1);
        }
        for (int term : read.terms) sum += shown[std::lower_bound(read.references.begin(), read.references.end(), term) - read.references.begin()];
        uint64_t kind = height * 8 + 1;
        changed = cached[values + cell] != sum || cached[kinds + cell] != kind;
        if (changed) {
            cached[values + cell] = sum, cached[kinds + cell] = kind;
            flush(values + cell), flush(kinds + cell), back(), back();
            tell(cell);
        }
        swap(marks + cell, held, (held / 32 + 1) * 32), flush(marks + cell), back();
        return true;
    }

    // works on each marked cell, round by round, until a round finds none
    void settle(int process) {
        for (bool found = true; found;) {
            found = false;
            for (int cell = 0; cell < cells; cell++)
                if (bool changed = false; cached[marks + cell] & 1) found = work(process, cell, changed);
        }
    }

    // a text that is a number, or `=` and a sum of references, ranges and numbers
    Text read(std::string_view text) const {
        Text read;
        size_t at = text.substr(0, 1) == "=" ? 1 : 0;
        while (at < text.size()) {
            if (text[at] == '[') {
                int first = corner(text, ++at), last = first;
                if (text[at] == ':') last = corner(text, ++at);
                for (int row = first / columns; row <= last / columns; row++)
                    for (int column = first % columns; column <= last % columns; column++) read.terms.push_back(row * columns + column);
                at++;
            } else if (isdigit(text[at])) {
                int64_t number = 0;
                for (; at < text.size() && isdigit(text[at]); at++) number = number * 10 + text[at] - '0';
                read.constant += number;
            } else {
                at++;
            }
        }
        read.references = read.terms;
        std::sort(read.references.begin(), read.references.end());
        read.references.erase(std::unique(read.references.begin(), read.references.end()), read.references.end());
        return read;
    }

  private:
    // the cell of a corner of a reference, as `.A1`
    int corner(std::string_view text, size_t &at) const {
        int column = toupper(text[at + 1]) - 'A', row = 0;
        for (at += 2; isdigit(text[at]); at++) row = row * 10 + text[at] - '0';
        return (row - 1) * columns + column;
    }

    struct Counted {
        int process, number, cell;
        std::string text;
    };

    size_t heads, marks, values, kinds, index, announcements, headers, texts, done;
    std::vector<uint64_t> cached, persisted;
    std::vector<Class> classes;
    std::vector<int> next;
    std::vector<Entry> buffer;
    std::vector<Counted> counted;

    void flush(size_t place) { buffer.push_back({place, cached[place]}); }

    void back() {
        Entry entry = buffer.front();
        buffer.erase(buffer.begin());
        uint64_t &word = persisted[entry.place];
        switch (classes[entry.place]) {
        case Class::Stamped: word = std::max(word, entry.value); break;
        case Class::Bit: word |= entry.value; break;
        case Class::Owned: word = entry.value; break;
        }
    }

    void keep(size_t place, uint64_t word) { cached[place] = word, flush(place), back(); }
    void add(size_t place, uint64_t bits) { cached[place] |= bits, flush(place), back(); }

    void swap(size_t place, uint64_t from, uint64_t to) {
        if (cached[place] == from) cached[place] = to;
    }

    void write_record(int process, int number, int cell, std::string_view text) {
        size_t header = headers + 256 * size_t(process) + number, first = texts + (256 * size_t(process) + number) * 15;
        size_t count = (text.size() + 7) / 8;
        cached[header] = uint64_t(cell) * 256 + text.size();
        for (size_t part = 0; part < count; part++) {
            uint64_t word = 0;
            memcpy(&word, text.data() + 8 * part, std::min<size_t>(8, text.size() - 8 * part));
            cached[first + part] = word;
        }
        flush(header);
        for (size_t part = 0; part < count; part++) flush(first + part);
        for (size_t part = 0; part <= count; part++) back();
    }

    Text read_text(int cell) const {
        uint64_t head = cached[heads + cell];
        if (!(head >> 16)) return {};
        size_t record = head & 65535, length = cached[headers + record] % 256;
        char text[128];
        for (size_t part = 0; part < (length + 7) / 8; part++) memcpy(text + 8 * part, &cached[texts + record * 15 + part], 8);
        return read({text, length});
    }

    void tell(int cell) {
        uint64_t row[16];
        for (int part = 0; part < parts; part++) row[part] = cached[index + size_t(cell) * parts + part];
        for (int part = 0; part < parts; part++)
            for (uint64_t bits = row[part]; bits; bits &= bits - 1) add(marks + part * 64 + __builtin_ctzll(bits), 1);
    }
};

int number_of(std::string_view &line) {
    int number = 0;
    while (!line.empty() && isdigit(line[0])) number = number * 10 + line[0] - '0', line.remove_prefix(1);
    if (!line.empty() && line[0] == ' ') line.remove_prefix(1);
    return number;
}

int cell_of(std::string_view &line, const Sheet &sheet) {
    int column = toupper(line[0]) - 'A';
    line.remove_prefix(1);
    return (number_of(line) - 1) * sheet.columns + column;
}

std::string carry_out(std::string_view script) {
    Sheet sheet(2, 2, 2);
    std::string output;
    while (!script.empty()) {
        std::string_view line = script.substr(0, script.find('\n'));
        script.remove_prefix(std::min(script.size(), line.size() + 1));
        std::string_view word = line.substr(0, line.find(' '));
        line.remove_prefix(std::min(line.size(), word.size() + 1));
        if (word == "sheet") {
            int columns = number_of(line), rows = number_of(line);
            sheet = Sheet(columns, rows, number_of(line));
        } else if (word == "set") {
            int process = number_of(line), cell = cell_of(line, sheet);
            int number = sheet.edit(process, cell, line, sheet.read(line));
            output += std::to_string(process) + (number < 0 ? " refused 4 RecordsFull\n" : " " + std::to_string(number) + " done\n");
        } else if (word == "work") {
            int process = number_of(line), cell = cell_of(line, sheet);
            bool changed = false;
            bool marked = sheet.work(process, cell, changed);
            output += std::to_string(process) + (!marked ? " notdirty\n" : changed ? " published changed\n" : " published same\n");
        } else if (word == "settle") {
            sheet.settle(number_of(line));
            output += "clean\n";
        }
    }
    return output;
}

} // namespace

int main() {
    std::string script;
    char buffer[1 << 16];
    while (size_t count = fread(buffer, 1, sizeof buffer, stdin)) script.append(buffer, count);
    std::string output = carry_out(script);
    return fwrite(output.data(), 1, output.size(), stdout) == output.size() ? 0 : 3;
}
