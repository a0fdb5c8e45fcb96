// The job of `dsheet report` as a plain program does it: what bench/run.sh compares times with.
//
// It reads a grid of texts as CSV, parses each formula into a tree, evaluates each formula once, after the cells that it
// refers to, with circular references found on the way, and prints the values as CSV. Faults of a text are not distinguished.
#include <cctype>
#include <cstdint>
#include <cstdio>
#include <memory>
#include <string>
#include <string_view>
#include <vector>

namespace {

enum class Kind { Blank, Number, DivZero, Num, Circular };

struct Value {
    Kind kind = Kind::Blank;
    int64_t number = 0;
};

struct Rect {
    int left, top, right, bottom;
};

enum class Form { Number, Reference, Range, Prefix, Binary, Call };
// those of many values, of one, of two, and IF
enum class Function { Sum, Min, Max, Count, And, Or, Abs, Not, Mod, Quotient, If };

struct Tree {
    Form form;
    int64_t number = 0;
    Rect area{};
    std::string_view operation;
    Function function{};
    std::vector<std::unique_ptr<Tree>> parts;
};

using TreePointer = std::unique_ptr<Tree>;

struct Content {
    Value constant;
    TreePointer formula;
};

struct Sheet {
    int columns = 2, rows = 2;
    std::vector<Content> contents = std::vector<Content>(4);
};

// ---- reading

class Parser {
  public:
    Parser(std::string_view text, const Sheet &sheet) : text(text), sheet(sheet) {}

    TreePointer formula() {
        auto tree = expression();
        skip();
        return good && at == text.size() && nodes <= 64 && depth(*tree) <= 16 && placed(*tree, false) ? std::move(tree) : nullptr;
    }

  private:
    std::string_view text;
    const Sheet &sheet;
    size_t at = 0;
    int nodes = 0;
    bool good = true;

    TreePointer fail() {
        good = false;
        return nullptr;
    }

    char peek() const { return at < text.size() ? text[at] : 0; }

    bool take(char c) {
        if (peek() != c) return false;
        at++;
        return true;
    }

    void skip() {
        while (peek() == ' ' || peek() == '\t' || peek() == '\n' || peek() == '\r') at++;
    }

    TreePointer node(Form form) {
        nodes++;
        auto tree = std::make_unique<Tree>();
        tree->form = form;
        return tree;
    }

    TreePointer joined(std::string_view operation, TreePointer left, TreePointer right) {
        auto tree = node(Form::Binary);
        tree->operation = operation;
        tree->parts.push_back(std::move(left));
        tree->parts.push_back(std::move(right));
        return tree;
    }

    std::string_view comparison() {
        for (std::string_view sign : {"<=", ">=", "<>", "<", ">", "="})
            if (text.substr(at, sign.size()) == sign) return sign;
        return {};
    }

    TreePointer expression() {
        auto left = sum();
        for (skip(); good && !comparison().empty(); skip()) {
            auto sign = comparison();
            at += sign.size();
            left = joined(sign, std::move(left), sum());
        }
        return left;
    }

    TreePointer sum() {
        auto left = product();
        for (skip(); good && (peek() == '+' || peek() == '-'); skip()) {
            auto sign = text.substr(at++, 1);
            left = joined(sign, std::move(left), product());
        }
        return left;
    }

    TreePointer product() {
        auto left = prefix();
        for (skip(); good && take('*'); skip()) left = joined("*", std::move(left), prefix());
        return left;
    }

    TreePointer prefix() {
        skip();
        if (peek() != '+' && peek() != '-') return operand();
        auto sign = text.substr(at++, 1);
        auto inner = prefix();
        if (!good) return nullptr;
        auto tree = node(Form::Prefix);
        tree->operation = sign;
        tree->parts.push_back(std::move(inner));
        return tree;
    }

    TreePointer operand() {
        if (isdigit(peek())) return number();
        if (isalpha(peek())) return call();
        if (take('[')) return reference();
        if (!take('(')) return fail();
        auto tree = expression();
        return good && take(')') ? std::move(tree) : fail();
    }

    TreePointer number() {
        auto tree = node(Form::Number);
        for (; isdigit(peek()); at++)
            if (__builtin_mul_overflow(tree->number, 10, &tree->number) || __builtin_add_overflow(tree->number, peek() - '0', &tree->number)) return fail();
        return tree;
    }

    bool corner(int &column, int &row) {
        column = row = 0;
        if (!take('.')) return false;
        take('$');
        for (; isalpha(peek()) && column < 1000; at++) column = column * 26 + toupper(peek()) - 'A' + 1;
        take('$');
        for (; isdigit(peek()) && row < 1000; at++) row = row * 10 + peek() - '0';
        return 1 <= column && column-- <= sheet.columns && 1 <= row && row-- <= sheet.rows;
    }

    TreePointer reference() {
        int column, row, other_column, other_row;
        if (!corner(column, row)) return fail();
        bool range = take(':');
        if (!range) other_column = column, other_row = row;
        if ((range && !corner(other_column, other_row)) || !take(']')) return fail();
        auto tree = node(range ? Form::Range : Form::Reference);
        tree->area = {std::min(column, other_column), std::min(row, other_row), std::max(column, other_column), std::max(row, other_row)};
        return tree;
    }

    TreePointer call() {
        static const std::string names[] = {"SUM", "MIN", "MAX", "COUNT", "AND", "OR", "ABS", "NOT", "MOD", "QUOTIENT", "IF"};
        std::string name;
        for (; isalpha(peek()); at++) name += toupper(peek());
        auto tree = node(Form::Call);
        int found = 0;
        while (found < 11 && names[found] != name) found++;
        skip();
        if (found == 11 || !take('(')) return fail();
        tree->function = Function(found);
        do {
            tree->parts.push_back(expression());
            skip();
        } while (good && take(';'));
        size_t count = tree->parts.size();
        bool fits = found < 6 || (found < 8 && count == 1) || (found < 10 && count == 2) || (found == 10 && (count == 2 || count == 3));
        return good && fits && take(')') ? std::move(tree) : fail();
    }

    static int depth(const Tree &tree) {
        int deepest = 0;
        for (auto &part : tree.parts) deepest = std::max(deepest, depth(*part));
        return deepest + 1;
    }

    // a range stands only as an argument of a function of many values
    static bool placed(const Tree &tree, bool range_may) {
        if (tree.form == Form::Range) return range_may;
        bool may = tree.form == Form::Call && tree.function <= Function::Or;
        for (auto &part : tree.parts)
            if (!placed(*part, may)) return false;
        return true;
    }
};

bool read_constant(std::string_view text, Value &value) {
    bool negative = text[0] == '-';
    if (negative || text[0] == '+') text.remove_prefix(1);
    value = {Kind::Number, 0};
    for (char c : text) {
        int digit = negative ? '0' - c : c - '0';
        if (!isdigit(c) || __builtin_mul_overflow(value.number, 10, &value.number) || __builtin_add_overflow(value.number, digit, &value.number)) return false;
    }
    return !text.empty();
}

bool read_content(std::string_view text, const Sheet &sheet, Content &content) {
    if (text.size() > 120) return false;
    if (text.empty()) return true;
    if (text.substr(0, 4) == "of:=") text.remove_prefix(3);
    if (text[0] != '=') return read_constant(text, content.constant);
    text.remove_prefix(text.substr(0, 2) == "==" ? 2 : 1);
    content.formula = Parser(text, sheet).formula();
    return content.formula != nullptr;
}

// ---- values

Value in_range(__int128 number) {
    if (number < INT64_MIN || number > INT64_MAX) return {Kind::Num};
    return {Kind::Number, int64_t(number)};
}

struct Tally {
    __int128 sum = 0;
    int64_t least = INT64_MAX, greatest = INT64_MIN;
    int64_t count = 0, zeros = 0;
    Kind error = Kind::Blank;

    void add(Value value) {
        if (value.kind == Kind::Number) {
            sum += value.number;
            least = std::min(least, value.number);
            greatest = std::max(greatest, value.number);
            count++;
            zeros += value.number == 0;
        } else if (value.kind != Kind::Blank && error == Kind::Blank) {
            error = value.kind;
        }
    }
};

class Evaluation {
  public:
    explicit Evaluation(const Sheet &sheet) : sheet(sheet), values(sheet.contents.size()), states(sheet.contents.size()) {
        for (size_t cell = 0; cell < values.size(); cell++) visit(cell);
    }

    const std::vector<Value> &all() const { return values; }

  private:
    enum class State : uint8_t { New, Open, Done };
    const Sheet &sheet;
    std::vector<Value> values;
    std::vector<State> states;

    // evaluates the cell after all that it refers to
    void visit(size_t cell) {
        if (states[cell] != State::New) return;
        states[cell] = State::Open;
        auto &content = sheet.contents[cell];
        if (!content.formula)
            values[cell] = content.constant;
        else if (visit_all(*content.formula))
            values[cell] = {Kind::Circular};
        else
            values[cell] = evaluate(*content.formula);
        states[cell] = State::Done;
    }

    // visits what the formula refers to, up to the first cell that leads round and round; whether there is one
    bool visit_all(const Tree &tree) {
        if (tree.form == Form::Reference || tree.form == Form::Range) {
            for (int row = tree.area.top; row <= tree.area.bottom; row++)
                for (int column = tree.area.left; column <= tree.area.right; column++) {
                    size_t cell = size_t(row) * sheet.columns + column;
                    visit(cell);
                    if (states[cell] == State::Open || values[cell].kind == Kind::Circular) return true;
                }
        }
        for (auto &part : tree.parts)
            if (visit_all(*part)) return true;
        return false;
    }

    Value at(int column, int row) const { return values[size_t(row) * sheet.columns + column]; }

    Value evaluate(const Tree &tree) const {
        switch (tree.form) {
        case Form::Number:
            return {Kind::Number, tree.number};
        case Form::Reference: {
            Value value = at(tree.area.left, tree.area.top);
            return value.kind == Kind::Blank ? Value{Kind::Number, 0} : value;
        }
        case Form::Range:
            return {Kind::Num};
        case Form::Prefix: {
            Value value = evaluate(*tree.parts[0]);
            return value.kind == Kind::Number && tree.operation == "-" ? in_range(-__int128(value.number)) : value;
        }
        case Form::Binary:
            return join(tree.operation, evaluate(*tree.parts[0]), evaluate(*tree.parts[1]));
        case Form::Call:
            return call(tree);
        }
        return {};
    }

    static Value join(std::string_view operation, Value left, Value right) {
        if (left.kind != Kind::Number) return left;
        if (right.kind != Kind::Number) return right;
        __int128 a = left.number, b = right.number;
        switch (operation[0]) {
        case '+': return in_range(a + b);
        case '-': return in_range(a - b);
        case '*': return in_range(a * b);
        case '=': return {Kind::Number, a == b};
        case '<': return {Kind::Number, operation == "<" ? a < b : operation == "<=" ? a <= b : a != b};
        default: return {Kind::Number, operation == ">" ? a > b : a >= b};
        }
    }

    Tally tally(const Tree &tree) const {
        Tally all;
        bool skips = tree.function == Function::Count; // errors of cells
        for (auto &part : tree.parts) {
            if (part->form != Form::Reference && part->form != Form::Range) {
                all.add(evaluate(*part));
                continue;
            }
            for (int row = part->area.top; row <= part->area.bottom; row++)
                for (int column = part->area.left; column <= part->area.right; column++) {
                    Value value = at(column, row);
                    if (!skips || value.kind == Kind::Number || value.kind == Kind::Circular) all.add(value);
                }
        }
        return all;
    }

    Value call(const Tree &tree) const {
        if (tree.function <= Function::Or) {
            Tally all = tally(tree);
            if (all.error != Kind::Blank) return {all.error};
            switch (tree.function) {
            case Function::Sum: return in_range(all.sum);
            case Function::Count: return {Kind::Number, all.count};
            case Function::And: return {Kind::Number, all.zeros == 0};
            case Function::Or: return {Kind::Number, all.zeros < all.count};
            default: return {Kind::Number, all.count == 0 ? 0 : tree.function == Function::Min ? all.least : all.greatest};
            }
        }
        Value first = evaluate(*tree.parts[0]);
        if (first.kind != Kind::Number) return first;
        if (tree.function == Function::Not) return {Kind::Number, first.number == 0};
        if (tree.function == Function::Abs) return in_range(first.number < 0 ? -__int128(first.number) : first.number);
        if (tree.function == Function::If) {
            if (first.number != 0) return evaluate(*tree.parts[1]);
            return tree.parts.size() == 3 ? evaluate(*tree.parts[2]) : Value{Kind::Number, 0};
        }
        Value second = evaluate(*tree.parts[1]);
        if (second.kind != Kind::Number) return second;
        if (second.number == 0) return {Kind::DivZero};
        __int128 a = first.number, b = second.number;
        if (tree.function == Function::Quotient) return in_range(a / b);
        __int128 rest = a % b;
        return in_range(rest != 0 && (rest < 0) != (b < 0) ? rest + b : rest);
    }
};

// ---- grids

// The texts of a grid, row by row: fields parted by commas, in quotes where they have some; empty lines are skipped.
class Grid {
  public:
    explicit Grid(std::string_view csv) : rest(csv) {
        while (!rest.empty()) {
            if (rest.front() == '\n') {
                rest.remove_prefix(1);
                continue;
            }
            rows.emplace_back();
            do rows.back().push_back(field());
            while (take(','));
            take('\n');
        }
    }

    Sheet sheet() const {
        Sheet sheet;
        sheet.rows = int(rows.size());
        sheet.columns = 0;
        for (auto &row : rows) sheet.columns = std::max(sheet.columns, int(row.size()));
        sheet.contents = std::vector<Content>(size_t(sheet.columns) * sheet.rows);
        return sheet;
    }

    // gives each text's content to its cell; whether all texts have one
    bool fill(Sheet &sheet) const {
        for (size_t row = 0; row < rows.size(); row++)
            for (size_t column = 0; column < rows[row].size(); column++)
                if (!read_content(rows[row][column], sheet, sheet.contents[row * sheet.columns + column])) return false;
        return true;
    }

  private:
    std::string_view rest;
    std::vector<std::vector<std::string>> rows;

    bool take(char c) {
        if (rest.empty() || rest.front() != c) return false;
        rest.remove_prefix(1);
        return true;
    }

    std::string field() {
        std::string text;
        if (!take('"')) {
            size_t size = std::min(rest.find_first_of(",\n"), rest.size());
            text = rest.substr(0, size);
            rest.remove_prefix(size);
            return text;
        }
        for (; !rest.empty(); rest.remove_prefix(1)) {
            if (take('"') && (rest.empty() || rest.front() != '"')) break;
            text += rest.front();
        }
        return text;
    }
};

std::string values_of(const Sheet &sheet) {
    Evaluation evaluation(sheet);
    std::string output;
    for (size_t cell = 0; cell < sheet.contents.size(); cell++) {
        Value value = evaluation.all()[cell];
        switch (value.kind) {
        case Kind::Blank: output += sheet.columns == 1 ? "\"\"" : ""; break;
        case Kind::Number: output += std::to_string(value.number); break;
        case Kind::DivZero: output += "#DIV/0!"; break;
        case Kind::Num: output += "#NUM!"; break;
        case Kind::Circular: output += "Err:522"; break;
        }
        output += (cell + 1) % sheet.columns == 0 ? '\n' : ',';
    }
    return output;
}

} // namespace

int main() {
    std::string csv;
    char buffer[1 << 16];
    while (size_t count = fread(buffer, 1, sizeof buffer, stdin)) csv.append(buffer, count);
    Grid grid(csv);
    Sheet sheet = grid.sheet();
    if (!grid.fill(sheet)) return 1;
    std::string output = values_of(sheet);
    return fwrite(output.data(), 1, output.size(), stdout) == output.size() ? 0 : 3;
}
