// A plain server of the same edits: what bench/store.sh measures `dsheet serve --store` beside. Nothing is proved, and
// nothing is recalculated.
//
// plain_store FILE SESSIONS: prints its port, serves this number of sessions, each in a thread, and ends. An edit takes its turn
// by a lock, and its line goes to a keeper, which commits all that have come at once, with one line more for a sum, by SQLite in
// WAL mode with full synchronization; then the edit is answered.
#include <arpa/inet.h>
#include <netinet/tcp.h>
#include <sqlite3.h>
#include <sys/socket.h>
#include <unistd.h>

#include <condition_variable>
#include <cstdio>
#include <cstdlib>
#include <cstring>
#include <mutex>
#include <string>
#include <thread>
#include <vector>

namespace {

std::mutex turn;
std::condition_variable news, done;
std::vector<std::string> backlog;
unsigned long heard = 0, kept = 0;
bool over = false;

void must(int status, sqlite3 *database) {
    if (status == SQLITE_OK || status == SQLITE_DONE) return;
    fprintf(stderr, "plain_store: %s\n", sqlite3_errmsg(database));
    exit(3);
}

void keep(const char *path) {
    sqlite3 *database;
    must(sqlite3_open(path, &database), database);
    for (const char *words : {"PRAGMA journal_mode = WAL", "PRAGMA synchronous = FULL",
                              "CREATE TABLE journal (number INTEGER PRIMARY KEY, line TEXT NOT NULL)"})
        must(sqlite3_exec(database, words, nullptr, nullptr, nullptr), database);
    sqlite3_stmt *insert;
    must(sqlite3_prepare_v2(database, "INSERT INTO journal (line) VALUES (?1)", -1, &insert, nullptr), database);
    auto add = [&](const std::string &line) {
        sqlite3_bind_text(insert, 1, line.data(), int(line.size()), SQLITE_STATIC);
        must(sqlite3_step(insert), database);
        sqlite3_reset(insert);
    };
    std::unique_lock<std::mutex> held(turn);
    for (;;) {
        news.wait(held, [] { return over || !backlog.empty(); });
        if (backlog.empty()) break;
        std::vector<std::string> lines;
        lines.swap(backlog);
        held.unlock();
        must(sqlite3_exec(database, "BEGIN IMMEDIATE", nullptr, nullptr, nullptr), database);
        for (const std::string &line : lines) add(line);
        add("# sum " + std::string(64, '0'));
        must(sqlite3_exec(database, "COMMIT", nullptr, nullptr, nullptr), database);
        held.lock();
        kept += lines.size();
        done.notify_all();
    }
    sqlite3_finalize(insert);
    sqlite3_close(database);
}

// The text of a field of a line of JSON whose texts have no escapes.
std::string field(const std::string &line, const char *name) {
    size_t at = line.find("\"" + std::string(name) + "\":\"");
    if (at == std::string::npos) return "";
    at += strlen(name) + 4;
    return line.substr(at, line.find('"', at) - at);
}

void answer(int link, const std::string &text) {
    if (write(link, text.data(), text.size()) != ssize_t(text.size())) exit(3);
}

void serve(int link, int session) {
    int on = 1, number = 0;
    setsockopt(link, IPPROTO_TCP, TCP_NODELAY, &on, sizeof on);
    std::string read_;
    char buffer[4096];
    for (;;) {
        size_t end;
        while ((end = read_.find('\n')) != std::string::npos) {
            std::string line = read_.substr(0, end);
            read_.erase(0, end + 1);
            if (field(line, "op") != "set") {
                answer(link, "{\"last\":null,\"ok\":\"join\",\"process\":0}\n");
                continue;
            }
            std::unique_lock<std::mutex> held(turn);
            backlog.push_back("set " + std::to_string(session) + " " + field(line, "cell") + " " + field(line, "text"));
            unsigned long mine = ++heard;
            news.notify_one();
            done.wait(held, [&] { return kept >= mine; });
            held.unlock();
            answer(link, "{\"number\":" + std::to_string(number++) + ",\"ok\":\"done\"}\n");
        }
        ssize_t count = read(link, buffer, sizeof buffer);
        if (count <= 0) break;
        read_.append(buffer, size_t(count));
    }
    close(link);
}

} // namespace

int main(int count, char **words) {
    if (count != 3) return 2;
    int listener = socket(AF_INET, SOCK_STREAM, 0);
    sockaddr_in at{};
    socklen_t size = sizeof at;
    at.sin_family = AF_INET;
    inet_pton(AF_INET, "127.0.0.1", &at.sin_addr);
    if (bind(listener, reinterpret_cast<sockaddr *>(&at), sizeof at) || listen(listener, 64)) return 3;
    getsockname(listener, reinterpret_cast<sockaddr *>(&at), &size);
    fprintf(stderr, "plain_store: listening on 127.0.0.1:%d\n", ntohs(at.sin_port));
    std::thread keeper(keep, words[1]);
    std::vector<std::thread> sessions;
    for (int session = 0; session < atoi(words[2]); session++)
        sessions.emplace_back(serve, accept(listener, nullptr, nullptr), session);
    for (std::thread &session : sessions) session.join();
    {
        std::lock_guard<std::mutex> held(turn);
        over = true;
    }
    news.notify_one();
    keeper.join();
}
