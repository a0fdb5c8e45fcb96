// Clients of `dsheet serve`, each in a thread with a connection of its own: what bench/sessions.sh measures.
//
// clients PORT CLIENTS EDITS: each joins the process of its number, and when all have joined, makes EDITS edits, each
// sent when the one before is answered. It prints the microseconds from then to the last answer, by the edit.
#include <arpa/inet.h>
#include <netinet/tcp.h>
#include <sys/socket.h>
#include <unistd.h>

#include <atomic>
#include <chrono>
#include <cstdio>
#include <cstdlib>
#include <string>
#include <thread>
#include <vector>

namespace {

// A connection to the server, which may not listen yet.
int connected(int port) {
    sockaddr_in at{};
    at.sin_family = AF_INET;
    at.sin_port = htons(uint16_t(port));
    inet_pton(AF_INET, "127.0.0.1", &at.sin_addr);
    for (int turn = 0; turn < 5000; turn++) {
        int socket_ = socket(AF_INET, SOCK_STREAM, 0), on = 1;
        if (connect(socket_, reinterpret_cast<sockaddr *>(&at), sizeof at) == 0) {
            setsockopt(socket_, IPPROTO_TCP, TCP_NODELAY, &on, sizeof on);
            return socket_;
        }
        close(socket_);
        usleep(1000);
    }
    fprintf(stderr, "clients: no server at port %d\n", port);
    exit(1);
}

// The answer to a line.
std::string ask(int socket_, const std::string &line) {
    if (write(socket_, line.data(), line.size()) != ssize_t(line.size())) exit(1);
    std::string answer;
    char buffer[512];
    while (answer.empty() || answer.back() != '\n') {
        ssize_t count = read(socket_, buffer, sizeof buffer);
        if (count <= 0) exit(1);
        answer.append(buffer, size_t(count));
    }
    return answer;
}

} // namespace

int main(int count, char **words) {
    if (count != 4) return 2;
    int port = atoi(words[1]), clients = atoi(words[2]), edits = atoi(words[3]);
    std::atomic<int> joined{0}, wrong{0};
    std::atomic<bool> begun{false};
    std::vector<std::thread> threads;
    for (int process = 0; process < clients; process++)
        threads.emplace_back([&, process] {
            int socket_ = connected(port);
            ask(socket_, "{\"op\":\"join\",\"process\":" + std::to_string(process) + "}\n");
            joined++;
            while (!begun) std::this_thread::yield();
            for (int edit = 0; edit < edits; edit++) {
                std::string text = edit % 2 ? "=[.A1]+[.B1]+1" : "=[.A1]+[.B1]";
                std::string cell = std::string(1, char('A' + process)) + "2";
                std::string answer = ask(socket_, "{\"op\":\"set\",\"cell\":\"" + cell + "\",\"text\":\"" + text + "\"}\n");
                if (answer.find("\"done\"") == std::string::npos) wrong++;
            }
            close(socket_);
        });
    while (joined < clients) usleep(100);
    auto start = std::chrono::steady_clock::now();
    begun = true;
    for (auto &thread : threads) thread.join();
    double passed = std::chrono::duration<double, std::micro>(std::chrono::steady_clock::now() - start).count();
    if (wrong) return fprintf(stderr, "clients: %d edits were not done\n", wrong.load()), 1;
    printf("%.3f\n", passed / (clients * edits));
    return 0;
}
