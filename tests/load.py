#!/usr/bin/env python3
"""Loads the program as a server: many clients one after another, many at once, many that are killed in mid-line, some
after them, and stubborn ones beside its end. Its threads and descriptors before that have to be those of its start, and
its memory, but for 1 MB (16 of an unproved program, whose checks keep some: --quick). The last line counts the rows.
    tests/load.py [--quick] PROGRAM
"""
import os
import re
import resource
import socket
import struct
import subprocess
import sys
import threading
import time
import traceback

AT_ONCE, CLIENTS, CROWD, KILLED = 16, 2000, 200, 100
# The status of a program whose libraries the system could not load.
NOT_LOADED = 127
# About as many descriptors as a server has with one client, so that there is none for a second.
DESCRIPTORS = range(6, 9)
JOIN, BUSY = '{"op":"join","process":%d}', '{"code":16,"error":"busy"}'
passed = 0


def pass_row(what):
    """A row is as it has to be."""
    global passed
    passed += 1
    print(f"load: {what} ... ok", flush=True)


class Server:
    """The program as a server."""

    def __init__(self, program):
        words = ["serve", "--listen", "127.0.0.1:0", "--forever", "--at-once", str(AT_ONCE), "--processes", "8", "--workers", "1"]
        pipes = {"stdin": subprocess.PIPE, "stderr": subprocess.PIPE, "text": True, "bufsize": 1}
        self.process = subprocess.Popen([program, *words], **pipes)
        said = self.process.stderr.readline()
        self.port = int(re.fullmatch(r"dsheet: listening on 127\.0\.0\.1:(\d+)\n", said)[1])

    def connect(self):
        return socket.create_connection(("127.0.0.1", self.port), timeout=20)

    def talk(self, lines):
        """What a client is answered that says these lines and ends."""
        answers = b""
        with self.connect() as client:
            try:
                client.sendall("".join(line + "\n" for line in lines).encode())
                client.shutdown(socket.SHUT_WR)
            except OSError:
                pass
            try:
                while more := client.recv(65536):
                    answers += more
            except ConnectionResetError:
                pass
        return answers.decode().splitlines()

    def state(self):
        """Threads, descriptors, and kilobytes of memory of the server."""
        with open(f"/proc/{self.process.pid}/status", encoding="utf-8") as it:
            status = it.read()
        threads, memory = (int(re.search(rf"^{name}:\s+(\d+)", status, re.M)[1]) for name in ("Threads", "VmRSS"))
        return threads, len(os.listdir(f"/proc/{self.process.pid}/fd")), memory

    def settled(self, begun):
        """The same, when no session is left, which takes a moment. Clients are accepted in their order: after one that
        says nothing and was taken, no earlier one is waiting."""
        self.talk([])
        for _ in range(400):
            if self.state()[:2] == begun[:2]:
                break
            time.sleep(0.05)
        return self.state()


def wave(server, what):
    """A client of each process but the worker's."""
    for process in range(7):
        answers = server.talk([JOIN % process, '{"op":"report"}'])
        assert len(answers) == 2 and '"ok":"join"' in answers[0] and '"ok":"settled"' in answers[1], (what, answers)
    pass_row(what)


def crowd(server):
    """Many clients at once: as many as --at-once are served, and the others answered that the server is busy."""
    clients = [server.connect() for _ in range(CROWD)]
    busy, held = 0, []
    for client in clients:
        client.settimeout(0.05 if busy == 0 else 20)
        try:
            line = client.recv(100).decode().strip()
            assert line == BUSY, line
            busy += 1
        except TimeoutError:
            held.append(client)
    while len(held) > AT_ONCE:
        for client in list(held):
            client.settimeout(1)
            try:
                assert client.recv(100).decode().strip() == BUSY
                busy += 1
                held.remove(client)
            except TimeoutError:
                pass
    assert busy == CROWD - AT_ONCE, busy
    for client in clients:
        client.close()


def kill_clients(server, begun):
    """Clients that are gone in mid-line."""
    for number in range(KILLED):
        client = server.connect()
        client.sendall(b'{"op":"jo')
        client.setsockopt(socket.SOL_SOCKET, socket.SO_LINGER, struct.pack("ii", 1, 0))
        client.close()
        if number % AT_ONCE == AT_ONCE - 1:
            server.settled(begun)


def trickle(server):
    """A client that is sent away, and goes on."""
    try:
        with server.connect() as client:
            client.sendall(b"GET / HTTP/1.0\r\n")
            for _ in range(100):
                time.sleep(0.4)
                client.sendall(b"x")
    except OSError:
        pass


def sip(server):
    """A client that asks for much at once, and takes a little of it at a time."""
    try:
        with socket.socket() as client:
            client.setsockopt(socket.SOL_SOCKET, socket.SO_RCVBUF, 2048)
            client.connect(("127.0.0.1", server.port))
            client.sendall((JOIN % 0 + "\n" + '{"op":"report"}\n' * 4000).encode())
            for _ in range(200):
                client.recv(1500)
                time.sleep(0.3)
    except OSError:
        pass


def load(server, kilobytes):
    """All rows; the first that is not as it has to be is an AssertionError."""
    wave(server, "a first wave")
    time.sleep(0.3)
    begun = server.state()
    for number in range(CLIENTS):
        answers = server.talk([JOIN % (number % 7), '{"op":"last"}'])
        assert len(answers) == 2 and '"ok":"last"' in answers[1], (number, answers)
    pass_row(f"{CLIENTS} clients one after another")
    crowd(server)
    server.settled(begun)
    pass_row(f"{CROWD} clients at once, {AT_ONCE} of them served")
    kill_clients(server, begun)
    server.settled(begun)
    pass_row(f"{KILLED} clients killed in mid-line")
    wave(server, "a wave after them")
    ended = server.settled(begun)
    assert ended[:2] == begun[:2], f"threads and descriptors: wanted {begun[:2]}, came {ended[:2]}"
    assert ended[2] <= begun[2] + kilobytes, f"memory: wanted {begun[2]} kB and {kilobytes} at most, came {ended[2]} kB"
    pass_row(f"{ended[0]} threads and {ended[1]} descriptors, as at first; memory too")
    stubborn = [threading.Thread(target=it, args=(server,), daemon=True) for it in (trickle, sip)]
    for client in stubborn:
        client.start()
    time.sleep(1)
    asked = time.monotonic()
    server.process.stdin.write("stop\n")
    server.process.stdin.close()
    status = server.process.wait(timeout=60)
    took = time.monotonic() - asked
    assert status == 0, f"its end: wanted status 0, came {status}"
    assert took < 5, f"its end took {took:.1f} s beside stubborn clients"
    pass_row("its end within five seconds, beside clients that say and take a little, again and again")


def check_threads(program):
    """A server with too little room for a thread ends by itself, or at least when it is asked to stop. With less room still
    the system cannot load it."""
    ends = {}
    for kilobytes in range(6000, 20000, 1000):
        bound = (kilobytes * 1024,) * 2
        words = [program, "serve", "--listen", "127.0.0.1:0", "--forever"]
        pipes = {"stdin": subprocess.PIPE, "stderr": subprocess.DEVNULL, "text": True}
        server = subprocess.Popen(words, preexec_fn=lambda: resource.setrlimit(resource.RLIMIT_AS, bound), **pipes)
        try:
            server.wait(timeout=0.5)
            server.stdin.close()
        except subprocess.TimeoutExpired:
            server.communicate("stop\n", timeout=10)
        ends[kilobytes] = server.returncode
    ends = {kilobytes: status for kilobytes, status in ends.items() if status != NOT_LOADED}
    assert set(ends.values()) <= {0, 3, 4}, f"a server with little room: {ends}"
    assert 4 in ends.values() and 0 in ends.values(), f"a server with little room: {ends}"
    pass_row("with no room for a thread it ends")


def short_lines(program, descriptors):
    """How often the log of a server with this many descriptors says that there are too few for connections; nothing where it
    cannot listen with them."""
    words = [program, "serve", "--listen", "127.0.0.1:0", "--forever", "--log", "warn"]
    pipes = {"stdin": subprocess.PIPE, "stderr": subprocess.PIPE, "text": True}
    bound = (descriptors, descriptors)
    server = subprocess.Popen(words, preexec_fn=lambda: resource.setrlimit(resource.RLIMIT_NOFILE, bound), **pipes)
    listening = next((line for line in iter(server.stderr.readline, "") if "listening on" in line), None)
    if listening is None:
        server.communicate(timeout=20)
        return None
    port = int(listening.rsplit(":", 1)[1])
    for _ in range(8):
        clients = [socket.create_connection(("127.0.0.1", port), timeout=20) for _ in range(12)]
        time.sleep(0.3)
        for client in clients:
            client.close()
    _out, log = server.communicate("stop\n", timeout=20)
    assert server.returncode == 0, server.returncode
    return log.count("Too many open files")


def check_shortage(program):
    """Connections beyond the descriptors that a server may have: the log has that once, not each time."""
    counts = {descriptors: short_lines(program, descriptors) for descriptors in DESCRIPTORS}
    assert max(it for it in counts.values() if it is not None) == 1, f"lines by descriptors: {counts}"
    pass_row("a shortage of descriptors is one line in the log")


def main(*words):
    server, failed = Server(os.path.realpath(words[-1])), 0
    try:
        load(server, 16384 if words[0] == "--quick" else 1024)
        if words[0] != "--quick":
            check_threads(os.path.realpath(words[-1]))
            check_shortage(os.path.realpath(words[-1]))
    except (AssertionError, OSError, subprocess.TimeoutExpired) as wrong:
        own = [it for it in traceback.extract_tb(wrong.__traceback__) if it.filename.endswith("load.py")]
        print(f"tests/load.py:{own[-1].lineno}: {wrong!r}", file=sys.stderr)
        failed = 1
    finally:
        if server.process.poll() is None:
            server.process.kill()
    print(f"load: {passed} passed, {failed} failed")
    return failed


if __name__ == "__main__":
    sys.exit(main(*sys.argv[1:]))
