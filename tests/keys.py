#!/usr/bin/env python3
"""Tries edits with keys: clients over HTTP and over sessions cut their connections at drawn moments and send the same edit again,
by its key, until it is answered, while the server is killed (-9) and started again; then some send one edit at the same moment.
Each edit has to count exactly once: the
processes have made as many edits as the clients, an edit that is sent again after its answer is answered alike, and each cell has
the last text of its client. Then what keys are refused, and that one of which a client was answered that no edit has it stays so.
The last line counts the rows, each cut one of them.
    tests/keys.py [--quick] PROGRAM [CUTS [KILLS [SEED]]]       400 cuts and 20 kills by a drawn seed, where no numbers are given
                                                                (60 and 3 of an unproved program, by --quick)
"""
import json
import os
import random
import re
import signal
import socket
import subprocess
import sys
import tempfile
import threading
import time
import traceback

COLUMNS, ROWS, PROCESSES = 4, 8, 4
SHAPE = ["--columns", str(COLUMNS), "--rows", str(ROWS), "--processes", str(PROCESSES)]
NUMBERS, QUICK = ("400", "20"), ("60", "3")
# How many clients edit at once: the last one over sessions, the others over HTTP.
CLIENTS = 6
# For how many seconds an edit is sent again, and an answer is waited for: an unproved program takes long for a new sheet.
PATIENCE, WAIT = 300, 120
# How many edits one process makes after all that, so that the server goes over to new sheets; and with an unproved program.
MANY, MANY_QUICK = 600, 260
passed = 0


class Failed(Exception):
    """Something is not as it has to be."""


class Cut(ConnectionError):
    """A connection was cut, as was wanted."""


def row(what, got, wanted, count=1):
    """Rows are as they have to be."""
    global passed
    if got != wanted:
        raise Failed(f"{what}: {got!r}, and not {wanted!r}")
    passed += count
    print(f"keys: {what} ... ok", flush=True)


class Server:
    """The program as a server with a store, over all its lives."""

    def __init__(self, program, store):
        self.words = [program, "serve", "--listen", "127.0.0.1:0", "--http", "127.0.0.1:0", "--forever", *SHAPE, "--store", store]
        self.process, self.lines, self.port = None, None, None
        self.start()

    def start(self):
        pipes = {"stdin": subprocess.PIPE, "stderr": subprocess.PIPE, "text": True}
        self.process = subprocess.Popen(self.words, **pipes)
        lines = port = None
        said = []
        while lines is None or port is None:
            line = self.process.stderr.readline()
            said.append(line)
            if not line:
                raise Failed(f"the server does not listen: {said}")
            if found := re.fullmatch(r"dsheet: listening on 127\.0\.0\.1:(\d+)\n", line):
                lines = int(found[1])
            if found := re.fullmatch(r"dsheet: HTTP on 127\.0\.0\.1:(\d+)\n", line):
                port = int(found[1])
        threading.Thread(target=self.process.stderr.read, daemon=True).start()
        self.lines, self.port = lines, port

    def kill(self):
        """Kills it, and starts it again."""
        self.process.send_signal(signal.SIGKILL)
        self.process.wait(timeout=60)
        self.start()

    def expect_alive(self):
        """It is there, where nobody has killed it."""
        if self.process.poll() is not None:
            raise Failed(f"the server has ended by itself, with status {self.process.returncode}")

    def stop(self):
        self.process.stdin.write("stop\n")
        self.process.stdin.close()
        return self.process.wait(timeout=60)


def answer_of(link):
    """The status and the body of an answer of HTTP."""
    got = b""
    while b"\r\n\r\n" not in got:
        more = link.recv(65536)
        if not more:
            raise ConnectionError
        got += more
    head, body = got.split(b"\r\n\r\n", 1)
    length = int(re.search(rb"content-length: (\d+)", head)[1])
    while len(body) < length:
        more = link.recv(65536)
        if not more:
            raise ConnectionError
        body += more
    return int(head.split()[1]), json.loads(body)


def ask(server, method, path, body="", cut=None, **fields):
    """The answer to a request over a connection of its own, which is cut after this many bytes, if it is."""
    lines = [f"{method} {path} HTTP/1.1", f"host: 127.0.0.1:{server.port}", f"content-length: {len(body)}", "connection: close"]
    lines += [f"{name.replace('_', '-')}: {value}" for name, value in fields.items()]
    request = ("\r\n".join(lines) + "\r\n\r\n" + body).encode()
    with socket.create_connection(("127.0.0.1", server.port), timeout=WAIT) as link:
        if cut is not None:
            link.sendall(request[:cut])
            if cut >= len(request):
                time.sleep(random.uniform(0, 0.003))
            raise Cut
        link.sendall(request)
        return answer_of(link)


def call(stream, **fields):
    """The answer to a line of a session."""
    stream.write(json.dumps(fields) + "\n")
    stream.flush()
    line = stream.readline()
    if not line.endswith("\n"):
        raise ConnectionError
    return json.loads(line)


class Client:
    """A client with a cell of its own, which it sets to 0, 1, 2 .., each edit by a key."""

    def __init__(self, number, seed):
        self.number, self.draw = number, random.Random(f"{seed}-{number}")
        self.cell = f"{chr(65 + number % COLUMNS)}{number // COLUMNS + 1}"
        self.seed, self.made, self.cuts, self.wrong = seed, 0, 0, None

    def post(self, server, text, key, is_cut):
        """The number of an edit over HTTP; nothing where it was not answered."""
        body = json.dumps({"cell": self.cell, "text": text})
        cut = self.draw.choice([self.draw.randrange(300), 10**6]) if is_cut else None
        status, said = ask(server, "POST", "/edits", body, cut, idempotency_key=key)
        if status == 503:
            return None
        if status != 200 or said.get("ok") != "done":
            raise Failed(f"{key}: {status} {said}")
        return said["number"]

    def line(self, server, text, key, is_cut):
        """The same over a session."""
        with socket.create_connection(("127.0.0.1", server.lines), timeout=WAIT) as link:
            stream = link.makefile("rw")
            joined = call(stream, op="join", process="any")
            if joined.get("code") == 4:
                return None
            if is_cut:
                stream.write(json.dumps({"op": "set", "cell": self.cell, "text": text, "key": key}) + "\n" * self.draw.randrange(2))
                stream.flush()
                raise Cut
            said = call(stream, op="set", cell=self.cell, text=text, key=key)
            if said.get("ok") != "done":
                raise Failed(f"{key}: {said}")
            return said["number"]

    def edit(self, server, text, key, may_cut):
        """Sends an edit until it is answered: its number."""
        until = time.monotonic() + PATIENCE
        while time.monotonic() < until:
            is_cut = may_cut and self.draw.random() < 0.5
            try:
                send = self.line if self.number == CLIENTS - 1 else self.post
                number = send(server, text, key, is_cut)
                if number is not None:
                    return number
                time.sleep(0.005)
            except Cut:
                self.cuts += 1
            except (OSError, ConnectionError, json.JSONDecodeError, TypeError):
                time.sleep(0.005)
        raise Failed(f"{key}: no answer in {PATIENCE} seconds")

    def life(self, server, is_over):
        """Edits until it is over."""
        try:
            while not is_over.is_set():
                key, text = f"{self.seed}-{self.number}-{self.made}", str(self.made)
                number = self.edit(server, text, key, True)
                if self.draw.random() < 0.2 and self.edit(server, text, key, False) != number:
                    raise Failed(f"{key}: answered by another number when it was sent again")
                self.made += 1
        except Failed as wrong:
            self.wrong = wrong


def check_clients(server, clients, cuts, kills, draw):
    """The clients edit while the server is killed, until their connections were cut often enough."""
    is_over = threading.Event()
    threads = [threading.Thread(target=client.life, args=(server, is_over), daemon=True) for client in clients]
    for thread in threads:
        thread.start()
    killed = 0
    while (sum(client.cuts for client in clients) < cuts or killed < kills) and not any(client.wrong for client in clients):
        time.sleep(draw.uniform(0.2, 1.5))
        server.expect_alive()
        if killed < kills:
            server.kill()
            killed += 1
    is_over.set()
    while any(thread.is_alive() for thread in threads):
        server.expect_alive()
        time.sleep(0.05)
    for client in clients:
        if client.wrong:
            raise client.wrong


def made(program, store):
    """How many edits count of those that the processes of a store have made, over all its sheets."""
    ran = subprocess.run([program, "check", store], capture_output=True, text=True, check=True)
    return int(re.search(r"(?m)^(\d+) edits count", ran.stdout)[1]), ran.stdout


def check_refusals(server):
    """What keys are refused, and what became of edits."""
    body = json.dumps({"cell": "D8", "text": "7"})
    status, said = ask(server, "POST", "/edits", body, idempotency_key="first")
    row("an edit with a key", (status, said["ok"]), (200, "done"))
    row("the same again", ask(server, "POST", "/edits", body, idempotency_key="first"), (200, said))
    edit = {"cell": "D8", "number": said["number"], "process": PROCESSES - 1, "text": "7"}
    row("its outcome", ask(server, "GET", "/edits/first"), (200, {"edit": edit, "ok": "outcome", "outcome": "done"}))
    reused = (422, {"code": 21, "error": "key-reused"})
    row("another text by its key", ask(server, "POST", "/edits", body.replace("7", "8"), idempotency_key="first"), reused)
    row("another cell by its key", ask(server, "POST", "/edits", body.replace("D8", "C8"), idempotency_key="first"), reused)
    never = (200, {"edit": None, "ok": "outcome", "outcome": "never"})
    row("the outcome of a key that nobody used", ask(server, "GET", "/edits/second"), never)
    row("an edit by that key", ask(server, "POST", "/edits", body, idempotency_key="second"), reused)
    row("a key with a blank", ask(server, "POST", "/edits", body, idempotency_key="a b")[0], 400)
    row("a key of 64 characters", ask(server, "POST", "/edits", body, idempotency_key="k" * 64)[0], 200)
    row("a key of 65 characters", ask(server, "POST", "/edits", body, idempotency_key="k" * 65)[0], 400)
    server.kill()
    row("the first key after a kill", ask(server, "POST", "/edits", body, idempotency_key="first"), (200, said))
    row("the other one", ask(server, "GET", "/edits/second"), never)
    with socket.create_connection(("127.0.0.1", server.lines), timeout=WAIT) as link:
        stream = link.makefile("rw")
        call(stream, op="join", process=0)
        row("a key of HTTP over a session", call(stream, op="outcome", key="first")["edit"], edit)
        row("an edit by it", call(stream, op="set", cell="D8", text="7", key="first"), said)
        row("a key that is none", call(stream, op="set", cell="D8", text="7", key="")["code"], 3)
    return 2


def edits_of_cell(server, cell):
    """The edits of a cell in the newest sheet's list."""
    found, place, of = [], 0, 1
    while place < of:
        part = ask(server, "GET", f"/edits?from={place}")[1]
        found += [edit for edit in part["edits"] if edit["cell"] == cell]
        place, of = place + max(1, len(part["edits"])), part["of"]
    return found


def check_going_over(server, many, draw):
    """Keys are known still when the server has gone over to a new sheet."""
    first = ask(server, "POST", "/edits", json.dumps({"cell": "C8", "text": "1"}), idempotency_key="before")
    with socket.create_connection(("127.0.0.1", server.lines), timeout=WAIT) as link:
        stream = link.makefile("rw")
        call(stream, op="join", process=0)
        for number in range(many):
            said = call(stream, op="set", cell="B8", text=str(number), key=f"many-{number}")
            if said.get("ok") != "done":
                raise Failed(f"edit {number}: {said}")
        again = draw.randrange(many)
        said = call(stream, op="outcome", key=f"many-{again}")
        row("a key of a sheet before", said["edit"]["text"], str(again))
        told = call(stream, op="set", cell="B8", text=str(again), key=f"many-{again}")
        row("its edit is not made again", told["number"], said["edit"]["number"])
    server.kill()
    row("and after a kill", ask(server, "POST", "/edits", json.dumps({"cell": "C8", "text": "1"}), idempotency_key="before"), first)
    return many + 1


def race(server, key, body, together, said):
    """Sends an edit when all are ready to, until it is answered."""
    together.wait(timeout=WAIT)
    try:
        while True:
            status, answer = ask(server, "POST", "/edits", body, idempotency_key=key)
            if status != 503:
                break
        said.append((status, answer))
    except OSError as error:
        said.append(error)


def keep_busy(server, cell, is_over, done):
    """Edits without keys over a session, twenty at once, so that whoever edits has to wait for its turn; how many were made."""
    with socket.create_connection(("127.0.0.1", server.lines), timeout=WAIT) as link:
        stream = link.makefile("rw")
        call(stream, op="join", process="any")
        while not is_over.is_set():
            stream.write("".join(json.dumps({"op": "set", "cell": cell, "text": str(number)}) + "\n" for number in range(20)))
            stream.flush()
            done.extend(answer for answer in (json.loads(stream.readline()) for _ in range(20)) if answer.get("ok") == "done")


def check_races(server, races):
    """One edit is sent over two connections at once, beside others: it is made once, and both are answered alike."""
    is_over, done = threading.Event(), []
    busy = [threading.Thread(target=keep_busy, args=(server, cell, is_over, done), daemon=True) for cell in ("B7", "C7")]
    for thread in busy:
        thread.start()
    try:
        race_on(server, races)
    finally:
        is_over.set()
    for thread in busy:
        thread.join(timeout=2 * WAIT)
    row(f"{races} edits, each sent twice at once, are made once, beside {len(done)} others", True, True, races)
    return races + len(done)


def race_on(server, races):
    """These races, one after the other."""
    for number in range(races):
        together, said = threading.Barrier(2), []
        body = json.dumps({"cell": "A8", "text": str(number)})
        threads = [threading.Thread(target=race, args=(server, f"race-{number}", body, together, said)) for _ in range(2)]
        for thread in threads:
            thread.start()
        for thread in threads:
            thread.join(timeout=2 * WAIT)
        if server.process.poll() is not None or len(said) < 2 or said[0] != said[1]:
            raise Failed(f"race {number}: {said}; the server's status: {server.process.poll()}")
        edit = ask(server, "GET", f"/edits/race-{number}")[1]["edit"]
        if said[0] != (200, {"number": edit["number"], "ok": "done"}):
            raise Failed(f"race {number}: {said[0]}, and the edit is {edit}")
        times = [edit for edit in edits_of_cell(server, "A8") if edit["text"] == str(number)]
        if len(times) > 1:
            raise Failed(f"race {number}: its edit was made {len(times)} times: {times}")


def check_all(program, cuts, kills, many, seed):
    draw = random.Random(seed)
    with tempfile.TemporaryDirectory() as folder:
        store = os.path.join(folder, "sheet.db")
        server = Server(program, store)
        clients = [Client(number, seed) for number in range(CLIENTS)]
        check_clients(server, clients, cuts, kills, draw)
        status, sheet = ask(server, "GET", "/sheet")
        row("the values are settled", (status, sheet["ok"]), (200, "settled"))
        shown = {f"{chr(65 + column)}{line + 1}": value for line, values in enumerate(sheet["rows"]) for column, value in enumerate(values)}
        row("each cell has its client's last text", {it.cell: shown[it.cell] for it in clients},
            {it.cell: str(it.made - 1) if it.made else "" for it in clients})
        more = check_refusals(server) + check_races(server, many // 6) + check_going_over(server, many, draw)
        row("the server stops", server.stop(), 0)
        count = sum(client.made for client in clients)
        found, said = made(program, store)
        if found != count + more:
            raise Failed(f"{count} edits with keys and {more} more, and the store has {found}: {said}")
        row(f"{count} edits, of which each counts once, by {sum(it.cuts for it in clients)} cut connections and {kills} kills", True, True,
            sum(it.cuts for it in clients))


def main(*words):
    is_quick = words[0] == "--quick"
    program, *numbers = words[is_quick:]
    cuts, kills, *seeds = [*numbers, *(QUICK if is_quick else NUMBERS)[len(numbers):]]
    seed, failed = int(seeds[0]) if seeds else random.randrange(10**6), 0
    try:
        check_all(os.path.realpath(program), int(cuts), int(kills), MANY_QUICK if is_quick else MANY, seed)
    except Failed as wrong:
        frames = traceback.extract_tb(wrong.__traceback__)
        print(f"tests/keys.py:{frames[-1].lineno}: seed {seed}: {wrong}", file=sys.stderr)
        failed = 1
    print(f"keys: {passed} passed, {failed} failed")
    return failed


if __name__ == "__main__":
    sys.exit(main(*sys.argv[1:]))
