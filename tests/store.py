#!/usr/bin/env python3
"""Tries the store of a server: kills it (-9) at drawn moments while four clients edit, starts it again, and holds what
each client is answered against what it was answered before: each edit that was answered done is there, each last edit is
reported as it ended, no number comes twice, none is left out. Then what a store may meet beside that: no room on the
disk, a file that may not be written, is another database, is damaged or cut at many places, or is open in another server;
what is saved of a damaged one, and copies of one, also beside a server; what somebody reads without a process. The last line counts the rows, each kill and each
cut one of them.
    tests/store.py [--quick] PROGRAM [KILLS [CUTS [SEED]]]      200 kills and 100 cuts by a drawn seed, where no numbers
                                                                are given (6 and 8 of an unproved program, by --quick)
"""
import json
import os
import random
import re
import resource
import shlex
import shutil
import signal
import socket
import sqlite3
import subprocess
import sys
import tempfile
import threading
import time
import traceback

COLUMNS, ROWS, PROCESSES = 4, 8, 4
SHAPE = ["--columns", str(COLUMNS), "--rows", str(ROWS), "--processes", str(PROCESSES)]


# How many kills and cuts there are, and of an unproved program.
NUMBERS, QUICK = ("200", "100"), ("6", "8")
# After how many edits of a process a server goes over to a new sheet.
SHORT = 240
# How many edits one process makes in each of two lives of a server, and with an unproved program.
MANY, MANY_QUICK = 10000, 300
# How many edits of each process come after the last kill: a store has some, however slow the program is.
MORE = 3
passed = 0


class Failed(Exception):
    """Something is not as it has to be."""


def pass_rows(what, count=1):
    """As many rows are as they have to be."""
    global passed
    passed += count
    print(f"store: {what} ... ok", flush=True)


def limited(limit):
    """What a program is started with that may write no file beyond this length."""
    signal.signal(signal.SIGXFSZ, signal.SIG_IGN)
    resource.setrlimit(resource.RLIMIT_FSIZE, (limit, limit))


def start(program, store, limit=None, shape=None):
    """Starts a server with this store; returns it and its port."""
    words = [program, "serve", "--listen", "127.0.0.1:0", "--forever", *(shape or SHAPE), "--store", store]
    bound = None if limit is None else lambda: limited(limit)
    server = subprocess.Popen(words, stdin=subprocess.PIPE, stderr=subprocess.PIPE, text=True, preexec_fn=bound)
    said = server.stderr.readline()
    if not said.startswith("dsheet: listening on "):
        rest = server.stderr.read()
        server.wait()
        raise Failed(f"the server does not listen: {said}{rest} (status {server.returncode})")
    return server, int(said.rsplit(":", 1)[1])


class Client:
    """One process of the sheet, and what it was answered over all lives of the server."""

    def __init__(self, process):
        self.process = process
        self.told = []
        self.asked = None
        self.wrong = None

    def call(self, stream, **call):
        stream.write(json.dumps(call) + "\n")
        stream.flush()
        line = stream.readline()
        if not line.endswith("\n"):
            raise ConnectionError
        return json.loads(line)

    def check_last(self, last):
        """Holds what a recovery reports against what was answered before."""
        if last is None:
            if self.told:
                raise Failed(f"process {self.process}: {len(self.told)} edits were done, and none is told")
            return
        if last["outcome"] != "done":
            raise Failed(f"process {self.process}: {last}")
        number = last["number"]
        if number == len(self.told) and self.asked is not None:
            # The edit that was not answered was kept.
            self.told.append(self.asked)
        if number != len(self.told) - 1 or last["cell"] != self.told[number][0]:
            raise Failed(f"process {self.process}: {last}, after {len(self.told)} edits")

    def edit(self, stream, draw):
        """Makes an edit, which has to be answered done with the next number."""
        cell, text = f"{chr(65 + self.process)}{draw.randint(1, ROWS)}", str(draw.randint(0, 10**9))
        self.asked = (cell, text)
        answer = self.call(stream, op="set", cell=cell, text=text)
        if answer.get("ok") != "done" or answer["number"] != len(self.told):
            raise Failed(f"process {self.process}: {answer}, after {len(self.told)} edits")
        self.told.append(self.asked)
        self.asked = None

    def life(self, port, draw, enough=None):
        """Joins, and edits until the server dies; or, with short rests, until there are enough edits."""
        try:
            with socket.create_connection(("127.0.0.1", port), timeout=20) as link:
                stream = link.makefile("rw")
                joined = self.call(stream, op="join", process=self.process)
                self.check_last(joined["last"])
                self.asked = None
                while True:
                    self.edit(stream, draw)
                    if enough is not None and enough.wait(draw.uniform(0, 0.2)):
                        break
        except (OSError, ConnectionError, json.JSONDecodeError):
            pass
        except Failed as wrong:
            self.wrong = wrong

    def texts(self):
        return {cell: text for cell, text in self.told}


def check_values(port, clients, draw):
    """All processes join, make some more edits, and a report shows the last text of each cell."""
    for client in clients:
        with socket.create_connection(("127.0.0.1", port), timeout=20) as link:
            stream = link.makefile("rw")
            client.check_last(client.call(stream, op="join", process=client.process)["last"])
            client.asked = None
            for _ in range(MORE):
                client.edit(stream, draw)
            if client.process + 1 < len(clients):
                continue
            report = client.call(stream, op="report")
            for column, of in enumerate(clients):
                texts = of.texts()
                for row in range(ROWS):
                    wanted = texts.get(f"{chr(65 + column)}{row + 1}", "")
                    if report["rows"][row][column] != wanted:
                        raise Failed(f"{chr(65 + column)}{row + 1} shows {report['rows'][row][column]}, and not {wanted}")


def stop(server):
    server.stdin.write("stop\n")
    server.stdin.flush()
    server.communicate(timeout=30)
    if server.returncode != 0:
        raise Failed(f"a server that was told to stop ended with status {server.returncode}")


def expect_no_log(store):
    """A store that was closed is one file."""
    if os.path.exists(store + "-wal"):
        raise Failed(f"{store} was closed, and has a log of {os.path.getsize(store + '-wal')} bytes")


def edits_left(program, store):
    """How many edits the busiest process has left until the server goes over to a new sheet."""
    if not os.path.exists(store):
        return SHORT
    said = run(program, "check", store)
    if said.returncode != 0:
        raise Failed(f"check says: {said.stdout}{said.stderr}")
    made = [int(line.split()[2]) for line in said.stdout.splitlines() if line.startswith("process ")]
    return max(1, SHORT - max(made))


def live(port, clients, left, draw):
    """The clients' edits go on until it is time to kill: at a drawn moment, or, where so many edits are left, about when
    the server goes over to a new sheet."""
    threads = [threading.Thread(target=client.life, args=(port, draw)) for client in clients]
    first = [len(client.told) for client in clients]
    for thread in threads:
        thread.start()
    if left is not None:
        end = time.monotonic() + 10
        while max(len(client.told) - told for client, told in zip(clients, first)) < left - 1 and time.monotonic() < end:
            time.sleep(0.0002)
        time.sleep(draw.uniform(0, 0.02))
    else:
        time.sleep(draw.uniform(0.002, 0.12))
    return threads


def one_store(program, folder, kills, draw):
    """Kills servers over one store, every second time about when they go over to a new sheet; returns how many edits were
    answered, and the store."""
    store = os.path.join(folder, f"store{draw.randint(0, 10**9)}.db")
    clients = [Client(process) for process in range(PROCESSES)]
    for kill in range(kills):
        left = edits_left(program, store) if kill % 2 else None
        server, port = start(program, store)
        threads = live(port, clients, left, draw)
        server.send_signal(signal.SIGTERM if draw.random() < 0.1 else signal.SIGKILL)
        server.wait()
        server.stderr.close()
        server.stdin.close()
        for thread in threads:
            thread.join()
        for client in clients:
            if client.wrong:
                raise client.wrong
    server, port = start(program, store)
    check_values(port, clients, draw)
    stop(server)
    expect_no_log(store)
    told = sum(len(client.told) for client in clients)
    said = run(program, "check", store)
    if said.returncode != 0 or f"{told} edits count" not in said.stdout:
        raise Failed(f"check says: {said.stdout}{said.stderr}, of {told} edits")
    return told, store


def check_one_process(program, folder, edits):
    """One process makes many more edits than a sheet has room for, of a full sheet: numbers go on, also after a restart,
    and nothing else is seen of it."""
    store = os.path.join(folder, "many.db")
    shape = ["--columns", "26", "--rows", "39", "--processes", "1"]
    texts, number, slowest = {}, 0, 0.0
    for life in range(2):
        server, port = start(program, store, shape=shape)
        with socket.create_connection(("127.0.0.1", port), timeout=20) as link:
            client, stream = Client(0), link.makefile("rw")
            last = client.call(stream, op="join", process=0)["last"]
            if (last["number"] if last else -1) != number - 1 or (last and last["outcome"] != "done"):
                raise Failed(f"the last edit is told as {last}, after {number} edits")
            for _ in range(edits):
                cell, text = f"{chr(65 + number % 26)}{number // 26 % 39 + 1}", str(number)
                begun = time.monotonic()
                answer = client.call(stream, op="set", cell=cell, text=text)
                slowest = max(slowest, time.monotonic() - begun)
                if answer != {"number": number, "ok": "done"}:
                    raise Failed(f"edit {number} of one process: {answer}")
                texts[cell], number = text, number + 1
            last = client.call(stream, op="last")["last"]
            if last != {"cell": cell, "number": number - 1, "outcome": "done"}:
                raise Failed(f"the last edit is told as {last}, after {number} edits")
            rows = client.call(stream, op="report")["rows"]
            if any(rows[row][column] != texts.get(f"{chr(65 + column)}{row + 1}", "") for row in range(39) for column in range(26)):
                raise Failed("a report after many edits shows other values")
        stop(server)
    said = run(program, "check", store)
    if said.returncode != 0 or f"{number} edits count" not in said.stdout or not said.stdout.startswith("sheet 26 39 1\n"):
        raise Failed(f"check says: {said.stdout}{said.stderr}, of {number} edits")
    pass_rows(f"one process makes {number} edits, the slowest in {slowest * 1000:.0f} ms")


class Viewer:
    """Somebody who reads without a process."""

    def __init__(self, port):
        self.link = socket.create_connection(("127.0.0.1", port), timeout=60)
        self.stream = self.link.makefile("rw")

    def call(self, **call):
        return Client(None).call(self.stream, **call)

    def settled(self, **call):
        """The answer to a question, which is asked again where edits beside it have left a word that was not at rest."""
        while (answer := self.call(**call)).get("ok") == "unsettled":
            time.sleep(0.001)
        return answer

    def history(self):
        """All edits that count, in their order, by parts."""
        edits, of = [], 1
        while len(edits) < of:
            part = self.call(op="history", **{"from": len(edits)})
            if part.get("ok") != "history" or part["from"] != len(edits) or part["of"] < of - 1:
                raise Failed(f"a part of the history: {part}")
            of = part["of"]
            edits += part["edits"]
            if not part["edits"]:
                break
        return edits


def expect_history(edits, clients, nobody):
    """The history has the edits of each client, in its order, those that were answered among them; texts that the sheet began
    with are nobody's, by their place."""
    begun = [edit for edit in edits if edit["process"] == nobody]
    if begun != edits[: len(begun)] or any(edit["number"] != place for place, edit in enumerate(begun)):
        raise Failed(f"texts that the sheet began with are listed as {begun[:5]}")
    for client in clients:
        made = [edit for edit in edits if edit["process"] == client.process]
        told = client.told + [client.asked] * (client.asked is not None)
        first = made[0]["number"] if made else len(client.told)
        if [edit["number"] for edit in made] != list(range(first, first + len(made))) or (not begun and first != 0):
            raise Failed(f"the history numbers the edits of process {client.process} from {first}, and has {len(made)}")
        if first + len(made) < len(client.told) or [(edit["cell"], edit["text"]) for edit in made] != told[first : first + len(made)]:
            raise Failed(f"the history has other edits of process {client.process} than it made")


def check_reading(program, folder, gets, draw):
    """Somebody reads without a process beside clients that edit, one of whose processes nobody has: what a cell is belongs to
    one edit. Edits that are taken back are edits; the history is the same after a kill."""
    store = os.path.join(folder, "read.db")
    server, port = start(program, store)
    clients, enough = [Client(process) for process in range(PROCESSES - 1)], threading.Event()
    threads = [threading.Thread(target=client.life, args=(port, draw, enough)) for client in clients]
    for thread in threads:
        thread.start()
    viewer, got = Viewer(port), []
    for _ in range(gets):
        cell = f"{chr(65 + draw.randrange(PROCESSES - 1))}{draw.randint(1, ROWS)}"
        answer = viewer.settled(op="get", cell=cell)
        if answer.get("ok") != "got" or answer["cell"] != cell or answer["value"] != answer["text"]:
            raise Failed(f"get {cell}: {answer}")
        got.append(answer)
        if draw.random() < 0.1 and viewer.settled(op="view").get("ok") != "settled":
            raise Failed("a view is not settled")
    enough.set()
    for thread in threads:
        thread.join()
    for client in clients:
        if client.wrong:
            raise client.wrong
    for answer in got:
        edit = answer["edit"]
        if edit is None:
            continue
        if edit["process"] < PROCESSES and clients[edit["process"]].told[edit["number"]] != (answer["cell"], answer["text"]):
            raise Failed(f"get tells {answer}, and process {edit['process']} made {clients[edit['process']].told[edit['number']]}")
    edits = viewer.history()
    expect_history(edits, clients, PROCESSES)
    pass_rows(f"{gets} cells read without a process beside {len(edits)} edits, each with the edit that it is of", gets)
    server.send_signal(signal.SIGKILL)
    server.wait()
    server, port = start(program, store)
    viewer = Viewer(port)
    if viewer.history() != edits:
        raise Failed("the history is another one after a kill")
    editor, client = Viewer(port), Client(PROCESSES - 1)
    joined = editor.call(op="join", process="any")
    if joined.get("ok") != "join" or joined["process"] != client.process:
        raise Failed(f"a join of any process: {joined}")
    texts = []
    for text in ("1", "2"):
        editor.call(op="set", cell="D1", text=text)
    for number, text in ((2, "1"), (3, "2")):
        if editor.call(op="undo", cell="D1") != {"number": number, "ok": "done"}:
            raise Failed("an undo is not done")
        texts.append(viewer.settled(op="get", cell="D1")["text"])
        if texts[-1] != text:
            raise Failed(f"undo twice: {texts}")
    if editor.call(op="undo", cell="D2").get("error") != "no-edit":
        raise Failed("an undo of a cell that nobody edited")
    stop(server)
    pass_rows("the history after a kill, a join of any process, two undos", 3)


def check_crowded(program, folder):
    """Each process is a client's: who only reads is answered all the same, from scratch, what a client's report tells."""
    server, port = start(program, os.path.join(folder, "crowd.db"))
    editors = [Viewer(port) for _ in range(PROCESSES)]
    for editor in editors:
        if editor.call(op="join", process="any").get("ok") != "join":
            raise Failed("a client cannot join any process")
    viewer = Viewer(port)
    if viewer.call(op="join", process="any").get("error") != "process-taken":
        raise Failed("a process is free where each is a client's")
    texts = {"A1": "2", "B1": "=[.A1]*3", "C1": "=SUM([.A1:.B1])", "D1": "=[.D1]", "A2": "1", "B2": "=QUOTIENT(1;0)"}
    for cell, text in [("C1", "9"), *texts.items(), ("A2", "")]:
        if editors[0].call(op="set", cell=cell, text=text).get("ok") != "done":
            raise Failed(f"an edit of {cell}")
    told = editors[1].settled(op="report")
    if told["rows"][0] != ["2", "6", "8", "Err:522"] or viewer.call(op="view") != told:
        raise Failed(f"a view from scratch is {viewer.call(op='view')}, a report {told}")
    for number, (cell, text) in enumerate({**texts, "A2": ""}.items()):
        value = told["rows"][int(cell[1]) - 1][ord(cell[0]) - 65]
        number = 7 if cell == "A2" else number + 1
        answer = viewer.call(op="get", cell=cell)
        if (answer["value"], answer["text"], answer["edit"]["number"]) != (value, text, number):
            raise Failed(f"a cell from scratch is {answer}")
    if viewer.call(op="get", cell="D8") != {"cell": "D8", "edit": None, "ok": "got", "text": "", "value": ""}:
        raise Failed("a cell that nobody edited")
    stop(server)
    pass_rows("a view and cells, where each process is a client's", 2 + len(texts))


def check_shape(program, folder):
    """A server takes columns, rows and processes from the file that is there, and refuses others that are asked for."""
    store = os.path.join(folder, "shape.db")
    made = run(program, "import", store, input="sheet 3 5 4\nset 2 C5 =1+2\n")
    expect("a store of another shape", made, 0, "")
    for words in (["--columns", "0", "--rows", "5"], ["--processes", "4", "--workers", "3"], []):
        server, port = start(program, store, shape=words or ["--columns", "3"])
        view = Viewer(port).settled(op="view")
        stop(server)
        if view["rows"] != [["", "", ""]] * 4 + [["", "", "3"]]:
            raise Failed(f"served with {words}: {view}")
    for words in (["--columns", "2"], ["--rows", "4"], ["--processes", "2"], ["--workers", "1", "--processes", "8"]):
        said = run(program, "serve", "--listen", "127.0.0.1:0", "--store", store, *words)
        expect(f"another shape: {' '.join(words)}", said, 1, "its sheet has 3 columns, 5 rows and 4 processes")
    pass_rows("a server takes the shape of its sheet from the file", 3)


def run(program, *words, **more):
    return subprocess.run([program, *words], capture_output=True, text=True, timeout=60, **more)


def expect(name, said, status, words):
    if said.returncode != status or words not in said.stdout + said.stderr:
        came = f"came {said.returncode}: {said.stdout[:300]}{said.stderr[:300]}"
        raise Failed(f"{name}: wanted status {status} and '{words}', {came}")
    pass_rows(name)


def check_commands(program, folder, store):
    """Export, import, compact and run agree."""
    lines = run(program, "export", store).stdout
    again = os.path.join(folder, "again.db")
    expect("import", run(program, "import", again, input=lines), 0, "")
    if run(program, "export", again).stdout != lines:
        raise Failed("what was exported and imported is another journal")
    expect("import over a store", run(program, "import", again, input=lines), 1, "already")
    rows = sqlite3.connect(f"file:{again}?mode=ro", uri=True).execute("SELECT line FROM journal ORDER BY number").fetchall()
    kept = [row[0] for row in rows if not row[0].startswith("# sum ")]
    if kept != lines.splitlines() or len(kept) + 1 != len(rows):
        raise Failed("another SQLite reads other lines")
    answers = run(program, "run", input=lines).stdout.splitlines()
    if len(answers) != sum(line.startswith("set ") for line in kept) or not all(answer.endswith(" done") for answer in answers):
        raise Failed("run does not answer each exported edit done")
    new = os.path.join(folder, "new.db")
    expect("compact", run(program, "compact", store, new), 0, "")
    tail = "settle 0\nreport 0\n"
    values = [run(program, "run", input=run(program, "export", of).stdout + tail).stdout.split("settled\n")[1] for of in (store, new)]
    if values[0] != values[1]:
        raise Failed("a compacted store shows other values")
    small = os.path.join(folder, "small.db")
    many = "sheet 26 26 1\n" + "".join(f"set 0 {chr(65 + k % 26)}{k // 26 + 1} 1\n" for k in range(257))
    expect("more edits than a process has", run(program, "import", small, input=many), 1, "line 258: its process has begun 256 edits")
    for name, text, words in (
        ("no sheet", "set 0 A1 1\n", "line 1: the first line is no sheet"),
        ("a cell beyond", "sheet 2 2 2\nset 0 C1 1\n", "line 2"),
        ("a process beyond", "sheet 1 1 1\nset 1 A1 5\n", "line 2"),
        ("no shape", "sheet 0 1 1\n", "line 1"),
        ("two sheets", "sheet 1 1 1\nsheet 1 1 1\n", "line 2"),
        ("a begin", "sheet 1 1 1\nbegin 0 set A1 5\n", "line 2: not an edit of the sheet"),
        ("no edit", "sheet 2 2 2\nset 0 A1 1\ncrash\n", "line 3: not an edit of the sheet"),
        ("a text with a fault", "sheet 2 2 2\nset 0 A1 =7.5\n", "line 2: its text is refused"),
    ):
        expect(name, run(program, "import", os.path.join(folder, f"{name}.db"), input=text), 1, words)


def check_tables(program, folder, store):
    """Texts and values of a store as tables, and stores of tables: each is the other's, and any grid has a store."""
    texts = run(program, "export", store, "--csv").stdout
    values = run(program, "report", input=texts)
    expect("the values of a store are those of its texts", run(program, "export", store, "--values"), 0, values.stdout)
    made = os.path.join(folder, "table.db")
    expect("a store of a table", run(program, "import", made, "--csv", input=texts), 0, "")
    if run(program, "export", made, "--csv").stdout != texts or run(program, "export", made, "--values").stdout != values.stdout:
        raise Failed("a store of a table has other texts, or other values")
    full = "".join(",".join(f"={row}+{column}" for column in range(16)) + "\n" for row in range(64))
    most = os.path.join(folder, "most.db")
    expect("a store of the largest table", run(program, "import", most, "--csv", input=full), 0, "")
    if run(program, "export", most, "--csv").stdout != full:
        raise Failed("a store of the largest table has other texts")
    shape = ["--columns", "16", "--rows", "64", "--processes", "2"]
    server, port = start(program, most, shape=shape)
    with socket.create_connection(("127.0.0.1", port), timeout=20) as link:
        stream, client = link.makefile("rw"), Client(1)
        joined = client.call(stream, op="join", process=1)
        done = client.call(stream, op="set", cell="P64", text="7")
    stop(server)
    if joined["last"] is not None or done != {"number": 0, "ok": "done"}:
        raise Failed(f"a client of a store of a table: {joined}, {done}")
    log = run(program, "log", most).stdout.splitlines()
    if not log[0].startswith("# 1024 texts") or log[1:3] != ["1 - - A1 =0+0", "2 - - B1 =0+1"] or log[-1] != "1025 1 0 P64 7":
        raise Failed(f"the log of a store of a table: {log[:3]}, {log[-1]}")
    pass_rows("a server of a store of the largest table, and its log")


def edits_in(lines):
    """The edits of a journal, as a log tells of them, by what is exported of it; the first ones are the sheet's texts."""
    counts, edits = {}, []
    for line in lines[1:]:
        words = line.split(" ", 3)
        if words[:2] == ["#", "before"]:
            counts[words[2]] = int(words[3].split(" ")[0])
            edits = [("-", "-", *edit[2:]) for edit in edits]
        elif words[0] == "set":
            edits.append((words[1], str(counts.get(words[1], 0)), *words[2:]))
            counts[words[1]] = counts.get(words[1], 0) + 1
    return [" ".join([str(place), *edit]).rstrip() for place, edit in enumerate(edits, 1)]


def check_log(program, folder, store):
    """The list of a store's edits is what its lines say, and each sheet before is what the first lines lead to."""
    new = os.path.join(folder, "after.db")
    expect("compact, for its log", run(program, "compact", store, new), 0, "")
    for of in (store, new):
        lines = run(program, "export", of).stdout.splitlines()
        wanted = edits_in(lines)
        log = run(program, "log", of).stdout.splitlines()
        begun = sum(" - - " in line for line in wanted)
        if log[bool(begun):] != wanted or (begun and not log[0].startswith(f"# {begun} texts ")):
            raise Failed(f"the log of {of} is another list")
        for at in (1, len(wanted) // 2, len(wanted)):
            sets = [number for number, line in enumerate(lines) if line.startswith("set ")][:at]
            ran = run(program, "run", input="\n".join(lines[: sets[-1] + 1]) + "\nsettle 0\nreport 0\n")
            if run(program, "log", of, "--at", str(at), "--values").stdout != ran.stdout.split("settled\n")[1]:
                raise Failed(f"the sheet after {at} edits of {of} is another one")
    pass_rows("logs, and the sheets after some of their edits")


def lines_in(store):
    """The lines of a store that is closed, those of sums too, as another SQLite reads them."""
    link = sqlite3.connect(f"file:{store}?mode=ro", uri=True)
    lines = [row[0] for row in link.execute("SELECT line FROM journal ORDER BY number")]
    link.close()
    return lines


def damage(store, damaged, change):
    """Makes a copy of a store that is closed, and changes it by this statement of SQL."""
    for name in (damaged, damaged + "-wal"):
        if os.path.exists(name):
            os.remove(name)
    shutil.copy(store, damaged)
    link = sqlite3.connect(damaged)
    link.execute(change)
    link.commit()
    link.close()


def expect_until(program, folder, name, store, until, lines, status, *words):
    """Exports the first lines of a store: these are to come, with a line on standard error that has all these words, or
    with none, and are to make a store."""
    said = run(program, "export", store, "--until", str(until))
    wanted = "".join(line + "\n" for line in lines if not line.startswith("# sum "))
    told = said.stderr.splitlines()
    if said.returncode != status or said.stdout != wanted or len(told) != (words != ()) or not all(it in said.stderr for it in words):
        came = f"came {said.returncode}, {len(said.stdout.splitlines())} lines, {said.stderr[:300]}"
        raise Failed(f"{name}: wanted status {status}, {len(wanted.splitlines())} lines and {words}, {came}")
    if lines:
        saved = os.path.join(folder, f"saved {name}.db")
        made = run(program, "import", saved, input=said.stdout)
        if made.returncode != 0 or run(program, "export", saved).stdout != wanted:
            raise Failed(f"{name}: what was exported makes another store: {made.stderr}")
    pass_rows(name)


def check_until(program, folder, store):
    """Of a store that is damaged, the lines before the first one that is wrong are given."""
    lines = lines_in(store)
    sums = [number for number, line in enumerate(lines, 1) if line.startswith("# sum ")]
    middle = sums[len(sums) // 2]
    expect_until(program, folder, "all lines", store, 65535, lines, 0)
    expect_until(program, folder, "the first line", store, 1, lines[:1], 0, "lines from 2 on are left out")
    expect_until(program, folder, "the first lines", store, middle - 1, lines[: middle - 1], 0, f"lines from {middle} on are left out")
    hurt = os.path.join(folder, "hurt.db")
    for name, change, wrong, words in (
        ("before a changed line", f"UPDATE journal SET line = 'set 0 A1 7' WHERE number = {middle - 1}", middle, "it has the sum of other lines than are before it"),
        ("before a changed sum", f"UPDATE journal SET line = line || '1' WHERE number = {middle}", middle, "it has the sum of other lines than are before it"),
        ("before a line with no sum", "INSERT INTO journal (line) VALUES ('# a note')", len(lines) + 1, "has no sum after it"),
        ("before lines with no sum", f"DELETE FROM journal WHERE number = {len(lines)}", sums[-2] + 1, "has no sum after it"),
        ("before a line that is missing", "DELETE FROM journal WHERE number = 5", 5, "line 5 is missing"),
        ("before a text with a fault", f"UPDATE journal SET line = 'set 0 A1 =' WHERE number = {middle + 1}", middle + 1, "its text is refused"),
        ("no line before the first", "UPDATE journal SET line = 'crash' WHERE number = 1", 1, "line 1"),
    ):
        damage(store, hurt, change)
        left = (f"; lines from {wrong} on are left out",) if wrong > 1 else ()
        said = run(program, "export", hurt)
        if said.returncode != 1 or said.stdout:
            raise Failed(f"{name}: without --until status {said.returncode}, {len(said.stdout)} bytes")
        expect_until(program, folder, name, hurt, 65535, lines_in(hurt)[: wrong - 1], 1, words, *left)
    damage(store, hurt, f"UPDATE journal SET line = line || '1' WHERE number = {middle}")
    expect_until(program, folder, "some lines before a changed sum", hurt, 3, lines[:3], 1, "lines from 4 on are left out")


def expect_no_copy(name, program, store, copy, status, words):
    """A backup that is refused leaves no file."""
    expect(name, run(program, "backup", store, copy), status, words)
    for left in (copy, copy + "-wal"):
        if os.path.exists(left):
            raise Failed(f"{name}: {left} is there")


def check_backup(program, folder, store):
    """A copy of a store at rest has its lines; what is there is not written over, and a backup that fails leaves no file."""
    copy = os.path.join(folder, "copy.db")
    expect("backup", run(program, "backup", store, copy), 0, "")
    expect_no_log(copy)
    if lines_in(copy) != lines_in(store):
        raise Failed("the copy has other lines")
    expect("check of a copy", run(program, "check", copy), 0, "edits count")
    with open(copy, "rb") as it:
        held = it.read()
    expect("backup over a store", run(program, "backup", store, copy), 1, "already")
    if not os.path.exists(copy):
        raise Failed("a backup over a store has removed it")
    with open(copy, "rb") as it:
        if it.read() != held:
            raise Failed("a backup over a store has changed it")
    empty = os.path.join(folder, "empty.db")
    with open(empty, "wb"):
        pass
    expect("backup over an empty file", run(program, "backup", store, empty), 1, "already")
    log = os.path.join(folder, "lone.db")
    with open(log + "-wal", "wb"):
        pass
    expect("backup beside a log", run(program, "backup", store, log), 1, "already")
    if os.path.exists(log) or not os.path.exists(log + "-wal"):
        raise Failed("a backup beside a log has left a file, or has removed the log")
    none = os.path.join(folder, "none.db")
    expect_no_copy("backup of no file", program, none, os.path.join(folder, "none copy.db"), 3, "none.db")
    if os.path.exists(none):
        raise Failed("a backup has made the store")
    expect_no_copy("backup of a folder", program, folder, os.path.join(folder, "folder copy.db"), 3, folder)
    expect_no_copy("backup of another database", program, os.path.join(folder, "other.db"), os.path.join(folder, "other copy.db"), 1, "something else")
    hurt = os.path.join(folder, "hurt.db")
    damage(store, hurt, "UPDATE journal SET line = line || '1' WHERE number = 3")
    expect_no_copy("backup of a damaged store", program, hurt, os.path.join(folder, "hurt copy.db"), 1, "hurt.db: line")
    expect_no_copy("backup to no folder", program, store, os.path.join(folder, "no folder", "copy.db"), 3, "copy.db")


def outcome_of(lines):
    """How many edits each process has made by the lines of a store, and the text of each cell that has one."""
    counts, texts = [0] * PROCESSES, {}
    for line in lines:
        words = line.split(" ", 3)
        if words[0] == "set":
            counts[int(words[1])] += 1
            texts[words[2]] = words[3]
        elif line.startswith("# before "):
            counts[int(words[2])] = int(words[3].split()[0])
    return counts, texts


def check_backup_beside(program, folder, backups, draw):
    """Backups beside a server under edits: each opens, has every edit that was answered before it began, and the texts
    that as many edits have made."""
    store, link = os.path.join(folder, "busy.db"), os.path.join(folder, "link.db")
    os.symlink(store, link)
    server, port = start(program, store)
    clients = [Client(process) for process in range(PROCESSES)]
    enough = threading.Event()
    threads = [threading.Thread(target=client.life, args=(port, draw, enough)) for client in clients]
    for thread in threads:
        thread.start()
    copies, busy = [], 0
    while len(copies) < backups:
        copy = os.path.join(folder, f"busy copy {len(copies)}.db")
        answered = [len(client.told) for client in clients]
        said = run(program, "backup", link if len(copies) % 2 else store, copy)
        if said.returncode != 0:
            raise Failed(f"a backup beside a server: status {said.returncode}: {said.stderr}")
        busy += any(thread.is_alive() for thread in threads)
        said = run(program, "check", copy)
        if said.returncode != 0:
            raise Failed(f"a backup beside a server: check says {said.stdout}{said.stderr}")
        copies.append((copy, answered))
    enough.set()
    for thread in threads:
        thread.join()
    stop(server)
    for client in clients:
        if client.wrong:
            raise client.wrong
    for copy, answered in copies:
        counts, texts = outcome_of(lines_in(copy))
        for client, told, count in zip(clients, answered, counts):
            if not told <= count <= len(client.told):
                raise Failed(f"a backup beside a server: {count} edits of process {client.process}, {told} were answered")
            wanted = dict(client.told[:count])
            if {cell: text for cell, text in texts.items() if cell[0] == chr(65 + client.process)} != wanted:
                raise Failed(f"a backup beside a server has other texts than {count} edits of process {client.process} made")
    if busy == 0:
        raise Failed("no backup was made while clients edited")
    pass_rows(f"{backups} backups beside a server, {busy} under edits, {sum(len(client.told) for client in clients)} edits answered", backups)


def check_files(program, folder, store):
    """Files that are none, may not be used, or are something else."""
    expect("no such file", run(program, "check", os.path.join(folder, "none.db")), 3, "none.db")
    other = os.path.join(folder, "other.db")
    link = sqlite3.connect(other)
    link.execute("CREATE TABLE note (id INTEGER PRIMARY KEY, title TEXT)")
    link.commit()
    link.close()
    expect("another database", run(program, "check", other), 1, "something else")
    text = os.path.join(folder, "text.db")
    with open(text, "w", encoding="utf-8") as out:
        out.write("no database " * 1000)
    expect("no database", run(program, "check", text), 3, "database")
    gap = os.path.join(folder, "gap.db")
    shutil.copy(store, gap)
    link = sqlite3.connect(gap)
    link.execute("DELETE FROM journal WHERE number = 5")
    link.commit()
    link.close()
    expect("a line that is missing", run(program, "check", gap), 1, "line 5 is missing")
    link = sqlite3.connect(gap)
    link.execute("INSERT INTO journal VALUES (5, 'set 0 A1 =')")
    link.commit()
    link.close()
    expect("a line that can not be followed", run(program, "check", gap), 1, "line 5: its text is refused")
    words = ["serve", "--listen", "127.0.0.1:0", "--columns", "5", "--rows", "8", "--processes", "4", "--store", store]
    expect("another shape", run(program, *words), 1, "its sheet has 4 columns, 8 rows and 4 processes")
    server, _port = start(program, store)
    expect("check beside a server", run(program, "check", store), 0, "edits count")
    expect("export beside a server", run(program, "export", store), 0, "set 0 ")
    expect("a second server", run(program, *words[:4], "4", *words[5:], input=""), 3, "another program has it open")
    stop(server)
    check_untouched(program, folder, store, other)


def files_of(folder):
    """The files of a folder with their bytes."""
    found = {}
    for name in sorted(os.listdir(folder)):
        with open(os.path.join(folder, name), "rb") as it:
            found[name] = it.read()
    return found


def check_untouched(program, folder, store, other):
    """Commands that read leave files and folders as they are, also those that they refuse; a failed import leaves no file."""
    room = os.path.join(folder, "untouched")
    os.mkdir(room)
    for path in (store, store + "-wal", other):
        if os.path.exists(path):
            shutil.copy(path, room)
    with open(os.path.join(room, "empty.db"), "wb"):
        pass
    with open(os.path.join(room, "text.md"), "w", encoding="utf-8") as out:
        out.write("# A page\n" * 900)
    before = files_of(room)
    for name in before:
        for words in (("check",), ("export",), ("export", "--until", "65535"), ("export", "--csv"), ("log",)):
            run(program, *words, os.path.join(room, name))
    run(program, "import", os.path.join(room, "new.db"), input="foo\n")
    run(program, "import", os.path.join(room, "new.db"), "--csv", input="1,=[\n")
    same = os.path.join(room, os.path.basename(store))
    expect("compact onto itself", run(program, "compact", same, same), 1, "already")
    if files_of(room) != before:
        raise Failed(f"commands that read have changed {sorted(set(files_of(room).items()) ^ set(before.items()))}")
    pass_rows("commands that read, and imports that fail, leave all files as they are", len(before))


def check_sums(program, folder, store, flips, draw):
    """Lines that were changed, and bits of the file that were flipped, are reported."""
    whole = run(program, "export", store).stdout
    changed = os.path.join(folder, "changed.db")
    for name, change, words in (
        ("a line that was changed", "UPDATE journal SET line = line || '1' WHERE number = 3", "it has the sum of other lines than are before it"),
        ("a sum that was changed", "UPDATE journal SET line = line || '1' WHERE number = (SELECT max(number) FROM journal)", "it has the sum of other lines than are before it"),
        ("a line after the last sum", "INSERT INTO journal (line) VALUES ('# a note')", "has no sum after it"),
    ):
        shutil.copy(store, changed)
        link = sqlite3.connect(changed)
        link.execute(change)
        link.commit()
        link.close()
        expect(name, run(program, "check", changed), 1, words)
    refused = 0
    for _ in range(flips):
        with open(store, "rb") as it:
            held = bytearray(it.read())
        held[draw.randrange(len(held))] ^= 1 << draw.randrange(8)
        with open(changed, "wb") as out:
            out.write(held)
        if os.path.exists(changed + "-wal"):
            os.remove(changed + "-wal")
        said = run(program, "export", changed)
        if said.returncode in (1, 3):
            refused += 1
        elif said.returncode != 0 or said.stdout != whole:
            raise Failed(f"a flipped bit: status {said.returncode}: {said.stderr}")
    pass_rows(f"{flips} flipped bits, {refused} refused, the others of what is not read", flips)


def check_full_copy(program, folder, store):
    """A disk with no room for a copy: it is told in one line, and no file is left."""
    for limit in (0, 4096, 8192):
        copy = os.path.join(folder, f"full copy {limit}.db")
        said = run(program, "backup", store, copy, preexec_fn=lambda: limited(limit))
        if said.returncode != 3 or said.stderr.count("\n") != 1:
            raise Failed(f"a backup with room for {limit} bytes: status {said.returncode}: {said.stderr}")
        if os.path.exists(copy) or os.path.exists(copy + "-wal"):
            raise Failed(f"a backup with room for {limit} bytes has left a file")
    pass_rows("3 backups with no room", 3)


def check_read_only(program, folder, store):
    """A store that may not be written is refused by a server, and can be checked and copied. Root runs this as nobody."""
    there, copies = os.path.join(folder, "read only"), os.path.join(folder, "copies")
    os.mkdir(there)
    os.mkdir(copies)
    mine, more = os.path.join(there, "mine.db"), {}
    shutil.copy(store, mine)
    if os.getuid() == 0:
        shutil.copy(program, os.path.join(there, "program"))
        program, more = os.path.join(there, "program"), {"user": 65534}
        os.chmod(program, 0o755)
        os.chmod(folder, 0o755)
        os.chown(copies, 65534, 65534)
    os.chmod(mine, 0o444)
    os.chmod(there, 0o555)
    served = run(program, "serve", "--listen", "127.0.0.1:0", *SHAPE, "--store", mine, input="", **more)
    expect("a server with a read-only store", served, 3, "mine.db")
    expect("check of a read-only store", run(program, "check", mine, **more), 0, "")
    expect("backup of a read-only store", run(program, "backup", mine, os.path.join(copies, "copy.db"), **more), 0, "")
    os.chmod(there, 0o755)
    if lines_in(os.path.join(copies, "copy.db")) != lines_in(store):
        raise Failed("the copy of a read-only store has other lines")


def check_zeros(program, folder, store, most, draw):
    """A page of zeros is refused in one line, where it is one that is read."""
    whole = run(program, "export", store).stdout
    pages = range(os.path.getsize(store) // 4096)
    tried, refused = draw.sample(pages, min(most, len(pages))), 0
    for page in tried:
        zeros = os.path.join(folder, f"zeros {page}.db")
        shutil.copy(store, zeros)
        with open(zeros, "r+b") as it:
            it.seek(4096 * page)
            it.write(bytes(4096))
        said = run(program, "export", zeros)
        if said.returncode in (1, 3) and said.stdout == "" and said.stderr.count("\n") == 1:
            refused += 1
        elif said.returncode != 0 or said.stdout != whole:
            raise Failed(f"zeros in page {page}: status {said.returncode}: {said.stderr}")
    pass_rows(f"{len(tried)} pages of zeros, {refused} refused, the others of what is not read", len(tried))


def check_full(program, folder):
    """A disk with no more room: what was answered stands, and the server ends with a fault."""
    store = os.path.join(folder, "full.db")
    server, port = start(program, store, limit=60000)
    client = Client(0)
    client.life(port, random.Random(1))
    server.stdin.close()
    said = server.stderr.read()
    server.wait(timeout=30)
    if client.wrong or server.returncode not in (3, 4):
        raise Failed(f"no room: status {server.returncode}, {len(client.told)} edits, {client.wrong}: {said}")
    again, port = start(program, store)
    with socket.create_connection(("127.0.0.1", port), timeout=20) as link:
        stream = link.makefile("rw")
        client.check_last(client.call(stream, op="join", process=0)["last"])
    stop(again)
    pass_rows(f"no room after {len(client.told)} edits")


def check_white_space(program, folder):
    """Line feeds and carriage returns in formulas are exported as spaces, and what is imported is exported alike."""
    store, copy = os.path.join(folder, "white.db"), os.path.join(folder, "white-copy.db")
    server, port = start(program, store)
    with socket.create_connection(("127.0.0.1", port), timeout=20) as link:
        client, stream = Client(0), link.makefile("rw")
        client.call(stream, op="join", process=0)
        for cell, text in (("A1", "=1+\n2"), ("A2", "=3\r"), ("A3", "=\r\n4")):
            if client.call(stream, op="set", cell=cell, text=text).get("ok") != "done":
                raise Failed(f"white space: {text!r} is refused")
    stop(server)
    lines = run(program, "export", store).stdout
    if lines != f"sheet {COLUMNS} {ROWS} {PROCESSES}\nset 0 A1 =1+ 2\nset 0 A2 =3 \nset 0 A3 =  4\n":
        raise Failed(f"white space is exported as {lines!r}")
    expect("white space is imported", run(program, "import", copy, input=lines), 0, "")
    if run(program, "export", copy).stdout != lines:
        raise Failed("white space that was imported is exported otherwise")
    pass_rows("white space in formulas, exported and imported")


def check_long(program, folder):
    """A journal of many lines, one of them long, is imported and exported whole."""
    store = os.path.join(folder, "long.db")
    comments = "".join(f"# {number}\n" for number in range(5000))
    lines = f"sheet 2 2 2\nset 0 A1 1\n{comments}# {'x' * 10000}\nset 1 A1 2\n"
    expect("a long journal is imported", run(program, "import", store, input=lines), 0, "")
    if run(program, "export", store).stdout != lines:
        raise Failed("a long journal that was imported is exported otherwise")
    expect("its last edit", run(program, "log", store, "--cell", "A1"), 0, "2")
    pass_rows("a long journal, exported and imported")


def check_fifo(program, folder):
    """A file that is no regular one is refused, and not waited for."""
    path = os.path.join(folder, "fifo")
    os.mkfifo(path)
    for words in (("check", path), ("export", path), ("compact", path, f"{path}.new"), ("backup", path, f"{path}.new")):
        said = run(program, *words)
        if said.returncode != 3 or "dsheet: " not in said.stderr:
            raise Failed(f"{words[0]} of a FIFO: status {said.returncode}: {said.stderr}")
    pass_rows("a FIFO is refused", 4)


def check_lost_file(program, folder):
    """A server whose file is removed or replaced ends, and says so."""
    for name, lose in (
        ("removed", lambda path: os.remove(path)),
        ("replaced", lambda path: os.replace(shutil.copy(path, f"{path}.copy"), path)),
    ):
        path = os.path.join(folder, f"{name}.db")
        server, port = start(program, path)
        with socket.create_connection(("127.0.0.1", port), timeout=20) as link:
            client, stream = Client(0), link.makefile("rw")
            client.call(stream, op="join", process=0)
            client.edit(stream, random.Random(1))
            lose(path)
            said = server.stderr.read()
        server.wait(timeout=30)
        server.stdin.close()
        if server.returncode != 3 or "it was removed or replaced while it was served" not in said:
            raise Failed(f"a file that was {name}: status {server.returncode}: {said}")
        pass_rows(f"a file that is {name} while it is served")


def edit_and_kill(program, store, edits, early=None):
    """One process makes this number of edits of a new store, whose server is killed then; its log as it was after two of them is
    copied to this path, where there is one."""
    server, port = start(program, store)
    with socket.create_connection(("127.0.0.1", port), timeout=20) as link:
        client, stream = Client(0), link.makefile("rw")
        client.call(stream, op="join", process=0)
        for number in range(edits):
            client.edit(stream, random.Random(number))
            if number == 1 and early:
                shutil.copy(f"{store}-wal", early)
    server.kill()
    server.communicate()


def expect_lost(program, name, store, told):
    """The store is refused; or a join that says the number of its last edit is answered that edits are lost."""
    try:
        server, port = start(program, store)
    except Failed:
        pass_rows(f"{name} is refused")
        return
    with socket.create_connection(("127.0.0.1", port), timeout=20) as link:
        joined = Client(0).call(link.makefile("rw"), op="join", process=0, told=told)
    stop(server)
    if joined.get("lost") is not True:
        raise Failed(f"{name}: {joined}, after edit {told} was answered")
    pass_rows(f"{name}: the client hears that edits are lost")


def check_lost_log(program, folder):
    """A log that is missing, old or another store's is refused, or a client hears of it."""
    early, strange = os.path.join(folder, "early-wal"), os.path.join(folder, "strange.db")
    edit_and_kill(program, strange, 3)
    for name, lose in (
        ("missing", lambda log: os.remove(log)),
        ("old", lambda log: shutil.copy(early, log)),
        ("another's", lambda log: shutil.copy(f"{strange}-wal", log)),
    ):
        store = os.path.join(folder, f"{name}.db")
        edit_and_kill(program, store, 5, early)
        lose(f"{store}-wal")
        expect_lost(program, f"a log that is {name}", store, 4)
    store = os.path.join(folder, "whole.db")
    edit_and_kill(program, store, 5)
    server, port = start(program, store)
    with socket.create_connection(("127.0.0.1", port), timeout=20) as link:
        joined = Client(0).call(link.makefile("rw"), op="join", process=0, told=4)
    stop(server)
    if "lost" in joined or joined["last"]["number"] != 4:
        raise Failed(f"a log that is whole: {joined}")
    pass_rows("a log that is whole: nothing is lost")


def check_unit(program, folder):
    """The unit of systemd starts a server, and stops it."""
    lines = open(os.path.join(os.path.dirname(__file__), "../examples/serve/dsheet.service"), encoding="utf-8").read()
    for path, here in (("/usr/local/bin/dsheet", program), ("/run/dsheet", folder), ("/var/lib/dsheet", folder), (":8080", ":0")):
        lines = lines.replace(path, here)
    said = dict(re.findall(r"(?m)^(Exec\w+)=(.+)$", lines))
    subprocess.run(shlex.split(said["ExecStartPre"]), check=True)
    server = subprocess.Popen(shlex.split(said["ExecStart"]), stderr=subprocess.PIPE, text=True)
    listening = server.stderr.readline()
    subprocess.run(shlex.split(said["ExecStop"]), check=True, timeout=10)
    rest = server.stderr.read()
    server.wait(timeout=10)
    if server.returncode != 0 or "listening on" not in listening:
        raise Failed(f"the unit of systemd: status {server.returncode}: {listening}{rest}")
    pass_rows("the unit of systemd starts a server, and stops it")


def check_container(program, folder):
    """The words of the container start a server that wants its token, and keeps its sheet through a kill."""
    lines = open(os.path.join(os.path.dirname(__file__), "../examples/serve/Containerfile"), encoding="utf-8").read()
    token, data = os.path.join(folder, "token"), os.path.join(folder, "contained")
    os.mkdir(data)
    with open(token, "w", encoding="utf-8") as file:
        file.write("open sesame\n")
    words = json.loads(re.search(r"(?m)^CMD (.+)$", lines).group(1))
    here = {"0.0.0.0:8080": "127.0.0.1:0", "/token": token, "/data/sheet.db": os.path.join(data, "sheet.db")}
    for last in (None, {"cell": "A1", "number": 0, "outcome": "done"}):
        server = subprocess.Popen([program] + [here.get(word, word) for word in words], stdin=subprocess.PIPE, stderr=subprocess.PIPE, text=True)
        port = int(server.stderr.readline().rsplit(":", 1)[1])
        with socket.create_connection(("127.0.0.1", port), timeout=20) as link:
            client, stream = Client(0), link.makefile("rw")
            denied = client.call(stream, op="join", process=0)
            joined = client.call(stream, op="join", process=0, token="open sesame")
            made = client.call(stream, op="set", cell="A1", text="7")
        server.kill()
        server.wait(timeout=10)
        if denied.get("error") != "denied" or joined.get("last") != last or made.get("ok") != "done":
            raise Failed(f"the container: {denied}, {joined}, {made}")
    pass_rows("the words of the container start a server that keeps its sheet through a kill")


def check_cuts(program, folder, store, cuts, draw):
    """A file that is cut is refused, or has the first of the lines."""
    whole = run(program, "export", store).stdout.splitlines()
    size = os.path.getsize(store)
    refused = 0
    for _ in range(cuts):
        cut = os.path.join(folder, "cut.db")
        for name in (cut, cut + "-wal"):
            if os.path.exists(name):
                os.remove(name)
        shutil.copy(store, cut)
        os.truncate(cut, draw.randint(1, size - 1))
        said = run(program, "export", cut)
        if said.returncode in (1, 3):
            refused += 1
        elif said.returncode != 0 or said.stdout.splitlines() != whole[: len(said.stdout.splitlines())]:
            raise Failed(f"a cut file: status {said.returncode}: {said.stderr}")
    pass_rows(f"{cuts} cut files, {refused} refused", cuts)


def check_all(program, kills, cuts, many, draw):
    """All rows; the first that is not as it has to be is a Failed."""
    begun = time.monotonic()
    with tempfile.TemporaryDirectory() as folder:
        told, store = one_store(program, folder, kills, draw)
        seconds = time.monotonic() - begun
        pass_rows(f"{kills} kills, {told} edits answered, 0 lost, in {seconds:.0f} s", kills)
        check_one_process(program, folder, many)
        check_commands(program, folder, store)
        check_tables(program, folder, store)
        check_log(program, folder, store)
        check_files(program, folder, store)
        check_until(program, folder, store)
        check_backup(program, folder, store)
        check_backup_beside(program, folder, max(5, cuts // 5), draw)
        check_reading(program, folder, max(100, 5 * cuts), draw)
        check_crowded(program, folder)
        check_shape(program, folder)
        check_full(program, folder)
        check_white_space(program, folder)
        check_long(program, folder)
        check_fifo(program, folder)
        check_lost_file(program, folder)
        check_lost_log(program, folder)
        check_unit(program, folder)
        check_container(program, folder)
        check_full_copy(program, folder, store)
        check_read_only(program, folder, store)
        check_zeros(program, folder, store, cuts, draw)
        check_cuts(program, folder, store, cuts, draw)
        check_sums(program, folder, store, cuts, draw)


def main(*words):
    is_quick = words[0] == "--quick"
    program, *numbers = words[is_quick:]
    kills, cuts, *seeds = [*numbers, *(QUICK if is_quick else NUMBERS)[len(numbers):]]
    seed, failed = int(seeds[0]) if seeds else random.randrange(10**6), 0
    try:
        check_all(os.path.realpath(program), int(kills), int(cuts), MANY_QUICK if is_quick else MANY, random.Random(seed))
    except Failed as wrong:
        frames = [it for it in traceback.extract_tb(wrong.__traceback__) if it.name != "expect"]
        print(f"tests/store.py:{frames[-1].lineno}: seed {seed}: {wrong}", file=sys.stderr)
        failed = 1
    print(f"store: {passed} passed, {failed} failed")
    return failed


if __name__ == "__main__":
    sys.exit(main(*sys.argv[1:]))
