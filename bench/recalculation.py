#!/usr/bin/env python3
"""Prints how long the first report of 1,024 cells takes over a session, of a shared sheet and of a stored one, beside
`dsheet report` of the same grid; and the report after one edit of the cell that the most cells depend on.

recalculation.py PROGRAM RUNS             the program, and how many interleaved runs; the medians are printed
recalculation.py PROGRAM RUNS OTHER       of a shared sheet alone, beside another program: medians, and the ratios to it
recalculation.py PROGRAM RUNS --workers   edits a second of four clients and the report after them, with 0, 1, 2 and 4
                                          workers: medians, and the ratios to none
"""
import csv
import io
import json
import os
import random
import socket
import statistics
import subprocess
import sys
import tempfile
import threading
import time

COLUMNS, ROWS = 16, 64
CELLS = COLUMNS * ROWS
EDITS_OF_A_PROCESS = 256
EDITS_BESIDE = 2000


def name(cell):
    return f"{chr(ord('A') + cell % COLUMNS)}{cell // COLUMNS + 1}"


def one(cell):
    return f"[.{name(cell)}]"


def chain(order):
    """Each cell of the order refers to the one before it: the texts, and the first cell."""
    texts = ["1"] * CELLS
    for before, cell in zip(order, order[1:]):
        texts[cell] = f"={one(before)}+1"
    return texts, order[0]


def sums(of, first):
    """Each cell is the sum of the rows that are said of its row, or 1 where there is none."""
    texts = []
    for cell in range(CELLS):
        low, high = of(cell // COLUMNS)
        texts.append(f"=SUM([.A{low + 1}:.P{high + 1}])" if low <= high else "1")
    return texts, first


def greatest_of_all_that_follow():
    texts = [f"=MAX([.A{row + 2}:.P64])+1" for row in range(ROWS - 1) for _ in range(COLUMNS)] + ["1"] * COLUMNS
    for cell in range(CELLS - 1):
        row, column = divmod(cell, COLUMNS)
        if column < COLUMNS - 1:
            rest = f"[.{chr(ord('A') + column + 1)}{row + 1}:.P{row + 1}]"
            below = f";[.A{row + 2}:.P64]" if row < ROWS - 1 else ""
            texts[cell] = f"=MAX({rest}{below})+1"
    return texts, CELLS - 1


def drawn():
    """Up to two references to any cells with a greater number: no circles."""
    draw = random.Random(1)
    texts = []
    for cell in range(CELLS):
        later = [draw.randrange(cell + 1, CELLS) for _ in range(draw.randrange(3))] if cell < CELLS - 1 else []
        texts.append("=" + "+".join([one(it) for it in later] + [str(draw.randrange(100))]))
    return texts, CELLS - 1


def circles(size):
    """Circles of so many cells, whose cells are drawn."""
    texts = [""] * CELLS
    for place, cell in enumerate(SHUFFLED):
        before = place - 1 if place % size else place + size - 1
        texts[cell] = "=" + one(SHUFFLED[before])
    return texts, SHUFFLED[0]


def drawn_with_circles():
    """One or two references to any cells."""
    draw = random.Random(3)
    return ["=" + "+".join(one(draw.randrange(CELLS)) for _ in range(1 + draw.randrange(2))) for _ in range(CELLS)], 0


SHUFFLED = list(range(CELLS))
random.Random(2).shuffle(SHUFFLED)
SHEETS = {
    "chain in reading order": chain(list(range(CELLS))),
    "chain against it": chain(list(range(CELLS - 1, -1, -1))),
    "chain, shuffled": chain(SHUFFLED),
    "sums of all rows above": sums(lambda row: (0, row - 1), 0),
    "sums of all rows below": sums(lambda row: (row + 1, ROWS - 1), CELLS - 1),
    "greatest of all that follow, and 1": greatest_of_all_that_follow(),
    "up to two later cells, drawn": drawn(),
    "one circle of all": (["=" + one((cell + 1) % CELLS) for cell in range(CELLS)], 0),
    "one circle of all, shuffled": circles(CELLS),
    "64 circles of 16": circles(16),
    "one or two cells, drawn": drawn_with_circles(),
    "pairs": circles(2),
    "each refers to itself": circles(1),
}


class Client:
    """A session that has joined a process."""

    def __init__(self, port, process):
        for _ in range(500):
            try:
                self.socket = socket.create_connection(("127.0.0.1", port), timeout=600)
                break
            except ConnectionRefusedError:
                time.sleep(0.01)
        self.lines = self.socket.makefile("rb")
        self.ask(op="join", process=process)

    def ask(self, **call):
        self.socket.sendall(json.dumps(call).encode() + b"\n")
        answer = json.loads(self.lines.readline())
        if "error" in answer:
            raise SystemExit(f"recalculation.py: {call}: {answer}")
        return answer

    def report(self):
        """Milliseconds of a report."""
        start = time.perf_counter()
        answer = self.ask(op="report")
        if answer["ok"] != "settled":
            raise SystemExit(f"recalculation.py: {answer}")
        return (time.perf_counter() - start) * 1e3


def free_port():
    with socket.socket() as it:
        it.bind(("127.0.0.1", 0))
        return it.getsockname()[1]


def over_a_session(program, texts, first, store=None):
    """Milliseconds of the first report, and of one after an edit of the cell that the most depend on."""
    port = free_port()
    words = [program, "serve", "--listen", f"127.0.0.1:{port}", "--columns", str(COLUMNS), "--rows", str(ROWS),
             "--processes", "6", "--sessions", "6", *(["--store", store] if store else [])]
    server = subprocess.Popen(words, stdin=subprocess.DEVNULL, stderr=subprocess.DEVNULL)
    try:
        clients = [Client(port, process) for process in range(6)]
        for cell, text in enumerate(texts):
            clients[cell // EDITS_OF_A_PROCESS].ask(op="set", cell=name(cell), text=text)
        whole = clients[5].report()
        clients[5].ask(op="set", cell=name(first), text="2")
        again = clients[5].report()
        for client in clients:
            client.lines.close()
            client.socket.close()
        server.wait(timeout=60)
        return whole, again
    finally:
        server.kill()


def of_the_grid(program, texts):
    out = io.StringIO()
    writer = csv.writer(out, lineterminator="\n")
    for row in range(ROWS):
        writer.writerow(texts[COLUMNS * row:COLUMNS * (row + 1)])
    start = time.perf_counter()
    subprocess.run([program, "report"], input=out.getvalue().encode(), stdout=subprocess.DEVNULL, check=True)
    return (time.perf_counter() - start) * 1e3


def beside_the_grid(program, runs):
    print("| Sheet of 1,024 cells | report | shared | stored | shared, after an edit | stored, after an edit |")
    print("|---|---|---|---|---|---|")
    for title, (texts, first) in SHEETS.items():
        rows = []
        for _ in range(runs):
            with tempfile.TemporaryDirectory() as room:
                shared = over_a_session(program, texts, first)
                stored = over_a_session(program, texts, first, os.path.join(room, "sheet.db"))
                rows.append((of_the_grid(program, texts), shared[0], stored[0], shared[1], stored[1]))
        print(f"| {title} | " + " | ".join(f"{statistics.median(it):.1f}" for it in zip(*rows)) + " |", flush=True)


def edits_beside(program, workers):
    """Edits a second of four clients, each of which sets the first cells of its own chain over and over, and milliseconds of a
    report after them."""
    port = free_port()
    words = [program, "serve", "--listen", f"127.0.0.1:{port}", "--columns", str(COLUMNS), "--rows", str(ROWS),
             "--processes", "8", "--sessions", "4", "--workers", str(workers)]
    server = subprocess.Popen(words, stdin=subprocess.DEVNULL, stderr=subprocess.DEVNULL)
    try:
        clients = [Client(port, process) for process in range(4)]
        of_each = CELLS // 4
        for client in range(4):
            texts, _ = chain(SHUFFLED[of_each * client:of_each * (client + 1)])
            for cell in SHUFFLED[of_each * client:of_each * (client + 1)]:
                clients[client].ask(op="set", cell=name(cell), text=texts[cell])
        clients[0].report()

        def edit(client):
            for value in range(EDITS_BESIDE):
                clients[client].ask(op="set", cell=name(SHUFFLED[of_each * client]), text=str(value))

        threads = [threading.Thread(target=edit, args=(client,)) for client in range(4)]
        start = time.perf_counter()
        for thread in threads:
            thread.start()
        for thread in threads:
            thread.join()
        rate = 4 * EDITS_BESIDE / (time.perf_counter() - start)
        took = clients[0].report()
        for client in clients:
            client.lines.close()
            client.socket.close()
        return rate, took
    finally:
        server.kill()
        server.wait()


def with_workers(program, runs):
    rows = {workers: [] for workers in (0, 1, 2, 4)}
    for _ in range(runs):
        for workers, row in rows.items():
            row.append(edits_beside(program, workers))
    print("| Workers | edits a second | report after them, ms | ratio of the edits | ratio of the report |")
    print("|---|---|---|---|---|")
    none = [statistics.median(it) for it in zip(*rows[0])]
    for workers, row in rows.items():
        rate, took = [statistics.median(it) for it in zip(*row)]
        print(f"| {workers} | {rate:.0f} | {took:.2f} | {rate / none[0]:.2f} | {took / none[1]:.2f} |")


def beside(program, runs, other):
    print("| Sheet of 1,024 cells | first report | of the other | ratio | after an edit | of the other | ratio |")
    print("|---|---|---|---|---|---|---|")
    for title, (texts, first) in SHEETS.items():
        rows = []
        for _ in range(runs):
            rows.append(over_a_session(program, texts, first) + over_a_session(other, texts, first))
        whole, again, other_whole, other_again = [statistics.median(it) for it in zip(*rows)]
        print(f"| {title} | {whole:.1f} | {other_whole:.1f} | {whole / other_whole:.3f} | {again:.2f} | {other_again:.2f} "
              f"| {again / other_again:.3f} |", flush=True)


def main():
    program, runs, rest = sys.argv[1], int(sys.argv[2]), sys.argv[3:]
    if rest == ["--workers"]:
        with_workers(program, runs)
    elif rest:
        beside(program, runs, rest[0])
    else:
        beside_the_grid(program, runs)


main()
