#!/usr/bin/env python3
"""Prints how many edits a second a server makes with a store in memory and in a file, and a plain program with the same
transactions, by the number of clients; how long a store with all its edits takes to open, and how long an edit waits while the
server goes over to a new sheet.

store.py PROGRAM CLIENTS PLAIN RUNS     the program, the built clients.cpp and plain_store.cpp, and how many runs of each, which
                                        take turns
"""
import os
import socket
import statistics
import subprocess
import sys
import tempfile
import time

EDITS = 256
# The cells of the sheet, how many edits come once all have texts, and how many of them a new sheet has room for at least:
# with 128 texts set by each process, until one has made 240.
CELLS, MORE, ROOM = 1024, 2240, 112
CLIENTS = (1, 2, 4, 8)
SHAPE = ["--columns", "16", "--rows", "64", "--processes", "8"]


def serve(program, sessions, store):
    """Starts a server that ends after this number of sessions; returns it and its port."""
    words = [program, "serve", "--listen", "127.0.0.1:0", *SHAPE, "--sessions", str(sessions)]
    words += ["--store", store] if store else []
    return started(words)


def started(words):
    """Starts a server; returns it and the port that it tells."""
    server = subprocess.Popen(words, stdin=subprocess.DEVNULL, stderr=subprocess.PIPE, text=True)
    return server, int(server.stderr.readline().rsplit(":", 1)[1])


def edits_a_second(begun, clients_program, clients):
    server, port = begun
    try:
        asked = [clients_program, str(port), str(clients), str(EDITS)]
        return 1e6 / float(subprocess.run(asked, stdout=subprocess.PIPE, check=True, timeout=120).stdout)
    finally:
        server.communicate(timeout=60)


def seconds_to_open(program, store):
    """From the start of a server to its first word, with a store of all edits of eight processes."""
    start = time.perf_counter()
    server, port = serve(program, 1, store)
    seconds = time.perf_counter() - start
    with socket.create_connection(("127.0.0.1", port)) as link:
        link.sendall(b'{"op":"join","process":0}\n')
        link.recv(1000)
    server.communicate(timeout=60)
    return seconds


def edit_times(program, store):
    """How long each edit of one process takes, in a sheet whose cells all have texts, in seconds."""
    server, port = serve(program, 1, store)
    times = []
    with socket.create_connection(("127.0.0.1", port)) as link, link.makefile("rw") as stream:
        for number in range(-1, CELLS + MORE):
            cell = f"{chr(65 + number % 16)}{number // 16 % 64 + 1}"
            call = f'{{"op":"set","cell":"{cell}","text":"{number}"}}' if number >= 0 else '{"op":"join","process":0}'
            start = time.perf_counter()
            stream.write(f"{call}\n")
            stream.flush()
            stream.readline()
            times.append(time.perf_counter() - start)
    server.communicate(timeout=60)
    return times[1 + CELLS:]


def main():
    program, clients_program, plain, runs = *sys.argv[1:4], int(sys.argv[4])
    rates = {(clients, kind): [] for clients in CLIENTS for kind in ("memory", "file", "plain")}
    opened = []
    with tempfile.TemporaryDirectory() as folder:
        for run in range(runs):
            for clients, kind in rates:
                store = os.path.join(folder, f"{run}-{clients}-{kind}.db")
                if kind == "plain":
                    begun = started([plain, store, str(clients)])
                else:
                    begun = serve(program, clients, store if kind == "file" else None)
                rates[clients, kind].append(edits_a_second(begun, clients_program, clients))
            opened.append(seconds_to_open(program, os.path.join(folder, f"{run}-8-file.db")))
    print("| Clients | in memory | in a file | plain | ratio |")
    print("|---|---|---|---|---|")
    for clients in CLIENTS:
        memory, kept, beside = (statistics.median(rates[clients, it]) for it in ("memory", "file", "plain"))
        print(f"| {clients} | {memory:,.0f} | {kept:,.0f} | {beside:,.0f} | {kept / beside:.2f} |")
    with tempfile.TemporaryDirectory() as folder:
        times = sorted(edit_times(program, os.path.join(folder, "full.db")))
    changes = times[-(MORE // ROOM):]
    print(f"\nAn edit that waits until the server has gone over to a new sheet with {CELLS:,} texts takes "
          f"{statistics.median(changes) * 1000:.0f} ms, another one {statistics.median(times) * 1000:.1f} ms.")
    print(f"\nA store of {8 * EDITS:,} edits is open {statistics.median(opened) * 1000:.0f} ms after the start of its server.")


main()
