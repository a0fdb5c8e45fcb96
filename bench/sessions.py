#!/usr/bin/env python3
"""Prints what an edit costs over loopback, by the number of clients and of workers, beside the same edit in a script.

sessions.py PROGRAM CLIENTS RUNS     the program, the built clients.cpp, and how many runs of each, which take turns
"""
import socket
import statistics
import subprocess
import sys
import time

EDITS = 256
CLIENTS = (1, 2, 4)
WORKERS = (0, 1, 2)


def free_port():
    with socket.socket() as it:
        it.bind(("127.0.0.1", 0))
        return it.getsockname()[1]


def over_loopback(program, clients_program, clients, workers):
    """Microseconds an edit, of clients that each make 256 edits."""
    port = free_port()
    words = [program, "serve", "--listen", f"127.0.0.1:{port}", "--columns", "16", "--rows", "64", "--processes", "8"]
    words += ["--workers", str(workers), "--sessions", str(clients)]
    server = subprocess.Popen(words, stdin=subprocess.DEVNULL, stderr=subprocess.DEVNULL)
    try:
        asked = [clients_program, str(port), str(clients), str(EDITS)]
        return float(subprocess.run(asked, stdout=subprocess.PIPE, check=True, timeout=60).stdout)
    finally:
        server.wait(timeout=60)


def in_a_script(program):
    """Microseconds an edit, of four processes that each make 256 edits in a script, less a script without them."""
    lines = [f"set {p} {'ABCD'[p]}2 =[.A1]+[.B1]{'+1' * (k % 2)}" for k in range(EDITS) for p in range(4)]
    times = []
    for body in (lines, [f"#{line}" for line in lines]):
        script = "\n".join(["sheet 16 64 8", *body, ""]).encode()
        start = time.perf_counter()
        subprocess.run([program, "run"], input=script, stdout=subprocess.DEVNULL, check=True)
        times.append(time.perf_counter() - start)
    return (times[0] - times[1]) * 1e6 / len(lines)


def main():
    program, clients_program, runs = sys.argv[1], sys.argv[2], int(sys.argv[3])
    kinds = [(clients, workers) for clients in CLIENTS for workers in WORKERS]
    times = {kind: [] for kind in kinds}
    scripts = []
    for _ in range(runs):
        scripts.append(in_a_script(program))
        for kind in kinds:
            times[kind].append(over_loopback(program, clients_program, *kind))
    script = statistics.median(scripts)
    print(f"An edit in a script: {script:.2f} microseconds.\n")
    print("| Clients | Workers | microseconds an edit | edits a second | to an edit in a script |")
    print("|---|---|---|---|---|")
    for clients, workers in kinds:
        one = statistics.median(times[clients, workers])
        print(f"| {clients} | {workers} | {one:.1f} | {1e6 / one:.0f} | {one / script:.1f} |")


if __name__ == "__main__":
    main()
