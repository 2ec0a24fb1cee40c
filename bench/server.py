#!/usr/bin/env python3
"""Prints what all of shb-record costs for a server beside ThreadSanitizer, for docs/BENCHMARKS.md.

    server.py MEMCACHED [RUNS]

MEMCACHED is memcached, built with -fsanitize=thread. It has four threads, and serves four clients by TCP,
each with 3,000 requests that set, get and increment 200 keys; then SIGTERM ends it. It is run with gcc's
library, which reports nothing, and by shb-record with seed 1, in turn; the built analyser is bin/shb, or what
SHB names. CPU seconds are those of the server and of all that shb-record starts, without the clients, the
least of RUNS runs (3); memory is the most that one process had.
"""

import os
import pathlib
import random
import signal
import socket
import subprocess
import sys
import tempfile
import threading
import time

TOP = pathlib.Path(__file__).resolve().parent.parent
CLIENTS, REQUESTS, KEYS = 4, 3_000, 200
PATIENCE = 10  # seconds until the server listens


def free_port():
    with socket.create_server(("127.0.0.1", 0)) as held:
        return held.getsockname()[1]


def connected(port):
    """A connection to the server, which may not listen yet."""
    end = time.monotonic() + PATIENCE
    while True:
        try:
            return socket.create_connection(("127.0.0.1", port))
        except ConnectionRefusedError:
            if time.monotonic() > end:
                raise
            time.sleep(0.02)


def request(draw):
    """A request, and how its answer's last line begins, or nothing if it has one line."""
    key = b"key%d" % draw.randrange(KEYS)
    return draw.choice(((b"set %s 0 0 2\r\n17\r\n" % key, b""), (b"get %s\r\n" % key, b"END"),
                        (b"incr %s 1\r\n" % key, b"")))


def talk(port, seed):
    """Makes the requests of one client."""
    draw = random.Random(seed)
    with connected(port) as connection, connection.makefile("rb") as answers:
        for _ in range(REQUESTS):
            words, last = request(draw)
            connection.sendall(words)
            next(answer for answer in answers if answer.startswith(last))


def served(starter, memcached, environment, folder):
    """The CPU seconds of a server with its clients, and the most memory of one of its processes, in MB."""
    port = free_port()
    words = [*starter, memcached, "-p", port, "-U", 0, "-l", "127.0.0.1", "-t", CLIENTS]
    words += ["-u", "root"] * (os.geteuid() == 0)
    server = subprocess.Popen(list(map(str, words)), cwd=folder, env=environment, stderr=subprocess.DEVNULL)
    clients = [threading.Thread(target=talk, args=(port, seed)) for seed in range(CLIENTS)]
    for client in clients:
        client.start()
    for client in clients:
        client.join()
    os.kill(server.pid, signal.SIGTERM)
    _, _, usage = os.wait4(server.pid, 0)
    server.returncode = 0
    return usage.ru_utime + usage.ru_stime, usage.ru_maxrss >> 10


def main(memcached, runs="3"):
    with tempfile.TemporaryDirectory() as folder:
        environment = {**os.environ, "PYTHONPYCACHEPREFIX": f"{folder}/compiled", "SHB_SEED": "1",
                       "TSAN_OPTIONS": "report_bugs=0"}
        environment.pop("PYTHONDONTWRITEBYTECODE", None)
        record = [sys.executable, "-S", TOP / "python/shb-record", "-o", f"{folder}/results"]
        path = os.path.abspath(memcached)
        rows = [(served([], path, environment, folder), served(record, path, environment, folder))
                for _ in range(int(runs))]
        (plain, _), (whole, memory) = map(min, zip(*rows))
    print("| Program | ThreadSanitizer | Whole | Ratio | Memory, MB |\n|---|---|---|---|---|")
    print(f"| memcached, {CLIENTS} × {REQUESTS:,} requests | {plain:.2f} | {whole:.2f} | {whole / plain:.1f} "
          f"| {memory:,} |")


if __name__ == "__main__":
    main(*sys.argv[1:])
