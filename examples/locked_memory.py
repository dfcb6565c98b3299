#!/usr/bin/env python3
"""Runs two threads over a memory with one lock, and writes the log of each for `tardis check`.

    python3 examples/locked_memory.py OUT          writes OUT.0 and OUT.1, which are sequentially consistent
    python3 examples/locked_memory.py OUT stale    the same, but core 1 loads from a copy that is never renewed
"""
import random
import sys
import threading

CORES, ADDRESSES, OPERATIONS = 2, 4, 1000


class Memory:
    def __init__(self):
        self.lock = threading.Lock()
        self.time = 0
        self.words = {}  # address -> (value, id of the store that wrote it)

    def load(self, log, addr, words):
        with self.lock:
            self.time += 1
            value, source = words.get(addr, (0, "init"))
            log.append(f"L {addr} {value} {self.time} 0 {source}")

    def store(self, core, log, addr, value):
        with self.lock:
            self.time += 1
            self.words[addr] = (value, f"{core}.{len(log)}")
            log.append(f"S {addr} {value} {self.time} 0")


def run(core, memory, log, words, together):
    draw = random.Random(core)
    for i in range(OPERATIONS):
        together.wait()
        addr = draw.randrange(ADDRESSES)
        if draw.random() < 0.5:
            memory.store(core, log, addr, 1000 * core + i)
        else:
            memory.load(log, addr, words)


def main(out, stale):
    memory, logs = Memory(), [[] for _ in range(CORES)]
    together = threading.Barrier(CORES)
    threads = []
    for core, log in enumerate(logs):
        words = {} if stale and core == 1 else memory.words
        threads.append(threading.Thread(target=run, args=(core, memory, log, words, together)))
    for thread in threads:
        thread.start()
    for thread in threads:
        thread.join()
    for core, log in enumerate(logs):
        with open(f"{out}.{core}", "w", newline="\n") as file:
            file.write(f"tardis-log 1 core {core} of {CORES}\n")
            file.writelines(line + "\n" for line in log)
            file.write(f"end {len(log)}\n")


if len(sys.argv) < 2:
    sys.exit(__doc__)
main(sys.argv[1], "stale" in sys.argv[2:])
