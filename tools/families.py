#!/usr/bin/env python3
"""Traces of ordinary programs: locks, counters, flags, queues, few words.

    tools/families.py FAMILY OPERATIONS [--cores N] [--seed N] [--bug stale|lost|buffers] [--where PART] [--in-order]

It runs a program on each core of a small machine and prints what the cores did: each core's lines together, or with --in-order all lines in the
order in which they were performed. The machine's memory is sequentially consistent, unless a bug is asked for: once, after that PART of the run, a
load (stale) or a swap (lost) finds the word before the last one, or each core's stores wait in a buffer all along (buffers). `FAMILIES` names the
programs. The same options print the same trace.
"""
import argparse
import random
import sys


class Machine:
    """Memory, and what each core did to it. A program yields its operations, and is sent what each one read."""

    def __init__(self, options):
        self.cores, self.limit, self.bug = options.cores, options.operations, options.bug
        self.begin = options.operations * options.where
        self.draw = random.Random(options.seed)
        self.memory, self.before, self.lines = {}, {}, []
        self.buffers = [[] for _ in range(options.cores)]

    def load(self, core, addr):
        waiting = [word for at, word in self.buffers[core] if at == addr]
        return self.tell(core, addr, waiting[-1] if waiting else self.found(addr, "stale"), None)

    def store(self, core, addr, word):
        if self.bug == "buffers":
            self.buffers[core].append((addr, word))
            self.drain(core, 8)
        else:
            self.put(addr, word)
        return self.tell(core, addr, None, word)

    def swap(self, core, addr, after):
        """What `after` makes of the word is stored, if it makes anything of it."""
        self.drain(core, 0)
        found = self.found(addr, "lost")
        word = after(found)
        if word is not None:
            self.put(addr, word)
        return self.tell(core, addr, found, word)

    def found(self, addr, bug):
        """The word at an address; once the one before it, where the machine has this bug."""
        word = self.memory.get(addr, 0)
        older = self.before.get(addr, word)
        if self.bug == bug and len(self.lines) > self.begin and older != word:
            self.bug = None
            return older
        return word

    def put(self, addr, word):
        self.before[addr] = self.memory.get(addr, 0)
        self.memory[addr] = word

    def drain(self, core, most):
        """Performs a core's stores that wait, but for so many."""
        while len(self.buffers[core]) > most:
            self.put(*self.buffers[core].pop(0))

    def tell(self, core, addr, read, stored):
        said = [f"M[{addr}] == {read}"] * (read is not None) + [f"M[{addr}] := {stored}"] * (stored is not None)
        self.lines.append((core, said[0] if len(said) == 1 else "{ " + "; ".join(said) + " }"))
        return read

    def run(self, program):
        programs = [program(core, self) for core in range(self.cores)]
        pending = [next(each) for each in programs]
        while len(self.lines) < self.limit:
            core = self.draw.randrange(self.cores)
            for _ in range(min(self.draw.randint(1, 4), self.limit - len(self.lines))):
                kind, *rest = pending[core]
                pending[core] = programs[core].send(getattr(self, kind)(core, *rest))
            if self.draw.random() < 0.5:
                self.drain(core, self.draw.randint(0, 8))
        return self.lines


def load(addr):
    return "load", addr


def store(addr, word):
    return "store", addr, word


def exchange(addr, word):
    return "swap", addr, lambda _: word


def compare_and_swap(addr, old, new):
    return "swap", addr, lambda found: new % 2**64 if found == old else None


def add(addr, count):
    return "swap", addr, lambda found: (found + count) % 2**64


def spinlock(core, machine):
    """A lock of one word that cores spin on, around a counter of four words."""
    while True:
        while (yield load(0)) != 0 or (yield exchange(0, 1)) != 0:
            pass
        count = yield load(1)
        yield store(1, (count + 1) % 4)
        for _ in range(machine.draw.randint(0, 3)):
            yield load(2 + machine.draw.randrange(4))
        yield store(0, 0)


def refcount(core, machine):
    """References to four objects, taken and dropped by adding 1 and -1."""
    held = []
    while True:
        if held and (len(held) > 2 or machine.draw.random() < 0.5):
            yield add(held.pop(machine.draw.randrange(len(held))), -1)
        else:
            held.append(machine.draw.randrange(4))
            yield add(held[-1], 1)
        if machine.draw.random() < 0.3:
            yield load(machine.draw.randrange(4))


def rwlock(core, machine):
    """A lock for one writer or many readers (0 free, n readers, 99 a writer) around four words."""
    while True:
        if machine.draw.random() < 0.3:
            while (yield compare_and_swap(0, 0, 99)) != 0:
                pass
            for addr in range(1, 5):
                yield store(addr, machine.draw.randrange(8))
            yield store(0, 0)
        else:
            while (found := (yield load(0))) == 99 or (yield compare_and_swap(0, found, found + 1)) != found:
                pass
            for addr in range(1, 5):
                yield load(addr)
            yield add(0, -1)


def flags(core, machine):
    """Barriers: each core sets its flag and waits for all others', of which the sense turns each time."""
    sense = 1
    while True:
        for base in (0, 64):
            yield store(base + core, sense)
            for other in range(machine.cores):
                while (yield load(base + other)) != sense:
                    pass
        sense = 1 - sense


def workers(core, machine):
    """A board of jobs (0 none, 1 ready, 2 taken) that core 0 fills and the others claim."""
    while True:
        slot = machine.draw.randrange(8)
        found = yield load(slot)
        if core == 0 and found == 0:
            yield store(20 + slot, machine.draw.randrange(16))
            yield store(slot, 1)
        elif core != 0 and found == 1 and (yield compare_and_swap(slot, 1, 2)) == 1:
            yield load(20 + slot)
            yield store(20 + slot, 0)
            yield store(slot, 0)


def peterson(core, machine):
    """Peterson's lock between pairs of cores, around a byte."""
    base, own = 10 * (core // 2), core % 2
    while True:
        yield store(base + own, 1)
        yield store(base + 2, 1 - own)
        while (yield load(base + 1 - own)) != 0 and (yield load(base + 2)) != own:
            pass
        count = yield load(base + 3)
        yield store(base + 3, (count + 1) % 256)
        yield store(base + own, 0)


def ring(core, machine):
    """Queues of bytes between pairs of cores, of eight slots each."""
    base, slot = 100 * (core // 2), 0
    while True:
        if core % 2 == 0:
            while (slot + 1) % 8 == (yield load(base)):
                pass
            yield store(base + 10 + slot, machine.draw.randrange(256))
        else:
            while slot == (yield load(base + 1)):
                pass
            yield load(base + 10 + slot)
        slot = (slot + 1) % 8
        yield store(base + (1 - core % 2), slot)


def unique(core, machine):
    """Loads, stores and swaps of distinct words at eight addresses."""
    number = 0
    while True:
        number += 1
        addr, kind, word = machine.draw.randrange(8), machine.draw.random(), 1 + core + 64 * number
        yield load(addr) if kind < 0.5 else store(addr, word) if kind < 0.95 else exchange(addr, word)


def fewwords(core, machine):
    """The same with four words at four addresses."""
    while True:
        addr, kind, word = machine.draw.randrange(4), machine.draw.random(), machine.draw.randrange(4)
        yield load(addr) if kind < 0.5 else store(addr, word) if kind < 0.95 else exchange(addr, word)


def zeroed(core, machine):
    """Blocks that are claimed by the number of a core, zeroed, used and given back."""
    while True:
        block = machine.draw.randrange(8)
        if (yield compare_and_swap(block, 0, core + 1)) != 0:
            continue
        words = range(1000 + 8 * block, 1004 + 8 * block)
        for word in [0, None, "load", 0]:
            for addr in words:
                yield load(addr) if word == "load" else store(addr, machine.draw.randrange(1, 4) if word is None else 0)
        yield store(block, 0)


def chain(options):
    """Core 0 reads zeros, which core 1 then writes over and puts back one behind: core 0 has to go first."""
    count = options.operations // 3
    yield from ((0, f"M[{addr}] == 0") for addr in range(1, count + 1))
    for addr in range(1, count + 1):
        yield 1, f"M[{addr}] := 5"
        if addr > 1:
            yield 1, f"M[{addr - 1}] := 0"


def stale_flag(options):
    """Core 0 toggles a flag and stores a word; core 1 reads the word, and then what the flag was before."""
    count = (options.operations // 2) | 1
    yield from ((0, f"M[0] := {number % 2}") for number in range(1, count + 1))
    yield from [(0, "M[1] := 7"), (1, "M[1] == 7"), (1, "M[0] == 0")]
    yield from ((2, f"M[2] := {number}") for number in range(1, count + 1))


FAMILIES = {each.__name__: each for each in [spinlock, refcount, rwlock, flags, workers, peterson, ring, unique, fewwords, zeroed]}
FIXED = {each.__name__: each for each in [chain, stale_flag]}


def parser():
    """The options of a trace."""
    options = argparse.ArgumentParser(description=__doc__, formatter_class=argparse.RawDescriptionHelpFormatter)
    options.add_argument("family", choices=[*FAMILIES, *FIXED])
    options.add_argument("operations", type=int)
    options.add_argument("--cores", type=int, default=4)
    options.add_argument("--seed", type=int, default=1)
    options.add_argument("--bug", choices=["stale", "lost", "buffers"])
    options.add_argument("--where", type=float, default=0.5)
    options.add_argument("--in-order", action="store_true")
    return options


def trace(options):
    """The text of a trace."""
    fixed = FIXED.get(options.family)
    lines = list(fixed(options)) if fixed else Machine(options).run(FAMILIES[options.family])
    if not options.in_order:
        lines.sort(key=lambda line: line[0])
    return "".join(f"{core}: {said}\n" for core, said in lines)


if __name__ == "__main__":
    sys.stdout.write(trace(parser().parse_args()))
