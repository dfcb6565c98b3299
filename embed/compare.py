"""Compares the library with the command `check` on random sets, right, wrong and broken, and with the command `search` on random
traces: python3 compare.py LIBRARY TARDIS CASES SEED"""
import ctypes
import os
import random
import re
import subprocess
import sys
import tempfile

RULES = ["", "CORE-ORDER", "PROGRAM", "SOURCE", "VALUE"]
NAMES = {20: "BadHeader", 21: "BadLine", 22: "OutOfRange", 23: "TooMany", 24: "CountDiffers", 25: "TrailingBytes",
         26: "Truncated", 27: "WrongCore"}


class Verdict(ctypes.Structure):
    _fields_ = [(n, ctypes.c_uint64) for n in ("count", "core", "index", "file", "line")] + [
        (n, ctypes.c_uint32) for n in ("rule", "number")]


class Operation(ctypes.Structure):
    _fields_ = [(n, ctypes.c_uint64) for n in ("value", "read", "ts")] + [
        (n, ctypes.c_uint32) for n in ("rank", "source_index")] + [("addr", ctypes.c_uint64)] + [
        (n, ctypes.c_uint8) for n in ("kind", "source_core")]


class Access(ctypes.Structure):
    _fields_ = [(n, ctypes.c_uint64) for n in ("addr", "value", "read")] + [("kind", ctypes.c_uint8)]


class Finding(ctypes.Structure):
    _fields_ = [(n, ctypes.c_uint64) for n in ("length", "core", "index")] + [("number", ctypes.c_uint32)]


lib = ctypes.CDLL(sys.argv[1])
lib.tardis_check.restype = lib.tardis_check_operations.restype = lib.tardis_search_operations.restype = ctypes.c_uint8
P, S = ctypes.c_void_p, ctypes.c_size_t
lib.tardis_search_operations.argtypes = [P, S, P, S, ctypes.c_uint64, P, S, P]
lib.tardis_check.argtypes = [ctypes.c_char_p, S, P, S, P]
lib.tardis_check_operations.argtypes = [P, S, P, S, P]


def told(status, v):
    if status == 0:
        return f"yes: {v.count} operations"
    if status == 1:
        return f"no: {v.core}.{v.index} {RULES[v.rule]}"
    if status == 2:
        return f"refused: file {v.file} line {v.line}: {v.number} {NAMES[v.number]}"
    return f"refused: {v.number} BadConfig files" if status == 3 else f"status {status}"


def ends_of(lengths):
    ends, end = [], 0
    for n in lengths:
        end += n
        ends.append(end)
    return (S * max(len(ends), 1))(*ends), end


def by_text(texts):
    ends, size = ends_of(map(len, texts))
    v = Verdict()
    return told(lib.tardis_check(b"".join(texts), size, ends, len(texts), ctypes.byref(v)), v)


def by_numbers(logs):
    ends, size = ends_of(map(len, logs))
    ops = (Operation * max(size, 1))(*[o for log in logs for o in log])
    v = Verdict()
    return told(lib.tardis_check_operations(ops, size, ends, len(logs), ctypes.byref(v)), v)


def command(texts):
    with tempfile.TemporaryDirectory() as d:
        names = []
        for k, text in enumerate(texts):
            names.append(os.path.join(d, str(k)))
            open(names[-1], "wb").write(text)
        r = subprocess.run([sys.argv[2], "check", *names], capture_output=True, text=True)
        return (r.stdout or r.stderr).strip()


def machine(r):
    cores, addresses = r.randint(1, 6), r.randint(1, 6)
    logs, word, last = [[] for _ in range(cores)], {}, {}
    ts = rank = 0
    for _ in range(r.choice([r.randint(0, 40), r.randint(0, 40), r.randint(256, 3000)])):
        if r.random() < 0.7:
            ts, rank = ts + r.randint(1, 3), 0
        else:
            rank += r.randint(1, 2)
        c, a, kind = r.randrange(cores), r.randrange(addresses) * 13107, r.randrange(3)
        core, index = last.get(a, (255, 0))
        o = Operation(addr=a, kind=kind, ts=ts, rank=rank, value=word.get(a, 0), source_core=255)
        if kind != 1:
            o.source_core, o.source_index = core, index
        if kind == 2:
            o.read = word.get(a, 0)
        if kind != 0:
            o.value = word[a] = r.randrange(3)
            last[a] = (c, len(logs[c]))
        logs[c].append(o)
    return logs


def text(core, cores, log):
    lines = [f"tardis-log 2 core {core} of {cores}"]
    for o in log:
        source = "init" if o.source_core == 255 else f"{o.source_core}.{o.source_index}"
        lines.append(f"{'LSX'[o.kind]} {o.addr} {o.value} {o.ts} {o.rank}" + ("" if o.kind == 1 else f" {source}")
                     + (f" {o.read}" if o.kind == 2 else ""))
    return ("\n".join(lines + [f"end {len(log)}"]) + "\n").encode()


def trace(r):
    """The cores of a small trace, as accesses. Most orders that one memory gives, some words changed."""
    cores, addresses = r.randint(1, 4), [r.randrange(2**64) for _ in range(r.randint(1, 3))]
    own, word = [[] for _ in range(cores)], {}
    for _ in range(r.randint(0, 14)):
        a, kind, stored = r.choice(addresses), r.randrange(3), r.choice([0, 1, 2, 2**64 - 1])
        read = word.get(a, 0)
        r.choice(own).append(Access(addr=a, kind=kind, value=stored if kind else read, read=read if kind == 2 else 0))
        if kind:
            word[a] = stored
    for o in r.sample([o for core in own for o in core], k=min(r.choice([0, 0, 1, 2]), sum(map(len, own)))):
        setattr(o, r.choice(["value", "read", "addr"]), r.choice([0, 1, 2, addresses[0]]))
    return own


def trace_text(cores):
    line = [lambda o: f"M[{o.addr}] == {o.value}", lambda o: f"M[{o.addr}] := {o.value}",
            lambda o: f"{{ M[{o.addr}] == {o.read}; M[{o.addr}] := {o.value} }}"]
    return "".join(f"{k}: {line[o.kind](o)}\n" for k, core in enumerate(cores) for o in core)


def by_search(cores, budget, room):
    """The status, the finding and the buffer, which had 0xAA everywhere."""
    ends, size = ends_of(map(len, cores))
    ops = (Access * max(size, 1))(*[o for core in cores for o in core])
    buffer, f = (ctypes.c_uint8 * max(room, 1))(*[0xAA] * max(room, 1)), Finding()
    status = lib.tardis_search_operations(ops, size, ends, len(cores), budget, buffer, room, ctypes.byref(f))
    return status, f, bytes(buffer)[:room]


def search_command(cores, budget):
    """The exit status, and the text of the order or the refutation."""
    with tempfile.TemporaryDirectory() as d:
        names = [os.path.join(d, n) for n in ("trace", "order", "refutation")]
        open(names[0], "w").write(trace_text(cores))
        r = subprocess.run([sys.argv[2], "search", "--budget", str(budget), "--order", names[1], "--refutation", names[2], names[0]],
                           capture_output=True, text=True)
        found = [open(n, "rb").read() for n in names[1:] if os.path.exists(n)]
        return r.returncode, found[0] if found else b""


def compare_search(case, r):
    cores, budget = trace(r), r.choice([10**8, 10**8, r.randrange(60)])
    wanted, text_wanted = search_command(cores, budget)
    # Cores without operations at the end are in no text. They are none of the order, and cost it no step.
    status, f, buffer = by_search(cores + [[]] * r.choice([0, 0, 1, 60]), budget, 4096)
    if (status, f.length, buffer[:f.length]) != (wanted, len(text_wanted), text_wanted) or f.number != (44 if wanted == 4 else 0):
        sys.exit(f"search {case}: {(status, f.length, f.number, buffer[:f.length])} for {(wanted, text_wanted)}: {trace_text(cores)}")
    if set(buffer[f.length:]) - {0xAA}:
        sys.exit(f"search {case}: written behind the text")
    room = r.randrange(len(text_wanted) + 1)
    again, g, small = by_search(cores, budget, room)
    if (again, g.length) != (status, f.length) or small != (text_wanted if room == g.length else b"\xaa" * room):
        sys.exit(f"search {case}: {(again, g.length, small)} with room for {room} of {text_wanted}")
    if any(cores):
        k = r.choice([k for k, core in enumerate(cores) if core])
        at = r.randrange(len(cores[k]))
        cores[k][at].kind = r.randint(3, 255)
        again, g, small = by_search(cores, budget, 100)
        if (again, g.core, g.index, g.number, g.length, small) != (2, k, at, 22, 0, b"\xaa" * 100):
            sys.exit(f"search {case}: {(again, g.core, g.index, g.number)} for operation {k}.{at} of no kind")
    return ["search: yes", "search: no", None, None, "search: undecided"][status]


seen = {}
r = random.Random(int(sys.argv[4]))
for case in range(int(sys.argv[3])):
    logs = machine(r)
    for _ in range(r.choice([0, 0, 1, 1, 2])):
        log = r.choice(logs)
        if log:
            o = r.choice(log)
            field = r.choice(["value", "read", "ts", "rank", "source_index", "source_core", "addr"])
            setattr(o, field, r.choice([0, 1, 2, 3, 5, 1048575, 1048576, 63, 255, 281474976710656, 281474976710657])
                    & {"source_core": 255, "rank": 2**32 - 1, "source_index": 2**32 - 1}.get(field, 2**64 - 1))
    texts = [text(k, len(logs), log) for k, log in enumerate(logs)]
    wanted, numbers = command(texts), by_numbers(logs)
    if by_text(texts) != wanted:
        sys.exit(f"case {case}: {by_text(texts)!r} for {wanted!r}: {texts}")
    bad = re.fullmatch(r"refused: file (\d+) line (\d+): 22 OutOfRange", wanted)
    if bad:
        v = Verdict()
        ends, size = ends_of(map(len, logs))
        ops = (Operation * max(size, 1))(*[o for log in logs for o in log])
        status = lib.tardis_check_operations(ops, size, ends, len(logs), ctypes.byref(v))
        if (status, v.core, v.index + 2, v.number) != (2, int(bad[1]), int(bad[2]), 22):
            sys.exit(f"case {case}: {(status, v.core, v.index, v.number)} for {wanted!r}")
    elif numbers != wanted:
        sys.exit(f"case {case}: {numbers!r} for {wanted!r}: {texts}")
    kind = re.sub(r"\d+", "N", wanted)
    seen[kind] = seen.get(kind, 0) + 1
    if r.random() < 0.5:
        k = r.randrange(len(texts))
        t = bytearray(texts[k])
        at = r.randrange(len(t))
        t[at : at + r.randrange(3)] = bytes(r.choice(b" 0192SLXend\n.") for _ in range(r.randrange(3)))
        texts[k] = bytes(t)
        wanted = command(texts)
        if by_text(texts) != wanted:
            sys.exit(f"case {case}: {by_text(texts)!r} for {wanted!r}: {texts}")
        kind = re.sub(r"\d+", "N", wanted)
        seen[kind] = seen.get(kind, 0) + 1
for case in range(int(sys.argv[3])):
    kind = compare_search(case, r)
    seen[kind] = seen.get(kind, 0) + 1
for kind in sorted(seen):
    print(seen[kind], kind)
