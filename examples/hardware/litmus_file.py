"""Litmus tests as the script `litmus` reads them, and their rounds as traces."""
import os
import re
import sys
import typing

NUMBER = "(?:0|[1-9][0-9]{0,19})"
RANGES = {"register": range(16), "other": range(16), "address": range(65536), "word": range(2**64), "skip": range(1, 4096)}
SHAPES = {
    "ld": "ld r{register} {address}",
    "st": "st {address} {word}",
    "sr": "sr {address} r{register}",
    "ai": "ai r{register} r{other} {word}",
    "jz": "jz r{register} {skip}",
    "sw": "sw r{register} {address} {word}",
    "add": "#add r{register} {address} {word}",
}
FENCES = ("#fence", "#store-fence", "#load-fence")
PATTERNS = {kind: shape.format(**{name: f"(?P<{name}>{NUMBER})" for name in RANGES}) for kind, shape in SHAPES.items()}


class Instruction(typing.NamedTuple):
    kind: str
    register: int = 0
    other: int = 0
    address: int = 0
    word: int = 0
    skip: int = 0


class Core(typing.NamedTuple):
    """A core's instructions, and its fences, each with the place of the instruction before which it stands."""

    program: list
    fences: list

    def reads(self):
        """The places of what reads: loads, swaps and additions."""
        return [at for at, it in enumerate(self.program) if it.kind in ("ld", "sw", "add")]


class Test(typing.NamedTuple):
    """The words that addresses begin with, if not 0; the cores; the registers and the addresses whose words are an outcome; the registers of which
    none is 0 in a round that counts; and the outcomes that are forbidden."""

    initial: dict
    cores: list
    shown: list
    final: list
    counted: list
    forbidden: list

    def addresses(self):
        used = {it.address for core in self.cores for it in core.program if it.kind not in ("ai", "jz")}
        return sorted(used | set(self.final) | set(self.initial)) or [0]


def end(status, why):
    """Ends this process with one line that says why."""
    print(f"{os.path.basename(sys.argv[0])}: {why}", file=sys.stderr)
    sys.exit(status)


def lines_of(path):
    """The lines of a file, each of which ends with LF."""
    try:
        with open(path, encoding="utf-8", newline="\n") as file:
            *lines, rest = file.read().split("\n")
    except OSError as fault:
        end(4, f"{path}: {fault.strerror}")
    except UnicodeDecodeError:
        end(2, f"{path} isn't a text")
    if rest:
        end(2, f"{path} line {len(lines) + 1}: the last line has no LF")
    return lines


class Reader:
    """The lines of a test, which are taken one by one."""

    def __init__(self, path, lines):
        self.path, self.lines, self.at = path, lines + [""], 0

    def next(self):
        return self.lines[self.at]

    def refuse(self, what):
        end(2, f"{self.path} line {self.at + 1}: {self.next()[:80]!r} isn't {what}")

    def take(self, pattern, what):
        """The match of the next line, which is to be of a shape."""
        found = re.fullmatch(pattern, self.next()) or self.refuse(what)
        self.at += 1
        return found

    def take_list(self, first, part, count=None):
        """What the next line has after this word, the numbers of each part, which is of a shape; nothing where the line begins otherwise."""
        if not self.next().startswith(first + " "):
            return []
        what = f"a line of {first} with {count or 'its'} parts"
        parts = self.take(f"{first}(?: {part})+", what)[0].split(" ")[1:]
        if count not in (None, len(parts)):
            self.at -= 1
            self.refuse(what)
        return [tuple(map(int, re.findall("[0-9]+", it))) for it in parts]


def instruction(text, with_swaps):
    """What a line says to a core, or None."""
    for kind, pattern in PATTERNS.items():
        found = re.fullmatch(pattern, text)
        if found and (with_swaps or kind != "sw"):
            numbers = {name: int(number) for name, number in found.groupdict().items()}
            return Instruction(kind, **numbers) if all(it in RANGES[name] for name, it in numbers.items()) else None
    return None


def read_core(lines, with_swaps):
    """The section of a core, after its first line."""
    core, first = Core([], []), lines.at
    while not re.match("core |show |#final ", lines.next()):
        if lines.next() in FENCES:
            core.fences.append((len(core.program), lines.next()))
        else:
            core.program.append(instruction(lines.next(), with_swaps) or lines.refuse("an instruction"))
        lines.at += 1
    for at, it in enumerate(core.program):
        if at + 1 + it.skip > len(core.program):
            end(2, f"{lines.path} line {first}: in this section {SHAPES[it.kind].format(**it._asdict())!r} skips past the end")
    return core


def read_test(path, text=None):
    """The test in a file, or in these lines."""
    lines = Reader(path, lines_of(path) if text is None else text)
    first = lines.take(f"tardis-litmus ([12]) [A-Za-z0-9+-]{{1,32}} cores ({NUMBER})", "the first line of a litmus test")
    initial = {}
    while words := lines.take_list("#initial", NUMBER, 2):
        initial[words[0][0]] = words[1][0]
    cores = []
    for core in range(int(first[2])):
        lines.take(f"core {core}", f"core {core}")
        cores.append(read_core(lines, first[1] == "2"))
    register = rf"(?:{'|'.join(map(str, range(len(cores))))})\.r(?:1[0-5]|[0-9])"
    shown = lines.take_list("show", register)
    final = [it for (it,) in lines.take_list("#final", NUMBER)]
    if not shown + final:
        lines.refuse("a line of show or #final")
    counted = lines.take_list("#counted", register)
    forbidden = []
    while outcome := lines.take_list("forbid", NUMBER, len(shown) + len(final)):
        forbidden.append(tuple(it for (it,) in outcome))
    lines.take("end", "forbid nor end")
    if lines.lines[lines.at :] != [""] or not 1 <= len(cores) <= 64 - bool(final):
        lines.refuse("the end of a test of at most 64 cores, or 63 with #final")
    return Test(initial, cores, shown, final, counted, forbidden)


def replay(program, read):
    """What a core did whose loads and swaps read these words, by their places, and its registers at the end. An operation has its address, the
    word that it read and the one that it stored, or None."""
    registers, operations, at = [0] * 16, [], 0
    while at < len(program):
        it, place = program[at], at
        at += 1
        if it.kind == "jz":
            at += it.skip * (registers[it.register] == 0)
        elif it.kind == "ai":
            registers[it.register] = (registers[it.other] + it.word) % 2**64
        elif it.kind in ("st", "sr"):
            operations.append((it.address, None, it.word if it.kind == "st" else registers[it.register]))
        else:
            registers[it.register] = read[place]
            stored = {"ld": None, "sw": it.word, "add": (read[place] + it.word) % 2**64}[it.kind]
            operations.append((it.address, read[place], stored))
    return operations, registers


class Round:
    """What each core did in a round, the final words, and the outcome, or None where the round doesn't count."""

    def __init__(self, test, words):
        self.operations, registers = [], []
        for core in test.cores:
            reads = core.reads()
            own, left = replay(core.program, dict(zip(reads, words)))
            self.operations.append(own)
            registers.append(left)
            words = words[len(reads) :]
        self.final = words
        counts = all(registers[core][register] for core, register in test.counted)
        self.outcome = tuple(registers[core][register] for core, register in test.shown) + words if counts else None


def line(core, addr, read, stored, first=0):
    """An operation as a line of a trace, where each word is told xor the first one at its address."""
    if stored is None:
        return f"{core}: M[{addr}] == {read ^ first}\n"
    if read is None:
        return f"{core}: M[{addr}] := {stored ^ first}\n"
    return f"{core}: {{ M[{addr}] == {read ^ first}; M[{addr}] := {stored ^ first} }}\n"


def trace(test, rounds):
    """Rounds as one trace, each with words of its own. Where the test has final words, each core ends with the store of a flag, and a core more,
    the observer, loads all flags and then the final words."""
    observer, width = len(test.cores), test.addresses()[-1] + 1
    flag, text = width * len(rounds), []

    def told(core, place, addr, read, stored):
        text.append(line(core, place * width + addr, read, stored, test.initial.get(addr, 0)))

    for core in range(observer):
        for place, it in enumerate(rounds):
            for operation in it.operations[core]:
                told(core, place, *operation)
        text += [line(core, flag + core, None, 1)] if test.final else []
    if test.final:
        text += [line(observer, flag + core, 1, None) for core in range(observer)]
        for place, it in enumerate(rounds):
            for addr, word in zip(test.final, it.final):
                told(observer, place, addr, word, None)
    return "".join(text)
