"""The outcomes that sequential consistency allows: those of all ways in which the cores of a litmus test can take turns."""
MOST_STATES = 200_000


class TooMany(Exception):
    """The test has too many states to look at all."""


def settled(program, at, registers):
    """Where a core stands after its next instructions that use no memory, and its registers then."""
    registers = list(registers)
    while at < len(program) and program[at].kind in ("ai", "jz"):
        it = program[at]
        at += 1
        if it.kind == "jz":
            at += it.skip * (registers[it.register] == 0)
        else:
            registers[it.register] = (registers[it.other] + it.word) % 2**64
    return at, tuple(registers)


def performed(it, registers, memory):
    """The registers and the words of memory after an instruction that uses memory."""
    registers, memory = list(registers), dict(memory)
    read = memory.get(it.address, 0)
    if it.kind in ("ld", "sw", "add"):
        registers[it.register] = read
    if it.kind != "ld":
        memory[it.address] = {"st": it.word, "sw": it.word, "sr": registers[it.register], "add": (read + it.word) % 2**64}[it.kind]
    return tuple(registers), tuple(sorted(memory.items()))


def outcomes(test):
    """The outcomes of the rounds that count."""
    start = tuple(settled(core.program, 0, (0,) * 16) for core in test.cores), tuple(sorted(test.initial.items()))
    known, waiting, found = {start}, [start], set()
    while waiting:
        cores, memory = waiting.pop()
        ended = True
        for number, (at, registers) in enumerate(cores):
            program = test.cores[number].program
            if at < len(program):
                ended = False
                left, words = performed(program[at], registers, memory)
                state = cores[:number] + (settled(program, at + 1, left),) + cores[number + 1 :], words
                if state not in known:
                    known.add(state)
                    waiting.append(state)
        if ended and all(cores[core][1][register] for core, register in test.counted):
            words = dict(memory)
            found.add(tuple(cores[core][1][register] for core, register in test.shown) + tuple(words.get(it, 0) for it in test.final))
        if len(known) > MOST_STATES:
            raise TooMany
    return found


def words_of(test, column):
    """Words that a column of the outcome may have on any machine: those that the test stores where the column reads."""
    everywhere = {0, *test.initial.values(), *(it.word for core in test.cores for it in core.program if it.kind in ("st", "sw", "ai"))}
    if column >= len(test.shown):
        addresses = {test.final[column - len(test.shown)]}
        computed = False
    else:
        core, register = test.shown[column]
        own = [it for it in test.cores[core].program if it.register == register]
        addresses = {it.address for it in own if it.kind in ("ld", "sw", "add")}
        computed = any(it.kind == "ai" for it in own)
    stores = [it for core in test.cores for it in core.program if it.address in addresses and it.kind in ("st", "sr", "sw", "add")]
    if computed or any(it.kind in ("sr", "add") for it in stores):
        return everywhere
    return {test.initial.get(it, 0) for it in addresses or {None}} | {it.word for it in stores} | ({0} if column < len(test.shown) else set())
