"""Writes a herd test as a litmus test, for the script `litmus` or for the command `tardis litmus`."""
import itertools
import re
import typing

from herd_program import Pointed, Sum, Untold
from litmus_file import FENCES, read_test
from outcomes import TooMany, outcomes, words_of

# A register that no program writes, so it holds 0.
ZERO = 15
# What a word holds while an addition is under way, where there is no addition in one step. Plus 1 it is 0.
TAKEN = 2**64 - 1
# How many loads a core waits, at least, before it looks whether others have come far enough.
WAITING_LOADS = 6
MOST_SHOWN, MOST_FORBIDDEN = 8, 16


class Jump(typing.NamedTuple):
    """A jump to a label where a register holds 0."""

    register: int
    label: object


class Label:
    """A place in a program."""


class Core:
    """A core's program so far. Of each register: its number here, and its word, if it is known before any run."""

    def __init__(self, locations, machine, added):
        self.locations, self.machine, self.added = locations, machine, added
        self.lines, self.numbers, self.known, self.may_give_up, self.end, self.depth = [], {}, {}, False, Label(), 0

    def number(self, register):
        found = self.numbers.setdefault(register, len(self.numbers))
        if found >= ZERO:
            raise Untold("a thread has more registers than a core has here")
        return found

    def word(self, register):
        return self.known.get(register, 0)

    def address(self, location):
        return self.locations.number(location)

    def give_up_if_zero(self, register):
        """Ends the core, so that its round doesn't count."""
        self.lines.append(Jump(register, self.end))
        self.may_give_up = True

    def give_up_unless_zero(self, register):
        beyond = Label()
        self.lines.append(Jump(register, beyond))
        self.give_up_if_zero(ZERO)
        self.lines.append(beyond)

    def value(self, it):
        """A sum as a word, or None and the number of a register that holds it."""
        if it.register is None:
            return it.word, None
        if self.word(it.register) is not None:
            return (self.word(it.register) + it.word) % 2**64, None
        if not it.word:
            return None, self.number(it.register)
        self.lines.append(f"ai r{self.number('*sum')} r{self.number(it.register)} {it.word}")
        return None, self.number("*sum")

    def give_up_if_taken(self, register):
        self.lines.append(f"ai r{self.number('*taken')} r{register} 1")
        self.give_up_if_zero(self.number("*taken"))

    def load(self, it):
        register = self.number(it.register)
        self.lines.append(f"ld r{register} {self.address(it.location)}")
        self.known[it.register] = None
        if it.location in self.added:
            self.give_up_if_taken(register)

    def store(self, it):
        word, register = self.value(it.value)
        if it.location in self.added:
            self.swapped("*old", it.location, word)
        elif word is None:
            self.lines.append(f"sr {self.address(it.location)} r{register}")
        else:
            self.lines.append(f"st {self.address(it.location)} {word}")

    def swapped(self, register, location, word):
        if word is None:
            raise Untold("a word that was loaded is stored by a swap, and a swap here stores a constant")
        self.lines.append(f"sw r{self.number(register)} {self.address(location)} {word}")
        self.known[register] = None
        if location in self.added:
            self.give_up_if_taken(self.number(register))

    def swap(self, it):
        self.swapped(it.register or "*old", it.location, self.value(it.value)[0])

    def add(self, it):
        word, _ = self.value(it.value)
        register = it.register or "*old"
        if word is None:
            raise Untold("a word that was loaded is added, and an addition here adds a constant")
        if not self.machine:
            self.lines.append(f"#add r{self.number(register)} {self.address(it.location)} {word}")
        else:
            self.swapped(register, it.location, TAKEN)
            self.lines += [f"ai r{self.number('*sum')} r{self.number(register)} {word}", f"sr {self.address(it.location)} r{self.number('*sum')}"]
        self.known[register] = None

    def set(self, it):
        word, register = self.value(it.value)
        if word is None:
            self.lines.append(f"ai r{self.number(it.register)} r{register} 0")
        elif self.depth:
            self.lines.append(f"ai r{self.number(it.register)} r{ZERO} {word}")
            word = None
        self.known[it.register] = word

    def fence(self, it):
        self.lines += [] if self.machine else [it.fence]

    def lock(self, it):
        self.lines.append(f"sw r{self.number('*lock')} {self.address(it.location)} 1")
        self.give_up_unless_zero(self.number("*lock"))

    def unlock(self, it):
        self.lines.append(f"st {self.address(it.location)} 0")

    def try_lock(self, it):
        register, beyond = self.number(it.register), Label()
        self.lines += [f"sw r{self.number('*lock')} {self.address(it.location)} 1", f"ai r{register} r{ZERO} 1"]
        self.lines += [Jump(self.number("*lock"), beyond), f"ai r{register} r{ZERO} 0", beyond]
        self.known[it.register] = None

    def branch(self, it):
        """An `if`, of which both parts leave each register that one of them writes unknown."""
        if self.word(it.register) is not None:
            chosen = it.then if (self.word(it.register) == it.value.word) != it.differs else it.otherwise
            return self.perform_all(chosen)
        parts = [it.otherwise, it.then] if it.differs else [it.then, it.otherwise]
        for register in sorted(written(it.then) | written(it.otherwise)):
            if self.word(register) or register in self.numbers and self.word(register) == 0:
                self.lines.append(f"ai r{self.number(register)} r{ZERO} {self.word(register)}")
            self.known[register] = None
        tested, equal, beyond = self.number(it.register), Label(), Label()
        if it.value.word:
            self.lines.append(f"ai r{self.number('*sum')} r{tested} {2**64 - it.value.word}")
            tested = self.number("*sum")
        self.depth += 1
        self.lines.append(Jump(tested, equal))
        self.perform_all(parts[1])
        self.lines += [Jump(ZERO, beyond), equal]
        self.perform_all(parts[0])
        self.lines.append(beyond)
        self.depth -= 1
        return None

    def perform_all(self, operations):
        for it in operations:
            self.perform(it)

    def perform(self, it):
        """Adds what an operation is here."""
        try:
            if isinstance(it.location, Pointed):
                self.through_pointer(it)
            else:
                getattr(self, it.kind)(it)
        except Untold as why:
            raise Untold(str(why), it.at if why.at is None else why.at) from None

    def through_pointer(self, it):
        """An operation on the location to which a register leads, as one on each location whose address it may hold."""
        word = self.word(it.location.register)
        if word is not None:
            name = next((name for name in self.locations.pointed if self.locations.pointer(name) == word), None)
            if name is None:
                raise Untold(f"the register {it.location.register} holds no address here")
            return self.perform(it._replace(location=name))
        if it.register == it.location.register:
            raise Untold(f"the register {it.register} leads to a word that it gets itself: name another register")
        for name in list(self.locations.pointed):
            then = [it._replace(location=name)]
            self.branch(it._replace(kind="branch", register=it.location.register, value=Sum(None, self.locations.pointer(name)), then=then, otherwise=[]))
        return None

    def shown(self, register):
        """The number of the register that has at the end what this one has."""
        word = self.word(register)
        if word or word is not None and register in self.numbers:
            self.lines.append(f"ai r{self.number(register)} r{ZERO} {word}")
            self.known[register] = None
        return self.number(register)

    def text(self):
        """The lines of its section."""
        lines = self.lines + [self.end]
        for at in reversed(range(len(lines))):
            if isinstance(lines[at], Jump) and skips(lines, at) == 0:
                del lines[at]
        return [f"jz r{it.register} {skips(lines, at)}" if isinstance(it, Jump) else it for at, it in enumerate(lines) if not isinstance(it, Label)]


def skips(lines, at):
    """How many instructions a jump skips."""
    return sum(not isinstance(it, Label) and it not in FENCES for it in lines[at + 1 : lines.index(lines[at].label)])


def written(operations):
    """The registers that operations write."""
    found = set()
    for it in operations:
        if it.kind == "branch":
            found |= written(it.then) | written(it.otherwise)
        elif it.kind not in ("store", "unlock", "lock") and it.register:
            found.add(it.register)
    return found


def header(name, lines, cores):
    swaps = any(line.startswith("sw ") for line in lines)
    return f"tardis-litmus {2 if swaps else 1} {re.sub('[^A-Za-z0-9+-]', '-', name)[:32]} cores {cores}"


def cores_of(program, machine):
    """Each thread as a core, without the registers that are shown."""
    added = {it.location for thread in program.threads for it in every(thread) if it.kind == "add"} if machine else set()
    if any(isinstance(it, Pointed) for it in added):
        raise Untold("an addition in the word to which a register leads can't be told to the machine")
    return [Core(program.locations, machine, added) for _ in program.threads]


def every(operations):
    """All operations, with those of branches."""
    for it in operations:
        yield it
        yield from every(it.then + it.otherwise)


def columns_of(program, cores, items):
    """The items in the order of the columns, each with its name there: registers first, then locations."""
    registers = [it for it in items if isinstance(it, tuple)]
    if any(thread >= len(cores) for thread, _ in registers):
        raise Untold("the condition names a thread that isn't there", program.condition.at)
    shown = sorted((thread, cores[thread].shown(register), (thread, register)) for thread, register in registers)
    final = sorted((program.locations.number(it), it) for it in items if isinstance(it, str))
    return [(it, f"{core}.r{register}") for core, register, it in shown], [(it, address) for address, it in final]


def outcome_lines(columns, forbidden, more=()):
    return [" ".join(["forbid"] + [str(outcome[it]) for it, _ in columns] + list(more)) for outcome in forbidden]


def for_processor(program, items, forbidden):
    """The lines of a test for the script `litmus`, and the items in the order of its columns."""
    cores, lines = cores_of(program, False), []
    for core, thread in zip(cores, program.threads):
        core.perform_all(thread)
    shown, final = columns_of(program, cores, items)
    counted = []
    for number, core in enumerate(cores):
        if core.may_give_up:
            counted.append(f"{number}.r{core.number('*got')}")
            core.lines.append(f"ai r{core.number('*got')} r{ZERO} 1")
        lines += [f"core {number}", *core.text()]
    initial = sorted((program.locations.number(it), word) for it, word in program.locations.initial.items() if word)
    lines = [header(program.name, lines, len(cores)), *(f"#initial {address} {word}" for address, word in initial), *lines]
    lines += [" ".join(["show"] + [it for _, it in shown])] * bool(shown)
    lines += [" ".join(["#final"] + [str(it) for _, it in final])] * bool(final)
    lines += [" ".join(["#counted"] + counted)] * bool(counted)
    return lines + outcome_lines(shown + final, forbidden) + ["end"], [it for it, _ in shown + final]


def begin(core, number, initial, boot):
    """Core 0 stores what memory begins with, and then a word that says so. The others go on only if they load that word."""
    if number == 0:
        core.lines += [f"st {address} {word}" for address, word in initial] + [f"st {boot} 1"]
    else:
        wait(core, boot + 1)
        core.lines.append(f"ld r{core.number('*old')} {boot}")
        core.give_up_if_zero(core.number("*old"))


def wait(core, address, loads=WAITING_LOADS):
    core.lines += [f"ld r{core.number('*old')} {address}"] * loads


def for_machine(program, items, forbidden):
    """The lines of a test for the command `tardis litmus`, and the items in the order of its columns, before those of registers that are 1 in a round which
    counts. It is without fences, and has a core more, the observer, where words at the end are asked for: each core then stores a flag last, and the observer
    goes on only if it loads all flags."""
    cores, lines, counted = cores_of(program, True), [], []
    initial = sorted((program.locations.number(it), word) for it, word in program.locations.initial.items() if word)
    boot = len(program.locations.numbers)
    for number, (core, thread) in enumerate(zip(cores, program.threads)):
        if initial:
            begin(core, number, initial, boot)
        core.perform_all(thread)
    shown, final = columns_of(program, cores, items)
    for number, core in enumerate(cores):
        if final:
            core.lines.append(f"st {boot + 2 + number} 1")
        elif core.may_give_up:
            counted.append(f"{number}.r{core.number('*got')}")
            core.lines.append(f"ai r{core.number('*got')} r{ZERO} 1")
        lines += [f"core {number}", *core.text()]
    if final:
        observer = Core(program.locations, True, set())
        wait(observer, boot + 1, max(WAITING_LOADS, *(len(core.lines) for core in cores)))
        for number in range(len(cores)):
            observer.lines.append(f"ld r{observer.number('*old')} {boot + 2 + number}")
            observer.give_up_if_zero(observer.number("*old"))
        observer.lines += [f"ld r{observer.number(it)} {address}" for it, address in final] + [f"ai r{observer.number('*got')} r{ZERO} 1"]
        counted.append(f"{len(cores)}.r{observer.number('*got')}")
        lines += [f"core {len(cores)}", *observer.text()]
        final = [(it, f"{len(cores)}.r{observer.number(it)}") for it, _ in final]
    names = [it for _, it in shown + final] + counted
    if len(names) > MOST_SHOWN:
        raise Untold(f"the machine shows {MOST_SHOWN} registers, and this test has {len(names)} to show", program.condition.at)
    lines = [header(program.name, lines, len(cores) + bool(final)), *lines, " ".join(["show"] + names)]
    return lines + outcome_lines(shown + final, forbidden, ["1"] * len(counted)) + ["end"], [it for it, _ in shown + final]


class Turned:
    """A program with what sequential consistency says of its condition: `allowed` has all outcomes, each as the words of the items, `meant` those that the
    condition speaks of, and `forbidden` those of them that no order explains."""

    def __init__(self, program):
        self.program, self.left_out = program, []
        condition = program.condition
        self.items = condition.items + program.also_shown
        if not self.fits():
            self.items, self.left_out = list(condition.items), program.also_shown
            if not self.fits():
                raise Untold(f"the condition names no register and no location, or more than {MOST_SHOWN} of them, or it speaks of more than {MOST_FORBIDDEN} "
                             "outcomes that sequential consistency forbids", condition.at)

    def fits(self):
        """Finds the outcomes, if there are few enough."""
        if not 1 <= len(self.items) <= MOST_SHOWN:
            return False
        lines, columns = for_processor(self.program, self.items, [])
        test = read_test("the test that was made", lines + [])
        try:
            self.allowed = [dict(zip(columns, it)) for it in outcomes(test)]
        except TooMany:
            raise Untold("the test has too many ways in which its threads can take turns") from None
        seen = [set(it) for it in zip(*(outcome.values() for outcome in self.allowed))] or [set()] * len(columns)
        words = [sorted(words_of(test, at) | seen[at] | self.program.condition.words.get(it, set())) for at, it in enumerate(columns)]
        if len(list(itertools.islice(itertools.product(*words), 1_000_001))) > 1_000_000:
            return False
        every_outcome = (dict(zip(columns, it)) for it in itertools.product(*words))
        self.meant = [it for it in every_outcome if self.is_meant(it)]
        self.forbidden = [it for it in self.meant if it not in self.allowed]
        return len(self.forbidden) <= MOST_FORBIDDEN

    def is_meant(self, outcome):
        """Whether an outcome is one of which the condition says that it is, or isn't, there."""
        condition = self.program.condition
        return condition.holds(outcome) != (condition.quantifier == "forall")

    def answer(self):
        """How often the condition's equations hold: herd's word."""
        holds = [self.program.condition.holds(it) for it in self.allowed]
        return "Always" if all(holds) else "Sometimes" if any(holds) else "Never"

    def notes(self):
        """What the one who asked is told beside the test."""
        if self.left_out:
            yield "`locations` has more than a test can show, and is left out"
        if any(self.is_meant(it) for it in self.allowed):
            yield "sequential consistency allows outcomes that the condition speaks of; they aren't forbidden here"
