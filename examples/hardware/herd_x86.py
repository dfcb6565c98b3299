"""Reads herd's tests in x86 assembly, of 32 and 64 bits, as Intel writes it (`MOV EAX,[x]`) and as AT&T does (`movq (x),%rax`)."""
import re

from herd_program import NUMBER, ConditionReader, Locations, Operation, Pointed, Program, Sum, Untold, number

TEST = (
    r"\s*X86(?:_64)?[ \t]+(\S+)[^{]*"  # its name; a line of words and lines of keys are left out
    r"\{([^}]*)\}\s*"  # what it begins with
    r"([^;]*);(.*?)"  # the heads of the programs, and their rows
    r"\n[ \t]*((?:~?\s*exists|not\s+exists|forall|locations|filter)\b.*)"
)
BITS_OF_SUFFIX = {"q": 64, "l": 32, "w": 16, "b": 8, "": None}
FENCES = {"mfence": "#fence", "sfence": "#store-fence", "lfence": "#load-fence"}
MNEMONIC = re.compile(r"(mov|xchg|xadd|inc|dec|add|sub|cmp|test|xor)([qlwb]?)")


def register_names():
    """Each name of each register, with the register's first name and the bits that it names."""
    names = {}
    for letter in "abcd":
        names |= {f"r{letter}x": (f"r{letter}x", 64), f"e{letter}x": (f"r{letter}x", 32), f"{letter}x": (f"r{letter}x", 16), f"{letter}l": (f"r{letter}x", 8)}
    for pair in ("si", "di", "bp", "sp"):
        names |= {f"r{pair}": (f"r{pair}", 64), f"e{pair}": (f"r{pair}", 32), pair: (f"r{pair}", 16), f"{pair}l": (f"r{pair}", 8)}
    for place in range(8, 16):
        names |= {f"r{place}{end}": (f"r{place}", bits) for end, bits in (("", 64), ("d", 32), ("w", 16), ("b", 8))}
    return names


REGISTERS = register_names()


class Widths:
    """That no number of the test has more bits than the narrowest register or access, so that a part of a word is as good as the word."""

    def __init__(self):
        self.narrowest, self.greatest = (64, "", None), 0

    def named(self, bits, what, at):
        if bits and bits < self.narrowest[0]:
            self.narrowest = bits, what, at

    def number(self, text, at):
        word = number(text, at)
        self.greatest = max(self.greatest, word)
        return word

    def check(self):
        bits, what, at = self.narrowest
        if bits < 64 and self.greatest >= 2 ** (bits - 1):
            raise Untold(f"{what!r} has {bits} bits, and the test has the number {self.greatest}", at)


class Thread:
    """The operations of a thread so far. An open jump holds what is skipped until its label comes."""

    def __init__(self, locations, widths):
        self.locations, self.widths, self.operations, self.jumps, self.compared = locations, widths, [], [], None

    def register(self, text, at):
        """The first name of a register, or None."""
        found = REGISTERS.get(text.removeprefix("%").lower())
        if found:
            self.widths.named(found[1], text, at)
        return found and found[0]

    def location(self, text, at):
        """What an operand in memory names, or None."""
        found = re.fullmatch(r"\[\s*(%?\w+)\s*\]|0?\(\s*(%?\w+)\s*\)|(\w+)\(%rip\)", text)
        if not found:
            return None
        name = found[1] or found[2] or found[3]
        register = self.register(name, at)
        if register:
            return Pointed(register)
        if not re.match("[A-Za-z_]", name):
            raise Untold(f"{text!r} isn't a location of the test", at)
        self.locations.number(name)
        return name

    def constant(self, text, at):
        """The word of a constant, or None."""
        found = re.fullmatch(rf"\$?({NUMBER})", text)
        if found:
            return self.widths.number(found[1], at)
        if re.fullmatch(r"\$[A-Za-z_]\w*", text):
            return self.locations.pointer(text[1:])
        return None

    def value(self, text, at):
        word = self.constant(text, at)
        if word is None and self.register(text, at) is None:
            raise Untold(f"{text!r} is neither a constant, a register nor a location in brackets", at)
        return Sum(None, word) if word is not None else Sum(self.register(text, at))

    def put(self, kind, at, **parts):
        self.operations.append(Operation(kind, at, **parts))

    def turn(self, cell, at):
        """Adds what an instruction is, with a label before it."""
        while found := re.match(r"\s*([A-Za-z_.]\w*)\s*:", cell):
            self.land(found[1].lower(), at)
            cell = cell[found.end() :]
        text = " ".join(cell.lower().split())
        compared, self.compared = self.compared, None
        if text in FENCES:
            self.put("fence", at, fence=FENCES[text])
        elif found := re.fullmatch(r"(jne|jnz|je|jz) ([a-z_.]\w*)", text):
            self.jump(found[1] in ("jne", "jnz"), found[2], compared, at)
            self.compared = compared
        elif text not in ("", "nop"):
            self.operate(cell.strip(), at)

    def operate(self, cell, at):
        found = re.fullmatch(r"(lock\s+)?(\w+)(?:\s+([^,]+?)(?:\s*,\s*([^,]+?))?)?\s*", cell, re.I)
        mnemonic = found and MNEMONIC.fullmatch(found[2].lower())
        if not mnemonic or not found[3]:
            raise Untold(f"{' '.join(cell.split())!r} isn't known here: see docs/HERD.md", at)
        self.widths.named(BITS_OF_SUFFIX[mnemonic[2]], found[2], at)
        kind, operands = mnemonic[1], [it for it in found.group(3, 4) if it]
        if len(operands) != (1 if kind in ("inc", "dec") else 2):
            raise Untold(f"{' '.join(cell.split())!r} has {len(operands)} operands", at)
        if found[1] and kind in ("mov", "cmp", "test", "xor"):
            raise Untold(f"{kind} takes no lock", at)
        # Intel writes where the result goes first, and AT&T last.
        if len(operands) == 2 and (operands[0].startswith("$") or re.search(r"[%(]", cell)):
            operands.reverse()
        {"mov": self.move, "xchg": self.exchange, "cmp": self.compare, "test": self.test, "xor": self.clear}.get(kind, self.compute)(kind, bool(found[1]), operands, at)

    def move(self, _kind, _lock, operands, at):
        goal, source = operands
        to, of = self.location(goal, at), self.location(source, at)
        if to and of or self.constant(goal, at) is not None:
            raise Untold(f"MOV of {source!r} to {goal!r}", at)
        if to:
            self.put("store", at, location=to, value=self.value(source, at))
        elif of:
            self.put("load", at, register=self.value(goal, at).register, location=of)
        else:
            self.put("set", at, register=self.value(goal, at).register, value=self.value(source, at))

    def exchange(self, _kind, _lock, operands, at):
        if self.location(operands[1], at):
            operands = operands[::-1]
        location, register = self.location(operands[0], at), self.register(operands[1], at)
        if not location or not register:
            raise Untold("XCHG needs a location and a register", at)
        self.put("swap", at, register=register, location=location, value=Sum(register))

    def compute(self, kind, lock, operands, at):
        """INC, DEC, ADD, SUB and XADD: of a register; of a location in one step with LOCK, else in two."""
        location, register, given = self.location(operands[0], at), None, Sum(None, 1)
        if len(operands) == 2:
            given = self.value(operands[1], at)
        if kind == "xadd":
            register = given.register
            if not register or not location:
                raise Untold("XADD needs a location and a register", at)
        elif given.register:
            raise Untold(f"{kind.upper()} of a register to another word isn't told here", at)
        elif kind in ("dec", "sub"):
            given = Sum(None, -given.word % 2**64)
        if lock and not location:
            raise Untold("LOCK needs a location", at)
        if location and lock:
            self.put("add", at, register=register, location=location, value=given)
        elif location and kind != "xadd":
            self.put("load", at, register="*sum of two steps", location=location)
            self.put("store", at, location=location, value=Sum("*sum of two steps", given.word))
        elif location:
            raise Untold("XADD without LOCK", at)
        else:
            goal = self.value(operands[0], at).register
            self.put("set", at, register=goal, value=Sum(goal, given.word))

    def clear(self, _kind, _lock, operands, at):
        registers = [self.register(it, at) for it in operands]
        if not registers[0] or registers[0] != registers[1]:
            raise Untold("XOR is known here of a register with itself", at)
        self.put("set", at, register=registers[0], value=Sum(None, 0))

    def test(self, _kind, _lock, operands, at):
        registers = [self.register(it, at) for it in operands]
        if not registers[0] or registers[0] != registers[1]:
            raise Untold("TEST is known here of a register with itself", at)
        self.compared = Sum(registers[0], 0)

    def compare(self, _kind, _lock, operands, at):
        constants = [self.constant(it, at) for it in operands]
        if all(it is None for it in constants) or None not in constants:
            raise Untold("CMP is known here of a constant with a register or a location", at)
        word, other = next(it for it in constants if it is not None), operands[constants.index(None)]
        location = self.location(other, at)
        if location:
            self.put("load", at, register="*compared", location=location)
        self.compared = Sum("*compared" if location else self.value(other, at).register, word)

    def jump(self, if_other, label, compared, at):
        if compared is None:
            raise Untold("a jump is known here right behind its CMP or TEST", at)
        self.jumps.append((label, Operation("branch", at, compared.register, value=Sum(None, compared.word), differs=not if_other), self.operations))
        self.operations = []

    def land(self, label, at):
        """Closes the jumps to a label."""
        if not any(it[0] == label for it in self.jumps):
            return
        while any(it[0] == label for it in self.jumps):
            own, branch, before = self.jumps.pop()
            if own != label:
                raise Untold(f"the jump to {own} leads beyond {label}, which a jump before it leads to", at)
            self.operations = before + [branch._replace(then=self.operations)]

    def ended(self):
        if self.jumps:
            raise Untold(f"the jump to {self.jumps[-1][0]} doesn't lead to a label below it", self.jumps[-1][1].at)
        return self.operations


def begin(text, at, threads, locations):
    """Takes what memory and registers begin with."""
    for item in re.finditer("[^;]+", text):
        place = at + item.start() + len(item[0]) - len(item[0].lstrip())
        found = re.fullmatch(r"(?:[A-Za-z_]\w*\s+)*\*?\s*(?:([0-9]+)\s*:\s*%?(\w+)|\[?([A-Za-z_]\w*)\]?)(?:\s*=\s*&?\s*(\w+))?", item[0].strip())
        if not item[0].strip():
            continue
        if not found:
            raise Untold(f"{' '.join(item[0].split())!r} isn't a location or a register with a word", place)
        thread, register, location, text_of_word = found.groups()
        if thread and (int(thread) >= len(threads) or not threads[int(thread)].register(register, place)):
            raise Untold(f"{thread}:{register} isn't a register of a thread", place)
        word = 0
        if text_of_word:
            word = threads[0].widths.number(text_of_word, place) if re.fullmatch(NUMBER, text_of_word) else locations.pointer(text_of_word)
        if thread:
            threads[int(thread)].put("set", place, register=threads[int(thread)].register(register, place), value=Sum(None, word))
        else:
            locations.initial[location] = word


def read(text):
    """The program of a test in x86 assembly, whose comments are blanks."""
    parts = re.fullmatch(TEST, text, re.S)
    if not parts:
        raise Untold("this isn't a herd test of x86: a name, what memory begins with in braces, a row P0 | P1 | .. ;, rows of instructions, and a condition", 0)
    name, initial, heads, programs, condition = parts.groups()
    locations, widths = Locations(), Widths()
    threads = [Thread(locations, widths) for _ in heads.split("|")]
    if [it.strip() for it in heads.split("|")] != [f"P{it}" for it in range(len(threads))]:
        raise Untold("a row P0 | P1 | .. ; is due", parts.start(3))
    begin(initial, parts.start(2), threads, locations)
    for row in re.finditer("[^;]+;", programs):
        cells, at = row[0][:-1].split("|"), parts.start(4) + row.start() + len(row[0]) - len(row[0].lstrip())
        if len(cells) != len(threads):
            raise Untold("the row hasn't a column for each thread", at)
        for cell, thread in zip(cells, threads):
            thread.turn(cell, at)

    def register(written, at):
        found = threads[0].register(written, at)
        if not found:
            raise Untold(f"{written!r} isn't a register", at)
        return found

    condition, also = ConditionReader(condition, parts.start(5), locations, register).read()
    for words in condition.words.values():
        widths.greatest = max([widths.greatest, *(it for it in words if not 1_000_000 <= it < 1_065_536)])
    widths.check()
    return Program(name, [it.ended() for it in threads], locations, condition, also)
