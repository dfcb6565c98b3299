"""Reads herd's C tests, as those of the Linux kernel's memory model."""
import re

from herd_program import NUMBER, ConditionReader, Locations, Operation, Pointed, Program, Sum, Tokens, Untold, number

TEST = r"\s*C[ \t]+(\S+)[^{]*\{([^}]*)\}(.*?)\n[ \t]*((?:~?\s*exists|not\s+exists|forall|locations|filter)\b.*)"
SHAPE = r"\w+|->|==|!=|&&|\|\||<<|>>|<=|>=|\+\+|--|[-+*/&|^~!<>=(){};,\[\].?:%]"
TYPES = {"int", "long", "unsigned", "signed", "char", "short", "const", "volatile", "uint64_t", "int64_t", "uint32_t", "int32_t", "intptr_t", "uintptr_t", "u64", "u32", "s64", "s32"}
TYPES |= {"atomic_t", "atomic64_t", "atomic_long_t", "spinlock_t", "void"}

# Each call with what it takes: `*` a place as *x, `x` a pointer, `v` a word. The orders of acquire and release, and of RCU's pointers, are ones that
# sequential consistency has anyway.
LOADS = {"READ_ONCE": "*", "smp_load_acquire": "x", "rcu_dereference": "*", "lockless_dereference": "*", "atomic_read": "x", "atomic_read_acquire": "x"}
STORES = {"WRITE_ONCE": "*v", "smp_store_release": "xv", "rcu_assign_pointer": "*v", "smp_store_mb": "*v", "atomic_set": "xv", "atomic_set_release": "xv"}
SWAP = re.compile(r"(?:atomic_)?xchg(?:_relaxed|_acquire|_release)?")
ADD = re.compile(r"atomic_(fetch_)?(add|sub|inc|dec)(_return)?(?:_relaxed|_acquire|_release)?")
FENCES = {"smp_mb": "#fence", "smp_wmb": "#store-fence", "smp_rmb": "#load-fence", "smp_mb__before_atomic": "#fence", "smp_mb__after_atomic": "#fence"}
FENCES |= {"smp_mb__after_spinlock": "#fence", "smp_mb__after_unlock_lock": "#fence"}
SAY_NOTHING = {"rcu_read_lock", "rcu_read_unlock", "barrier", "smp_read_barrier_depends"}
LOCK_CALLS = {"spin_lock": "lock", "spin_unlock": "unlock", "spin_trylock": "try_lock", "spin_is_locked": "load"}


class Thread:
    """A thread's function, which is read statement by statement."""

    def __init__(self, tokens, locations):
        self.tokens, self.locations, self.parameters, self.registers = tokens, locations, set(), set()
        self.operations = self.function()

    def function(self):
        self.tokens.take(r"\(")
        while not self.tokens.skip(")"):
            *_, name = self.typed()
            self.parameters.add(name)
            self.locations.number(name)
            self.tokens.skip(",")
        self.tokens.take(r"\{")
        return self.block()

    def typed(self):
        """A type, of which a name is taken last."""
        at, types = self.tokens.at(), []
        while self.tokens.next() in TYPES or self.tokens.next() == "struct":
            types.append(self.tokens.take())
            if types[-1] == "struct":
                self.tokens.take(r"\w+")
        if not types:
            raise Untold(f"{self.tokens.next()!r} isn't a type that is known here", at)
        while self.tokens.skip("*", "const", "volatile"):
            pass
        return types, self.tokens.take(r"[A-Za-z_]\w*")

    def block(self):
        found = []
        while not self.tokens.skip("}"):
            found += self.statement()
        return found

    def statement(self):
        at, token = self.tokens.at(), self.tokens.next()
        if self.tokens.skip("{"):
            return self.block()
        if self.tokens.skip(";"):
            return []
        if self.tokens.skip("if"):
            return self.condition(at)
        if token in TYPES or token == "struct":
            return self.declaration()
        if token in ("while", "for", "do", "goto", "switch", "return", ""):
            raise Untold(f"{token or 'the end'!r}: a thread's statements are told here once, in their order", at)
        found = self.plain_store(at) if token == "*" else self.named_statement(at)
        self.tokens.take(";")
        return found

    def declaration(self):
        _, name = self.typed()
        found = []
        while True:
            self.registers.add(name)
            if self.tokens.skip("="):
                found += self.assigned(name)
            if not self.tokens.skip(","):
                break
            self.tokens.skip("*")
            name = self.tokens.take(r"[A-Za-z_]\w*")
        self.tokens.take(";")
        return found

    def plain_store(self, at):
        place = self.place()
        self.tokens.take("=")
        before, value = self.loaded_value()
        return before + [Operation("store", at, location=place, value=value)]

    def named_statement(self, at):
        name = self.tokens.take(r"[A-Za-z_]\w*")
        if self.tokens.skip("="):
            if name not in self.registers:
                raise Untold(f"{name!r} isn't a variable of this thread", at)
            return self.assigned(name)
        return self.call(name, None, at)

    def assigned(self, register):
        """What puts a word into a register."""
        at, token = self.tokens.at(), self.tokens.next()
        while token == "(" and self.is_cast():
            self.cast()
            token = self.tokens.next()
        if token == "*":
            return [Operation("load", at, register, self.place())]
        if re.fullmatch(r"[A-Za-z_]\w*", token) and self.follows("("):
            self.tokens.take()
            return self.call(token, register, at)
        return [Operation("set", at, register, value=self.value())]

    def follows(self, token):
        tokens = self.tokens.tokens
        return self.tokens.place + 1 < len(tokens) and tokens[self.tokens.place + 1][0] == token

    def is_cast(self):
        tokens = self.tokens.tokens
        return self.tokens.place + 1 < len(tokens) and (tokens[self.tokens.place + 1][0] in TYPES or tokens[self.tokens.place + 1][0] == "struct")

    def cast(self):
        self.tokens.take(r"\(")
        while not self.tokens.skip(")"):
            self.tokens.take(r"\w+|\*")

    def place(self):
        """A place in memory, as *x."""
        at = self.tokens.at()
        self.tokens.take(r"\*")
        if self.tokens.next() == "*":
            raise Untold("a pointer's pointer: load the one into a variable first", at)
        return self.pointer()

    def pointer(self):
        """What an expression like x or &x leads to."""
        self.tokens.skip("&")
        at, name = self.tokens.at(), self.tokens.take(r"[A-Za-z_]\w*")
        if self.tokens.next() in ("->", ".", "["):
            raise Untold(f"{name}{self.tokens.next()}: a location has one word here", at)
        if name in self.registers:
            return Pointed(name)
        if name not in self.parameters:
            raise Untold(f"{name!r} is neither a parameter nor a variable of this thread", at)
        return name

    def term(self):
        at = self.tokens.at()
        if self.tokens.next() == "(":
            if self.is_cast():
                self.cast()
                return self.term()
            self.tokens.take(r"\(")
            found = self.value()
            self.tokens.take(r"\)")
            return found
        self.tokens.skip("&")
        token = self.tokens.take(r"\w+")
        if re.fullmatch(NUMBER, token):
            return Sum(None, number(token, at))
        if token in self.registers:
            return Sum(token)
        if token in self.parameters:
            return Sum(None, self.locations.pointer(token))
        raise Untold(f"{token!r} is neither a number, a parameter nor a variable of this thread", at)

    def value(self):
        """A number, an address, a variable, or a sum of a variable and numbers."""
        at, minus = self.tokens.at(), self.tokens.skip("-")
        total = self.negative(self.term(), at) if minus else self.term()
        while self.tokens.next() in ("+", "-"):
            minus = self.tokens.take() == "-"
            other = self.term()
            other = self.negative(other, at) if minus else other
            if total.register and other.register:
                raise Untold("a sum of two variables: a core adds numbers here", at)
            total = Sum(total.register or other.register, (total.word + other.word) % 2**64)
        if self.tokens.next() in ("*", "/", "%", "^", "|", "<<", ">>", "&", "?", "<", ">", "<=", ">=") or self.tokens.next() in ("&&", "||"):
            raise Untold(f"{self.tokens.next()!r}: a core adds numbers here, and does nothing else", self.tokens.at())
        return total

    @staticmethod
    def negative(it, at):
        if it.register:
            raise Untold("a variable is taken away: a core adds numbers here", at)
        return Sum(None, -it.word % 2**64)

    def loaded_value(self):
        """A value, with the operations that load it where it is a call or a place."""
        token = self.tokens.next()
        if token == "*" or re.fullmatch(r"[A-Za-z_]\w*", token) and self.follows("("):
            self.registers.add("*loaded")
            return self.assigned("*loaded"), Sum("*loaded")
        return [], self.value()

    def condition(self, at):
        """The operations of an `if`."""
        self.tokens.take(r"\(")
        before, register, word, differs = self.compared(at)
        self.tokens.take(r"\)")
        then = self.statement()
        otherwise = self.statement() if self.tokens.skip("else") else []
        return before + [Operation("branch", at, register, value=Sum(None, word), differs=differs, then=then, otherwise=otherwise)]

    def compared(self, at):
        """A register and a word, whether they are to differ, and what loads the register."""
        if self.tokens.skip("!"):
            before, register, word, differs = self.compared(at)
            return before, register, word, not differs
        if self.tokens.next() == "(" and not self.is_cast():
            self.tokens.take(r"\(")
            found = self.compared(at)
            self.tokens.take(r"\)")
            return found
        before, left = self.loaded_value()
        right, differs = Sum(None, 0), True
        if self.tokens.next() in ("==", "!="):
            differs = self.tokens.take() == "!="
            right = self.value()
        if right.register:
            left, right = right, left
        if not left.register or right.register:
            raise Untold("a condition is known here of a variable and a number", at)
        return before, left.register, (right.word - left.word) % 2**64, differs

    def arguments(self, shape):
        """What stands in a call's parentheses: places, pointers and words."""
        self.tokens.take(r"\(")
        found, before = [], []
        for place, kind in enumerate(shape):
            if place:
                self.tokens.take(",")
            if kind == "v":
                loads, value = self.loaded_value()
                before += loads
                found.append(value)
            else:
                found.append(self.place() if kind == "*" else self.pointer())
        self.tokens.take(r"\)")
        return before, found

    def call(self, name, register, at):
        if name in SAY_NOTHING or name in FENCES:
            self.arguments("")
            if register:
                raise Untold(f"{name} has no value", at)
            return [Operation("fence", at, fence=FENCES[name])] if name in FENCES else []
        if name in LOADS:
            _, (place,) = self.arguments(LOADS[name])
            return [Operation("load", at, register or "*unused", place)]
        if name in STORES and not register:
            before, (place, value) = self.arguments(STORES[name])
            found = before + [Operation("store", at, location=place, value=value)]
            return found + [Operation("fence", at)] * (name == "smp_store_mb")
        if name in LOCK_CALLS:
            return self.lock(LOCK_CALLS[name], register, at)
        if SWAP.fullmatch(name):
            before, (place, value) = self.arguments("xv")
            return before + [Operation("swap", at, register, place, value)]
        if found := ADD.fullmatch(name):
            return self.addition(found, register, at)
        raise Untold(f"{name} isn't a call that is known here: see docs/HERD.md", at)

    def lock(self, kind, register, at):
        _, (place,) = self.arguments("x")
        if isinstance(place, Pointed):
            raise Untold("a lock is named by a parameter here", at)
        if (kind in ("lock", "unlock")) == bool(register):
            raise Untold("the call has no value, or its value isn't used", at)
        return [Operation(kind, at, register, place)]

    def addition(self, found, register, at):
        fetch, kind, gives = found.groups()
        if fetch and gives or bool(register) and not (fetch or gives):
            raise Untold("the call isn't known here, or it has no value", at)
        before, arguments = self.arguments("vx" if kind in ("add", "sub") else "x")
        value = arguments[0] if kind in ("add", "sub") else Sum(None, 1)
        if value.register:
            raise Untold("a word that was loaded is added, and an addition here adds a constant", at)
        value = self.negative(value, at) if kind in ("sub", "dec") else value
        operations = before + [Operation("add", at, register, arguments[-1], value)]
        return operations + ([Operation("set", at, register, value=Sum(register, value.word))] if gives and register else [])


def begin(text, at, locations):
    """Takes what memory begins with."""
    for item in re.finditer("[^;]+", text):
        found = re.fullmatch(r"(?:[A-Za-z_]\w*\s+)*\*?\s*\[?([A-Za-z_]\w*)\]?(?:\s*=\s*(?:ATOMIC_INIT\(\s*)?&?\s*(\w+)\s*\)?)?", item[0].strip())
        place = at + item.start() + len(item[0]) - len(item[0].lstrip())
        if item[0].strip() and not found:
            raise Untold(f"{' '.join(item[0].split())!r} isn't a location with a word", place)
        if found and found[2]:
            locations.initial[found[1]] = number(found[2], place) if re.fullmatch(NUMBER, found[2]) else locations.pointer(found[2])


def read(text):
    """The program of a test in C, whose comments are blanks."""
    parts = re.fullmatch(TEST, text, re.S)
    if not parts:
        raise Untold("this isn't a C test: a name, what memory begins with in braces, functions P0, P1 and so on, and a condition", 0)
    name, initial, functions, condition = parts.groups()
    locations, threads = Locations(), []
    begin(initial, parts.start(2), locations)
    tokens = Tokens(functions, SHAPE, parts.start(3))
    while tokens.next():
        while tokens.skip("static", "void"):
            pass
        tokens.take(f"P{len(threads)}")
        threads.append(Thread(tokens, locations))
    condition, also = ConditionReader(condition, parts.start(4), locations, lambda written, at: written).read()
    for item in condition.items + also:
        if isinstance(item, tuple) and (item[0] >= len(threads) or item[1] not in threads[item[0]].registers):
            raise Untold(f"{item[0]}:{item[1]} isn't a variable of a thread", condition.at)
    return Program(name, [it.operations for it in threads], locations, condition, also)
