"""What a herd test says, whatever its language: threads of operations, what memory begins with, and a condition."""
import re
import typing

# The word that stands for the address of the first location, the next one's for the next. No other number of a test is near them.
FIRST_POINTER = 1_000_000
NUMBER = "0[xX][0-9a-fA-F]{1,16}|[0-9]{1,20}"


class Untold(Exception):
    """Why something can't be turned, and where that is in the text, if it is known."""

    def __init__(self, why, at=None):
        super().__init__(why)
        self.at = at


class Sum(typing.NamedTuple):
    """The word of a register, if there is one, plus a number."""

    register: str | None
    word: int = 0


class Pointed(typing.NamedTuple):
    """The location whose address a register holds."""

    register: str


class Operation(typing.NamedTuple):
    """kind: load, store, swap, add, set, lock, unlock, try_lock, fence, or if, which performs `then` where `register` holds `word`, or doesn't if `differs`,
    and `otherwise` elsewhere."""

    kind: str
    at: int
    register: str | None = None
    location: str | Pointed | None = None
    value: Sum | None = None
    fence: str = "#fence"
    differs: bool = False
    then: list = []
    otherwise: list = []


class Locations:
    """The addresses of locations here, in the order in which the test names them; those whose addresses are words; and what each begins with."""

    def __init__(self):
        self.numbers, self.pointed, self.initial = {}, [], {}

    def number(self, name):
        return self.numbers.setdefault(name, len(self.numbers))

    def pointer(self, name):
        """The word that stands for a location's address."""
        if name not in self.pointed:
            self.pointed.append(name)
        return FIRST_POINTER + self.number(name)


class Condition(typing.NamedTuple):
    """quantifier: exists, ~exists or forall. The items are a thread and a register, or a location; `words` has the numbers that each is compared with.
    `holds` says of the items' words whether the condition is true."""

    at: int
    quantifier: str
    items: list
    words: dict
    holds: typing.Callable


class Program(typing.NamedTuple):
    name: str
    threads: list
    locations: Locations
    condition: Condition
    also_shown: list


def number(text, at):
    """A number that stands at this place of the test."""
    word = int(text, 0) if re.match("0[xX]", text) else int(text)
    if word >= 2**64:
        raise Untold(f"{text} has more than 64 bits", at)
    if FIRST_POINTER <= word < FIRST_POINTER + 65536:
        raise Untold(f"{text} stands for an address here: choose another number", at)
    return word


class Tokens:
    """The tokens of a text, taken one by one."""

    def __init__(self, text, shape, at=0):
        self.end, self.tokens, place = at + len(text.rstrip()), [], 0
        while place < len(text):
            found = re.compile(rf"\s+|{shape}").match(text, place)
            if not found:
                raise Untold(f"{text[place]!r} isn't known here", at + place)
            if not found[0].isspace():
                self.tokens.append((found[0], at + place))
            place = found.end()
        self.place = 0

    def next(self):
        return self.tokens[self.place][0] if self.place < len(self.tokens) else ""

    def at(self):
        return self.tokens[self.place][1] if self.place < len(self.tokens) else self.end

    def take(self, *due):
        """The next token, one of these, or of the shape of one."""
        token = self.next()
        if due and not any(re.fullmatch(it, token) for it in due):
            names = " or ".join("a name" if "\\w" in it else it.replace("\\", "") for it in due)
            raise Untold(f"{token or 'the end'!r} stands where {names} is due", self.at())
        self.place += 1
        return token

    def skip(self, *any_of):
        """Whether the next token is one of these, which is then taken."""
        if self.next() in any_of:
            self.place += 1
            return True
        return False


class ConditionReader:
    """A condition of herd: equations joined by /\\, \\/, not, ~ and =>, in which a register or a location is compared with a number or an address."""

    SHAPE = r"/\\|\\/|=>|!=|<>|[~()=:;\[\]&*]|\w+"

    def __init__(self, text, at, locations, register):
        """`register` gives the name under which a thread's operations have a register, from what the condition writes."""
        self.tokens, self.locations, self.register = Tokens(text, self.SHAPE, at), locations, register
        self.items, self.words = [], {}

    def read(self):
        also = self.locations_shown()
        at = self.tokens.at()
        quantifier = self.tokens.take("exists", "forall", "~", "not")
        if quantifier in ("~", "not"):
            self.tokens.take("exists")
            quantifier = "~exists"
        holds = self.implied()
        if self.tokens.next():
            raise Untold(f"{self.tokens.next()!r} stands behind the condition", self.tokens.at())
        return Condition(at, quantifier, self.items, self.words, holds), [it for it in also if it not in self.items]

    def locations_shown(self):
        found = []
        if self.tokens.skip("locations"):
            self.tokens.take(r"\[")
            while not self.tokens.skip("]"):
                found.append(self.item())
                self.tokens.skip(";")
        return found

    def implied(self):
        left = self.either()
        if self.tokens.skip("=>"):
            right = self.implied()
            return lambda words: not left(words) or right(words)
        return left

    def either(self):
        parts = [self.both()]
        while self.tokens.skip("\\/"):
            parts.append(self.both())
        return lambda words: any(part(words) for part in parts)

    def both(self):
        parts = [self.single()]
        while self.tokens.skip("/\\"):
            parts.append(self.single())
        return lambda words: all(part(words) for part in parts)

    def single(self):
        if self.tokens.skip("~", "not"):
            part = self.single()
            return lambda words: not part(words)
        if self.tokens.skip("("):
            part = self.implied()
            self.tokens.take(r"\)")
            return part
        if self.tokens.skip("true"):
            return lambda words: True
        return self.equation()

    def item(self):
        """A thread and a register, or a location."""
        bracket = self.tokens.skip("[")
        if not bracket:
            self.tokens.skip("*")
        at, name = self.tokens.at(), self.tokens.take(r"\w+")
        if bracket:
            self.tokens.take(r"\]")
        elif self.tokens.skip(":"):
            return (int(name), self.register(self.tokens.take(r"\w+"), at)) if name.isdigit() else self.no_thread(name, at)
        if not re.match("[A-Za-z_]", name):
            raise Untold(f"{name!r} is neither a thread's register nor a location", at)
        self.locations.number(name)
        return name

    @staticmethod
    def no_thread(name, at):
        raise Untold(f"{name!r} isn't the number of a thread", at)

    def equation(self):
        item = self.item()
        differs = self.tokens.take("=", "!=", "<>") != "="
        self.tokens.skip("&")
        at, text = self.tokens.at(), self.tokens.take(r"\w+")
        if self.tokens.next() == ":":
            raise Untold("a register is compared with a register", at)
        if not text[0].isdigit() and text not in self.locations.numbers:
            raise Untold(f"{text!r} is neither a number nor a location of the test", at)
        word = number(text, at) if text[0].isdigit() else self.locations.pointer(text)
        if item not in self.items:
            self.items.append(item)
        self.words.setdefault(item, set()).add(word)
        return lambda words: (words[item] == word) != differs
