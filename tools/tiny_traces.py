"""Tiny traces, drawn at random, and whether they have an order, by trying every one. A trace has the operations of each core."""


def drawn(draw, most, kinds):
    """The operations of each core, each an address with the word that it read and the one that it stored, or None."""
    cores = [[] for _ in range(draw.randint(1, 4))]
    addresses, words, memory = draw.randint(1, 2), draw.randint(2, 3), [0, 0]
    for _ in range(draw.randint(0, most)):
        addr, kind = draw.randrange(addresses), draw.choice(kinds)
        # Mostly the word that was stored last, so that many of the traces have an order.
        read = None if kind == "store" else draw.choice([memory[addr], memory[addr], draw.randrange(words)])
        stored = None if kind == "load" else draw.randrange(words)
        memory[addr] = memory[addr] if stored is None else stored
        draw.choice(cores).append((addr, read, stored))
    return cores


def has_order(cores):
    """Whether the operations can be performed one after another, each core's in its order, so that each reads what it did."""
    begin = (0,) * len(cores), (0,) * (1 + max((addr for own in cores for addr, _, _ in own), default=0))
    seen, left = {begin}, [begin]
    while left:
        done, memory = left.pop()
        if all(count == len(own) for count, own in zip(done, cores)):
            return True
        for core, own in enumerate(cores):
            if done[core] == len(own) or own[done[core]][1] not in (None, memory[own[done[core]][0]]):
                continue
            addr, _, stored = own[done[core]]
            after = memory if stored is None else tuple(stored if it == addr else word for it, word in enumerate(memory))
            state = done[:core] + (done[core] + 1,) + done[core + 1 :], after
            if state not in seen:
                seen.add(state)
                left.append(state)
    return False
