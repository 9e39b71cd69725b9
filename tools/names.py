"""Random names of ids, for the scripts beside this file."""
from frames import NAME_BYTES, NAME_MAX

HALF = NAME_MAX // 2


def some_length(chance):
    """1 to 64, more than half of them above 32, with many at the borders."""
    return chance.choice((1, HALF, HALF + 1, NAME_MAX - 1, NAME_MAX, NAME_MAX, chance.randint(1, HALF), chance.randint(HALF + 1, NAME_MAX), chance.randint(HALF + 1, NAME_MAX)))


def some_names(chance, count, letters=bytes(NAME_BYTES)):
    """So many different names; more than half of the later ones agree with an earlier one in a front, mostly a long one."""
    names = {}
    while len(names) < count:
        length = some_length(chance)
        front = b""
        if names and chance.random() < 0.6:
            front = chance.choice(list(names))[:chance.choice((length - 1, length - 1, HALF, chance.randrange(length)))]
        names[(front + bytes(chance.choices(letters, k=NAME_MAX)))[:length]] = None
    return list(names)


def twin(name):
    """A name that differs in its last byte only."""
    return name[:-1] + (b"x" if name[-1:] != b"x" else b"y")


def too_long(name):
    """65 bytes that start with the name."""
    return name.ljust(NAME_MAX + 1, b"x")
