"""The call log (docs/LOG.md): a call as a record's bytes, and a log's calls made on a day book.

Written from that description, without looking at the program. A call is a tuple, as gate.make takes it. A unit "with rights" (K1
of document 02) is registered by a record of a kind of its own, laid out as that of a unit without them. Kind 10 is a loss (K2).
"""

import gate

REGISTER, CAPACITY, AVAILABLE, LODGE, ANNUL, CLOSE, CLEAR, RIGHTS, REGISTER_MARKED, LOSS = range(1, 11)
# a message has any size
SIZES = {REGISTER: 18, CAPACITY: 840, AVAILABLE: 108, ANNUL: 10, CLOSE: 0, CLEAR: 0, RIGHTS: 109, REGISTER_MARKED: 18, LOSS: 8}
HEAD = 3


# ---------------------------------------------------------------- Calls as records

def number(n):
    return n.to_bytes(4, "big")


def numbers(energies):
    """The count of energies, and 25 of them."""
    return number(len(energies)) + b"".join(map(number, (*energies, *[0] * 25)[:25]))


def direction(energies):
    return bytes(105) if energies is None else b"\1" + numbers(energies)


def bytes_of(name, *arguments):
    """(kind, the bytes behind the head)"""
    if name == "register":
        unit, agent, border, side, maximum, legacy, *rights = arguments
        return (REGISTER_MARKED if any(rights) else REGISTER,
                number(unit) + number(agent) + number(border) + bytes([side == gate.PURCHASE]) + number(maximum) + bytes([legacy]))
    if name == "capacity":
        notice, = arguments
        return CAPACITY, b"".join(direction(notice.get((b, d))) for b in gate.BORDERS for d in gate.DIRECTIONS)
    if name == "available":
        unit, energies = arguments
        return AVAILABLE, number(unit) + numbers(energies)
    if name == "rights":
        agent, side, energies = arguments
        return RIGHTS, number(agent) + bytes([side == gate.PURCHASE]) + numbers(energies)
    if name == "loss":
        border, loss = arguments
        return LOSS, number(border) + number(loss)
    if name == "lodge":
        return LODGE, arguments[0]
    if name == "annul":
        kind, default, unit, contract = arguments
        return ANNUL, bytes([kind == gate.EXECUTION, default]) + number(unit) + number(contract)
    return {"close": CLOSE, "clear": CLEAR}[name], b""


def record(kind, data, size=None):
    """A record with a head of its own, or one that says another size."""
    return bytes([kind]) + (len(data) if size is None else size).to_bytes(2, "big") + data


def record_of(call):
    return record(*bytes_of(*call))


# ---------------------------------------------------------------- Records as calls

class Reader:
    def __init__(self, data):
        self.data = data

    def take(self, size):
        taken, self.data = self.data[:size], self.data[size:]
        return taken

    def number(self):
        return int.from_bytes(self.take(4), "big")

    def mark(self):
        return self.take(1) != b"\0"

    def side(self):
        return gate.PURCHASE if self.mark() else gate.SALE

    def numbers(self):
        """A list that is not of a day's hours stays one: of 26 where it says more than 25."""
        count = self.number()
        return ([self.number() for _ in range(25)] + [0])[:count]


def call_of(kind, data):
    """The call of a record, or None where it is none's."""
    if kind != LODGE and len(data) != SIZES.get(kind):
        return None
    r = Reader(data)
    if kind in (REGISTER, REGISTER_MARKED):
        return "register", r.number(), r.number(), r.number(), r.side(), r.number(), r.mark(), kind == REGISTER_MARKED
    if kind == CAPACITY:
        given = {(b, d): (r.mark(), r.numbers()) for b in gate.BORDERS for d in gate.DIRECTIONS}
        return "capacity", {place: energies for place, (published, energies) in given.items() if published}
    if kind == AVAILABLE:
        return "available", r.number(), r.numbers()
    if kind == RIGHTS:
        return "rights", r.number(), r.side(), r.numbers()
    if kind == LOSS:
        return "loss", r.number(), r.number()
    if kind == LODGE:
        return "lodge", data
    if kind == ANNUL:
        kind = gate.EXECUTION if r.mark() else gate.OFFER
        return "annul", kind, r.mark(), r.number(), r.number()
    return ("close",) if kind == CLOSE else ("clear",)


def calls_in(log):
    """(call, where its record ends) as far as whole records of calls go."""
    at = 0
    while len(log) - at >= HEAD:
        size = int.from_bytes(log[at + 1:at + HEAD], "big")
        call = call_of(log[at], log[at + HEAD:at + HEAD + size]) if len(log) - at - HEAD >= size else None
        if call is None:
            return
        at += HEAD + size
        yield call, at


# ---------------------------------------------------------------- A log run

def word(kind, value):
    return kind << 60 | value


def word_of(book, call):
    """The answer's number."""
    try:
        answer = gate.make(book, call)
    except gate.Refused as no:
        return word(1, no.number << 8 | no.hour)
    return word({"lodge": 2, "clear": 3}.get(call[0], 0), answer or 0)


def replay_on(book, log, room):
    """(words of the answers, bytes read): as many calls as there is room for answers."""
    words, read = [], 0
    for call, end in calls_in(log):
        if len(words) == room:
            break
        words.append(word_of(book, call))
        read = end
    return words, read
