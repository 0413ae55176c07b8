"""An hour given by itself: whether a session can hold it.

Two tellings. `why_not` goes by document 01's sentences on units, lodgements and
limits. `calls_hold` goes by the calls: it registers the hour's units, lodges what
stands in it, closes, and looks whether this hour is what was accepted.
"""

from collections import defaultdict, namedtuple

import gate

# What stands in an hour, of the unit with this number. An execution has no price (None).
Given = namedtuple("Given", "number unit border side legacy energy price loss", defaults=[0])


def is_number(n):
    return 1 <= n <= gate.NUMBER_MOST


def why_not_one(l):
    """What is wrong with a lodgement by itself."""
    if not is_number(l.number):
        yield "lodging number"              # "the next lodging number, from 1", "65,535 accepted ones in a session"
    if not is_number(l.unit):
        yield "unit number"                 # "each 1 to 65,535"
    if l.border not in (0, *gate.BORDERS):
        yield "border"
    if l.border == 0 and l.legacy:
        yield "legacy mark"                 # "(borders 1 to 4 only)"
    if l.border == 0 and l.price is None:
        yield "domestic execution"          # "Executions need a border unit."
    if not 1 <= l.energy <= gate.ENERGY_MOST:
        yield "energy"                      # "Named energies are 1 to 99,999": what names no energy is not in the hour
    if l.price is not None and not 0 <= l.price <= gate.PRICE_MOST:
        yield "price"
    if not 0 <= l.loss <= gate.LOSS_MOST:
        yield "loss"                        # "Each border 1 to 4 gets a loss l, 0 to 2,000"
    if l.loss and (l.border == 0 or l.side == gate.SALE):
        yield "loss of no export"           # "exporters there must bring the losses too"


def why_not_unit(own, capacity):
    """What is wrong with the lodgements of one unit number."""
    if len({(l.border, l.side, l.legacy) for l in own}) > 1:
        yield "two units of one number"
    if sum(l.price is not None for l in own) > 1:
        yield "two offers"                  # "the unit's unhidden offer"
    energy = sum(l.energy for l in own)
    if energy > gate.ENERGY_MOST:
        yield "maximum"                     # the ceiling "is the least of its maximum (limit 10) .."
    for border, loss in {(l.border, l.loss) for l in own}:
        both = [capacity.get((border, d)) for d in gate.DIRECTIONS]
        if None not in both and energy > gate.increased(sum(both), loss):
            yield "border sum"              # ".. at a border with both directions published, the sum of the two capacities (limit 12)"


def why_not(offers, executions, capacity):
    """The reasons for which no session can hold an hour; none where one can. capacity: (border, direction) -> energy."""
    lodged = [*offers, *executions]
    reasons = {reason for l in lodged for reason in why_not_one(l)}
    for own in (offers, executions):
        numbers = [l.number for l in own]
        if numbers != sorted(set(numbers)):
            reasons.add("order")            # by lodging number, each once
    if {o.number for o in offers} & {x.number for x in executions}:
        reasons.add("one number twice")     # "takes and answers the next lodging number"
    units, losses = defaultdict(list), defaultdict(set)
    for l in lodged:
        units[l.unit].append(l)
        losses[l.border, l.side].add(l.loss)
    if any(len(own) > 1 for own in losses.values()):
        reasons.add("two losses")           # a border has one, and those that buy there have it
    reasons.update(reason for own in units.values() for reason in why_not_unit(own, capacity))
    if len(units) > gate.UNITS_MOST:
        reasons.add("units")                # "At most 64 units."
    if len(lodged) > gate.LODGEMENTS_MOST:
        reasons.add("lodgements")           # "There are up to 128 standing lodgements"
    if any(b not in gate.BORDERS or not 0 <= e <= gate.ENERGY_MOST for (b, _), e in capacity.items()):
        reasons.add("capacity")
    return reasons


# ---------------------------------------------------------------- by the calls

def message_of(l):
    """A normal lodgement that names hour 1 alone; an execution's contract has its lodging number."""
    kind = gate.EXECUTION if l.price is None else gate.OFFER
    rest = (0,) * (gate.MAP_BITS - 1)
    return gate.Message(kind, False, l.unit, 0 if kind == gate.OFFER else l.number, gate.hour_bit(1),
                        (l.energy, *rest), (l.price or 0, *rest))


def lodge_next(book, l):
    """Lodged under its number: the numbers before it went to lodgements that were annulled again, of which the book keeps only that."""
    gate.refuse_if(l.number <= book.last_number, gate.FULL)
    book.last_number = l.number - 1
    message = message_of(l)
    data = bytearray(gate.message_length(message.kind, message.hour_map))
    gate.write_message(message, data)
    book.lodge(bytes(data))


def accepted_in(book):
    """What stands in hour 1 after closing."""
    for l in book.standing.values():
        if gate.energy_at(l, 1) and book.verdicts[l.number] == ("accepted",):
            unit = book.units[l.message.unit]
            price = l.message.prices[0] if l.message.kind == gate.OFFER else None
            loss = book.losses[unit.border] if unit.border and unit.side == gate.PURCHASE else 0
            yield Given(l.number, unit.number, unit.border, unit.side, unit.legacy, gate.energy_at(l, 1), price, loss)


def calls_hold(offers, executions, capacity):
    """Whether calls lead to a closed session with this hour."""
    lodged = sorted([*offers, *executions], key=lambda l: l.number)
    book = gate.DayBook(2006, 6, 1)
    try:
        for unit, l in {l.unit: l for l in lodged}.items():
            book.register(unit, unit, l.border, l.side, gate.ENERGY_MOST, l.legacy)
        gate.refuse_if(any(b not in gate.BORDERS for b, _ in capacity), gate.RANGE)
        book.capacity_notice({place: (energy,) * book.hours for place, energy in capacity.items()})
        for l in lodged:
            if l.side == gate.PURCHASE and l.border:
                book.loss(l.border, l.loss)
        for l in lodged:
            lodge_next(book, l)
        book.close()
    except gate.Refused:
        return False
    found = list(accepted_in(book))
    return ([l for l in found if l.price is not None] == list(offers)
            and [l for l in found if l.price is None] == list(executions))


def hour_of(offers, executions):
    """As gate.clear_hour takes them."""
    def direction(l):
        return gate.IMPORT if l.side == gate.SALE else gate.EXPORT
    return ([gate.Offer(o.number, o.side, o.border, o.legacy, o.price, o.energy) for o in offers],
            [gate.Execution(x.number, direction(x), x.border, x.energy) for x in executions])


def losses_of(offers, executions):
    """border -> its loss, of an hour that a session can hold."""
    return {l.border: l.loss for l in (*offers, *executions) if l.loss}


def whole(capacity):
    return {(b, d): capacity.get((b, d)) for b in gate.BORDERS for d in gate.DIRECTIONS}


# ---------------------------------------------------------------- at random

def at_random(dice, units, borders, tight, last=gate.NUMBER_MOST, losses=gate.NO_LOSSES):
    """(offers, executions, capacity) of some units, each within its limits, under lodging numbers to `last`; losses: border -> its loss."""
    capacity = {(b, d): dice.randrange(1, tight) for b in borders for d in gate.DIRECTIONS if dice.random() < 0.85}
    prices = [dice.randrange(0, 9000, 250) for _ in range(6)]
    lodged = []
    for unit in dice.sample(range(1, gate.NUMBER_MOST + 1), units):
        border, side = dice.choice((0, *borders)), dice.choice((gate.SALE, gate.PURCHASE))
        legacy = border > 0 and dice.random() < 0.2
        loss = losses[border] if border and side == gate.PURCHASE else 0
        left = min(gate.ENERGY_MOST, gate.increased(sum(whole(capacity).get((border, d)) or tight for d in gate.DIRECTIONS), loss))
        for execution in [False] * (dice.random() < 0.85) + [True] * (border > 0 and dice.randrange(4)):
            energy = dice.randint(1, left) if left else 0
            if energy == 0:
                break
            left -= energy
            price = None if execution else dice.choice(prices) + (4000 if side == gate.PURCHASE else 0)
            lodged.append(Given(0, unit, border, side, legacy, energy, price, loss))
    dice.shuffle(lodged)
    numbers = sorted(dice.sample(range(1, last + 1), len(lodged)))
    lodged = [l._replace(number=n) for l, n in zip(lodged, numbers)]
    return [l for l in lodged if l.price is not None], [l for l in lodged if l.price is None], capacity


def spoilt(dice, offers, executions, capacity, lossy=False):
    """The same with one change, mostly to an hour that no session holds; of a lossy hour it may be a loss."""
    offers, executions, capacity = list(offers), list(executions), dict(capacity)
    own = dice.choice([l for l in (offers, executions) if l] or [offers])
    if not own or dice.random() < 0.2:
        for place in capacity:
            capacity[place] = dice.choice((0, capacity[place] // 2, capacity[place], 100_000))
        return offers, executions, capacity
    i, other = dice.randrange(len(own)), dice.choice([*offers, *executions])
    field, values = dice.choice((
        *[("loss", (0, 1, 777, 2_000, 2_001))] * lossy, ("number", (0, 65_535, 65_536, other.number)), ("unit", (0, 65_535, 65_536, other.unit, other.unit)),
        ("border", (0, 1, 4, 5)), ("side", (gate.SALE, gate.PURCHASE)), ("legacy", (True, False)),
        ("energy", (0, 1, 99_999, 100_000)), ("price", (0, 18_030, 18_031))))
    if field == "price" and own is executions:
        field, values = "border", (0, 5)
    own[i] = own[i]._replace(**{field: dice.choice(values)})
    return offers, executions, capacity
