#!/usr/bin/env python3
"""A reference model of the day-ahead gate, from document 01 alone, with K1 (capacity rights) and K2 (losses on exports) of document 02.

    gate.py rehearse FILE    read a rehearsal day, print every answer
    gate.py selftest         see that the model agrees with itself and the paper
                             (--long: also what the random material met)

The sections below stand in the paper's order. Whole numbers only. A refused
call raises Refused before anything is changed.
"""

import re
import sys
from collections import namedtuple

import report

ENERGY_MOST = 99_999            # tenths of MWh
PRICE_MOST = 18_030             # hundredths of a euro per MWh
LOSS_MOST, LOSS_WHOLE = 2_000, 10_000   # hundredths of a percent
NUMBER_MOST = 65_535            # unit, agent, contract and lodging numbers
UNITS_MOST = 64
LODGEMENTS_MOST = 128
MAP_BITS = 25

SALE, PURCHASE = "sale", "purchase"
EXPORT, IMPORT = "export", "import"
OFFER, EXECUTION = 0, 1         # as in the message
BORDERS = (1, 2, 3, 4)          # France, Andorra, Portugal, Morocco; 0 is domestic
FRANCE = 1
DIRECTIONS = (EXPORT, IMPORT)

DATE, GATE, FORM, HOUR, RANGE, UNIT, TAKEN, SECOND, FULL = 1, 2, 3, 4, 5, 6, 7, 8, 9
MAXIMUM, AVAILABLE, BORDER, ABSENT, SHORT, RIGHTS = 10, 11, 12, 13, 14, 15
WORDS = {
    DATE: "date", GATE: "gate", FORM: "form", HOUR: "hour", RANGE: "range", UNIT: "unit",
    TAKEN: "taken", SECOND: "second", FULL: "full", MAXIMUM: "maximum",
    AVAILABLE: "available", BORDER: "border", ABSENT: "absent", SHORT: "short", RIGHTS: "rights",
}


class Refused(Exception):
    """A refusal of the table: its number, and for a passed limit (10 to 12, 15) an hour.

    A call raises the first that applies, in the order of the table's places: 15 stands after 12.
    """

    def __init__(self, number, hour=0):
        super().__init__(f"{number} {WORDS[number]} hour {hour}")
        self.number = number
        self.hour = hour


def refuse_if(bad, number, hour=0):
    if bad:
        raise Refused(number, hour)


# ---------------------------------------------------------------- Hours of the day

def days_of_month(year, month):
    if month == 2:
        leap = (year % 4 == 0 and year % 100 != 0) or year % 400 == 0
        return 29 if leap else 28
    return 30 if month in (4, 6, 9, 11) else 31


def is_date(year, month, day):
    return 2002 <= year <= 2099 and 1 <= month <= 12 and 1 <= day <= days_of_month(year, month)


def is_sunday(year, month, day):
    """2002-01-01 was a Tuesday, so its fifth day later a Sunday."""
    days = day - 1
    days += sum(days_of_month(year, m) for m in range(1, month))
    days += sum(365 + days_of_month(y, 2) - 28 for y in range(2002, year))
    return days % 7 == 5


def hours_of_day(year, month, day):
    """H: 23 on the last Sunday of March, 25 on that of October, else 24."""
    refuse_if(not is_date(year, month, day), DATE)
    if month in (3, 10) and day > 31 - 7 and is_sunday(year, month, day):
        return 23 if month == 3 else 25
    return 24


def clock_name(hours, hour):
    """(starting local hour, marked "second")."""
    refuse_if(not 1 <= hour <= hours, HOUR)
    if hours == 23:
        return (hour - 1 if hour <= 2 else hour), False
    if hours == 25:
        return (hour - 1 if hour <= 3 else hour - 2), hour == 4
    return hour - 1, False


def hour_of_name(hours, name, second):
    for hour in range(1, hours + 1):
        if clock_name(hours, hour) == (name, second):
            return hour
    raise Refused(HOUR)


# ---------------------------------------------------------------- The lodging message

# hour_map: the message's 25-bit number, hour 1 its highest bit.
# energies and prices: 25 each, hour 1 first.
Message = namedtuple("Message", "kind default unit contract hour_map energies prices")


def hour_bit(hour):
    return 1 << (MAP_BITS - hour)


def named_hours(hour_map):
    return [h for h in range(1, MAP_BITS + 1) if hour_map >> (MAP_BITS - h) & 1]


def message_length(kind, hour_map):
    n = len(named_hours(hour_map))
    return 8 + 4 * n if kind == OFFER else 8 + (17 * n + 7) // 8


class Reader:
    """A message and a place among its bits, most significant bit first."""

    def __init__(self, data):
        self.number = int.from_bytes(data, "big")
        self.bits = 8 * len(data)
        self.place = 0

    def take(self, count):
        self.place += count
        return (self.number >> (self.bits - self.place)) % (1 << count)

    def rest(self):
        return self.take(self.bits - self.place)


def key_in_range(kind, unit, contract):
    if not 1 <= unit <= NUMBER_MOST:
        return False
    return contract == 0 if kind == OFFER else 1 <= contract <= NUMBER_MOST


def read_message(data, hours=MAP_BITS):
    """The message in these bytes; 3, 4 or 5. By itself it knows no day (25 hours)."""
    refuse_if(len(data) < 8, FORM)
    reader = Reader(data)
    form = reader.take(4)
    kind = reader.take(2)
    refuse_if(form != 1 or kind not in (OFFER, EXECUTION), FORM)
    default = reader.take(1) == 1
    unit = reader.take(16)
    contract = reader.take(16)
    hour_map = reader.take(MAP_BITS)
    refuse_if(len(data) != message_length(kind, hour_map), FORM)
    energies, prices = [0] * MAP_BITS, [0] * MAP_BITS
    named = named_hours(hour_map)
    for h in named:
        energies[h - 1] = reader.take(17)
        if kind == OFFER:
            prices[h - 1] = reader.take(15)
    refuse_if(reader.rest() != 0, FORM)
    refuse_if(not named or named[-1] > hours, HOUR)
    refuse_if(not key_in_range(kind, unit, contract), RANGE)
    for h in named:
        refuse_if(not 1 <= energies[h - 1] <= ENERGY_MOST or prices[h - 1] > PRICE_MOST, RANGE)
    return Message(kind, default, unit, contract, hour_map, tuple(energies), tuple(prices))


def write_message(message, buffer):
    """Writes into the buffer, answers the count of bytes; 3, 4, 5 or 14."""
    kind, default, unit, contract, hour_map, energies, prices = message
    refuse_if(kind not in (OFFER, EXECUTION), FORM)
    refuse_if(hour_map == 0 or hour_map >> MAP_BITS != 0, HOUR)
    refuse_if(not key_in_range(kind, unit, contract), RANGE)
    price_most = PRICE_MOST if kind == OFFER else 0
    for h in range(1, MAP_BITS + 1):
        energy, price = energies[h - 1], prices[h - 1]
        if hour_map & hour_bit(h):
            refuse_if(not 1 <= energy <= ENERGY_MOST or not 0 <= price <= price_most, RANGE)
        else:
            refuse_if(energy != 0 or price != 0, RANGE)
    count = message_length(kind, hour_map)
    refuse_if(len(buffer) < count, SHORT)

    number, bits = 0, 0
    fields = [(1, 4), (kind, 2), (int(default), 1), (unit, 16), (contract, 16), (hour_map, MAP_BITS)]
    for h in named_hours(hour_map):
        fields.append((energies[h - 1], 17))
        if kind == OFFER:
            fields.append((prices[h - 1], 15))
    for value, width in fields:
        number = (number << width) | value
        bits += width
    number <<= 8 * count - bits
    buffer[:count] = number.to_bytes(count, "big")
    return count


# ---------------------------------------------------------------- Units, notices, lodgements

# rights: marked "with rights"
Unit = namedtuple("Unit", "number agent border side maximum legacy rights")
Lodgement = namedtuple("Lodgement", "number message")
# border None: not published; rights None: not a unit with rights
Limits = namedtuple("Limits", "maximum available border rights")


def direction_of(unit):
    """At a border a sale is an import, a purchase an export."""
    return IMPORT if unit.side == SALE else EXPORT


def key_of(message):
    return (message.kind, message.default, message.unit, message.contract)


def energy_at(lodgement, hour):
    return lodgement.message.energies[hour - 1]


def first_limit_passed(hours, energy, limits):
    """(limit, hour): the first limit of the table that is passed, and the lowest hour in which it is; or None.

    energy and limits are functions of the hour; a limit of None is never passed.
    """
    for number, place in ((MAXIMUM, 0), (AVAILABLE, 1), (BORDER, 2), (RIGHTS, 3)):
        for h in hours:
            most = limits(h)[place]
            if most is not None and energy(h) > most:
                return number, h
    return None


# ---------------------------------------------------------------- Clearing: match

# What an offer or an execution brings into one hour; number is the lodging number.
Offer = namedtuple("Offer", "number side border legacy price energy")
Execution = namedtuple("Execution", "number direction border energy")


def in_match_order(offers, side):
    if side == SALE:
        return sorted((o for o in offers if o.side == SALE), key=lambda o: (o.price, o.number))
    return sorted((o for o in offers if o.side == PURCHASE), key=lambda o: (-o.price, o.number))


def match_by_places(offers):
    """The literal rule, one tenth of MWh at a time: (matched by number, price)."""
    sales = [o for o in in_match_order(offers, SALE) for _ in range(o.energy)]
    purchases = [o for o in in_match_order(offers, PURCHASE) for _ in range(o.energy)]
    places = min(len(sales), len(purchases))
    v = sum(1 for i in range(places) if sales[i].price <= purchases[i].price)
    matched = {o.number: 0 for o in offers}
    for side in (sales, purchases):
        for o in side[:v]:
            matched[o.number] += 1
    return matched, (sales[v - 1].price if v > 0 else 0)


def match_by_runs(offers):
    """The same by whole offers: places come in runs of one sale and one purchase."""
    matched = {o.number: 0 for o in offers}
    price = 0
    sales = [[o.number, o.price, o.energy] for o in in_match_order(offers, SALE) if o.energy]
    purchases = [[o.number, o.price, o.energy] for o in in_match_order(offers, PURCHASE) if o.energy]
    i = j = 0
    while i < len(sales) and j < len(purchases) and sales[i][1] <= purchases[j][1]:
        run = min(sales[i][2], purchases[j][2])
        matched[sales[i][0]] += run
        matched[purchases[j][0]] += run
        price = sales[i][1]
        sales[i][2] -= run
        purchases[j][2] -= run
        i += sales[i][2] == 0
        j += purchases[j][2] == 0
    return matched, price


# ---------------------------------------------------------------- Clearing: split

def market_maximum(capacity, b, m, l):
    """Market export maximum; for import give b and m negated and legacy imports."""
    a = capacity + max(-b, 0)
    s = max(a - l, 0)
    d = max(max(m, 0) - l, 0) + max(b, 0)
    t = 0 if b <= 0 else (b * min(s, d) + d - 1) // d       # rounded up
    return a - t


# ---------------------------------------------------------------- Clearing: share

def hand_out(left, numbers):
    """One unit each to the lowest numbers; the rest by the same rule over the higher ones."""
    if left == 0:
        return set()
    lowest = min(numbers)
    return {lowest} | hand_out(left - 1, numbers - {lowest})


def share(r, amounts):
    """What each lodging number loses when r is taken from the amounts (number: m)."""
    g = sum(amounts.values())
    if g == 0:
        return {n: 0 for n in amounts}
    taken = {n: r * m // g for n, m in amounts.items()}
    left = r - sum(taken.values())
    for n in hand_out(left, {n for n, m in amounts.items() if m > 0}):
        taken[n] += 1
    return taken


# ---------------------------------------------------------------- Losses on exports

NO_LOSSES = {border: 0 for border in BORDERS}


def increased(total, loss):
    """The border sum of a purchase unit, which brings the losses too."""
    return total * (LOSS_WHOLE + loss) // LOSS_WHOLE


def border_figure(energy, loss):
    """What an export counts at its border: rounded up."""
    whole = LOSS_WHOLE + loss
    return (energy * LOSS_WHOLE + whole - 1) // whole


def kept_of(energy, taken, loss):
    """The largest energy, no more than this one, that has the border figure left to it.

    k has a figure of at most f exactly when k * 10,000 <= f * (10,000 + loss).
    """
    left = border_figure(energy, loss) - taken
    return min(energy, left * (LOSS_WHOLE + loss) // LOSS_WHOLE)


class AtBorders:
    """What offers and executions count at their borders: an export by its border's loss, an import as it is. At home nothing is lost."""

    def __init__(self, losses):
        self.losses = losses

    def loss(self, border, direction):
        return self.losses[border] if border != 0 and direction == EXPORT else 0

    def figure(self, border, direction, energy):
        return border_figure(energy, self.loss(border, direction))

    def kept(self, border, direction, energy, taken):
        return kept_of(energy, taken, self.loss(border, direction))


# ---------------------------------------------------------------- Clearing: withdrawal, executions

def balances(amounts):
    """Exports less imports by border; amounts are (border, direction, border figure)."""
    result = {border: 0 for border in BORDERS}
    for border, direction, figure in amounts:
        if border != 0:
            result[border] += figure if direction == EXPORT else -figure
    return result


def direction_of_offer(offer):
    return EXPORT if offer.side == PURCHASE else IMPORT


def market_figures(offers, matched, at):
    """What is matched of each offer, as it counts at its border."""
    return {o.number: at.figure(o.border, direction_of_offer(o), matched[o.number]) for o in offers}


def market_balances(offers, figures):
    return balances((o.border, direction_of_offer(o), figures[o.number]) for o in offers)


def overruns(market, maxima):
    """{(border, direction): excess} where a market balance passes its maximum."""
    over = {}
    for (border, direction), most in maxima.items():
        passed = market[border] if direction == EXPORT else -market[border]
        if most is not None and passed > most:
            over[border, direction] = passed - most
    return over


def withdrawal_step(offers, matched, over, at):
    """Steps 1 to 4: what each number offers afterwards. C and V' are energies; what is taken are border figures."""
    figures = market_figures(offers, matched, at)
    offered = {o.number: o.energy for o in offers}

    def there(direction, legacy):
        return [o for o in offers if o.legacy == legacy and direction_of_offer(o) == direction
                and (o.border, direction) in over]

    for direction in DIRECTIONS:                                        # 1
        for o in there(direction, legacy=False):
            offered[o.number] = matched[o.number]

    prices_out = [o.price for o in there(EXPORT, False) if matched[o.number] > 0]   # 2
    prices_in = [o.price for o in there(IMPORT, False) if matched[o.number] > 0]
    if prices_out and prices_in:
        c = sum(matched[o.number] for o in offers
                if o.side == PURCHASE and o.price < min(prices_out))
        v_dash = sum(matched[o.number] for o in offers
                     if o.side == SALE and o.price > max(prices_in))
        goes = EXPORT if c <= v_dash else IMPORT
    elif prices_out or prices_in:
        goes = EXPORT if prices_out else IMPORT
    else:
        goes = None

    for (border, direction), excess in over.items():
        if goes is None:                                                # 4
            group = [o for o in there(direction, True) if o.border == border]
            taken_in_all = excess
        elif direction == goes:                                         # 3
            price = min(prices_out) if goes == EXPORT else max(prices_in)
            group = [o for o in there(direction, False) if o.border == border
                     and o.price == price and matched[o.number] > 0]
            taken_in_all = min(excess, sum(figures[o.number] for o in group))
        else:
            continue
        taken = share(taken_in_all, {o.number: figures[o.number] for o in group})
        for o in group:
            offered[o.number] = at.kept(border, direction, matched[o.number], taken[o.number])
    return offered


HourFigures = namedtuple(
    "HourFigures", "matched executed market bilateral market_maxima bilateral_maxima price steps")


def clear_hour(offers, executions, capacity, match=match_by_runs, losses=NO_LOSSES):
    """One hour. capacity: (border, direction) -> energy, or None when absent. losses: border -> its loss.

    Offers, the match and what is matched or executed are energies; balances and maxima are counted at the borders.
    """
    at = AtBorders(losses)
    matched, price = match(offers)

    executed_figures = {x.number: at.figure(x.border, x.direction, x.energy) for x in executions}
    b = balances((x.border, x.direction, executed_figures[x.number]) for x in executions)
    figures = market_figures(offers, matched, at)
    market = market_balances(offers, figures)
    l = {place: 0 for place in capacity}
    for o in offers:
        if o.legacy:
            l[o.border, direction_of_offer(o)] += figures[o.number]
    maxima = {}
    for (border, direction), most in capacity.items():
        sign = 1 if direction == EXPORT else -1
        maxima[border, direction] = None if most is None else market_maximum(
            most, sign * b[border], sign * market[border], l[border, direction])

    steps = 0
    while over := overruns(market, maxima):
        offered = withdrawal_step(offers, matched, over, at)
        if sum(offered.values()) >= sum(o.energy for o in offers):
            raise AssertionError("a withdrawal step took nothing")     # it would never end
        offers = [o._replace(energy=offered[o.number]) for o in offers]
        matched, price = match(offers)                                  # 5
        market = market_balances(offers, market_figures(offers, matched, at))
        steps += 1

    executed = {x.number: x.energy for x in executions}
    bilateral_maxima = {}
    for (border, direction), most in capacity.items():
        sign = 1 if direction == EXPORT else -1
        if most is None:
            bilateral_maxima[border, direction] = None
            continue
        bilateral_maxima[border, direction] = most - sign * market[border]
        excess = sign * b[border] - bilateral_maxima[border, direction]
        if excess > 0:
            group = [x for x in executions if x.border == border and x.direction == direction]
            taken = share(excess, {x.number: executed_figures[x.number] for x in group})
            for x in group:
                executed[x.number] = at.kept(border, direction, x.energy, taken[x.number])
    bilateral = balances((x.border, x.direction, at.figure(x.border, x.direction, executed[x.number])) for x in executions)
    return HourFigures(matched, executed, market, bilateral, maxima, bilateral_maxima, price, steps)


# ---------------------------------------------------------------- Day book: calls and queries

class DayBook:
    """One session, from its date. Opening with a bad date is refused by 1."""

    def __init__(self, year, month, day):
        self.hours = hours_of_day(year, month, day)
        self.date = (year, month, day)
        self.units = {}                 # number -> Unit
        self.capacities = {}            # (border, direction) -> H energies; the rest are absent
        self.availables = {}            # unit number -> H energies
        self.rights = {}                # (agent, side) -> H energies
        self.losses = NO_LOSSES         # border -> its loss
        self.standing = {}              # key -> Lodgement
        self.last_number = 0
        self.verdicts = None            # number -> verdict, once closed
        self.figures = None             # hour -> HourFigures, once cleared

    @classmethod
    def beside_a_refused_date(cls):
        return cls(2002, 1, 1)

    # -- what the rules ask of the book

    def refuse_a_change_after_closing(self):
        refuse_if(self.verdicts is not None, GATE)

    def refuse_unregistered(self, unit):
        refuse_if(not 1 <= unit <= NUMBER_MOST, RANGE)
        refuse_if(unit not in self.units, UNIT)

    def is_hidden(self, lodgement):
        kind, default, unit, contract = key_of(lodgement.message)
        return default and (kind, False, unit, contract) in self.standing

    def unhidden(self, unit, kind):
        return [l for l in self.standing.values() if l.message.unit == unit
                and l.message.kind == kind and not self.is_hidden(l)]

    def capacity_at(self, border, direction, hour):
        energies = self.capacities.get((border, direction))
        return None if energies is None else energies[hour - 1]

    def rights_at(self, agent, side, hour):
        """Without a notice they are 0."""
        energies = self.rights.get((agent, side))
        return 0 if energies is None else energies[hour - 1]

    def french_units(self, agent, side):
        return [u for u in self.units.values() if (u.agent, u.border, u.side) == (agent, FRANCE, side)]

    def limits(self, number, hour):
        """Limits 10, 11, 12 and 15 of a unit in an hour; its ceiling is their least.

        A purchase unit brings its border's loss to the border sum. The agent's rights of the unit's side are limit 15 of a French unit with rights, and come off the border sum
        of one without. Where the sum is no limit, nothing comes off.
        """
        unit = self.units[number]
        available = unit.maximum
        if number in self.availables:
            available = self.availables[number][hour - 1]
        out = self.capacity_at(unit.border, EXPORT, hour)
        into = self.capacity_at(unit.border, IMPORT, hour)
        both = None if out is None or into is None else out + into
        if both is not None and direction_of(unit) == EXPORT:
            both = increased(both, self.losses[unit.border])
        rights = None
        if unit.rights:
            rights = self.rights_at(unit.agent, unit.side, hour)
        elif unit.border == FRANCE and both is not None:
            both = max(both - self.rights_at(unit.agent, unit.side, hour), 0)
        return Limits(unit.maximum, available, both, rights)

    # -- calls: units and notices

    def register(self, number, agent, border, side, maximum, legacy, rights=False):
        self.refuse_a_change_after_closing()
        refuse_if(not 1 <= number <= NUMBER_MOST or not 1 <= agent <= NUMBER_MOST, RANGE)
        refuse_if(not 0 <= border <= 4 or not 0 <= maximum <= ENERGY_MOST, RANGE)
        refuse_if(legacy and border == 0, RANGE)
        refuse_if(rights and border != FRANCE, RANGE)
        refuse_if(number in self.units, TAKEN)
        refuse_if(border != 0 and any((u.agent, u.border, u.side, u.rights) == (agent, border, side, rights)
                                      for u in self.units.values()), SECOND)
        refuse_if(len(self.units) >= UNITS_MOST, FULL)
        refuse_if(rights and all(u.rights for u in self.french_units(agent, side)), RIGHTS)
        self.units[number] = Unit(number, agent, border, side, maximum, legacy, rights)

    def capacity_notice(self, notice):
        """notice: (border, direction) -> energies; a direction left out is absent."""
        self.refuse_a_change_after_closing()
        refuse_if(any(len(energies) != self.hours for energies in notice.values()), HOUR)
        refuse_if(any(not 0 <= e <= ENERGY_MOST for es in notice.values() for e in es), RANGE)
        self.capacities = {direction: tuple(es) for direction, es in notice.items()}

    def unavailability_notice(self, unit, energies):
        self.refuse_a_change_after_closing()
        refuse_if(len(energies) != self.hours, HOUR)
        refuse_if(any(not 0 <= e <= ENERGY_MOST for e in energies), RANGE)
        self.refuse_unregistered(unit)
        self.availables[unit] = tuple(energies)

    def rights_notice(self, agent, side, energies):
        self.refuse_a_change_after_closing()
        refuse_if(len(energies) != self.hours, HOUR)
        refuse_if(not 1 <= agent <= NUMBER_MOST, RANGE)
        refuse_if(any(not 0 <= e <= ENERGY_MOST for e in energies), RANGE)
        refuse_if(not self.french_units(agent, side), UNIT)
        self.rights[agent, side] = tuple(energies)

    def loss(self, border, loss):
        """Sets the loss of a border's exports, in hundredths of a percent; the one set before is gone."""
        self.refuse_a_change_after_closing()
        refuse_if(border not in BORDERS or not 0 <= loss <= LOSS_MOST, RANGE)
        self.losses = {**self.losses, border: loss}

    # -- calls: lodging and annulling

    def lodge(self, data):
        self.refuse_a_change_after_closing()
        message = read_message(data, self.hours)
        self.refuse_unregistered(message.unit)
        refuse_if(message.kind == EXECUTION and self.units[message.unit].border == 0, UNIT)
        key = key_of(message)
        refuse_if(len(self.standing) >= LODGEMENTS_MOST and key not in self.standing, FULL)
        refuse_if(self.last_number >= NUMBER_MOST, FULL)
        if message.default:
            beside = []
        else:
            beside = self.unhidden(message.unit, EXECUTION if message.kind == OFFER else OFFER)
        passed = first_limit_passed(
            named_hours(message.hour_map),
            lambda h: message.energies[h - 1] + sum(energy_at(l, h) for l in beside),
            lambda h: Limits(self.units[message.unit].maximum, None, None, None) if message.default
            else self.limits(message.unit, h))
        if passed:
            raise Refused(*passed)
        self.last_number += 1
        self.standing[key] = Lodgement(self.last_number, message)
        return self.last_number

    def annul(self, kind, default, unit, contract):
        self.refuse_a_change_after_closing()
        refuse_if(not key_in_range(kind, unit, contract), RANGE)
        self.refuse_unregistered(unit)
        refuse_if(kind == EXECUTION and self.units[unit].border == 0, UNIT)
        refuse_if((kind, default, unit, contract) not in self.standing, ABSENT)
        del self.standing[kind, default, unit, contract]

    # -- calls: closing and clearing

    def close(self):
        """Closing: normal executions, default executions, offers; latest number first."""
        refuse_if(self.verdicts is not None, GATE)
        verdicts = {}
        accepted = {}                   # unit -> lodgements accepted before

        def turn(l):
            kind, default = l.message.kind, l.message.default
            return (2 if kind == OFFER else 1 if default else 0), -l.number

        for l in sorted(self.standing.values(), key=turn):
            if self.is_hidden(l):
                verdicts[l.number] = ("hidden",)
                continue
            unit = l.message.unit
            before = accepted.setdefault(unit, [])
            passed = first_limit_passed(
                named_hours(l.message.hour_map),
                lambda h: energy_at(l, h) + sum(energy_at(x, h) for x in before),
                lambda h: self.limits(unit, h))
            if passed:
                verdicts[l.number] = ("limit",) + passed
            else:
                verdicts[l.number] = ("accepted",)
                before.append(l)
        self.verdicts = verdicts

    def hour_input(self, hour):
        """The accepted offers and executions of an hour, and its capacities."""
        offers, executions = [], []
        for l in self.standing.values():
            energy = energy_at(l, hour)
            if energy == 0 or self.verdicts[l.number] != ("accepted",):
                continue
            unit = self.units[l.message.unit]
            if l.message.kind == OFFER:
                offers.append(Offer(l.number, unit.side, unit.border, unit.legacy,
                                    l.message.prices[hour - 1], energy))
            else:
                executions.append(Execution(l.number, direction_of(unit), unit.border, energy))
        capacity = {(b, d): self.capacity_at(b, d, hour) for b in BORDERS for d in DIRECTIONS}
        return offers, executions, capacity

    def clear(self, match=match_by_runs):
        refuse_if(self.verdicts is None or self.figures is not None, GATE)
        self.figures = {h: clear_hour(*self.hour_input(h), match=match, losses=self.losses)
                        for h in range(1, self.hours + 1)}
        return sum(f.steps for f in self.figures.values())

    # -- queries

    def verdict(self, number):
        refuse_if(self.verdicts is None, GATE)
        refuse_if(number not in self.verdicts, ABSENT)
        return self.verdicts[number]

    def figures_of(self, hour):
        refuse_if(self.figures is None, GATE)
        refuse_if(not 1 <= hour <= self.hours, HOUR)
        return self.figures[hour]

    def of_unit(self, unit, energies):
        self.refuse_unregistered(unit)
        return sum(energies.get(l.number, 0) for l in self.standing.values()
                   if l.message.unit == unit)

    def matched(self, unit, hour):
        return self.of_unit(unit, self.figures_of(hour).matched)

    def executed(self, unit, hour):
        return self.of_unit(unit, self.figures_of(hour).executed)

    def of_border(self, border, figures):
        refuse_if(border not in BORDERS, RANGE)
        return figures

    def market(self, border, hour):
        return self.of_border(border, self.figures_of(hour).market)[border]

    def bilateral(self, border, hour):
        return self.of_border(border, self.figures_of(hour).bilateral)[border]

    def market_maximum(self, border, direction, hour):
        return self.of_border(border, self.figures_of(hour).market_maxima)[border, direction]

    def bilateral_maximum(self, border, direction, hour):
        return self.of_border(border, self.figures_of(hour).bilateral_maxima)[border, direction]

    def price(self, hour):
        return self.figures_of(hour).price


# A call of a list as a value: its name, then its arguments.
CALLS = {
    "register": DayBook.register, "capacity": DayBook.capacity_notice, "available": DayBook.unavailability_notice,
    "rights": DayBook.rights_notice, "loss": DayBook.loss, "lodge": DayBook.lodge, "annul": DayBook.annul, "close": DayBook.close, "clear": DayBook.clear,
}


def make(book, call):
    """A call on the session: its answer, or Refused. Every call of a list, of a day or of a log is made here."""
    name, *arguments = call
    return CALLS[name](book, *arguments)


# ---------------------------------------------------------------- Rehearsal days

class NotUnderstood(Exception):
    pass


class Words:
    """The words of a line, taken one by one."""

    def __init__(self, text):
        self.left = text.split()

    def next(self):
        if not self.left:
            raise NotUnderstood
        return self.left.pop(0)

    def expect(self, word):
        if self.next() != word:
            raise NotUnderstood

    def one_of(self, *words):
        word = self.next()
        if word not in words:
            raise NotUnderstood
        return word

    def optional(self, word):
        if self.left and self.left[0] == word:
            self.left.pop(0)
            return True
        return False

    def number(self):
        return plain_number(self.next())

    def end(self):
        if self.left:
            raise NotUnderstood


def plain_number(text):
    if not re.fullmatch("[0-9]{1,9}", text):
        raise NotUnderstood
    return int(text)


def energy_list(text):
    """E or ExN, comma-separated."""
    energies = []
    for part in text.split(","):
        energy, times, count = part.partition("x")
        n = plain_number(count) if times else 1
        if not 1 <= n <= 100:
            raise NotUnderstood
        energies += [plain_number(energy)] * n
    return energies


def message_of_line(words, kind):
    unit = words.number()
    default = words.optional("default")
    contract = 0
    if kind == EXECUTION:
        words.expect("contract")
        contract = words.number()
    hour_map, seen = 0, set()
    energies, prices = [0] * MAP_BITS, [0] * MAP_BITS
    while words.left:
        form = "([0-9]+):([0-9]+)@([0-9]+)" if kind == OFFER else "([0-9]+):([0-9]+)()"
        found = re.fullmatch(form, words.next())
        if not found:
            raise NotUnderstood
        hour, energy = plain_number(found[1]), plain_number(found[2])
        price = plain_number(found[3]) if kind == OFFER else 0
        if hour in seen:
            raise NotUnderstood
        seen.add(hour)
        if 1 <= hour <= MAP_BITS:
            hour_map |= hour_bit(hour)
            energies[hour - 1], prices[hour - 1] = energy, price
        else:
            hour_map |= 1 << MAP_BITS       # beyond 25 bits
    return Message(kind, default, unit, contract, hour_map, tuple(energies), tuple(prices))


def capacity_of_line(words):
    notice = {}
    while words.left:
        border = words.number()
        direction = words.one_of(*DIRECTIONS)
        if border not in BORDERS or (border, direction) in notice:
            raise NotUnderstood
        notice[border, direction] = energy_list(words.next())
    return notice


class Rehearsal:
    """A rehearsal day: each line a call on the session the last one left."""

    def __init__(self):
        self.book = DayBook.beside_a_refused_date()
        self.calls = self.refused = self.not_understood = 0

    def answer(self, text):
        """The answer to one line, or None for a comment or a blank line. A report has further lines behind its first."""
        text = text.strip()
        if not text or text.startswith("#"):
            return None
        if text.split() == ["report"]:      # no call
            return "\n".join(["report", *report.report(self.book, sys.modules[__name__])])
        try:
            call = self.call_of(Words(text))
        except NotUnderstood:
            self.not_understood += 1
            return "not understood"
        self.calls += 1
        try:
            return call()
        except Refused as no:
            self.refused += 1
            hour = f" hour {no.hour}" if no.hour else ""
            return f"refused {no.number} {WORDS[no.number]}{hour}"

    def call_of(self, words):
        """Reads the whole line first; the call is made afterwards."""
        name = words.next()
        if name == "open":
            found = re.fullmatch("([0-9]+)-([0-9]+)-([0-9]+)", words.next())
            words.end()
            if not found:
                raise NotUnderstood
            date = [plain_number(part) for part in found.groups()]
            return lambda: self.open(date)
        if name == "register":
            number = words.number()
            words.expect("agent")
            agent = words.number()
            words.expect("border")
            border = words.number()
            side = words.one_of(SALE, PURCHASE)
            words.expect("max")
            maximum = words.number()
            legacy = words.optional("legacy")
            rights = words.optional("rights")
            words.end()
            return self.plain("register", number, agent, border, side, maximum, legacy, rights)
        if name == "capacity":
            notice = capacity_of_line(words)
            return self.plain("capacity", notice)
        if name == "available":
            unit, energies = words.number(), energy_list(words.next())
            words.end()
            return self.plain("available", unit, energies)
        if name == "rights":
            agent = words.number()
            side = words.one_of(SALE, PURCHASE)
            energies = energy_list(words.next())
            words.end()
            return self.plain("rights", agent, side, energies)
        if name == "loss":
            border, loss = words.number(), words.number()
            words.end()
            return self.plain("loss", border, loss)
        if name in ("offer", "execution"):
            message = message_of_line(words, OFFER if name == "offer" else EXECUTION)
            return lambda: self.write_and_lodge(message)
        if name == "lodge":
            digits = words.next()
            words.end()
            if len(digits) % 2 or not re.fullmatch("[0-9A-Fa-f]*", digits):
                raise NotUnderstood
            return lambda: self.lodge(bytes.fromhex(digits))
        if name == "annul":
            kind = OFFER if words.one_of("offer", "execution") == "offer" else EXECUTION
            unit = words.number()
            default = words.optional("default")
            contract = 0
            if kind == EXECUTION:
                words.expect("contract")
                contract = words.number()
            words.end()
            return self.plain("annul", kind, default, unit, contract)
        if name == "close":
            words.end()
            return self.plain("close")
        if name == "clear":
            words.end()
            return lambda: f"steps {self.make('clear')}"
        if name == "verdict":
            number = words.number()
            words.end()
            return lambda: self.verdict(number)
        if name in ("matched", "executed", "market", "bilateral"):
            of, hour = words.number(), words.number()
            words.end()
            return self.figure(lambda b: getattr(b, name)(of, hour))
        if name == "price":
            hour = words.number()
            words.end()
            return self.figure(lambda b: b.price(hour))
        if name in ("market-maximum", "bilateral-maximum"):
            border = words.number()
            direction = words.one_of(*DIRECTIONS)
            hour = words.number()
            words.end()
            return self.figure(lambda b: getattr(b, name.replace("-", "_"))(border, direction, hour))
        raise NotUnderstood

    def open(self, date):
        self.book = DayBook.beside_a_refused_date()
        self.book = DayBook(*date)
        return "accepted"

    def make(self, *call):
        return make(self.book, call)

    def plain(self, *call):
        def run():
            self.make(*call)
            return "accepted"
        return run

    def figure(self, query):
        def run():
            value = query(self.book)
            return "none" if value is None else str(value)
        return run

    def write_and_lodge(self, message):
        buffer = bytearray(8 + 4 * MAP_BITS)
        count = write_message(message, buffer)
        return self.lodge(bytes(buffer[:count]))

    def lodge(self, data):
        return f"number {self.make('lodge', data)}"

    def verdict(self, number):
        verdict = self.book.verdict(number)
        if verdict[0] != "limit":
            return verdict[0]
        return f"limit {verdict[1]} {WORDS[verdict[1]]} hour {verdict[2]}"


def first_lines(told):
    """{place: answer}: the first line of each answer among those told. Behind it a report's lines start with a blank or are empty."""
    return {int(place): answer for place, colon, answer in (line.partition(": ") for line in told) if colon and place.isdecimal()}


def rehearse(lines):
    """Every answer of a rehearsal day, as lines of text."""
    rehearsal = Rehearsal()
    for place, text in enumerate(lines, start=1):
        answer = rehearsal.answer(text)
        if answer is not None:
            yield from f"{place}: {answer}".split("\n")
    yield (f"{rehearsal.calls} calls, {rehearsal.refused} refused, "
           f"{rehearsal.not_understood} not understood")


def main(arguments):
    if len(arguments) == 2 and arguments[0] == "rehearse":
        with open(arguments[1], encoding="utf-8") as day:
            for answer in rehearse(day):
                print(answer)
        return 0
    if arguments[:1] == ["selftest"]:
        sys.dont_write_bytecode = True
        import selftest
        return selftest.main(long=arguments[1:] == ["--long"])
    print(__doc__, file=sys.stderr)
    return 2


if __name__ == "__main__":
    sys.exit(main(sys.argv[1:]))
