"""The model's self-test: python3 gate.py selftest.

A second, slow telling of the rules stands here (SlowBook). It keeps only the
list of accepted calls, tells every fact anew from it, gathers all refusals that
apply and takes the first of the table, reads bits as text, lays energy out
place by place, and looks for the largest energy of a border figure among all. The model must agree with it. Besides: the paper's twelve figures, the
clauses of demand 3 stated by themselves, message round trips, hour numbering.
"""

import copy
import datetime
import functools
import math
import random
import sys
import time
from collections import Counter
from fractions import Fraction

import gate
import held
from gate import (BORDERS, DIRECTIONS, EXECUTION, EXPORT, IMPORT, OFFER, PURCHASE, SALE,
                  DayBook, Execution, Message, Offer, Refused)

SEED = 20061029
LISTS = 2000
TABLE = (1, 2, 3, 4, 5, 6, 7, 8, 9, 10, 11, 12, 15, 13, 14)     # "Places, not numbers, now give the order."


class Wrong(Exception):
    pass


def check(truth, *what):
    if not truth:
        raise Wrong(" ".join(str(w) for w in what))


def same(found, expected, *what):
    check(found == expected, *what, "- found", found, "expected", expected)


def answer_of(call, *arguments):
    """("refused", number, hour) or the call's own answer."""
    try:
        return call(*arguments)
    except Refused as no:
        return ("refused", no.number, no.hour)


# ---------------------------------------------------------------- the slow telling

def first_of(no):
    """Of refusals (number, hour) the one whose row stands first, in its lowest hour."""
    return min(no, key=lambda refusal: (TABLE.index(refusal[0]), refusal[1]))


def slow_share(r, amounts):
    """amounts: list of (lodging number, m). What is taken, by number."""
    g = sum(m for _, m in amounts)
    taken = {}
    for n, m in amounts:
        taken[n] = 0 if g == 0 else (r * m - (r * m) % g) // g
    if g:
        for n, m in sorted(amounts):
            if sum(taken.values()) < r and m > 0:
                taken[n] += 1
    return taken


@functools.lru_cache(maxsize=None)
def slow_figure(energy, loss):
    """e x 10,000 / (10,000 + l), up to the next whole number."""
    whole, rest = divmod(energy * 10_000, 10_000 + loss)
    return whole + 1 if rest else whole


def slow_increased(total, loss):
    return math.floor(total * (1 + Fraction(loss, 10_000)))


@functools.lru_cache(maxsize=None)
def slow_kept(energy, taken, loss):
    """Of all energies up to this one, from above, the first whose figure is the one left."""
    left = slow_figure(energy, loss) - taken
    for k in range(energy, -1, -1):
        if slow_figure(k, loss) == left:
            return k
    raise Wrong(f"no energy has the figure {left} of {energy} at {loss}")


def own_loss(losses, border, side):
    """A purchase at a border loses there; an import and what stays at home lose nothing."""
    return losses[border] if border and side == PURCHASE else 0


def slow_maximum(capacity, b, m, l):
    free_for_market = capacity - b if b < 0 else capacity
    s = free_for_market - l if free_for_market > l else 0
    m = m if m > 0 else 0
    wish = m - l if m > l else 0
    if b <= 0:
        return free_for_market
    d = wish + b
    t = 0
    while t * d < b * min(s, d):        # the least t with t >= b * min(s, d) / d
        t += 1
    return free_for_market - t


def slow_match(offers):
    """offers: dicts. Sets "matched" in each; answers the price."""
    sales, purchases = [], []
    for o in offers:
        o["matched"] = 0
        for _ in range(o["offered"]):
            if o["side"] == SALE:
                sales.append((o["price"], o["number"]))
            else:
                purchases.append((-o["price"], o["number"]))
    sales.sort()
    purchases.sort()
    price = 0
    by_number = {o["number"]: o for o in offers}
    for (ask, seller), (minus_bid, buyer) in zip(sales, purchases):
        if ask > -minus_bid:
            break
        by_number[seller]["matched"] += 1
        by_number[buyer]["matched"] += 1
        price = ask
    return price


def slow_hour(offers, executions, capacity, seen=None, losses=gate.NO_LOSSES):
    """All figures of an hour. offers, executions: lists of dicts. Offered, matched and left are energies."""
    seen = Counter() if seen is None else seen

    def at_border(x, what):
        return slow_figure(x[what], x["loss"])

    def market(border):
        return (sum(at_border(o, "matched") for o in offers if o["border"] == border and o["side"] == PURCHASE)
                - sum(at_border(o, "matched") for o in offers if o["border"] == border and o["side"] == SALE))

    def executions_balance(border, what):
        return (sum(at_border(x, what) for x in executions if x["border"] == border and x["side"] == PURCHASE)
                - sum(at_border(x, what) for x in executions if x["border"] == border and x["side"] == SALE))

    def give_way(group, most, what, left):
        """The group gives so much of its border figures, and each keeps the largest energy with the figure left."""
        there = sum(at_border(x, what) for x in group)
        check(most <= there, "more is taken than there is")
        taken = slow_share(most, [(x["number"], at_border(x, what)) for x in group])
        for x in group:
            before, figure = x[what], at_border(x, what)
            x[left] = slow_kept(before, taken[x["number"]], x["loss"])
            same(at_border(x, left), figure - taken[x["number"]], "the figure left")
            if x["loss"]:
                seen["gave way with a loss"] += taken[x["number"]] > 0
                seen["gave more energy than figure"] += before - x[left] > taken[x["number"]] > 0
                seen["gave nothing, below the largest of its figure"] += (
                    taken[x["number"]] == 0 and slow_figure(before + 1, x["loss"]) == figure)
                seen["gave way whole"] += x[left] == 0 < before

    for x in offers + executions:
        x["loss"] = own_loss(losses, x["border"], x["side"])
    for o in offers:
        o["offered"] = o["energy"]
    price = slow_match(offers)
    top = {}
    for border in BORDERS:
        m, b = market(border), executions_balance(border, "energy")
        for direction, side, g in ((EXPORT, PURCHASE, 1), (IMPORT, SALE, -1)):
            k = capacity[border, direction]
            legacy = sum(at_border(o, "matched") for o in offers
                         if o["border"] == border and o["side"] == side and o["legacy"])
            top[border, direction] = None if k is None else slow_maximum(k, g * b, g * m, legacy)
            if k is not None and g * b > 0 and legacy:
                seen["split with legacy"] += 1
                seen["split with legacy exports and a loss"] += side == PURCHASE and losses[border] > 0

    steps = 0
    while True:
        over_out = {b: market(b) - top[b, EXPORT] for b in BORDERS
                    if top[b, EXPORT] is not None and market(b) > top[b, EXPORT]}
        over_in = {b: -market(b) - top[b, IMPORT] for b in BORDERS
                   if top[b, IMPORT] is not None and -market(b) > top[b, IMPORT]}
        if not over_out and not over_in:
            break
        check(not set(over_out) & set(over_in), "a border over in both directions")
        steps += 1
        purchases = [o for o in offers if o["side"] == PURCHASE and o["border"] in over_out]
        sales = [o for o in offers if o["side"] == SALE and o["border"] in over_in]
        for o in purchases + sales:
            if not o["legacy"]:
                o["offered"] = o["matched"]
        low = min((o["price"] for o in purchases if o["matched"] and not o["legacy"]), default=None)
        high = max((o["price"] for o in sales if o["matched"] and not o["legacy"]), default=None)
        if low is None and high is None:
            seen["legacy step"] += 1
            for over, there in ((over_out, purchases), (over_in, sales)):
                for border, excess in over.items():
                    group = [o for o in there if o["border"] == border and o["legacy"]]
                    if any(not o["matched"] for o in group):
                        seen["unmatched legacy in a legacy step"] += 1
                    seen["legacy step with a loss"] += any(o["loss"] for o in group)
                    give_way(group, excess, "matched", "offered")
        else:
            if low is not None and high is not None:
                c = sum(o["matched"] for o in offers if o["side"] == PURCHASE and o["price"] < low)
                v = sum(o["matched"] for o in offers if o["side"] == SALE and o["price"] > high)
                out_goes = c <= v
                seen["C > V'" if c > v else "C = V'" if c == v else "C < V'"] += 1
                by_figures = sum(at_border(o, "matched") for o in offers if o["side"] == PURCHASE and o["price"] < low)
                seen["C would go otherwise by figures"] += (by_figures <= v) != out_goes
            else:
                out_goes = low is not None
            over, there, at = (over_out, purchases, low) if out_goes else (over_in, sales, high)
            for border, excess in over.items():
                group = [o for o in there if o["border"] == border and not o["legacy"]
                         and o["price"] == at]
                figures = sum(at_border(o, "matched") for o in group)
                if not figures:
                    seen["border without energy at the price"] += 1
                seen["an excess above the figures, not above the energy"] += figures < excess <= sum(o["matched"] for o in group)
                give_way(group, min(excess, figures), "matched", "offered")
        price = slow_match(offers)
    if steps > 5:
        seen["more than five steps"] += 1

    rest = {}
    for x in executions:
        x["left"] = x["energy"]
    for border in BORDERS:
        for direction, side, g in ((EXPORT, PURCHASE, 1), (IMPORT, SALE, -1)):
            k = capacity[border, direction]
            rest[border, direction] = None if k is None else k - g * market(border)
            if k is None:
                continue
            if rest[border, direction] < 0:
                seen["bilateral maximum below zero"] += 1
            excess = g * executions_balance(border, "energy") - rest[border, direction]
            if excess > 0:
                seen["cut in " + direction] += 1
                group = [x for x in executions if x["border"] == border and x["side"] == side]
                seen["cut in export with a loss"] += any(x["loss"] for x in group)
                give_way(group, excess, "energy", "left")
    return {
        "matched": {o["number"]: o["matched"] for o in offers},
        "executed": {x["number"]: x["left"] for x in executions},
        "market": {b: market(b) for b in BORDERS},
        "bilateral": {b: executions_balance(b, "left") for b in BORDERS},
        "market_maxima": top, "bilateral_maxima": rest, "price": price, "steps": steps,
    }


@functools.lru_cache(maxsize=4096)
def slow_read(data, hours):
    """(refusals that apply, fields)."""
    bits = "".join(format(byte, "08b") for byte in data)
    if len(data) < 8 or bits[:4] != "0001" or bits[4:6] not in ("00", "01"):
        return {3}, None
    kind = OFFER if bits[4:6] == "00" else EXECUTION
    named = [i + 1 for i, bit in enumerate(bits[39:64]) if bit == "1"]
    each = 32 if kind == OFFER else 17
    body = bits[64:]
    wanted = each * len(named)
    if len(bits) != 64 + wanted + (-wanted) % 8 or "1" in body[wanted:]:
        return {3}, None
    unit, contract = int(bits[7:23], 2), int(bits[23:39], 2)
    energies = {h: int(body[each * i:][:17], 2) for i, h in enumerate(named)}
    prices = {h: int(body[each * i + 17:][:15], 2) for i, h in enumerate(named)} if kind == OFFER else {}
    no = set()
    if not named or max(named) > hours:
        no.add(4)
    if unit == 0 or (contract == 0) != (kind == OFFER):
        no.add(5)
    if any(e == 0 or e > 99999 for e in energies.values()) or any(p > 18030 for p in prices.values()):
        no.add(5)
    return no, {"kind": kind, "default": bits[6] == "1", "unit": unit, "contract": contract,
                "energies": energies, "prices": prices}


def told_anew(fact):
    """A fact told from the accepted calls; kept until one more is accepted."""
    def told(self, *arguments):
        place = (fact.__name__, len(self.past)) + arguments
        if place not in self.kept:
            self.kept[place] = fact(self, *arguments)
        return self.kept[place]
    return told


class SlowBook:
    """The day book told anew after every call, from its accepted calls."""

    def __init__(self, hours):
        self.hours = hours
        self.past = []          # accepted calls
        self.kept = {}
        self.seen = Counter()

    @told_anew
    def units(self):
        return {c[1]: dict(zip(("agent", "border", "side", "maximum", "legacy", "rights"), c[2:] + (False,)))
                for c in self.past if c[0] == "register"}

    @told_anew
    def happened(self, name):
        return any(c[0] == name for c in self.past)

    @told_anew
    def capacity(self, border, direction, hour):
        notice = {}
        for c in self.past:
            if c[0] == "capacity":
                notice = c[1]
        return notice[border, direction][hour - 1] if (border, direction) in notice else None

    @told_anew
    def available(self, unit, hour):
        for c in reversed(self.past):
            if c[0] == "available" and c[1] == unit:
                return c[2][hour - 1]
        return self.units()[unit]["maximum"]

    @told_anew
    def rights(self, agent, side, hour):
        for c in reversed(self.past):
            if c[:3] == ("rights", agent, side):
                return c[3][hour - 1]
        return 0

    @told_anew
    def losses(self):
        losses = {}
        for c in self.past[::-1]:
            if c[0] == "loss":
                losses.setdefault(*c[1:])
        return {border: losses.get(border, 0) for border in BORDERS}

    @told_anew
    def limits(self, unit, hour):
        u = self.units()[unit]
        border = u["border"]
        limits = {10: u["maximum"], 11: self.available(unit, hour)}
        if border and None not in [self.capacity(border, d, hour) for d in DIRECTIONS]:
            limits[12] = sum(self.capacity(border, d, hour) for d in DIRECTIONS)
            if u["side"] == PURCHASE:
                limits[12] = slow_increased(limits[12], self.losses()[border])
        if border == 1:
            held = self.rights(u["agent"], u["side"], hour)
            if u["rights"]:
                limits[15] = held
            elif 12 in limits:
                limits[12] = 0 if held > limits[12] else limits[12] - held
        return limits

    def french(self, agent, side):
        """The marks of the agent's French units of the side."""
        return {u["rights"] for u in self.units().values()
                if u["agent"] == agent and u["border"] == 1 and u["side"] == side}

    def numbers_used(self):
        return sum(1 for c in self.past if c[0] == "lodge")

    @told_anew
    def standing(self):
        """{number: fields}"""
        standing, number = {}, 0
        for c in self.past:
            if c[0] == "lodge":
                number += 1
                fields = slow_read(c[1], 25)[1]
                standing = {n: f for n, f in standing.items() if self.key(f) != self.key(fields)}
                standing[number] = fields
            elif c[0] == "annul":
                standing = {n: f for n, f in standing.items() if self.key(f) != c[1:]}
        return standing

    @staticmethod
    def key(fields):
        return fields["kind"], fields["default"], fields["unit"], fields["contract"]

    @staticmethod
    def hidden(fields, standing):
        return fields["default"] and any(
            not other["default"] and [other[k] for k in ("kind", "unit", "contract")]
            == [fields[k] for k in ("kind", "unit", "contract")] for other in standing.values())

    def refusals(self, call):
        """All that apply: {(number, hour)}."""
        name, no = call[0], set()
        closed, cleared = self.happened("close"), self.happened("clear")
        if name == "close":
            return {(2, 0)} if closed else set()
        if name == "clear":
            return {(2, 0)} if cleared or not closed else set()
        if closed:
            no.add((2, 0))
        units = self.units()
        if name == "register":
            _, number, agent, border, side, maximum, legacy, rights = call if len(call) == 8 else call + (False,)
            if not (0 < number < 65536 and 0 < agent < 65536 and border in range(5)
                    and maximum in range(100000)) or (legacy and border == 0):
                no.add((5, 0))
            if rights and border != 1:
                no.add((5, 0))
            if number in units:
                no.add((7, 0))
            if border in (2, 3, 4) and [1 for u in units.values() if u["agent"] == agent
                                        and u["border"] == border and u["side"] == side]:
                no.add((8, 0))
            if border == 1 and rights in self.french(agent, side):
                no.add((8, 0))
            if len(units) == 64:
                no.add((9, 0))
            if rights and False not in self.french(agent, side):
                no.add((15, 0))
        elif name in ("capacity", "available", "rights"):
            lists = list(call[1].values()) if name == "capacity" else [call[-1]]
            if [1 for energies in lists if len(energies) != self.hours]:
                no.add((4, 0))
            if [1 for energies in lists for e in energies if e not in range(100000)]:
                no.add((5, 0))
            if name == "available":
                if call[1] not in range(1, 65536):
                    no.add((5, 0))
                if call[1] not in units:
                    no.add((6, 0))
            if name == "rights":
                if call[1] not in range(1, 65536):
                    no.add((5, 0))
                if not self.french(*call[1:3]):
                    no.add((6, 0))
        elif name == "loss":
            if call[1] not in (1, 2, 3, 4) or call[2] not in range(2001):
                no.add((5, 0))
        elif name == "annul":
            _, kind, default, unit, contract = call
            if unit not in range(1, 65536) or (kind == OFFER and contract != 0):
                no.add((5, 0))
            if kind == EXECUTION and contract not in range(1, 65536):
                no.add((5, 0))
            if unit not in units or (kind == EXECUTION and units[unit]["border"] == 0):
                no.add((6, 0))
            if call[1:] not in [self.key(f) for f in self.standing().values()]:
                no.add((13, 0))
        elif name == "lodge":
            numbers, fields = slow_read(call[1], self.hours)
            no |= {(n, 0) for n in numbers}
            if 3 in numbers:
                return no
            unit = fields["unit"]
            standing = self.standing()
            if unit not in units or (fields["kind"] == EXECUTION and units[unit]["border"] == 0):
                no.add((6, 0))
            if len(standing) == 128 and self.key(fields) not in map(self.key, standing.values()):
                no.add((9, 0))
            if self.numbers_used() == 65535:
                no.add((9, 0))
            if unit in units and 4 not in numbers:
                for h, energy in fields["energies"].items():
                    limits = self.limits(unit, h)
                    if fields["default"]:
                        limits = {10: limits[10]}
                    else:
                        energy += sum(f["energies"].get(h, 0) for f in standing.values()
                                      if f["unit"] == unit and f["kind"] != fields["kind"]
                                      and not self.hidden(f, standing))
                    no |= {(n, h) for n, most in limits.items() if energy > most}
        return no

    def call(self, call):
        no = self.refusals(call)
        if no:
            return ("refused",) + first_of(no)
        self.past.append(call)
        if call[0] == "lodge":
            return self.numbers_used()
        if call[0] == "clear":
            named = {h for f in self.standing().values() for h in f["energies"]}
            return sum(self.hour(h)["steps"] for h in named)    # no steps where nothing is offered
        return None

    @told_anew
    def verdicts(self):
        standing = self.standing()
        verdicts = {n: ("hidden",) for n, f in standing.items() if self.hidden(f, standing)}
        judged = [n for n in standing if n not in verdicts]
        normal_x = [n for n in judged if standing[n]["kind"] and not standing[n]["default"]]
        default_x = [n for n in judged if standing[n]["kind"] and standing[n]["default"]]
        offers = [n for n in judged if not standing[n]["kind"]]
        for group in (normal_x, default_x, offers):
            for n in sorted(group, reverse=True):
                f = standing[n]
                no = set()
                for h, energy in f["energies"].items():
                    energy += sum(standing[x]["energies"].get(h, 0) for x, v in verdicts.items()
                                  if v == ("accepted",) and standing[x]["unit"] == f["unit"])
                    no |= {(k, h) for k, most in self.limits(f["unit"], h).items() if energy > most}
                verdicts[n] = ("limit",) + first_of(no) if no else ("accepted",)
        return verdicts

    @told_anew
    def hour(self, hour):
        units, standing = self.units(), self.standing()
        offers, executions = [], []
        for n, v in sorted(self.verdicts().items()):
            f = standing[n]
            if v == ("accepted",) and hour in f["energies"]:
                u = units[f["unit"]]
                entry = {"number": n, "side": u["side"], "border": u["border"], "legacy": u["legacy"],
                         "energy": f["energies"][hour], "price": f["prices"].get(hour)}
                (executions if f["kind"] else offers).append(entry)
        capacity = {(b, d): self.capacity(b, d, hour) for b in BORDERS for d in DIRECTIONS}
        return slow_hour(offers, executions, capacity, self.seen, self.losses())

    def query(self, query):
        name = query[0]
        if name == "verdict":
            if not self.happened("close"):
                return ("refused", 2, 0)
            return self.verdicts().get(query[1], ("refused", 13, 0))
        no = set()
        if not self.happened("clear"):
            return ("refused", 2, 0)
        hour, units = query[-1], self.units()
        if hour not in range(1, self.hours + 1):
            no.add(4)
        if name in ("matched", "executed"):
            if query[1] not in range(1, 65536):
                no.add(5)
            if query[1] not in units:
                no.add(6)
        elif name != "price" and query[1] not in (1, 2, 3, 4):
            no.add(5)
        if no:
            return ("refused", min(no), 0)
        figures = self.hour(hour)
        if name in ("matched", "executed"):
            standing = self.standing()
            return sum(e for n, e in figures[name].items() if standing[n]["unit"] == query[1])
        if name == "price":
            return figures["price"]
        if name in ("market", "bilateral"):
            return figures[name][query[1]]
        return figures[name.replace("maximum", "maxima")][query[1:3]]


# ---------------------------------------------------------------- the model, called by name

def call_model(book, *call):
    return answer_of(gate.make, book, call)


def ask_model(book, name, *arguments):
    return answer_of(getattr(book, name), *arguments)


# ---------------------------------------------------------------- random material

def message_bytes(kind, default, unit, contract, named):
    """A message written by itself; named: {hour: (energy, price)}."""
    number = ((1 << 2 | kind) << 1 | default) << 16 | unit
    number = number << 16 | contract
    number = number << 25 | sum(1 << (25 - h) for h in named)
    bits = 64
    for h in sorted(named):
        energy, price = named[h]
        number, bits = number << 17 | energy, bits + 17
        if kind == OFFER:
            number, bits = number << 15 | price, bits + 15
    return (number << -bits % 8).to_bytes((bits + 7) // 8, "big")


DATES = [((2006, 10, 29), 25), ((2006, 3, 26), 23), ((2006, 6, 1), 24), ((2099, 10, 25), 25)]


def random_loss(rng):
    """A loss as a call gives it."""
    return rng.choice([0, 0, 1, 300, 777, 1500, 2000, rng.randint(0, 2000)])


def random_list(rng, most=40):
    """(date, hours, calls, hours of interest)"""
    date, hours = rng.choice(DATES)
    pool = rng.sample([1, 2, 3, 4, hours], 3)
    outside = [26 - 1, hours] if hours < 25 else [25]
    units = []
    calls = []
    busy = rng.sample(BORDERS, 2)
    for i in range(rng.randint(1, 9)):
        border = rng.choice(busy + busy + busy + [0, 1, 4])
        units.append((rng.choice([7, 8, 300 + i, 300 + i, 300 + i, 65535 - i]), 100 + rng.randint(0, 9),
                      border, rng.choice([SALE, PURCHASE]),
                      rng.choice([most, 2 * most, 2 * most, most // 2]), border > 0 and rng.random() < 0.35))
    for i, (number, agent, border, side, maximum, legacy) in enumerate(units[:]):
        if border == 1 and rng.random() < 0.6:      # a second one with rights, now and then before the first
            marked = (rng.choice([number, 400 + i, 400 + i, 400 + i, 400 + i]), agent, 1,
                      side if rng.random() < 0.95 else rng.choice([SALE, PURCHASE]),
                      rng.choice([most, 2 * most]), rng.random() < 0.2, True)
            units.insert(len(units) if rng.random() < 0.9 else rng.randint(0, len(units)), marked)
    if rng.random() < 0.4:      # a large buyer, at whose limits the border sum is the least
        units.append((500, 190, busy[0], PURCHASE, 5 * most, rng.random() < 0.2))
    if rng.random() < 0.85:     # something to sell and something to buy at home
        units.append((1, 1, 0, SALE, 5 * most, False))
        units.append((2, 1, 0, PURCHASE, 5 * most, False))
    known = [u[0] for u in units] + [9]
    sales = {u[0] for u in units if u[3] == SALE}
    prices = [0, 1000, 2000, 3000, 18030] if rng.random() < 0.7 else list(range(0, 18031, 601))

    def around(usual, other):
        """H energies: the usual one, and often another one in the hours of interest."""
        energies = [usual] * hours
        for h in pool:
            if rng.random() < 0.6:
                energies[h - 1] = other()
        return tuple(energies)

    def notice():
        given = {}
        for b in BORDERS:
            published = rng.choice([(), (EXPORT,), (EXPORT,), (IMPORT,), (IMPORT,), DIRECTIONS, DIRECTIONS])
            narrow = rng.choice(DIRECTIONS)
            if b == busy[0] and 500 in known and rng.random() < 0.6:
                published = DIRECTIONS
            for d in published:
                low = rng.choice([0, most // 8, most // 4, most // 2, most])
                if len(published) == 2 and d != narrow and rng.random() < 0.7:
                    low = 2 * most
                given[b, d] = around(low, lambda: rng.randint(0, low))
        return given

    def rights():
        """Rights of an agent with a French unit, or of another."""
        french = [u for u in units if u[2] == 1]
        agent, side = rng.choice([(u[1], u[3]) for u in french] * 4 + [(u[1], u[3]) for u in units])
        low = rng.choice([0, most // 4, most // 2, most, most, 2 * most])
        energies = list(around(low, lambda: rng.randint(0, low)))
        if rng.random() < 0.12:     # one fault or several
            if rng.random() < 0.5:
                agent, side = rng.choice([0, 65536, 99, agent]), rng.choice([SALE, PURCHASE])
            if rng.random() < 0.4:
                energies = energies[1:] if rng.random() < 0.5 else energies + [low]
            if rng.random() < 0.4:
                energies[-1] = 100000
        return ("rights", agent, side, tuple(energies))

    def loss():
        """A border's loss, now and then of none or too large."""
        border, most_lost = rng.choice(busy + busy + list(BORDERS)), random_loss(rng)
        if rng.random() < 0.12:
            border, most_lost = rng.choice([0, 5, 65536, border]), rng.choice([2001, 10000, 65536, most_lost])
        return ("loss", border, most_lost)

    def price(unit):
        half = len(prices) // 2
        if rng.random() < 0.6:
            return rng.choice(prices[:half + 1] if unit in sales else prices[half:])
        return rng.choice(prices)

    def lodging(unit=None, kind=None, default=None):
        kind = rng.choice([OFFER, EXECUTION]) if kind is None else kind
        default = rng.random() < 0.3 if default is None else default
        unit = rng.choice(known) if unit is None else unit
        top = 5 * most if unit in (1, 2) else most if kind == OFFER else most // 2
        named = {h: (top if rng.random() < 0.1 else rng.randint(top // 3 + 1, top), price(unit) if kind == OFFER else 0)
                 for h in (pool if rng.random() < 0.6 else rng.sample(pool, 2))}
        if rng.random() < 0.03:
            named[rng.choice(outside)] = (rng.randint(1, most), 0)
        return message_bytes(kind, default, unit, 0 if kind == OFFER else rng.randint(1, 3), named)

    def at_the_sum(unit):
        """An offer of a unit that buys abroad, of exactly the increased border sum, or one more."""
        lines = next((c[1] for c in reversed(calls) if c[0] == "capacity" and all(len(es) == hours for es in c[1].values())), {})
        loss = next((c[2] for c in reversed(calls) if c[0] == "loss" and c[1] == unit[2] and c[2] <= 2000), 0)
        both = [lines.get((unit[2], d)) for d in DIRECTIONS]
        if unit[3] == PURCHASE and None not in both and rng.random() < 0.9:
            h = rng.choice(pool)
            energy = slow_increased(both[0][h - 1] + both[1][h - 1], loss) + rng.choice([0, 0, 0, 1])
            if 0 < energy <= unit[4]:
                yield message_bytes(OFFER, False, unit[0], 0, {h: (energy, prices[-1])})

    def spoilt():
        data = bytearray(lodging())
        if rng.random() < 0.3:
            data = data[:rng.randint(0, len(data))]
        elif rng.random() < 0.3:
            data.append(0)
        else:
            data[rng.randrange(min(len(data), 10))] ^= 1 << rng.randrange(8)
        return bytes(data)

    def any_call():
        turn = rng.random()
        if turn < 0.55:
            return ("lodge", lodging())
        if turn < 0.63:
            return ("lodge", spoilt())
        if turn < 0.73:
            return ("annul", rng.choice([OFFER, EXECUTION]), rng.random() < 0.3,
                    rng.choice(known + [0, 65536]), rng.choice([0, 0, 1, 2, 3]))
        if turn < 0.76:
            return rights()
        if turn < 0.78:
            return loss()
        if turn < 0.82:
            energies = list(around(5 * most, lambda: rng.choice([most, 5 * most, most // 8])))
            if rng.random() < 0.1:
                energies = energies[1:]
            if rng.random() < 0.1:
                energies[-1] = 100000
            return ("available", rng.choice(known + [0, 65536] + known), tuple(energies))
        if turn < 0.88:
            given = notice()
            if given and rng.random() < 0.2:
                at, there = rng.choice(sorted(given)), rng.choice(sorted(given))
                given[at] = given[at][1:] + (100000,)
                if rng.random() < 0.6:
                    given[there] = given[there][1:]
            return ("capacity", given)
        if turn < 0.95:
            return ("register",) + rng.choice(units + [
                (0, 1, 0, SALE, 1, False), (65536, 1, 0, SALE, 1, False), (9, 65536, 0, SALE, 1, False),
                (9, 1, 5, SALE, 1, False), (9, 1, 1, SALE, 100000, False), (9, 1, 0, SALE, 1, True),
                (9, 99, 1, PURCHASE, 99999, True), (9, 99, 1, PURCHASE, 99999, False, True),
                *((9, 99, border, PURCHASE, 99999, False, True) for border in (0, 2, 3, 4))])
        return (rng.choice(["clear", "clear", "clear", "close"] if rng.random() < 0.1 else ["clear"]),)

    for unit in units:
        calls.append(("register",) + unit)
        if unit[2] == 1 and rng.random() < 0.3:
            calls.append(rights())
    if rng.random() < 0.3:
        calls += [loss() for _ in range(rng.randint(1, 4))]
    if rng.random() < 0.9:
        calls.append(("capacity", notice()))
    if rng.random() < 0.5:
        calls += [loss() for _ in range(rng.randint(1, 4))]
    if rng.random() < 0.6:
        calls += [("rights", u[1], u[3], around(rng.choice([most // 2, most, 2 * most]), lambda: rng.randint(0, most)))
                  for u in units if len(u) == 7 and rng.random() < 0.8]
    if rng.random() < 0.8:
        calls += [("lodge", lodging(u[0], OFFER, False)) for u in units]
    if rng.random() < 0.5:
        calls += [("lodge", data) for u in units for data in at_the_sum(u) if rng.random() < 0.6]
    calls += [any_call() for _ in range(rng.randint(1, 10))]
    if rng.random() < 0.4:      # late
        calls += [rights() for _ in range(rng.randint(1, 3))]
    if rng.random() < 0.2:
        calls.append(loss())
    if rng.random() < 0.4:
        calls += [("lodge", data) for u in units if u[0] == 500 for data in at_the_sum(u)]
    if rng.random() < 0.95:
        calls.append(("close",))
        if rng.random() < 0.2:
            calls.append(any_call())
        if rng.random() < 0.97:
            calls.append(("clear",))
        if rng.random() < 0.2:
            calls.append(any_call())
    return date, hours, calls, sorted(set(pool)) + [hours // 2]


def random_hour(rng, most):
    """(offers, executions, capacity, losses) of an hour."""
    offers, executions = [], []
    prices = [0, 1, 2, 3, 4] if rng.random() < 0.6 else list(range(40))
    numbers = rng.sample(range(1, 60), rng.randint(0, 14))
    for n in numbers:
        border = rng.choice([0, 0, 1, 1, 2, 3, 3, 4])
        side = rng.choice([SALE, PURCHASE])
        if border and rng.random() < 0.3:
            executions.append(Execution(n, EXPORT if side == PURCHASE else IMPORT, border,
                                        rng.randint(1, most)))
        else:
            offers.append(Offer(n, side, border, border > 0 and rng.random() < 0.4,
                                rng.choice(prices), rng.randint(1, most)))
    if rng.random() < 0.3:      # imports that leave with the exports of their border: many steps
        border, n = rng.choice(BORDERS), rng.randint(1, most)
        offers.append(Offer(63, SALE, 0, False, 0, rng.randint(1, 3)))
        offers.append(Offer(64, SALE, border, False, prices[-1], n))
        offers.append(Offer(65, PURCHASE, border, False, prices[-1], n + rng.randint(1, 3)))
    elif rng.random() < 0.7:
        offers.append(Offer(61, SALE, 0, False, rng.choice(prices[:3]), rng.randint(most, 4 * most)))
        offers.append(Offer(62, PURCHASE, 0, False, rng.choice(prices[-3:]), rng.randint(most, 4 * most)))
    capacity = {(b, d): rng.choice([None, 0, rng.randint(0, most), rng.randint(0, most)])
                for b in BORDERS for d in DIRECTIONS}
    losses = {b: rng.choice([random_loss(rng), 1500, 2000]) for b in BORDERS} if rng.random() < 0.75 else gate.NO_LOSSES
    if rng.random() < 0.3:      # exports of one price, nearly all of which the border carries
        border = rng.choice(BORDERS)
        wanted = [Offer(70 + i, PURCHASE, border, False, prices[-1], rng.choice([5, 11, rng.randint(1, most)]))
                  for i in range(rng.randint(2, 8))]
        offers += [Offer(69, SALE, 0, False, 0, 10 * most), *wanted]
        wished = sum(slow_figure(o.energy, losses[border]) for o in wanted)
        there = sum(slow_figure(o.energy, losses[border]) for o in offers if o.border == border and o.side == PURCHASE)
        if rng.random() < 0.4:      # their figures are hardly enough, and legacy ones are beside them
            offers.append(Offer(80, PURCHASE, border, True, prices[-1], rng.randint(1, most)))
            there += rng.randint(0, 2)
            capacity[border, EXPORT] = max(there - wished, 0)
        else:
            capacity[border, EXPORT] = max(there - rng.randint(1, 5), 0)
    return offers, executions, capacity, losses


def hour_of_two_prices(rng, most):
    """An hour in which one border is over by exports and another by imports, C and V' near each other. C is legacy exports."""
    out, back = rng.sample(BORDERS, 2)
    losses = {b: rng.choice([random_loss(rng), 2000]) for b in BORDERS}
    wanted, legacy, imported = (rng.randint(1, most) for _ in range(3))
    dear = max(rng.randint(slow_figure(legacy, losses[out]) - 1, legacy + 1), 1)
    cheap = wanted + legacy + rng.randint(1, most)
    at_home = cheap + imported + dear - wanted - legacy
    offers = [Offer(1, SALE, 0, False, 0, cheap), Offer(2, SALE, back, False, 1, imported), Offer(3, SALE, 0, False, 2, dear),
              Offer(4, PURCHASE, 0, False, 9, at_home), Offer(5, PURCHASE, out, False, 8, wanted), Offer(6, PURCHASE, out, True, 7, legacy)]
    capacity = dict.fromkeys(((b, d) for b in BORDERS for d in DIRECTIONS))
    capacity[out, EXPORT], capacity[back, IMPORT] = rng.randint(0, wanted), rng.randint(0, imported - 1)
    return offers, [], capacity, losses


# ---------------------------------------------------------------- the tests

def test_dates(_rng):
    day = datetime.date(2002, 1, 1)
    while day.year < 2100:
        expected = 24
        if day.month in (3, 10) and day.isoweekday() == 7 and (day + datetime.timedelta(7)).month != day.month:
            expected = 23 if day.month == 3 else 25
        same(gate.hours_of_day(day.year, day.month, day.day), expected, "hours of", day)
        day += datetime.timedelta(1)
    for bad in ((2001, 12, 31), (2100, 1, 1), (2006, 2, 29), (2006, 13, 1), (2006, 0, 1), (2006, 1, 0),
                (2006, 4, 31), (2006, 1, 32), (0, 0, 0)):
        same(answer_of(DayBook, *bad), ("refused", 1, 0), "date", bad)
    same(gate.hours_of_day(2004, 2, 29), 24)
    for hours in (23, 24, 25):
        names = [gate.clock_name(hours, h) for h in range(1, hours + 1)]
        same(len(set(names)), hours, "names are not distinct")
        starts = [n for n, _ in names]
        same(starts, sorted(starts), "names fall")
        same(set(starts), set(range(24)) - ({2} if hours == 23 else set()), "names of", hours)
        for name in range(-1, 27):
            for second in (False, True):
                expected = names.index((name, second)) + 1 if (name, second) in names else ("refused", 4, 0)
                same(answer_of(gate.hour_of_name, hours, name, second), expected, "name", name, second)
        for h in (-1, 0, hours + 1):
            same(answer_of(gate.clock_name, hours, h), ("refused", 4, 0))


def test_twelve_figures(_rng):
    data = message_bytes(OFFER, False, 7, 0, {3: (120, 4500), 4: (95, 4400)})
    same(data.hex(" ").upper(), "10 00 0E 00 00 60 00 00 00 3C 11 94 00 2F 91 30", "figure 1")
    message = gate.read_message(data)
    buffer = bytearray(16)
    same((gate.write_message(message, buffer), bytes(buffer)), (16, data), "figure 1")
    same((message.kind, message.default, message.unit, message.contract), (OFFER, False, 7, 0), "figure 1")
    same(gate.named_hours(message.hour_map), [3, 4], "figure 1")
    same([message.energies[i] for i in (1, 2, 3, 4)], [0, 120, 95, 0], "figure 1")
    same([message.prices[i] for i in (1, 2, 3, 4)], [0, 4500, 4400, 0], "figure 1")
    same([gate.hours_of_day(2006, *d) for d in ((10, 29), (3, 26), (6, 1))], [25, 23, 24], "figure 2")
    same([gate.clock_name(25, 3), gate.clock_name(25, 4), gate.clock_name(23, 3)],
         [(2, False), (2, True), (3, False)], "figure 3")
    for place, figures, expected in ((4, (100, 60, 80, 0), 57), (5, (100, 60, 80, 40), 64),
                                     (6, (100, -30, 200, 0), 130), (7, (100, 0, 0, 0), 100),
                                     (8, (100, 20, 30, 0), 80), (9, (100, 60, 150, 120), 100)):
        same(gate.market_maximum(*figures), expected, "figure", place)
        same(slow_maximum(*figures), expected, "figure", place, "slow")
    same(gate.share(10, {1: 7, 2: 7, 3: 7}), {1: 4, 2: 3, 3: 3}, "figure 10")
    for execution in (False, True):
        book = DayBook(2006, 6, 1)
        same(call_model(book, "register", 1, 1, 0, SALE, 300, False), None)
        same(call_model(book, "register", 2, 2, 1, PURCHASE, 150, False), None)
        same(call_model(book, "register", 3, 3, 0, PURCHASE, 100, False), None)
        same(call_model(book, "register", 4, 4, 1, PURCHASE, 60, False), None)
        same(call_model(book, "capacity", {(1, EXPORT): [100] * 24}), None)
        same(call_model(book, "lodge", message_bytes(OFFER, False, 1, 0, {1: (300, 3000)})), 1)
        same(call_model(book, "lodge", message_bytes(OFFER, False, 2, 0, {1: (150, 5000)})), 2)
        same(call_model(book, "lodge", message_bytes(OFFER, False, 3, 0, {1: (100, 4000)})), 3)
        if execution:
            same(call_model(book, "lodge", message_bytes(EXECUTION, False, 4, 1, {1: (60, 0)})), 4)
        same(call_model(book, "close"), None)
        same(call_model(book, "clear"), 1, "steps of figures 11 and 12")
        same(book.market_maximum(1, IMPORT, 1), None)
        if execution:
            same((book.market_maximum(1, EXPORT, 1), book.executed(4, 1), book.matched(2, 1),
                  book.market(1, 1) + book.bilateral(1, 1)), (71, 29, 71, 100), "figure 12")
        else:
            same(book.matched(2, 1), 100, "figure 11")
    for loss, kept, executed in ((0, 71, 29), (1, 71, 29), (2000, 85, 34)):     # figure 12 again
        book = DayBook(2006, 6, 1)
        for call in (("loss", 1, loss), ("register", 1, 1, 0, SALE, 300, False), ("register", 2, 2, 1, PURCHASE, 150, False),
                     ("register", 3, 3, 0, PURCHASE, 100, False), ("register", 4, 4, 1, PURCHASE, 60, False),
                     ("capacity", {(1, EXPORT): [100] * 24}), ("lodge", message_bytes(OFFER, False, 1, 0, {1: (300, 3000)})),
                     ("lodge", message_bytes(OFFER, False, 2, 0, {1: (150, 5000)})), ("lodge", message_bytes(OFFER, False, 3, 0, {1: (100, 4000)})),
                     ("lodge", message_bytes(EXECUTION, False, 4, 1, {1: (60, 0)})), ("close",), ("clear",)):
            check(not isinstance(call_model(book, *call), tuple), "figure 12 with a loss", call)
        same((book.matched(2, 1), book.executed(4, 1), book.market(1, 1), book.bilateral(1, 1)), (kept, executed, 71, 29), "figure 12", loss)


def test_losses(rng):
    """Border figures and the energies kept against the words, by search."""
    same([gate.border_figure(e, 2000) for e in (0, 1, 5, 6, 11, 12, 13)], [0, 1, 5, 5, 10, 10, 11], "figures at 2,000")
    same([gate.border_figure(e, 1) for e in (1, 10000, 10001, 10002, 20002, 99999)], [1, 10000, 10000, 10001, 20000, 99990], "figures at 1")
    same([gate.increased(s, l) for s, l in ((71, 2000), (71, 1970), (9999, 1), (10000, 1), (199998, 2000))], [85, 84, 9999, 10001, 239997])
    for loss in (0, 1, 2, 300, 777, 999, 1000, 1500, 1999, 2000):
        for energy in range(130):
            figure = slow_figure(energy, loss)
            same(gate.border_figure(energy, loss), figure, "figure", energy, loss)
            for taken in range(figure + 1):
                same(gate.kept_of(energy, taken, loss), slow_kept(energy, taken, loss), "kept", energy, taken, loss)
    for _ in range(100):
        energy, loss = rng.randint(0, 99999), rng.randint(0, 2000)
        figure = slow_figure(energy, loss)
        taken = rng.choice([0, 1, rng.randint(0, figure), rng.randint(0, figure // 20), figure])
        same(gate.kept_of(energy, taken, loss), slow_kept(energy, taken, loss), "kept", energy, taken, loss)
        total = rng.randint(0, 199998)
        same(gate.increased(total, loss), slow_increased(total, loss), "increased", total, loss)
    # the largest of which an energy is the figure is what that sum is when increased
    for _ in range(2000):
        total, loss = rng.randint(0, 199998), rng.randint(0, 2000)
        most = slow_increased(total, loss)
        check(slow_figure(most, loss) <= total < slow_figure(most + 1, loss), "increased", total, loss)
    slow_figure.cache_clear()
    slow_kept.cache_clear()
    book = DayBook(2006, 6, 1)
    for border, loss, answer in ((1, 0, None), (4, 2000, None), (1, 2001, 5), (0, 0, 5), (5, 0, 5), (2, -1, 5), (4, 1, None), (3, 65536, 5)):
        same(call_model(book, "loss", border, loss), answer and ("refused", answer, 0), "loss", border, loss)
    same(book.losses, {1: 0, 2: 0, 3: 0, 4: 1})
    # limits 10, 11 and 15 are of energies
    for call in (("loss", 1, 2000), ("register", 7, 1, 1, PURCHASE, 60, False), ("register", 8, 1, 1, PURCHASE, 60, False, True),
                 ("capacity", {(1, EXPORT): [100] * 24, (1, IMPORT): [0] * 24}), ("available", 7, [50] * 24), ("rights", 1, PURCHASE, [40] * 24)):
        same(call_model(book, *call), None, "losses and limits", call)
    for unit, default, energy, answer in ((7, False, 51, 11), (7, False, 50, 1), (7, True, 61, 10), (7, True, 60, 2), (8, False, 41, 15), (8, False, 40, 3)):
        same(call_model(book, "lodge", message_bytes(OFFER, default, unit, 0, {5: (energy, 9)})),
             answer if answer < 10 else ("refused", answer, 5), "losses and limits", unit, energy)
    same(call_model(book, "close"), None)
    for border, loss in ((1, 0), (0, 2001)):
        same(call_model(book, "loss", border, loss), ("refused", 2, 0), "a loss after closing")


def test_edges(_rng):
    book = DayBook(2006, 6, 1)
    same(call_model(book, "register", 7, 1, 0, SALE, 99999, False), None)
    same(call_model(book, "lodge", message_bytes(OFFER, False, 7, 0, {1: (99999, 18030)})), 1)
    for energy, price in ((100000, 0), (0, 0), (131071, 0), (1, 18031), (1, 32767)):
        data = bytearray(message_bytes(OFFER, False, 7, 0, {1: (1, 0)}))
        data[8:] = (energy << 15 | price).to_bytes(4, "big")
        same(answer_of(gate.read_message, bytes(data)), ("refused", 5, 0), energy, price)
        same(call_model(book, "lodge", bytes(data)), ("refused", 5, 0), energy, price)
    # exactly the ceiling, and one tenth more, for each limit
    for maximum, available, out, into, expected in ((50, 60, 30, 30, 10), (60, 50, 30, 30, 11),
                                                    (60, 60, 20, 30, 12)):
        for energy in (50, 51):
            book = DayBook(2006, 6, 1)
            same(call_model(book, "register", 7, 1, 1, PURCHASE, maximum, False), None)
            data = message_bytes(OFFER, False, 7, 0, {5: (energy, 9)})
            if expected != 10:
                same(call_model(book, "lodge", data), 1)
            same(call_model(book, "available", 7, [available] * 24), None)
            same(call_model(book, "capacity", {(1, EXPORT): [out] * 24, (1, IMPORT): [into] * 24}), None)
            answer = call_model(book, "lodge", data)
            check(answer == ("refused", expected, 5) if energy == 51 else answer in (1, 2), "ceiling", answer)
            if expected != 10:
                same(call_model(book, "close"), None)
                same(book.verdict(max(book.verdicts)),
                     ("limit", expected, 5) if energy == 51 else ("accepted",), "ceiling at closing")
    # the same of rights, 50 of a border sum of 100: what is left of the sum for unit 7, the rights for unit 8
    for energy, answers, verdicts in (
            (50, [1, 2, 3, 4], [("accepted",), ("hidden",), ("limit", 15, 5), ("hidden",)]),
            (51, [("refused", 12, 5), 1, ("refused", 15, 5), 2], [("accepted",), ("limit", 15, 5)])):
        book = DayBook(2006, 10, 29)
        notice = [[0] * 4 + [n] + [0] * 20 for n in (50, 49)]
        for call, answer in ((("register", 8, 1, 1, PURCHASE, 60, False, True), ("refused", 15, 0)),
                             (("rights", 1, PURCHASE, notice[0]), ("refused", 6, 0)),
                             (("register", 7, 1, 1, PURCHASE, 60, False, False), None),
                             (("rights", 1, PURCHASE, notice[0]), None),
                             (("register", 8, 1, 1, PURCHASE, 60, False, True), None),
                             (("capacity", {(1, EXPORT): [30] * 25, (1, IMPORT): [70] * 25}), None)):
            same(call_model(book, *call), answer, "rights", call)
        found = [call_model(book, "lodge", message_bytes(OFFER, default, unit, 0, {5: (energy, 9)}))
                 for unit in (7, 8) for default in (False, True)]
        same(found, answers, "rights at lodging")
        same(call_model(book, "rights", 1, PURCHASE, notice[1]), None)
        same(call_model(book, "close"), None)
        same([book.verdict(n + 1) for n in range(len(verdicts))], verdicts, "rights at closing")
        same(call_model(book, "rights", 1, PURCHASE, notice[0]), ("refused", 2, 0))
    # open point A1: the smallest case gives 5 and 0 in one step
    sale = Offer(1, SALE, 0, False, 1, 10)
    first, second = Offer(2, PURCHASE, 1, True, 9, 10), Offer(3, PURCHASE, 1, True, 5, 10)
    capacity = {(b, d): None for b in BORDERS for d in DIRECTIONS}
    capacity[1, EXPORT] = 5
    found = gate.clear_hour([sale, first, second], [], capacity)
    same((found.matched[2], found.matched[3], found.steps), (5, 0, 1), "A1")
    # equal prices go by number, not by closing order
    found = gate.match_by_runs([Offer(5, SALE, 0, False, 3, 10), Offer(4, SALE, 0, False, 3, 10),
                                Offer(6, PURCHASE, 0, False, 3, 15)])
    same(found, ({4: 10, 5: 5, 6: 15}, 3), "equal prices")


def test_full(_rng):
    book = DayBook(2006, 6, 1)
    for n in range(1, 65):
        same(call_model(book, "register", n, n, 1, SALE, 10, False), None)
    same(call_model(book, "register", 65, 65, 1, SALE, 10, False), ("refused", 9, 0), "65th unit")
    same(call_model(book, "register", 65, 65, 1, SALE, 10, False, True), ("refused", 9, 0), "9 before 15")
    same(call_model(book, "register", 65, 64, 1, SALE, 10, False, True), ("refused", 9, 0))
    same(call_model(book, "register", 64, 65, 1, SALE, 10, False), ("refused", 7, 0))
    same(call_model(book, "register", 65, 64, 1, SALE, 10, False), ("refused", 8, 0))
    for n in range(1, 129):
        same(call_model(book, "lodge", message_bytes(EXECUTION, n % 2 == 0, 1 + n // 3, n, {1: (1, 0)})), n)
    over = message_bytes(OFFER, False, 1, 0, {1: (11, 0)})
    same(call_model(book, "lodge", over), ("refused", 9, 0), "129th, told before limit 10")
    again = message_bytes(EXECUTION, False, 1, 1, {1: (2, 0)})
    same(call_model(book, "lodge", again), 129, "replacing when full")
    same(call_model(book, "lodge", message_bytes(EXECUTION, False, 1, 1, {1: (11, 0)})), ("refused", 10, 1))
    same(call_model(book, "annul", EXECUTION, False, 1, 1), None)
    same(call_model(book, "lodge", over), ("refused", 10, 1), "a place free again")
    same(call_model(book, "lodge", again), 130)
    book.last_number = 65533        # as if so many had been accepted
    same((call_model(book, "lodge", again), call_model(book, "lodge", again)), (65534, 65535))
    same(call_model(book, "lodge", again), ("refused", 9, 0), "65,535 accepted, replacing")
    same(call_model(book, "annul", EXECUTION, False, 1, 1), None)
    same(call_model(book, "lodge", again), ("refused", 9, 0), "65,535 accepted")
    same(call_model(book, "close"), None)
    same(answer_of(book.verdict, 65535), ("refused", 13, 0))
    same(book.verdict(2), ("accepted",))


def test_messages(rng):
    for _ in range(600):
        kind = rng.choice([OFFER, EXECUTION])
        named = rng.sample(range(1, 26), rng.choice([1, 1, 2, 3, 8, 25]))
        energies, prices, hour_map = [0] * 25, [0] * 25, 0
        for h in named:
            hour_map |= 1 << (25 - h)
            energies[h - 1] = rng.choice([1, 99999, rng.randint(1, 99999)])
            prices[h - 1] = rng.choice([0, 18030, rng.randint(0, 18030)]) if kind == OFFER else 0
        message = Message(kind, rng.random() < 0.5, rng.choice([1, 65535, rng.randint(1, 65535)]),
                          0 if kind == OFFER else rng.randint(1, 65535), hour_map,
                          tuple(energies), tuple(prices))
        n = len(named)
        count = 8 + 4 * n if kind == OFFER else 8 + -(-17 * n // 8)
        buffer = bytearray(b"\xA5" * 120)
        same(gate.write_message(message, buffer), count, "count")
        check(set(buffer[count:]) == {0xA5}, "a byte beyond was touched")
        data = bytes(buffer[:count])
        same(data, message_bytes(*message[:4], {h: (energies[h - 1], prices[h - 1]) for h in named}))
        same(gate.read_message(data), message, "write then read")
        exact = bytearray(count)
        gate.write_message(message, exact)
        same(bytes(exact), data, "a buffer of exactly the count")
        short = bytearray(b"\x5A" * (count - 1))
        same(answer_of(gate.write_message, message, short), ("refused", 14, 0))
        check(set(short) <= {0x5A}, "a refused writer wrote")
        # spoil it: what is still read must be written back to the same bytes
        for _ in range(6):
            spoilt = bytearray(data)
            spoilt[rng.randrange(len(spoilt))] ^= 1 << rng.randrange(8)
            if rng.random() < 0.2:
                spoilt = spoilt[:rng.randint(0, len(spoilt))]
            hours = rng.choice([23, 24, 25])
            no, fields = slow_read(bytes(spoilt), hours)
            found = answer_of(gate.read_message, bytes(spoilt), hours)
            if no:
                same(found, ("refused", min(no), 0), "spoilt", spoilt.hex())
                continue
            same([fields["energies"].get(h, 0) for h in range(1, 26)], list(found.energies))
            same([fields["prices"].get(h, 0) for h in range(1, 26)], list(found.prices))
            same((fields["kind"], fields["default"], fields["unit"], fields["contract"]), found[:4])
            back = bytearray(len(spoilt))
            same(gate.write_message(found, back), len(spoilt))
            same(back, spoilt, "read then write")
    good = Message(OFFER, False, 7, 0, gate.hour_bit(3), (0, 0, 5) + (0,) * 22, (0, 0, 9) + (0,) * 22)
    execution = good._replace(kind=EXECUTION, contract=1, prices=(0,) * 25)
    one = (0, 0, 0, 1) + (0,) * 21
    for bad, number in (
            (good._replace(kind=2), 3), (good._replace(hour_map=0), 4), (good._replace(hour_map=1 << 25), 4),
            (good._replace(unit=0), 5), (good._replace(unit=65536), 5), (good._replace(contract=1), 5),
            (execution._replace(contract=0), 5), (execution._replace(contract=65536), 5),
            (execution._replace(prices=good.prices), 5), (good._replace(energies=one), 5),
            (good._replace(prices=one), 5), (good._replace(energies=(0, 0, 5, 1) + (0,) * 21), 5),
            (good._replace(energies=(0, 0, 100000) + (0,) * 22), 5),
            (good._replace(prices=(0, 0, 18031) + (0,) * 22), 5)):
        for size in (0, 108):       # 14 is the highest number, so a short buffer changes nothing
            buffer = bytearray(size)
            same(answer_of(gate.write_message, bad, buffer), ("refused", number, 0), "writer", bad)
            check(not any(buffer), "a refused writer wrote")


def test_share(rng):
    for _ in range(3000):
        amounts = {n: rng.choice([0, 0, 1, 7, rng.randint(0, 99999)])
                   for n in rng.sample(range(1, 400), rng.randint(0, 12))}
        g = sum(amounts.values())
        r = rng.choice([0, g, rng.randint(0, g)])
        taken = gate.share(r, amounts)
        same(taken, slow_share(r, list(amounts.items())), "share", r, amounts)
        same(sum(taken.values()), r, "what is taken does not add up")
        check(all(0 <= taken[n] <= m for n, m in amounts.items()), "more taken than there is")
        for n, m in amounts.items():
            if g:
                check(taken[n] - r * m // g in (0, 1), "more than one leftover unit")
        lucky = sorted(n for n, m in amounts.items() if g and taken[n] > r * m // g)
        check(all(n in lucky for n, m in amounts.items() if lucky and m and n < lucky[-1]),
              "a leftover unit passed over a lower number")


def test_hours(rng):
    """Match by runs against match by places; the whole hour against the slow telling."""
    seen = Counter()
    for turn in range(2200):
        make = hour_of_two_prices if turn % 16 == 15 else random_hour
        offers, executions, capacity, losses = make(rng, rng.choice([3, 12, 30]))
        by_places = gate.match_by_places(offers)
        same(gate.match_by_runs(offers), by_places, "match", offers)
        found = gate.clear_hour(offers, executions, capacity, losses=losses)
        if turn % 3 == 0:
            same(found, gate.clear_hour(offers, executions, capacity, match=gate.match_by_places, losses=losses),
                 "an hour by places", offers, executions, capacity, losses)
        slow = slow_hour([o._asdict() for o in offers],
                         [dict(x._asdict(), side=PURCHASE if x.direction == EXPORT else SALE)
                          for x in executions], capacity, seen, losses)
        for name, value in slow.items():
            same(getattr(found, name), value, name, offers, executions, capacity, losses)
    needed(seen, ("legacy step", "unmatched legacy in a legacy step", "C > V'", "C = V'", "C < V'",
                  "border without energy at the price", "more than five steps", "split with legacy",
                  "bilateral maximum below zero", "cut in export", "cut in import"), 20)
    needed(seen, ("gave way with a loss", "gave more energy than figure", "gave nothing, below the largest of its figure",
                  "gave way whole", "split with legacy exports and a loss", "legacy step with a loss", "cut in export with a loss",
                  "an excess above the figures, not above the energy"), 20)
    needed(seen, ("C would go otherwise by figures",), 5)
    return seen


def test_held(rng):
    """An hour that a session can hold, by the sentences and by the calls."""
    seen = Counter()
    for turn in range(2500):
        losses = {b: rng.choice((0, 0, 1, 777, 2_000)) for b in BORDERS}
        hour = held.at_random(rng, rng.choice((0, 1, 2, 3, 5, 8)), rng.choice(((1,), (1, 3), BORDERS)), rng.choice((20, 90, 60_000)), losses=losses)
        same(held.why_not(*hour), set(), "hour", turn)
        check(held.calls_hold(*hour), "hour", turn, "is not held", hour)
        seen["held"] += 1
        hour = held.spoilt(rng, *hour, lossy=turn % 2 == 0)
        reasons = held.why_not(*hour)
        same(held.calls_hold(*hour), not reasons, "spoilt hour", turn, reasons, hour)
        seen["held" if not reasons else "not held"] += 1
        seen.update(reasons)
    needed(seen, ["lodging number", "unit number", "border", "legacy mark", "domestic execution", "energy", "price", "order",
                  "one number twice", "two units of one number", "two offers", "maximum", "border sum", "capacity",
                  "loss", "loss of no export", "two losses"], 10)
    return seen


def needed(seen, names, least):
    for name in names:
        check(seen[name] >= least, "the random material is too thin:", name, "only", seen[name])


def check_demand_3(book, calls, answers, hours, interest, seen):
    """Demand 3's clauses, on the accepted calls and the model's own answers."""
    units, available, capacity, rights, standing, done, number = {}, {}, {}, {}, {}, set(), 0
    losses = dict.fromkeys(BORDERS, 0)
    for call, answer in zip(calls, answers):
        if isinstance(answer, tuple):       # refused
            continue
        name = call[0]
        done.add(name)
        if name == "register":
            units[call[1]] = dict(zip(("agent", "border", "side", "maximum", "legacy", "rights"), call[2:] + (False,)))
        elif name == "available":
            available[call[1]] = call[2]
        elif name == "rights":
            rights[call[1:3]] = call[3]
        elif name == "loss":
            losses[call[1]] = call[2]
        elif name == "capacity":
            capacity = call[1]
        elif name == "lodge":
            number += 1
            fields = slow_read(call[1], 25)[1]
            standing = {n: f for n, f in standing.items() if SlowBook.key(f) != SlowBook.key(fields)}
            standing[number] = fields
        elif name == "annul":
            standing = {n: f for n, f in standing.items() if SlowBook.key(f) != call[1:]}
    if "close" not in done:
        return
    named = {h for f in standing.values() for h in f["energies"]} | set(interest)
    ceiling = {}
    for u, unit in units.items():
        both = [capacity.get((unit["border"], d)) for d in DIRECTIONS]
        for h in named:
            ceiling[u, h] = min(unit["maximum"], available[u][h - 1] if u in available else unit["maximum"])
            held = rights.get((unit["agent"], unit["side"]), (0,) * hours)[h - 1]
            if unit["rights"]:
                ceiling[u, h] = min(ceiling[u, h], held)
            if None not in both:
                total = both[0][h - 1] + both[1][h - 1]
                if unit["side"] == PURCHASE:
                    total = slow_increased(total, losses[unit["border"]])
                lessened = unit["border"] == 1 and not unit["rights"]
                ceiling[u, h] = min(ceiling[u, h], max(total - held, 0) if lessened else total)
                seen["a border sum lessened to 0"] += lessened and held > total > 0
    # each unit with rights has the agent's unit of that side without them
    for u in units.values():
        if u["rights"]:
            check(any((v["agent"], v["border"], v["side"], v["rights"]) == (u["agent"], 1, u["side"], False)
                      for v in units.values()) and u["border"] == 1, "a unit with rights and no partner")
            seen["units with rights"] += 1
    verdicts = {n: book.verdict(n) for n in standing}

    # refused at closing exactly when it passes the ceiling with those accepted before it
    def turn(n):
        f = standing[n]
        return (2 if f["kind"] == OFFER else 1 if f["default"] else 0), -n

    before = Counter()
    for n in sorted(standing, key=turn):
        f = standing[n]
        if SlowBook.hidden(f, standing):
            same(verdicts[n], ("hidden",))
            seen["hidden"] += 1
            continue
        check(verdicts[n] != ("hidden",), "an unhidden lodgement told hidden")
        sums = {h: e + before[f["unit"], h] for h, e in f["energies"].items()}
        passes = any(sums[h] > ceiling[f["unit"], h] for h in sums)
        same(verdicts[n][0], "limit" if passes else "accepted", "verdict of", n)
        unit = units[f["unit"]]
        if passes:
            _, limit, h = verdicts[n]
            seen["limit %d" % limit] += 1
            if limit == 12 and unit["border"] == 1:
                seen["limit 12 by rights"] += sums[h] <= sum(capacity[1, d][h - 1] for d in DIRECTIONS)
            continue
        if None not in [capacity.get((unit["border"], d)) for d in DIRECTIONS]:
            seen["accepted above the sum, by a loss"] += any(
                e > sum(capacity[unit["border"], d][h - 1] for d in DIRECTIONS) for h, e in sums.items())
        if unit["rights"]:
            held = rights[unit["agent"], unit["side"]]
            seen["accepted with rights"] += 1
            seen["exactly the rights"] += any(sums[h] == held[h - 1] for h in sums)
        for h, e in f["energies"].items():
            before[f["unit"], h] += e
    if "clear" not in done:
        return

    for h in sorted(named):
        matched = {u: book.matched(u, h) for u in units}
        executed = {u: book.executed(u, h) for u in units}
        side = {s: sum(matched[u] for u in units if units[u]["side"] == s) for s in (SALE, PURCHASE)}
        same(side[SALE], side[PURCHASE], "matched sales and purchases in hour", h)
        seen["hours with energy matched"] += side[SALE] > 0
        for u in units:
            check(0 <= matched[u] and 0 <= executed[u], "energy below zero")
            check(matched[u] + executed[u] <= ceiling[u, h], "a unit passes its ceiling")
        cut = book.figures[h].executed      # what is left of each execution
        for u in units:
            same(executed[u], sum(e for n, e in cut.items() if standing[n]["unit"] == u), "a unit's executed energy")
        for border in BORDERS:
            there = {u: 1 if units[u]["side"] == PURCHASE else -1
                     for u in units if units[u]["border"] == border}

            def figure(u, energy):
                return slow_figure(energy, own_loss(losses, border, units[u]["side"]))

            accepted = {n: f for n, f in standing.items() if verdicts[n] == ("accepted",)
                        and f["kind"] == EXECUTION and f["unit"] in there and h in f["energies"]}
            # a unit has one offer, and its matched energy is that offer's; each execution counts by itself
            same(book.market(border, h), sum(g * figure(u, matched[u]) for u, g in there.items()))
            same(book.bilateral(border, h), sum(there[f["unit"]] * figure(f["unit"], cut[n]) for n, f in accepted.items()))
            total = book.market(border, h) + book.bilateral(border, h)
            uncut = book.market(border, h) + sum(
                there[f["unit"]] * figure(f["unit"], f["energies"][h]) for f in accepted.values())
            for direction, g in ((EXPORT, 1), (IMPORT, -1)):
                published = capacity.get((border, direction))
                group = {n: f for n, f in accepted.items() if there[f["unit"]] == g}
                is_cut = any(cut[n] != f["energies"][h] for n, f in group.items())
                if published is None:
                    check(not is_cut, "a cut without a capacity")
                    continue
                most = published[h - 1]
                check(g * total <= most, "the border carries more than its capacity")
                same(is_cut, g * uncut > most, "cut exactly when", h, border, direction)
                if is_cut:
                    same(g * total, most, "the cut sum stands at the capacity")
                    taken = slow_share(g * uncut - most,
                                       [(n, figure(f["unit"], f["energies"][h])) for n, f in group.items()])
                    for n, f in group.items():
                        loss = own_loss(losses, border, units[f["unit"]]["side"])
                        same(cut[n], slow_kept(f["energies"][h], taken[n], loss), "cut by Share, the largest energy kept")
                    seen["hours with a cut"] += 1
                    seen["hours with a cut and a loss"] += g == 1 and losses[border] > 0
            lossy = losses[border] > 0 and any(matched[u] for u in there if there[u] == 1)
            seen["hours with exports and a loss"] += lossy
            most = capacity.get((border, EXPORT))
            if lossy and most and book.market(border, h) == most[h - 1]:
                seen["a border full, its exports' energy above its capacity"] += (
                    sum(g * matched[u] for u, g in there.items()) > most[h - 1])


def queries_of(rng, hours, calls, last, interest):
    units = sorted({c[1] for c in calls if c[0] == "register"})
    queries = [("verdict", n) for n in list(range(0, last + 2)) + [65535, 65536]]
    h = rng.choice(interest)
    queries.append(("price", h))
    queries += [(name, u, h) for name in ("matched", "executed") for u in units]
    for border in BORDERS:
        queries += [(name, border, h) for name in ("market", "bilateral")]
        queries += [(name, border, d, h) for name in ("market_maximum", "bilateral_maximum")
                    for d in DIRECTIONS]
    for h in (h, rng.choice([0, hours + 1, 24, 25])):       # things that are not there
        queries += [("price", h), ("matched", rng.choice([0, 65536, 12, 7]), h),
                    ("executed", rng.choice([0, 65536, 12, 7]), h), ("market", rng.choice([0, 1, 5]), h),
                    ("bilateral", rng.choice([0, 1, 5]), h),
                    ("market_maximum", rng.choice([0, 1, 5]), EXPORT, h),
                    ("bilateral_maximum", rng.choice([0, 1, 5]), IMPORT, h)]
    return queries


def test_demand_3(rng):
    seen = Counter()
    for turn in range(LISTS):
        large = turn % 60 == 59             # now and then energies of any size
        compare = not large and turn % 4 == 1   # with the slow telling
        date, hours, calls, interest = random_list(rng, 15000 if large else rng.choice([8, 20, 40]))
        book, slow = DayBook(*date), SlowBook(hours)
        answers = []
        for call in calls:
            before = copy.copy(vars(book))
            before = {k: v.copy() if isinstance(v, dict) else v for k, v in before.items()}
            answer = call_model(book, *call)
            answers.append(answer)
            if isinstance(answer, tuple):
                same(vars(book), before, "a refused call changed the session:", call)
                seen["refused %d" % answer[1]] += 1
                seen["refused 15 without an hour"] += answer[1:] == (15, 0)
            if compare:
                same(answer, slow.call(call), "list", turn, "call", call)
        before = {k: v.copy() if isinstance(v, dict) else v for k, v in vars(book).items()}
        if compare:
            if book.figures is not None:
                for h in interest:
                    for name, value in slow.hour(h).items():
                        same(getattr(book.figures[h], name), value, "list", turn, "hour", h, name)
            for query in queries_of(rng, hours, calls, book.last_number, interest):
                found, expected = ask_model(book, *query), slow.query(query)
                same(found, expected, "list", turn, "query", query)
                if isinstance(found, tuple) and found[0] == "refused":
                    seen["refused %d" % found[1]] += 1
        check_demand_3(book, calls, answers, hours, interest, seen)
        same(vars(book), before, "a query changed the session")
        seen.update(slow.seen)
        seen["lists"] += 1
        for figures in (book.figures or {}).values():
            seen["hours of more than five steps"] += figures.steps > 5
        for call, answer in zip(calls, answers):
            if call == ("clear",) and not isinstance(answer, tuple):
                seen["lists cleared"] += 1
                seen["lists with steps"] += answer > 0
    needed(seen, ["refused %d" % n for n in (*range(2, 14), 15) if n != 9], 10)
    needed(seen, ["units with rights", "refused 15 without an hour", "limit 15", "limit 12 by rights", "accepted with rights",
                  "exactly the rights", "a border sum lessened to 0"], 10)
    needed(seen, ["lists with steps", "hidden", "limit 10", "limit 11", "limit 12", "hours with a cut",
                  "hours with energy matched", "legacy step", "cut in export", "cut in import",
                  "bilateral maximum below zero", "split with legacy"], 10)
    needed(seen, ["C > V'", "C = V'", "C < V'", "border without energy at the price",
                  "hours of more than five steps"], 1)
    needed(seen, ["accepted above the sum, by a loss", "hours with exports and a loss", "hours with a cut and a loss",
                  "a border full, its exports' energy above its capacity", "gave way with a loss", "gave more energy than figure"], 10)
    check(seen["lists"] >= 2000, "too few lists")
    return seen


TESTS = (test_dates, test_twelve_figures, test_losses, test_edges, test_full, test_messages, test_share, test_hours,
         test_held, test_demand_3)


def run(long=False):
    """(passed, failed); what failed is told on standard error."""
    failed = 0
    for test in TESTS:
        try:
            seen = test(random.Random(SEED))
        except Exception as wrong:          # a crash of the model is a failure too
            failed += 1
            print(f"{test.__name__}: {type(wrong).__name__}: {str(wrong)[:1500]}", file=sys.stderr)
            continue
        if seen and long:
            print(test.__name__, dict(seen))
    return len(TESTS) - failed, failed


def main(long=False):
    start = time.monotonic()
    passed, failed = run(long)
    print(f"selftest: {passed} passed, {failed} failed, {LISTS} lists of calls, "
          f"{time.monotonic() - start:.0f} s")
    return 1 if failed else 0
