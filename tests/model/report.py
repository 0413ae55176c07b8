"""The report of a rehearsal day as lines of text, from a day book (gate.DayBook): docs/REHEARSAL.md, "Report".

Written from that description, without looking at the program. `gate` is handed in, since it may be run as a program.
"""

NAMES = {1: "France", 2: "Andorra", 3: "Portugal", 4: "Morocco"}
DIRECTIONS = ("export", "import")
UNITS_A_TABLE = 10


def report(book, gate):
    """Every line behind the line `report`."""
    yield f"  {book.date[0]:04}-{book.date[1]:02}-{book.date[2]:02}, {book.hours} hours"
    if book.verdicts is None:
        yield "  not closed"
        return
    yield ""
    yield from verdicts(book, gate)
    yield ""
    if book.figures is None:
        yield "  not cleared"
        return
    counted = "; balances and maxima as counted at the border" if any(book.losses.values()) else ""
    yield f"  Energies in tenths of MWh, prices in hundredths of a euro per MWh, balances exports less imports{counted}."
    yield ""
    yield from hours(book, gate)
    yield ""
    yield from energies(book, gate, "Matched", book.matched)
    yield ""
    yield from energies(book, gate, "Executed", book.executed)


def verdicts(book, gate):
    yield "  number  kind       mark        unit  contract  verdict"
    for lodgement in sorted(book.standing.values(), key=lambda l: l.number):
        m = lodgement.message
        kind, contract = ("offer", "-") if m.kind == gate.OFFER else ("execution", m.contract)
        mark = "default" if m.default else "normal"
        said = book.verdicts[lodgement.number]
        if said[0] == "limit":
            said = ("limit", said[1], gate.WORDS[said[1]], "hour", said[2])
        yield f"  {lodgement.number:6}  {kind:9}  {mark:7}  {m.unit:5}  {contract:>8}  " + " ".join(map(str, said))


def hour_cells(book, gate, hour):
    name, second = gate.clock_name(book.hours, hour)
    return f"  {hour:4}  " + f"{name:02}{' second' if second else ''}".ljust(9)


def hours(book, gate):
    """A line for each hour and border; the hour, its clock name and its price only beside the first border."""
    def maxima(border):
        return [f(border, direction, hour) for f in (book.market_maximum, book.bilateral_maximum) for direction in DIRECTIONS]

    shown = [border for border in gate.BORDERS
             if any((border, direction) in book.capacities for direction in DIRECTIONS)
             or any(f.market[border] or f.bilateral[border] for f in book.figures.values())]
    heads = [f"{which} balance".split() for which in ("market", "bilateral")]
    heads += [[which, "maximum", direction] for which in ("market", "bilateral") for direction in DIRECTIONS]
    for line, before in ((3, ""), (2, ""), (1, "  hour  clock      price  border")):
        yield before.ljust(34) + "".join(f"{head[-line] if line <= len(head) else '':>10}" for head in heads)
    for hour in range(1, book.hours + 1):
        before = hour_cells(book, gate, hour) + f"{book.price(hour):7}"
        if not shown:
            yield before
        for border in shown:
            figures = [book.market(border, hour), book.bilateral(border, hour), *maxima(border)]
            cells = ("-" if n is None else str(n) for n in figures)
            yield f"{before}  {NAMES[border]:8}" + "".join(f"{cell:>10}" for cell in cells)
            before = " " * len(before)


def energies(book, gate, word, energy):
    """Tables of hours by units: the units with energy in some hour, by number, ten to a table."""
    units = [unit for unit in sorted(book.units) if any(energy(unit, hour) for hour in range(1, book.hours + 1))]
    yield f"  {word} energy, by unit" + ("; a dot is 0" if units else ": none")
    for start in range(0, len(units), UNITS_A_TABLE):
        ten = units[start:start + UNITS_A_TABLE]
        yield ""
        yield "  hour  clock    " + "".join(f"{unit:8}" for unit in ten)
        for hour in range(1, book.hours + 1):
            yield hour_cells(book, gate, hour) + "".join(f"{energy(unit, hour) or '.':>8}" for unit in ten)
