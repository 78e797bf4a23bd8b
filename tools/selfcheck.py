#!/usr/bin/env python3
"""Checks of the reference program against second ways to the same answers.

1. Readings worked out by hand.
2. Rings, leads and stages of small random tables, by all paths without a
   repeated row.
3. A loop that keeps only windows of the stated depths, on random tables: each
   reading of each row within its window agrees with the demand evaluator, and
   the loop fails if it ever reads outside a window.
4. Rounds of the least solution: each value of a round is the demand
   evaluator's reading.

5. Fitting: each reading of the demand evaluator is what a second writing of
   the rules, with faults and births, takes from the other readings.
6. Arithmetic of rates, by exact fractions rounded once.

Seeded, so that every run checks the same tables.
"""

import random
import struct
import sys
from fractions import Fraction

import reference
from reference import INFINITE, Bad, Fault, Row, Sheet, Table


def fail(message):
    sys.exit("selfcheck: " + message)


# ------------------------------------------------------- readings by hand


class Told:
    """A source of whole numbers from a list, on channel 0."""

    def __init__(self, values, channels=1):
        self.values = values
        self.channels = channels
        self.ticks = len(values)

    def read(self, channel, tick):
        if channel >= self.channels or tick >= self.ticks:
            return Bad(reference.ENDED)
        value = self.values[tick]
        return Bad(reference.GAP) if value is None else value


def wrap(equations):
    return b"compute output where " + equations.encode() + b" end"


def readings(equations, values, horizon, kind=reference.KINDS[0]):
    table = reference.read_table(wrap(equations))
    sheet = Sheet(table, kind, Told(values), horizon)
    return table, [sheet.at(table.result, tick) for tick in range(horizon)]


SUM = "n = 0 fby n + input; r = n asa n gt 5; result = if n lt r then n else r"
AHEAD = "a = input; result = a + next next a"
BY_HAND = [
    # equations, channel 0, horizon, readings, (rows, stages, lead, cells)
    (SUM, [2, 3, 4, 1, 0], 4, [0, 2, 5, 9], (9, 1, 0, 11)),
    (SUM, [2, 3, 4, 1, 0], 3, [Fault(1, 1, 0)] * 3, (9, 1, 0, 11)),
    ("result = next input", [7, 8, 9], 3, [8, 9, Fault(2, 1, 3)], (2, 0, 1, 2)),
    (AHEAD, [1, 2, 3, 4], 2, [4, 6], (4, 0, 2, 6)),
    ("result = false and 1 / 0 eq 1", [], 1, [False], (7, 0, 0, 7)),
    ("result = 7 / (0 - 2)", [], 1, [-3], (5, 0, 0, 5)),
    ("result = 0 fby first result", [], 3, [0, 0, 0], None),
    ("result = input asa (if input lt 3 then false else 7)", [1, 2, 3, 4], 4, [Fault(4, 0, 2)] * 4, None),
    ("result = 10 / (input - 3) asa input eq 3", [1, 2, 3], 3, [Fault(5, 5, 2)] * 3, None),
    ("result = 1 + true or 1 / 0 eq 1", [], 1, [Fault(4, 3, 0)], None),
    ("result = first next input", [4, None, 5], 3, [Fault(3, 1, 1)] * 3, None),
]


def check_by_hand():
    for equations, values, horizon, wanted, counts in BY_HAND:
        table, found = readings(equations, values, horizon)
        if found != wanted:
            fail("%s: %r" % (equations, found))
        if counts and counts != (len(table.rows), table.stages, table.lead, table.cells):
            fail("%s: counts" % equations)
    for equations, number, place in [
        ("result = 0 fby next result", 9, 0),
        ("result = result fby result", 9, 0),
        ("a = 1; a = 2; result = 1", 6, 28),
        ("result = a", 8, 30),
    ]:
        try:
            reference.read_table(wrap(equations))
        except reference.Refused as refusal:
            if (refusal.number, refusal.place) == (number, place):
                continue
        fail("%s: not refused by %d at %d" % (equations, number, place))
    return len(BY_HAND)


# ---------------------------------------------------------- random tables

ARITIES = {
    "literal": 0, "truth": 0, "channel": 0, "copy": 1, "not": 1, "neg": 1, "first": 1, "next": 1,
    "fby": 2, "asa": 2, "and": 2, "or": 2, "+": 2, "-": 2, "*": 2, "/": 2, "eq": 2, "lt": 2, "if": 3,
}


def random_rows(dice, size, favourites):
    rows = []
    for _ in range(size):
        op = dice.choice(favourites if dice.random() < 0.6 else sorted(ARITIES))
        what = {"literal": dice.randrange(4), "truth": dice.random() < 0.5, "channel": dice.randrange(2)}.get(op)
        rows.append(Row(op, tuple(dice.randrange(size) for _ in range(ARITIES[op])), what))
    return rows


def layered_rows(dice, size, favourites):
    """Rows that read later rows, save right sides of `fby`: often without a bad ring."""
    rows = []
    for row in range(size):
        op = dice.choice(favourites if dice.random() < 0.6 else sorted(ARITIES))
        if row == size - 1 and ARITIES[op] > 0:
            op = "channel"
        what = {"literal": dice.randrange(4), "truth": dice.random() < 0.5, "channel": dice.randrange(2)}.get(op)
        operands = [dice.randrange(row + 1, size) for _ in range(ARITIES[op])]
        if op == "fby" and dice.random() < 0.8:
            operands[1] = dice.randrange(size)
        rows.append(Row(op, tuple(operands), what))
    return rows


FAVOURITES = [
    ["fby", "next", "channel"],
    ["fby", "next", "channel", "+", "lt", "asa", "if"],
    ["asa", "eq", "channel", "fby", "first"],
    ["and", "or", "not", "if", "lt", "channel", "fby"],
]


def random_table(dice, size):
    make = dice.choice([random_rows, layered_rows, layered_rows])
    return Table(make(dice, size, dice.choice(FAVOURITES)), dice.randrange(size))


# -------------------------------------------------- rings, leads and stages


def simple_paths(table, start, visit):
    """Call visit(edges) on every path without a repeated row that starts in start."""

    def extend(row, seen, edges):
        visit(edges)
        for edge in table.edges:
            if edge.reader == row and edge.read not in seen:
                extend(edge.read, seen | {edge.read}, edges + [edge])

    extend(start, {start}, [])


def label_sum(edges):
    return sum(edge.label for edge in edges)


def has_bad_ring_by_paths(table):
    found = []
    for start in range(len(table.rows)):
        def visit(edges):
            last = edges[-1].read if edges else start
            for edge in table.edges:
                if edge.reader == last and edge.read == start:
                    found.append(label_sum(edges + [edge]) >= 0)
        simple_paths(table, start, visit)
    return any(found)


def leads_and_stages_by_paths(table):
    leads = [0] * len(table.rows)
    stages = [0] * len(table.rows)
    for start in range(len(table.rows)):
        def visit(edges):
            infinite = sum(edge.label == INFINITE for edge in edges)
            stages[start] = max(stages[start], infinite)
            if edges and not infinite:
                leads[edges[-1].read] = max(leads[edges[-1].read], label_sum(edges))
        simple_paths(table, start, visit)
    return leads, stages


def check_paths(dice, count):
    accepted = 0
    for _ in range(count):
        table = random_table(dice, dice.randrange(1, 8))
        bad = table.has_bad_ring()
        if bad != has_bad_ring_by_paths(table):
            fail("ring: %r" % (table.rows,))
        if bad:
            continue
        accepted += 1
        if (table.plan().leads, table.plan().stages) != leads_and_stages_by_paths(table):
            fail("leads or stages: %r" % (table.rows,))
    return accepted


# ---------------------------------------------------------------- the loop


class Windows:
    """For each row its latest readings, as many as its depth."""

    def __init__(self, table):
        self.depths = table.plan().depths
        self.cells = [[] for _ in self.depths]

    def put(self, row, tick, reading):
        window = self.cells[row]
        if window and window[-1][0] != tick - 1:
            fail("a tick was left out")
        window.append((tick, reading))
        if len(window) > self.depths[row]:
            del window[0]

    def get(self, row, tick):
        for have, reading in self.cells[row]:
            if have == tick:
                return reading
        fail("row %d at tick %d is not in its window" % (row, tick))

    def has(self, row, tick):
        return any(have == tick for have, _ in self.cells[row])


class Loop:
    """Readings tick by tick. In the step of tick t each row makes tick t + its lead."""

    def __init__(self, table, kind, source, horizon):
        self.table, self.kind, self.source, self.horizon = table, kind, source, horizon
        self.settled = {}
        self.rules = Sheet(table, kind, source, horizon)
        for stage in range(1, table.stages + 1):
            self.settle(stage)

    def order(self, rows):
        """Rows in an order in which a row read at its newest tick comes first."""
        leads = self.table.plan().leads
        done, order = set(), []

        def place(row):
            if row in done:
                return
            done.add(row)
            for edge in self.table.edges:
                if edge.reader == row and edge.label != INFINITE and edge.read in rows:
                    if leads[edge.read] == leads[row] + edge.label:
                        place(edge.read)
            order.append(row)

        for row in sorted(rows):
            place(row)
        return order

    def turns(self, rows):
        """Yield (tick, windows) after each step; the first comes after P turns more."""
        windows = Windows(self.table)
        order = self.order(rows)
        leads, lead = self.table.plan().leads, self.table.lead
        for turn in range(-lead, self.horizon):
            for row in order:
                tick = turn + leads[row]
                if tick >= 0:
                    windows.put(row, tick, self.make(windows, row, tick))
            if turn >= 0:
                yield turn, windows

    def make(self, windows, row, tick):
        """A row's reading from windows and settled rows alone."""
        op = self.table.rows[row].op
        if op == "asa":
            return self.settled[row]
        if op == "first" and tick > 0:
            return windows.get(row, tick - 1)
        rule = self.rules.rule(row, tick)
        answer = None
        while True:
            try:
                answer = windows.get(*rule.send(answer))
            except StopIteration as stop:
                return stop.value

    def settle(self, stage):
        plan = self.table.plan()
        rows = {row for row, its in enumerate(plan.stages) if its < stage}
        searching = [row for row, its in enumerate(plan.stages)
                     if its == stage and self.table.rows[row].op == "asa"]
        for tick, windows in self.turns(rows):
            for row in searching:
                left, right = self.table.rows[row].operands
                condition = windows.get(right, tick)
                if row in self.settled or condition is False:
                    continue
                if isinstance(condition, Fault):
                    self.settled[row] = condition
                elif condition is True:
                    self.settled[row] = windows.get(left, tick)
                else:
                    self.settled[row] = Fault(reference.WRONG_KIND, row, tick)
        for row in searching:
            self.settled.setdefault(row, Fault(reference.UNREACHED, row, 0))


def random_source(dice, kind, ticks):
    data = bytearray([kind.code, 2]) + struct.pack(">I", ticks)
    for _ in range(ticks):
        data.append(dice.random() < 0.8)
        for _ in range(2):
            if kind.code == 0:
                value = dice.choice([dice.randrange(-3, 4), dice.randrange(-3, 4), dice.randrange(-2**40, 2**40)])
                data += struct.pack(">q", value)
            else:
                data += struct.pack(">d", dice.choice([dice.uniform(-2, 2), 0.0, -0.0, float("inf")]))
    return reference.Hold(reference.Recording(bytes(data), kind))


def accepted_table(dice, most):
    while True:
        table = random_table(dice, dice.randrange(1, most))
        if not table.has_bad_ring():
            return table


def check_loop(dice, count):
    looked = 0
    for _ in range(count):
        table = accepted_table(dice, 14)
        kind = reference.KINDS[dice.randrange(2)]
        horizon = dice.randrange(1, 9)
        source = random_source(dice, kind, horizon + dice.randrange(-1, 3))
        sheet = Sheet(table, kind, source, horizon)
        loop = Loop(table, kind, source, horizon)
        plan = table.plan()
        for tick, windows in loop.turns(set(range(len(table.rows)))):
            for row in range(len(table.rows)):
                last = tick + plan.leads[row]
                for at in range(last + 3):
                    inside = max(0, last - plan.depths[row] + 1) <= at <= last
                    if windows.has(row, at) != inside:
                        fail("window of row %d after tick %d: %r" % (row, tick, table.rows))
                    if inside:
                        looked += 1
                        if repr(windows.get(row, at)) != repr(sheet.at(row, at)):
                            fail("reading of row %d at tick %d: %r" % (row, at, table.rows))
    return looked


# -------------------------------------------------------------- the rounds


def next_round(table, kind, source, ticks, values):
    """The round after one; values maps (row, tick) to values, ticks below `ticks` only."""
    made = {}
    for row in range(len(table.rows)):
        for tick in range(ticks):
            value = round_value(table, kind, source, ticks, values, row, tick)
            if value is not None:
                made[row, tick] = value
    return made


def round_value(table, kind, source, ticks, values, row, tick):
    op, operands, what = table.rows[row]
    get = lambda position, at=tick: values.get((operands[position], at))
    if op == "literal":
        return kind.literal(what)
    if op == "truth":
        return what
    if op == "channel":
        return defined(source.read(what, tick))
    if op == "copy":
        return get(0)
    if op == "first":
        return get(0, 0)
    if op == "next":
        return get(0, tick + 1)
    if op == "fby":
        return get(0, 0) if tick == 0 else get(1, tick - 1)
    if op == "asa":
        for s in range(ticks):
            if get(1, s) is not False:
                return get(0, s) if get(1, s) is True else None
        return None
    if op == "if":
        condition = kind.told(get(0))
        return None if condition is None else get(1 if condition else 2)
    if op in ("and", "or"):
        deciding = op == "or"
        told = [kind.told(get(0)), kind.told(get(1))]
        return deciding if deciding in told else None if None in told else not deciding
    operand_values = [get(position) for position in range(len(operands))]
    if None in operand_values:
        return None
    if op == "not":
        return None if kind.told(operand_values[0]) is None else not operand_values[0]
    return defined(kind.answer(op, operand_values))


def defined(answer):
    return None if isinstance(answer, Bad) else answer


def check_rounds(dice, count):
    """Values of the rounds within the ticks seen, and of a sheet whose horizon is as long, agree."""
    compared = 0
    for _ in range(count):
        table = accepted_table(dice, 8)
        kind = reference.KINDS[0]
        source = random_source(dice, kind, dice.randrange(0, 6))
        ticks = 12
        horizon = ticks - table.lead
        if horizon < 1:
            continue
        values = {}
        while True:
            later = next_round(table, kind, source, ticks, values)
            if later == values:
                break
            values = later
        sheet = Sheet(table, kind, source, ticks)
        for place, value in values.items():
            compared += 1
            if repr(sheet.at(*place)) != repr(value):
                fail("round: row %d at tick %d: %r" % (place + (table.rows,)))
        for row in range(len(table.rows)):
            for tick in range(horizon):
                reading = Sheet(table, kind, source, horizon).at(row, tick)
                if not isinstance(reading, Fault) and repr(values.get((row, tick))) != repr(reading):
                    fail("no round has row %d at tick %d: %r" % (row, tick, table.rows))
    return compared


# ----------------------------------------------------------------- fitting


def fitting(sheet, row, tick):
    """What the rule of a row takes from the readings of a sheet."""
    op, operands, what = sheet.table.rows[row]
    kind = sheet.kind
    here = lambda answer: Fault(answer.number, row, tick) if isinstance(answer, Bad) else answer
    if op == "asa":
        left, right = operands
        stops = [s for s in range(sheet.horizon) if sheet.at(right, s) is not False]
        if not stops:
            return Fault(1, row, 0)
        condition = sheet.at(right, stops[0])
        if isinstance(condition, Fault):
            return condition
        return sheet.at(left, stops[0]) if condition is True else Fault(4, row, stops[0])
    if op in ("first", "next", "fby"):
        return {
            "first": lambda: sheet.at(operands[0], 0),
            "next": lambda: sheet.at(operands[0], tick + 1),
            "fby": lambda: sheet.at(operands[0], 0) if tick == 0 else sheet.at(operands[1], tick - 1),
        }[op]()
    read = [sheet.at(operand, tick) for operand in operands]
    faults = [reading for reading in read if isinstance(reading, Fault)]
    if op == "and" and any(reading is False for reading in read):
        return False
    if op == "or" and any(reading is True for reading in read):
        return True
    if op == "if":
        if isinstance(read[0], Fault):
            return read[0]
        return read[1] if read[0] is True else read[2] if read[0] is False else Fault(4, row, tick)
    if faults:
        return faults[0]
    if op in ("and", "or", "not"):
        if not all(reading is True or reading is False for reading in read):
            return Fault(4, row, tick)
        return {"and": True, "or": False, "not": not read[0]}[op]
    if op == "copy":
        return read[0]
    if op == "channel":
        return here(sheet.source.read(what, tick))
    if op in ("literal", "truth"):
        return kind.literal(what) if op == "literal" else what
    return here(kind.answer(op, read))


def check_fitting(dice, count):
    fitted = 0
    for _ in range(count):
        table = accepted_table(dice, 14)
        kind = reference.KINDS[dice.randrange(2)]
        horizon = dice.randrange(1, 9)
        sheet = Sheet(table, kind, random_source(dice, kind, horizon + dice.randrange(-1, 3)), horizon)
        for row in range(len(table.rows)):
            for tick in range(horizon + 3):
                fitted += 1
                if repr(sheet.at(row, tick)) != repr(fitting(sheet, row, tick)):
                    fail("row %d at tick %d does not fit: %r" % (row, tick, table.rows))
    return fitted


# ------------------------------------------------------------------- rates


def random_rate(dice, near=None):
    """A finite rate of any exponent, or of one near another's."""
    exponent = dice.randrange(0, 2047) if near is None else min(2046, max(0, near + dice.randrange(-55, 56)))
    if dice.random() < 0.1:
        exponent = dice.choice([0, 0, 1, 2046, 1023])
    fraction = dice.choice([dice.getrandbits(52), dice.getrandbits(52), 0, 2**52 - 1, 2**51, 1])
    bits = dice.getrandbits(1) << 63 | exponent << 52 | fraction
    return struct.unpack(">d", struct.pack(">Q", bits))[0], exponent


def check_rates(dice, count):
    kind = reference.KINDS[1]
    for _ in range(count):
        a, exponent = random_rate(dice)
        b, _ = random_rate(dice, None if dice.random() < 0.3 else exponent)
        op = dice.choice("+-*/")
        found = kind.answer(op, [a, b])
        if op == "/" and b == 0:
            wanted = Bad(reference.ZERO_DIVISOR)
        else:
            x, y = Fraction(a), Fraction(b)
            exact = {"+": x + y, "-": x - y, "*": x * y, "/": x / (y or 1)}[op]
            try:
                wanted = float(exact)
            except OverflowError:
                wanted = Bad(reference.OUT_OF_RANGE)
        if found != wanted:
            fail("%r %s %r: %r, not %r" % (a, op, b, found, wanted))
    return count


def main():
    dice = random.Random(4711)
    print("selfcheck: %d tables by hand" % check_by_hand())
    print("selfcheck: leads and stages of %d of 6000 tables by paths, and all rings" % check_paths(dice, 6000))
    print("selfcheck: %d readings of 4000 tables by windows" % check_loop(dice, 4000))
    print("selfcheck: %d values of 600 tables by rounds" % check_rounds(dice, 600))
    print("selfcheck: %d readings of 1500 tables fit" % check_fitting(dice, 1500))
    print("selfcheck: %d operations on rates by fractions" % check_rates(dice, 40000))


if __name__ == "__main__":
    reference.deep(main)
