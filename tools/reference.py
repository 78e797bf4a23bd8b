#!/usr/bin/env python3
"""A second program for the same language: text and recording in, printed list out.

It shares no code and no method with the delivered program. The delivered
program runs a loop over windows of past readings; this one works each reading
out from the equations on demand and remembers it.

    reference.py DIR            the list of DIR/bench.eq over DIR/bench.trc
    reference.py --cases FILE   `case NAME` and the list, for each case of FILE

Parts, in order: refusals, words, grammar, rows, labels (rings, leads, depths,
stages), value kinds, sources, readings, the list, case files, command line.
"""

import os
import re
import struct
import sys
import threading
from collections import namedtuple

# ---------------------------------------------------------------- refusals

TEXT_TOO_LONG = 1
BAD_WORD = 2
MISPLACED_WORD = 3
TOO_MANY_BRACKETS = 4
TOO_MANY_ROWS = 5
DEFINED_AGAIN = 6
NO_RESULT = 7
UNDEFINED = 8
BAD_RING = 9
BAD_HEADER = 10
BAD_MARK = 11
BAD_LENGTH = 12
BAD_HORIZON = 14

MOST_TEXT_BYTES = 4096
MOST_NAME_BYTES = 16
MOST_NUMBER = 2147483647
MOST_BRACKETS = 16
MOST_EQUATIONS = 32
MOST_ROWS = 64
MOST_CHANNELS = 8
MOST_TICKS = 100000
MOST_FILE_BYTES = 65536


class Refused(Exception):
    """An input is refused, by a number and at a byte counted from 0."""

    def __init__(self, number, place):
        super().__init__(number, place)
        self.number = number
        self.place = place


# ------------------------------------------------------------------- words

SEPARATORS = b" \t\r\n"
SIGNS = b"+-*/=;()"
LETTERS = b"abcdefghijklmnopqrstuvwxyzABCDEFGHIJKLMNOPQRSTUVWXYZ"
DIGITS = b"0123456789"
RELATIONS = ("eq", "ne", "lt", "le", "gt", "ge")
KEY_WORDS = frozenset(
    "compute output where end fby asa if then else or and not first next true false".split()
) | frozenset(RELATIONS)
CHANNELS = {"input": 0, **{"input%d" % n: n for n in range(1, 8)}}

# sort: "name", "channel", "literal", "fixed" (key word or sign) or "end of text".
# what: the name in small letters, the channel's number, the literal's worth,
# or the key word or sign itself.
Word = namedtuple("Word", "sort what place")


def run_end(text, start, members):
    """The end of the longest run of bytes among members that begins at start."""
    end = start
    while end < len(text) and text[end] in members:
        end += 1
    return end


def scan(text, at):
    """The word at or after byte `at`, and the byte after it; refusal 2 if it is none."""
    start = run_end(text, at, SEPARATORS)
    if start == len(text):
        return Word("end of text", None, start), start
    if text[start] in SIGNS:
        return Word("fixed", chr(text[start]), start), start + 1
    if text[start] in DIGITS:
        end = run_end(text, start, DIGITS)
        digits = text[start:end].lstrip(b"0")
        if len(digits) > len(str(MOST_NUMBER)) or int(digits or b"0") > MOST_NUMBER:
            raise Refused(BAD_WORD, start)
        return Word("literal", int(digits or b"0"), start), end
    if text[start] in LETTERS:
        end = run_end(text, start, LETTERS + DIGITS)
        if end - start > MOST_NAME_BYTES:
            raise Refused(BAD_WORD, start)
        name = text[start:end].decode("ascii").lower()
        if name in KEY_WORDS:
            return Word("fixed", name, start), end
        if name in CHANNELS:
            return Word("channel", CHANNELS[name], start), end
        return Word("name", name, start), end
    raise Refused(BAD_WORD, start)


# ----------------------------------------------------------------- grammar

# An expression. op is an operator's word (prefix minus is "neg"), or "name",
# "literal", "truth" or "channel" with its content in `what`.
Expression = namedtuple("Expression", "op operands what place")
# word: the name or channel on the left of "=".
Equation = namedtuple("Equation", "word expression")
Program = namedtuple("Program", "equations end_place")

# Operators that lean left: level -> (operators, level of the right operand).
CHAINS = {4: (("or",), 5), 5: (("and",), 6), 8: (("+", "-"), 9), 9: (("*", "/"), 10)}
PREFIXES = {"-": "neg", "first": "first", "next": "next"}


class Reader:
    """Recursive descent over the words, one word ahead.

    A word is looked at only after the words before it were accepted, so each
    word is tried for 2, then 3, then 4, before the next one is tried.
    """

    def __init__(self, text):
        self.text = text
        self.brackets = 0
        self.word, self.after = scan(text, 0)

    def advance(self):
        """Accept the word at hand and look at the next one."""
        word = self.word
        self.word, self.after = scan(self.text, self.after)
        return word

    def at(self, *fixed):
        """Is the word at hand one of these key words or signs?"""
        return self.word.sort == "fixed" and self.word.what in fixed

    def refuse(self):
        raise Refused(MISPLACED_WORD, self.word.place)

    def expect(self, *fixed):
        if not self.at(*fixed):
            self.refuse()
        return self.advance()

    def program(self):
        for key_word in ("compute", "output", "where"):
            self.expect(key_word)
        equations = [self.equation()]
        while self.at(";"):
            self.advance()
            equations.append(self.equation())
        end = self.expect("end")
        if self.word.sort != "end of text":
            self.refuse()
        return Program(equations, end.place)

    def equation(self):
        if self.word.sort not in ("name", "channel"):
            self.refuse()
        word = self.advance()
        self.expect("=")
        return Equation(word, self.expression(1))

    def operation(self, op, word, *operands):
        return Expression(op, operands, None, word.place)

    def expression(self, level):
        """Read an expression of this level."""
        if level == 1:
            left = self.expression(2)
            if not self.at("fby"):
                return left
            return self.operation("fby", self.advance(), left, self.expression(1))
        if level == 2:
            return self.pair(("asa",), 3)
        if level == 3:
            return self.choice() if self.at("if") else self.expression(4)
        if level in CHAINS:
            return self.chain(level, *CHAINS[level])
        if level == 6:
            if self.at("not"):
                return self.operation("not", self.advance(), self.expression(6))
            return self.expression(7)
        if level == 7:
            return self.pair(RELATIONS, 8)
        if level == 10 and self.at(*PREFIXES):
            word = self.advance()
            return self.operation(PREFIXES[word.what], word, self.expression(10))
        return self.atom()

    def pair(self, operators, operand_level):
        """One operand, or two of the same level with an operator between them."""
        left = self.expression(operand_level)
        if not self.at(*operators):
            return left
        word = self.advance()
        return self.operation(word.what, word, left, self.expression(operand_level))

    def chain(self, level, operators, right_level):
        """Operators of one level that lean left."""
        left = self.expression(right_level)
        while self.at(*operators):
            word = self.advance()
            left = self.operation(word.what, word, left, self.expression(right_level))
        return left

    def choice(self):
        word = self.advance()
        condition = self.expression(3)
        self.expect("then")
        chosen = self.expression(3)
        self.expect("else")
        return self.operation("if", word, condition, chosen, self.expression(3))

    def atom(self):
        if self.word.sort in ("name", "literal", "channel"):
            word = self.advance()
            return Expression(word.sort, (), word.what, word.place)
        if self.at("true", "false"):
            word = self.advance()
            return Expression("truth", (), word.what == "true", word.place)
        if not self.at("("):
            self.refuse()
        if self.brackets == MOST_BRACKETS:
            raise Refused(TOO_MANY_BRACKETS, self.word.place)
        self.brackets += 1
        self.advance()
        inside = self.expression(1)
        self.expect(")")
        self.brackets -= 1
        return inside


def read_program(text):
    """The equations of a text, or refusal 1, 2, 3 or 4."""
    if len(text) > MOST_TEXT_BYTES:
        raise Refused(TEXT_TOO_LONG, 0)
    return Reader(text).program()


# -------------------------------------------------------------------- rows

# op: as in Expression; "copy" is an equation that is a bare name.
# operands: row numbers, in text order.
Row = namedtuple("Row", "op operands what")


def read_table(text):
    """The checked table of a text, or refusal 1 to 9."""
    program = read_program(text)
    rows, owners = number_rows(program.equations)
    try_size(program.equations, owners)
    try_definitions(program.equations)
    row_of = {equation.word.what: row for row, equation in enumerate(program.equations)}
    if "result" not in row_of:
        raise Refused(NO_RESULT, program.end_place)
    try_uses(program.equations, row_of)
    table = Table([resolve(row, row_of) for row in rows], row_of["result"])
    if table.has_bad_ring():
        raise Refused(BAD_RING, 0)
    return table


def number_rows(equations):
    """Rows whose operands are row numbers or names, and the equation that owns each."""
    rows = [None] * len(equations)
    owners = list(range(len(equations)))

    def operand(expression, owner):
        if expression.op == "name":
            return expression.what
        row = fill(expression, owner)
        rows.append(row)
        owners.append(owner)
        return len(rows) - 1

    def fill(expression, owner):
        operands = tuple(operand(part, owner) for part in expression.operands)
        return Row(expression.op, operands, expression.what)

    for owner, equation in enumerate(equations):
        if equation.expression.op == "name":
            rows[owner] = Row("copy", (equation.expression.what,), None)
        else:
            rows[owner] = fill(equation.expression, owner)
    return rows, owners


def try_size(equations, owners):
    """Refusal 5: too many equations, or else too many rows."""
    if len(equations) > MOST_EQUATIONS:
        raise Refused(TOO_MANY_ROWS, equations[MOST_EQUATIONS].word.place)
    if len(owners) > MOST_ROWS:
        raise Refused(TOO_MANY_ROWS, equations[owners[MOST_ROWS]].word.place)


def try_definitions(equations):
    """Refusal 6: a name defined again, or a channel defined."""
    defined = set()
    for equation in equations:
        word = equation.word
        if word.sort == "channel" or word.what in defined:
            raise Refused(DEFINED_AGAIN, word.place)
        defined.add(word.what)


def uses(expression):
    """The uses of names in an expression, in text order."""
    pending = [expression]
    while pending:
        part = pending.pop()
        if part.op == "name":
            yield part.what, part.place
        pending.extend(reversed(part.operands))


def try_uses(equations, row_of):
    """Refusal 8: a name used and never defined."""
    for equation in equations:
        for name, place in uses(equation.expression):
            if name not in row_of:
                raise Refused(UNDEFINED, place)


def resolve(row, row_of):
    """Put rows for names."""
    operands = tuple(row_of[x] if isinstance(x, str) else x for x in row.operands)
    return row._replace(operands=operands)


# ------------------------------------------- rings, leads, depths and stages

INFINITE = float("inf")
Edge = namedtuple("Edge", "reader read label")


def label_of(op, position):
    """The label of the edge to the operand at this position."""
    if op == "next":
        return 1
    if op == "fby" and position == 1:
        return -1
    if op == "asa":
        return INFINITE
    return 0


class Table:
    """Rows and the row of `result`, with what the labels of the edges say."""

    def __init__(self, rows, result):
        self.rows = rows
        self.result = result
        self.edges = [
            Edge(reader, read, label_of(row.op, position))
            for reader, row in enumerate(rows)
            for position, read in enumerate(row.operands)
        ]
        self._plan = None

    def has_bad_ring(self):
        """Has some closed path a label sum that is not negative?

        A closed path with repeated rows falls apart into rings, and its sum
        into theirs, so it is enough to look at closed paths of up to R edges.
        """
        return any(self.best_return(start) >= 0 for start in range(len(self.rows)))

    def best_return(self, start):
        """The greatest label sum of a closed path of 1 to R edges through start."""
        best = -INFINITE
        sums = {start: 0}
        for _ in self.rows:
            if not sums:
                break
            longer = {}
            for edge in self.edges:
                if edge.reader in sums:
                    total = sums[edge.reader] + edge.label
                    if total > longer.get(edge.read, -INFINITE):
                        longer[edge.read] = total
            sums = longer
            best = max(best, sums.get(start, -INFINITE))
        return best

    def plan(self):
        """Leads, depths and stages of the rows; only of a table without a bad ring."""
        if self._plan is None:
            leads = self._leads()
            self._plan = Plan(leads, self._depths(leads), self._stages())
        return self._plan

    def _leads(self):
        """Greatest label sums of paths of finite edges that end in each row."""
        leads = [0] * len(self.rows)
        finite = [edge for edge in self.edges if edge.label != INFINITE]
        for _ in self.rows:
            for edge in finite:
                leads[edge.read] = max(leads[edge.read], leads[edge.reader] + edge.label)
        return leads

    def _depths(self, leads):
        depths = [1] * len(self.rows)
        depths[self.result] = 1 + leads[self.result]
        for edge in self.edges:
            if edge.label == INFINITE:
                reach = leads[edge.read]
            else:
                reach = leads[edge.read] - leads[edge.reader] - edge.label
            depths[edge.read] = max(depths[edge.read], 1 + reach)
        return depths

    def _stages(self):
        """Greatest numbers of infinite edges on paths that start in each row."""
        stages = [0] * len(self.rows)
        for _ in self.rows:
            for edge in self.edges:
                passed = 1 if edge.label == INFINITE else 0
                stages[edge.reader] = max(stages[edge.reader], stages[edge.read] + passed)
        return stages

    @property
    def lead(self):
        """P, the greatest lead."""
        return max(self.plan().leads)

    @property
    def stages(self):
        """The greatest stage."""
        return max(self.plan().stages)

    @property
    def cells(self):
        """D: the sum of the depths and one cell for each `asa` row."""
        return sum(self.plan().depths) + sum(row.op == "asa" for row in self.rows)


Plan = namedtuple("Plan", "leads depths stages")

# ------------------------------------------------------------- value kinds

UNREACHED, ENDED, GAP, WRONG_KIND, ZERO_DIVISOR, OUT_OF_RANGE = range(1, 7)

# What a kind or a source answers in place of a value: a fault without a birth.
Bad = namedtuple("Bad", "number")
# A fault as a reading: passed on whole.
Fault = namedtuple("Fault", "number row tick")

ARITHMETIC = ("+", "-", "*", "/", "neg")
COMPARE = {
    "eq": lambda a, b: a == b,
    "ne": lambda a, b: a != b,
    "lt": lambda a, b: a < b,
    "le": lambda a, b: a <= b,
    "gt": lambda a, b: a > b,
    "ge": lambda a, b: a >= b,
}


class Kind:
    """What both kinds share. Truth values are Python's True and False."""

    @staticmethod
    def told(value):
        """True or False for the truth values, None for every other value."""
        return value if isinstance(value, bool) else None

    def answer(self, op, operands):
        """The value, or the fault 4, 5 or 6, of an operator on values."""
        truths = sum(isinstance(value, bool) for value in operands)
        if op in COMPARE:
            if truths == 1 or (truths == 2 and op not in ("eq", "ne")):
                return Bad(WRONG_KIND)
            return COMPARE[op](*operands)
        if truths:
            return Bad(WRONG_KIND)
        if op == "/" and operands[1] == 0:
            return Bad(ZERO_DIVISOR)
        return self.within(self.arithmetic(op, *operands))


class Whole(Kind):
    """Whole numbers within 2,147,483,647 of 0."""

    code = 0

    @staticmethod
    def literal(number):
        return number

    @staticmethod
    def within(number):
        return number if abs(number) <= MOST_NUMBER else Bad(OUT_OF_RANGE)

    def word(self, word):
        return self.within(int.from_bytes(word, "big", signed=True))

    @staticmethod
    def arithmetic(op, a, b=None):
        if op == "neg":
            return -a
        if op == "/":
            quotient = abs(a) // abs(b)
            return quotient if (a < 0) == (b < 0) else -quotient
        return {"+": a + b, "-": a - b, "*": a * b}[op]

    @staticmethod
    def print_number(number):
        return str(number)


class Rate(Kind):
    """Finite numbers of IEEE 754 binary64; Python's float is that format."""

    code = 1

    @staticmethod
    def literal(number):
        return float(number)

    @staticmethod
    def within(number):
        finite = number - number == 0
        return number if finite else Bad(OUT_OF_RANGE)

    def word(self, word):
        return self.within(struct.unpack(">d", word)[0])

    @staticmethod
    def arithmetic(op, a, b=None):
        if op == "neg":
            return -a
        if op == "/":
            return a / b
        return {"+": a + b, "-": a - b, "*": a * b}[op]

    @staticmethod
    def print_number(number):
        return struct.pack(">d", number).hex()


KINDS = {kind.code: kind for kind in (Whole(), Rate())}

# ----------------------------------------------------------------- sources


class Recording:
    """A source in bytes. Refusals are tried in the order 10, 12, 11."""

    def __init__(self, data, kind):
        try_header(data, kind)
        self.kind = kind
        self.data = data
        self.channels = data[1]
        self.ticks = int.from_bytes(data[2:6], "big")
        self.stride = 1 + 8 * self.channels
        if len(data) != 6 + self.ticks * self.stride:
            raise Refused(BAD_LENGTH, len(data))
        for tick in range(self.ticks):
            if data[self.mark_place(tick)] > 1:
                raise Refused(BAD_MARK, self.mark_place(tick))

    def mark_place(self, tick):
        return 6 + tick * self.stride

    def read(self, channel, tick):
        """A value, or fault 2, 3 or 6."""
        if channel >= self.channels or tick >= self.ticks:
            return Bad(ENDED)
        mark = self.mark_place(tick)
        if self.data[mark] == 0:
            return Bad(GAP)
        word = mark + 1 + 8 * channel
        return self.kind.word(self.data[word : word + 8])


def try_header(data, kind):
    """Refusal 10."""
    if len(data) < 6:
        raise Refused(BAD_HEADER, len(data))
    if data[0] != kind.code:
        raise Refused(BAD_HEADER, 0)
    if not 1 <= data[1] <= MOST_CHANNELS:
        raise Refused(BAD_HEADER, 1)
    if int.from_bytes(data[2:6], "big") > MOST_TICKS:
        raise Refused(BAD_HEADER, 2)


class Hold:
    """Reads through gaps of another source: the latest earlier tick that is none."""

    def __init__(self, source):
        self.source = source
        self.channels = source.channels
        self.ticks = source.ticks
        self.held = {}

    def read(self, channel, tick):
        answer = self.source.read(channel, tick)
        return self.before(channel, tick) if answer == Bad(GAP) else answer

    def before(self, channel, tick):
        """What a gap at this tick reads, by a search backwards."""
        answer = Bad(GAP)
        for earlier in range(tick - 1, -1, -1):
            if (channel, earlier) in self.held:
                answer = self.held[channel, earlier]
                break
            answer = self.source.read(channel, earlier)
            if answer != Bad(GAP):
                break
        self.held[channel, tick] = answer
        return answer


# ---------------------------------------------------------------- readings


class Sheet:
    """The readings of a table over a source, for a horizon, worked out on demand.

    The rules are generators: they yield a place (row, tick) to ask for its
    reading, and return the reading of their own place. So the depth of a
    demand is not bound to the depth of Python's calls.
    """

    def __init__(self, table, kind, source, horizon):
        self.table = table
        self.kind = kind
        self.source = source
        self.horizon = horizon
        self.known = {}

    def at(self, row, tick):
        """The reading of a row at a tick."""
        if (row, tick) in self.known:
            return self.known[row, tick]
        pending = [((row, tick), self.rule(row, tick))]
        answer = None
        while pending:
            place, rule = pending[-1]
            try:
                demand = rule.send(answer)
            except StopIteration as stop:
                pending.pop()
                answer = self.known[place] = stop.value
                continue
            answer = self.known.get(demand)
            if answer is None:
                pending.append((demand, self.rule(*demand)))
        return answer

    def rule(self, row, tick):
        """The rule of a row's operator at a tick."""
        op, operands, what = self.table.rows[row]
        if op in ("literal", "truth", "channel"):
            return self.leaf(op, what, row, tick)
        if op == "asa":
            return self.as_soon_as(row, tick, *operands)
        if op == "if":
            return self.choice(row, tick, *operands)
        if op in ("and", "or"):
            return self.junction(op, row, tick, *operands)
        if op in ("copy", "first", "next", "fby"):
            return self.moved(op, tick, operands)
        return self.strict(op, row, tick, operands)

    def born(self, answer, row, tick):
        """Give a fault its birth; leave a value as it is."""
        return Fault(answer.number, row, tick) if isinstance(answer, Bad) else answer

    def leaf(self, op, what, row, tick):
        if op == "literal":
            return self.kind.literal(what)
        if op == "channel":
            return self.born(self.source.read(what, tick), row, tick)
        return what
        yield  # makes it a generator like the other rules

    def moved(self, op, tick, operands):
        """Operators that hand on a reading of another place."""
        if op == "copy":
            return (yield operands[0], tick)
        if op == "first":
            return (yield operands[0], 0)
        if op == "next":
            return (yield operands[0], tick + 1)
        if tick == 0:
            return (yield operands[0], 0)
        return (yield operands[1], tick - 1)

    def as_soon_as(self, row, tick, left, right):
        if tick > 0:  # the reading is the same at every tick
            return (yield row, 0)
        for s in range(self.horizon):
            condition = yield right, s
            if isinstance(condition, Fault):
                return condition
            told = self.kind.told(condition)
            if told is None:
                return Fault(WRONG_KIND, row, s)
            if told:
                return (yield left, s)
        return Fault(UNREACHED, row, 0)

    def choice(self, row, tick, condition, chosen, otherwise):
        reading = yield condition, tick
        if isinstance(reading, Fault):
            return reading
        told = self.kind.told(reading)
        if told is None:
            return Fault(WRONG_KIND, row, tick)
        return (yield (chosen if told else otherwise), tick)

    def junction(self, op, row, tick, left, right):
        """`and`, which a false decides, and `or`, which a true decides."""
        sides = ((yield left, tick), (yield right, tick))
        deciding = op == "or"
        told = [None if isinstance(side, Fault) else self.kind.told(side) for side in sides]
        if deciding in told:
            return deciding
        for side in sides:
            if isinstance(side, Fault):
                return side
        if None in told:
            return Fault(WRONG_KIND, row, tick)
        return not deciding

    def strict(self, op, row, tick, operands):
        """Operators that need all their operands, which are read left to right."""
        values = []
        for operand in operands:
            values.append((yield operand, tick))
        for value in values:
            if isinstance(value, Fault):
                return value
        if op == "not":
            told = self.kind.told(values[0])
            return Fault(WRONG_KIND, row, tick) if told is None else not told
        return self.born(self.kind.answer(op, values), row, tick)


# ---------------------------------------------------------------- the list


def print_reading(kind, reading):
    if isinstance(reading, Fault):
        return "fault %d row %d tick %d" % reading
    told = kind.told(reading)
    if told is not None:
        return "true" if told else "false"
    return kind.print_number(reading)


def print_table(table):
    return "rows %d stages %d lead %d cells %d" % (
        len(table.rows), table.stages, table.lead, table.cells)


def read_recording(data):
    """The recording in a file's bytes, of the kind that its first byte says."""
    kind = KINDS.get(data[0] if data else None, KINDS[0])
    if len(data) > MOST_FILE_BYTES:
        try_header(data, kind)
        raise Refused(BAD_LENGTH, MOST_FILE_BYTES)
    return Recording(data, kind)


def listing(text, data):
    """The lines of the printed list."""
    try:
        table = read_table(text)
        recording = read_recording(data)
        if not 1 <= recording.ticks <= MOST_TICKS:
            raise Refused(BAD_HORIZON, 0)
    except Refused as refusal:
        return ["refused %d at %d" % (refusal.number, refusal.place)]
    sheet = Sheet(table, recording.kind, Hold(recording), recording.ticks)
    return [print_table(table)] + [
        "%d %s" % (tick, print_reading(recording.kind, sheet.at(table.result, tick)))
        for tick in range(recording.ticks)
    ]


# -------------------------------------------------------------- case files

Case = namedtuple("Case", "name text data")
GROUP = re.compile(r"\{([0-9a-f]*)\*([0-9]+)\}")


def unhex(digits):
    """The bytes of hexadecimal digits in which {HEX*N} stands for N times HEX."""
    return bytes.fromhex(GROUP.sub(lambda group: group[1] * int(group[2]), digits))


def read_cases(lines):
    """The cases of a case file: three lines each, `case`, `text` and `trc`."""
    cases = []
    for at in range(0, len(lines), 3):
        (a, name), (b, text), (c, data) = (
            line.partition(" ")[::2] for line in lines[at : at + 3])
        if (a, b, c) != ("case", "text", "trc"):
            raise ValueError("line %d: not a case" % (at + 1))
        cases.append(Case(name, unhex(text), unhex(data)))
    return cases


# ------------------------------------------------------------ command line


def read_file(path):
    """A file's bytes; a missing file is empty."""
    try:
        with open(path, "rb") as file:
            return file.read()
    except FileNotFoundError:
        return b""


def run_directory(path):
    lines = listing(
        read_file(os.path.join(path, "bench.eq")), read_file(os.path.join(path, "bench.trc")))
    print("\n".join(lines))


def run_cases(path):
    with open(path, encoding="ascii") as file:
        cases = read_cases(file.read().splitlines())
    for case in cases:
        print("\n".join(["case " + case.name] + listing(case.text, case.data)))


def deep(work, *arguments):
    """Do work with room for deeply nested expressions; answer what it answers."""
    outcome, failure = [], []

    def guarded():
        try:
            outcome.append(work(*arguments))
        except BaseException as reason:  # handed on to the caller's thread below
            failure.append(reason)

    sys.setrecursionlimit(200000)
    threading.stack_size(128 * 1024 * 1024)
    thread = threading.Thread(target=guarded)
    thread.start()
    thread.join()
    if failure:
        raise failure[0]
    return outcome[0]


def main(arguments):
    if len(arguments) == 2 and arguments[0] == "--cases":
        deep(run_cases, arguments[1])
    elif len(arguments) == 1 and not arguments[0].startswith("-"):
        deep(run_directory, arguments[0])
    else:
        sys.exit("usage: reference.py DIR | reference.py --cases FILE")


if __name__ == "__main__":
    main(sys.argv[1:])
