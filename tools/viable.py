#!/usr/bin/env python3
"""Checks where the reference refuses words by 3, against the grammar's table itself.

The rules below are the table of levels, written down as productions. An Earley
recogniser over them says of each list of words whether some text of the grammar
begins with it: that is so exactly when the recogniser's last set is not empty,
since every symbol of these rules derives some list of words.

Every list of words after a fixed head is tried up to a length; a list is
continued only where it is viable, since the reader stops at the first word that
is not. Then long random lists are tried, each next word at every length.
"""

import random
import sys

import reference

# Level -> productions. A number is a level, a word stands for itself.
EXPRESSIONS = {
    1: [[2, "fby", 1]],
    2: [[3, "asa", 3]],
    3: [["if", 3, "then", 3, "else", 3]],
    4: [[4, "or", 5]],
    5: [[5, "and", 6]],
    6: [["not", 6]],
    7: [[8, relation, 8] for relation in reference.RELATIONS],
    8: [[8, "+", 9], [8, "-", 9]],
    9: [[9, "*", 10], [9, "/", 10]],
    10: [["-", 10], ["first", 10], ["next", 10]],
    11: [["NAME"], ["LITERAL"], ["true"], ["false"], ["CHANNEL"], ["(", 1, ")"]],
}


def grammar():
    """The productions, with "an expression of a level may be any of a higher number"."""
    rules = {level: list(found) for level, found in EXPRESSIONS.items()}
    for level in range(1, 11):
        rules[level].append([level + 1])
    rules["text"] = [["compute", "output", "where", "equations", "end", "END OF TEXT"]]
    rules["equations"] = [["equation"], ["equations", ";", "equation"]]
    rules["equation"] = [["NAME", "=", 1], ["CHANNEL", "=", 1]]
    return rules


RULES = grammar()


class Earley:
    """Sets of items (symbol, production, dot, origin), one set for each length."""

    def __init__(self):
        self.sets = []
        self.sets.append(self.closure([("text", 0, 0, 0)], 0))

    def expected(self, item):
        symbol, production, dot, _ = item
        body = RULES[symbol][production]
        return body[dot] if dot < len(body) else None

    def closure(self, kernel, here):
        items = dict.fromkeys(kernel)
        pending = list(items)
        while pending:
            item = pending.pop()
            wanted = self.expected(item)
            if wanted is None:
                origin = item[3]
                source = items if origin == here else self.sets[origin]
                found = [step(x) for x in source if self.expected(x) == item[0]]
            elif wanted in RULES:
                found = [(wanted, n, 0, here) for n in range(len(RULES[wanted]))]
            else:
                found = []
            for new in found:
                if new not in items:
                    items[new] = None
                    pending.append(new)
        return items

    def push(self, terminal):
        """Add a word; answer whether the list is still viable."""
        kernel = [step(x) for x in self.sets[-1] if self.expected(x) == terminal]
        self.sets.append(self.closure(kernel, len(self.sets)))
        return bool(kernel)

    def pop(self):
        self.sets.pop()

    def terminals(self):
        """The words that may come next."""
        return {self.expected(x) for x in self.sets[-1]} - RULES.keys() - {None}


def step(item):
    return item[0], item[1], item[2] + 1, item[3]


SPELLINGS = {"NAME": "n", "LITERAL": "7", "CHANNEL": "input3", "END OF TEXT": ""}
# One word for each way in which words differ in the table.
REDUCED = ["NAME", "LITERAL", "=", ";", "(", ")", "fby", "asa", "if", "then", "else", "or",
           "and", "not", "eq", "+", "-", "*", "next", "end", "END OF TEXT"]
EVERY = sorted(reference.KEY_WORDS) + list("+-*/=;()") + ["NAME", "LITERAL", "CHANNEL", "END OF TEXT"]
HEAD = ["compute", "output", "where", "NAME", "="]


def spell(terminals):
    return " ".join(SPELLINGS.get(terminal, terminal) for terminal in terminals)


def reader_takes(terminals):
    """Does the reference take the last word, the words before it being viable?"""
    *before, last = (SPELLINGS.get(terminal, terminal) for terminal in terminals)
    start = len(" ".join(before)) + 1 if before else 0
    if last == "":
        # The reader is to refuse the end of text there, or not at all.
        text = " ".join(before)
        start = len(text)
    else:
        text = " ".join(before + [last, "$"])
    try:
        reference.read_program(text.encode())
    except reference.Refused as refusal:
        if refusal.place == start and refusal.number == 3:
            return False
        if refusal.number in (2, 4) and refusal.place >= start:
            return True
        raise AssertionError("%r: refused %d at %d" % (text, refusal.number, refusal.place))
    if last == "":
        return True
    raise AssertionError("%r: taken" % text)


class Comparison:
    def __init__(self):
        self.lists = 0
        self.refusals = 0

    def try_word(self, earley, words, word):
        """Compare on words + [word]; answer whether it is viable, and leave it pushed."""
        words.append(word)
        viable = earley.push(word)
        if reader_takes(words) != viable:
            sys.exit("viable: differs on %r: Earley says %s" % (spell(words), viable))
        self.lists += 1
        self.refusals += not viable
        return viable

    def exhaustive(self, earley, words, alphabet, length):
        if length == 0:
            return
        for word in alphabet:
            if self.try_word(earley, words, word) and word != "END OF TEXT":
                self.exhaustive(earley, words, alphabet, length - 1)
            words.pop()
            earley.pop()

    def random_walk(self, dice, length):
        earley, words = Earley(), []
        for _ in range(length):
            for word in EVERY:
                self.try_word(earley, words, word)
                words.pop()
                earley.pop()
            choices = sorted(earley.terminals() - {"END OF TEXT"})
            if words.count("(") - words.count(")") > 13:
                choices = [word for word in choices if word != "("]
            if len(words) < length - 2 and len(choices) > 1 and dice.random() < 0.9:
                choices = [word for word in choices if word != "end"]
            if not choices:
                return
            word = dice.choice(choices)
            words.append(word)
            earley.push(word)


def main(arguments):
    length = int(arguments[0]) if arguments else 5
    walks = int(arguments[1]) if len(arguments) > 1 else 200
    comparison = Comparison()
    comparison.exhaustive(Earley(), [], EVERY, 4)
    earley = Earley()
    for word in HEAD:
        earley.push(word)
    comparison.exhaustive(earley, list(HEAD), REDUCED, length)
    exhaustive = comparison.lists
    dice = random.Random(20240229)
    for _ in range(walks):
        comparison.random_walk(dice, dice.randrange(10, 70))
    print("viable: %d lists of words agree, %d of them refused by 3 (%d lists up to length %d, %d along %d walks)" % (
        comparison.lists, comparison.refusals, exhaustive, length, comparison.lists - exhaustive, walks))


if __name__ == "__main__":
    main(sys.argv[1:])
