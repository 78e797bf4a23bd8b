#!/usr/bin/env python3
"""Writes the case file: texts and recordings whose lists two programs must agree on.

    make_cases.py FILE

Each case is three lines: `case NAME`, `text HEX`, `trc HEX`. HEX is lower-case
hexadecimal, possibly empty, in which {HEX*N} repeats a group N times.
The file holds inputs only; `reference.py --cases` prints the lists.
"""

import random
import struct
import sys

import reference

# ---------------------------------------------------------- building blocks

CASES = []
NAMES = set()


def case(name, text, data=None):
    """Add a case; text as str or bytes; without data, one tick of the number 0."""
    if name in NAMES:
        raise ValueError("case %s stands twice" % name)
    NAMES.add(name)
    text = text.encode("latin-1") if isinstance(text, str) else text
    CASES.append((name, text, whole([0]) if data is None else data))


def wrap(equations):
    return "compute output where " + equations + " end"


def equations(name, body, data=None):
    """A case whose text has these equations."""
    case(name, wrap(body), data)


def result(name, expression, data=None):
    """A case whose text has the one equation of `result`."""
    case(name, wrap("result = " + expression), data)


def header(kind, channels, ticks):
    return bytes([kind, channels]) + struct.pack(">I", ticks)


def recording(kind, pack, ticks, channels=None):
    """Ticks are None for a gap, else a value or a tuple of one value per channel."""
    ticks = [tick if tick is None or isinstance(tick, tuple) else (tick,) for tick in ticks]
    if channels is None:
        channels = max([len(tick) for tick in ticks if tick is not None] or [1])
    data = bytearray(header(kind, channels, len(ticks)))
    for tick in ticks:
        if tick is None:
            data += bytes(1 + 8 * channels)
        else:
            data += b"\1" + b"".join(pack(value) for value in tick)
    return bytes(data)


def whole(ticks, channels=None):
    return recording(0, lambda value: struct.pack(">q", value), ticks, channels)


def pack_rate(value):
    """A float, or the bits themselves as an int."""
    if isinstance(value, int):
        return struct.pack(">Q", value)
    return struct.pack(">d", value)


def rate(ticks, channels=None):
    return recording(1, pack_rate, ticks, channels)


def saving(data, at, period):
    """Digits saved by a group of so many bytes, its period and how often it stands."""
    group = data[at : at + period]
    times = 1
    while data[at + times * period : at + (times + 1) * period] == group:
        times += 1
    return 2 * period * (times - 1) - len("{*%d}" % times), period, times


def squeeze(data):
    """Hexadecimal digits, with groups for repeated stretches."""
    out, plain, at = [], 0, 0
    while at < len(data):
        saved, period, times = max(saving(data, at, period) for period in range(1, 67))
        if saved < 8:
            at += 1
            continue
        out.append(data[plain:at].hex() + "{%s*%d}" % (data[at : at + period].hex(), times))
        at += period * times
        plain = at
    return "".join(out) + data[plain:].hex()


# ---------------------------------------------------------------- the text


def text_length():
    good = wrap("result = 1")
    case("text-4096", good + " " * (4096 - len(good)))
    case("text-4097", good + " " * (4097 - len(good)))
    case("text-4096-inside", good.replace("=", "=" + "\n" * (4096 - len(good))))
    case("text-4097-inside", good.replace("=", "=" + "\n" * (4097 - len(good))))
    case("text-4096-bad-last", good + " " * (4095 - len(good)) + "$")
    case("text-4097-bad-first", "$" * 4097)
    case("text-4096-bad-first", "$" * 4096)
    case("text-4096-separators", " " * 4096)
    case("text-4097-separators", " " * 4097)
    case("eq-65536", good + " " * (65536 - len(good)))
    case("eq-65537", good + " " * (65537 - len(good)), b"")
    case("text-long-recording-bad", " " * 5000, b"\7")
    case("text-empty", "", b"")
    case("text-empty-recording-good", "")
    case("text-good-recording-empty", good, b"")
    case("five-separators", " \t\r\n ")


def bytes_and_words():
    for byte in (0, 1, 8, 11, 12, 14, 31, 33, 34, 36, 38, 39, 44, 46, 58, 60, 62, 64, 91, 94, 95, 96,
                 123, 126, 127, 128, 160, 195, 255):
        case("byte-%d" % byte, b"compute output where result = 1 " + bytes([byte]) + b" end")
    case("byte-0-inside-name", b"compute output where re\0sult = 1 end")
    case("bytes-utf8-name", "compute output where résult = 1 end".encode())
    case("bytes-utf8-blank", b"compute\xc2\xa0output where result = 1 end")
    case("bytes-bom", b"\xef\xbb\xbfcompute output where result = 1 end")
    case("separators-all", "\r\n\tcompute\toutput\rwhere\nresult\t=\r\n1\tend\r\n")
    case("tight", "compute output where a=1;result=a+(a*2)end")
    case("tight2", "compute output where result=if 1eq 1then 2else 3end")
    case("tight-minus", "compute output where result=1-1- -1end")
    case("capitals", "COMPUTE Output wHERE A = INPUT1; Result = IF a GT 2 THEN Next A ELSE FIRST a END",
         whole([(0, 1), (0, 2), (0, 3), (0, 4)]))
    case("capitals-names", wrap("aB = 1; Ab = 2; result = 3"))
    case("capitals-use", wrap("aBcD = 4; RESULT = AbCd + ABCD"))
    case("capitals-true", wrap("result = TRUE Eq tRuE"))
    case("capitals-all", wrap("RESULT = NOT (TRUE AND FALSE) OR 1 LT 2 FBY INPUT7 ASA 1 GE 1").upper())
    for n in (15, 16, 17, 18, 40):
        equations("name-%d" % n, "%s = 5; result = %s" % ("a" * n, "a" * n))
        equations("name-digits-%d" % n, "b%s = 5; result = b%s" % ("1" * (n - 1), "1" * (n - 1)))
    case("name-17-undefined", wrap("result = abcdefghijklmnopq"))
    case("name-17-misplaced", wrap("result = 1 abcdefghijklmnopq"))
    case("name-16-misplaced", wrap("result = 1 abcdefghijklmnop"))
    case("name-4000", wrap("result = " + "z" * 4000))
    case("fby-run-17", wrap("result = 1 fbyfbyfbyfbyfbyfb 2"))
    case("fby-run-15", wrap("result = 1 fbyfbyfbyfbyfby 2"))
    case("names-sixteenth-differs", wrap("aaaaaaaaaaaaaaab = 1; aaaaaaaaaaaaaaac = 2; result = aaaaaaaaaaaaaaac - aaaaaaaaaaaaaaab"))
    for name, digits in (
        ("0", "0"), ("00", "00"), ("7", "7"), ("007", "007"), ("max", "2147483647"), ("max1", "2147483648"),
        ("max-zeros", "0000000002147483647"), ("max1-zeros", "0000000002147483648"),
        ("2-32", "4294967296"), ("2-32-7", "4294967303"), ("2-64", "18446744073709551616"),
        ("2-64-1", "18446744073709551617"), ("2-63", "9223372036854775808"), ("10-9", "9999999999"),
        ("zeros-3000", "0" * 3000 + "7"), ("nines-3000", "9" * 3000), ("one-zeros", "1" + "0" * 30),
        ("zeros-max", "0" * 3000 + "2147483647"), ("zeros-max1", "0" * 3000 + "2147483648"),
    ):
        result("literal-" + name, digits)
    result("literal-max-rate", "2147483647", rate([0.0]))
    result("w12ab", "12ab")
    case("w12if", wrap("result = 1if"))
    result("w1then", "if true then 1else 2")
    result("digits-twice", "12 34")
    result("name-then-digits", "a 1")
    for sign in ("<", ">", "<=", "==", "!", "**", "//", "--", "++", ":=", "&", "|", "^", "%", "#", "\"a\""):
        result("sign-%s" % sign.encode().hex(), "1 %s 2" % sign)
    case("three-before-two", ")$")
    case("two-before-three", "$)")
    case("two-then-nothing", "compute output where result = 1 ; $")
    case("three-then-two", wrap("result = 1 1 $"))


KEY_WORDS = ("compute output where end fby asa if then else or and not eq ne lt le gt ge first next "
             "true false").split()


def grammar_frame():
    good = "compute output where result = 1 end".split()
    for n in range(len(good)):
        case("cut-%d" % n, " ".join(good[:n]))
        case("cut-blank-%d" % n, " ".join(good[:n]) + " \n")
        case("drop-%d" % n, " ".join(good[:n] + good[n + 1:]))
        case("twice-%d" % n, " ".join(good[: n + 1] + good[n:]))
    case("no_end_blank", "compute output where result = 1 \n")
    case("end-then-word", wrap("result = 1") + " x")
    case("end-then-end", wrap("result = 1") + " end")
    case("end-then-semicolon", wrap("result = 1") + ";")
    case("end-then-no-word", wrap("result = 1") + " ?")
    case("end-then-separators", wrap("result = 1") + " \t\r\n")
    case("end-then-long", wrap("result = 1") + " abcdefghijklmnopq")
    case("no-equations", "compute output where end")
    case("semicolon-first", wrap("; result = 1"))
    case("semicolon-last", wrap("result = 1 ;"))
    case("semicolon-double", wrap("a = 1 ;; result = 1"))
    case("semicolon-missing", wrap("a = 1 result = 1"))
    case("equals-double", wrap("result = = 1"))
    case("equals-in-expression", wrap("result = 1 = 1"))
    case("bracketed-name", wrap("(result) = 1"))
    case("literal-name", wrap("7 = 1"))
    case("equation-in-bracket", wrap("result = (1; a = 2)"))
    case("end-in-bracket", wrap("result = (1"))
    case("semicolon-in-if", wrap("result = if true then 1; a = 1"))
    for word in KEY_WORDS:
        case("keyname_" + word, wrap(word + " = 1"))
        case("keyafter_" + word, wrap("result = 1 " + word))
        case("keyuse_" + word, wrap("result = " + word + " 1"))
    for word in ("prefix", "latest", "literal", "name", "channel", "input0", "input8", "input01", "input10",
                 "inputs", "fby1", "ends", "truex", "upon", "whenever", "mod", "div", "if1"):
        equations("plain_" + word, "%s = 3; result = %s * %s" % (word, word, word))
    for word in ("input0", "input8", "input01", "input10", "latest"):
        result("undefined_" + word, word)


LEVEL_TRAPS = [
    # Taken or refused by the table of levels alone.
    ("fby-right", "1 fby 2 fby 3"), ("fby-left-bracket", "(1 fby 2) fby 3"), ("fby-in-if", "if 1 fby 2 then 3 else 4"),
    ("fby-in-then", "if true then 1 fby 2 else 3"), ("fby-after-else", "if true then 1 else 2 fby 3"),
    ("fby-right-asa", "1 fby 2 asa true"), ("fby-left-asa", "1 asa true fby 2"), ("fby-first", "fby 1"),
    ("fby-last", "1 fby"), ("fby-twice", "1 fby fby 2"), ("asa-twice", "1 asa true asa true"),
    ("asa-left-bracket", "(1 asa true) asa true"), ("asa-right-bracket", "1 asa (true asa true)"),
    ("asa-in-if", "if true asa true then 1 else 2"), ("asa-in-then", "if true then 1 asa true else 2"),
    ("asa-after-else", "if true then 1 else 2 asa true"), ("asa-right-if", "1 asa if true then true else false"),
    ("asa-right-fby", "1 asa false fby true"), ("asa-right-not", "1 asa not false"),
    ("if-no-else", "if true then 1"), ("if-no-then", "if true else 1"), ("if-two-thens", "if true then 1 then 2"),
    ("if-then-if", "if true then if false then 1 else 2 else 3"), ("if-else-if", "if false then 1 else if true then 2 else 3"),
    ("if-if", "if if true then false else true then 1 else 2"), ("if-else-or", "if true then false else true or true"),
    ("if-right-of-or", "true or if true then true else false"), ("if-left-of-or", "if false then true else false or true"),
    ("if-right-of-and", "true and if true then true else false"), ("if-right-of-plus", "1 + if true then 1 else 2"),
    ("if-right-of-eq", "1 eq if true then 1 else 2"), ("if-under-not", "not if true then true else false"),
    ("if-under-minus", "- if true then 1 else 2"), ("if-under-next", "next if true then 1 else 2"),
    ("if-right-of-asa", "1 asa if true then true else true"), ("if-right-of-fby", "1 fby if true then 1 else 2"),
    ("if-left-of-asa", "if true then 1 else 2 asa true"), ("if-else-end", "if true then 1 else"),
    ("or-left", "1 / 0 eq 1 or false or true"), ("or-and", "true or true and false"), ("and-or", "false and true or true"),
    ("or-last", "true or"), ("or-first", "or true"), ("or-or", "true or or true"), ("or-not", "false or not false"),
    ("and-not", "true and not true"), ("not-and", "not true and false"), ("not-or", "not true or true"),
    ("not-not", "not not true"), ("not-eq", "not 1 eq 2"), ("not-last", "not"), ("not-bracket", "not (true) and false"),
    ("eq-eq", "1 eq 1 eq 1"), ("lt-gt", "1 lt 2 gt 1"), ("eq-bracket", "(1 eq 1) eq true"), ("eq-bracket-right", "true eq (1 eq 1)"),
    ("eq-not", "true eq not false"), ("eq-and-eq", "1 eq 1 and 2 eq 2"), ("eq-plus", "1 + 1 eq 3 - 1"), ("eq-first", "eq 1"),
    ("eq-last", "1 eq"), ("minus-left", "9 - 3 - 2"), ("minus-bracket", "9 - (3 - 2)"), ("divide-left", "100 / 10 / 5"),
    ("divide-bracket", "100 / (10 / 5)"), ("mixed", "2 + 3 * 4 - 8 / 2"), ("times-plus", "2 * 3 + 4 * 5"), ("plus-not", "1 + not true"),
    ("plus-minus", "1 + - 2"), ("minus-minus", "1 - - - 2"), ("times-minus", "3 * - 2"), ("minus-times", "- 3 * 2"),
    ("minus-times-zero", "- 0 * 2"), ("plus-first", "+ 1"), ("plus-plus", "1 + + 1"), ("times-first", "* 1"), ("times-times", "1 * * 1"),
    ("slash-last", "1 /"), ("minus-last", "1 -"), ("prefix-minus-last", "-"), ("first-not", "first not true"),
    ("next-plus", "next input + input"), ("first-next", "first next input"), ("next-first", "next first input"),
    ("next-minus", "next - input"), ("minus-next", "- next input"), ("first-last", "first"), ("next-last", "next"),
    ("first-bracket", "first (input + 1)"), ("next-eq", "next input eq 1"), ("next-fby", "next input fby input"),
    ("fby-next", "input fby next input"), ("empty-bracket", "()"), ("open-only", "("), ("close-only", ")"), ("close-extra", "(1))"),
    ("close-missing", "((1)"), ("bracket-juxtaposed", "(1)(2)"), ("bracket-after-literal", "2 (3)"), ("name-bracket", "result (1)"),
    ("bracket-fby", "2 * (3 fby 4)"), ("bracket-asa", "2 * (3 asa true)"), ("bracket-if", "2 * (if true then 3 else 4)"),
    ("bracket-or", "not (false or false)"), ("true-true", "true true"), ("true-plus", "true + 1"), ("then-first", "then 1"),
    ("else-after-value", "1 else 2"), ("then-after-value", "1 then 2"), ("compute-inside", "compute output where a = 1 end"),
    ("literal-first", "1 first 2"), ("literal-not", "1 not true"), ("literal-if", "1 if true then 1 else 2"), ("literal-next", "1 next 2"),
    ("latest", "latest 1"), ("power", "2 ** 3"), ("where-inside", "1 where a = 1 end"), ("comma", "1, 2"),
]


def grammar_levels():
    two = whole([(7, 2, 3), (1, 5, 2)])
    for name, expression in LEVEL_TRAPS:
        result("level-" + name, expression, two)
    binary = ["fby", "asa", "or", "and", "eq", "gt", "+", "-", "*", "/"]
    prefix = ["not", "-", "first", "next", "if true then input2 else"]
    label = {"+": "plus", "-": "minus", "*": "times", "/": "slash", prefix[4]: "if"}
    named = lambda word: label.get(word, word)
    for one in binary:
        for two_ in binary:
            result("pair-%s-%s" % (named(one), named(two_)), "input %s input1 %s input2" % (one, two_), two)
        for mark in prefix:
            result("prefix-%s-%s" % (named(mark), named(one)), "%s input %s input1" % (mark, one), two)
            result("infix-%s-%s" % (named(one), named(mark)), "input %s %s input1" % (one, mark), two)
    for one in prefix[:4]:
        for two_ in prefix:
            result("prefixes-%s-%s" % (named(one), named(two_)), "%s %s input" % (one, two_), two)


def brackets():
    for n in (1, 15, 16, 17, 18, 100, 2000):
        result("br%d" % n, "(" * n + "1" + ")" * n)
    result("br17then2", "(" * 17 + "$")
    result("br16then2", "(" * 16 + "$")
    result("br17bad3", "(" * 16 + "1 (")
    result("br17notopen", "(" * 16 + "1" + ")" * 17)
    result("br16twice", "(" * 16 + "1" + ")" * 16 + " + " + "(" * 16 + "2" + ")" * 16)
    result("br16close1open1", "(" * 16 + "1" + ") + (2" + ")" * 16)
    result("br16close1open2", "(" * 16 + "1" + ") + ((2" + ")" * 17)
    equations("br16-next-equation", "a = %s; result = %s" % ("(" * 16 + "1" + ")" * 16, "(" * 16 + "a" + ")" * 16))
    result("br17-in-condition", "if " + "(" * 17 + "true" + ")" * 17 + " then 1 else 2")
    result("br16-open-end", "(" * 16)
    result("br17-open-end", "(" * 17)
    result("br-around-name", "(((result)))")


def deep():
    result("unary4000", "-" * 4000 + "1")
    result("unary4000-no-operand", "-" * 4000)
    result("unary4000-bad", "-" * 4000 + "$")
    result("unary4000-three", "-" * 4000 + "1 1")
    result("not900", "not " * 900 + "true")
    result("next800", "next " * 800 + "input")
    result("if_nest_cond1300", "if " * 1300 + "1")
    result("if_nest_cond180", "if " * 180 + "true" + " then 1 else 2" * 180)
    result("if_nest_else200", "if true then 1 else " * 200 + "2")
    result("if_nest_then150", "if true then " * 150 + "1" + " else 2" * 150)
    result("fby700", "1fby " * 700 + "1")
    result("or500", "true or " * 500 + "true")
    result("plus1900", "1+" * 1900 + "1")


# -------------------------------------------------------- rows, 5 to 9


def many_equations(count, last="result = 1"):
    return "; ".join(["e%d = 1" % n for n in range(count - 1)] + [last])


def row_limits():
    equations("eq32", many_equations(32))
    equations("eq33", many_equations(33))
    equations("eq34", many_equations(34))
    equations("eq100", many_equations(100))
    equations("eq33chan", many_equations(33, "input = 1"))
    equations("eq33-again", many_equations(33, "e0 = 1"))
    equations("eq33-no-result", many_equations(33, "z = 1"))
    equations("eq32-again", many_equations(32, "e0 = 1"))
    equations("eq32-chan", many_equations(32, "input5 = 1"))
    equations("eq33-undefined", "a = nope; " + many_equations(32))
    equations("eq33rows65", "a = " + "-" * 70 + "1; " + many_equations(32))
    equations("eq33-bad-ring", "a = a; " + many_equations(32))
    equations("eq33-then-three", many_equations(33) + " 1")
    equations("eq33-then-two", many_equations(33) + " $")
    for n in (62, 63, 64, 65):
        result("rows%d-prefix" % (n + 1), "-" * n + "1")
    result("rows63-plus", "+".join(["1"] * 32))
    result("rows65-plus", "+".join(["1"] * 33))
    result("rows64-channels", "-" + "(" + "+".join(["input"] * 32) + ")")
    result("rows65-channels", "--" + "(" + "+".join(["input"] * 32) + ")")
    equations("rows65first", "a = %s1; result = %s1" % ("-" * 62, "-" * 2))
    equations("rows64-two", "a = %s1; result = %s1" % ("-" * 61, "-" * 1))
    equations("rows65-in-first", "a = %s1; result = 1" % ("-" * 64))
    equations("rows65-in-second", "a = %s1; b = %s1; result = 1" % ("-" * 40, "-" * 40))
    equations("rows65-in-third", "a = %s1; b = %s1; c = %s1; result = 1" % ("-" * 20, "-" * 20, "-" * 40))
    equations("rows65-in-last", "; ".join("e%d = -1" % n for n in range(31)) + "; result = --1")
    equations("rows64-32", "; ".join("e%d = -1" % n for n in range(31)) + "; result = -1")
    equations("rows65-in-31st", "; ".join("e%d = -1" % n for n in range(30)) + "; y = ---1; result = 1")
    equations("rows65-names", "a = 1; result = " + "+".join(["a"] * 65))
    equations("rows64-names", "a = 1; result = " + "+".join(["a"] * 64))
    equations("rows65-undefined-names", "result = " + "+".join(["q"] * 66))
    equations("rows64-undefined-names", "result = " + "+".join(["q"] * 65))
    equations("rows64-brackets", "result = " + "-" * 47 + "(" * 16 + "-" * 16 + "1" + ")" * 16)
    equations("rows65-again", "a = 1; a = 2; result = " + "-" * 62 + "1")
    equations("rows64-again", "a = 1; a = 2; result = " + "-" * 61 + "1")
    equations("chan-operand-row65", "input = 1; result = " + "-" * 63 + "input")
    equations("chan-operand-row64", "input = 1; result = " + "-" * 62 + "input")
    equations("rows64-bare", "; ".join("e%d = result" % n for n in range(31)) + "; result = " + "-" * 32 + "1")
    equations("rows65-bare", "; ".join("e%d = result" % n for n in range(31)) + "; result = " + "-" * 33 + "1")


def definitions():
    equations("six-second", "a = 1; a = 2; result = 3")
    equations("six-third", "a = 1; b = 2; a = 3; b = 4; result = 3")
    equations("six-result", "result = 1; result = 2")
    equations("six-result-capitals", "result = 1; RESULT = 2")
    equations("six-channel", "input1 = 1; result = 2")
    equations("six-channel-twice", "input = 1; input = 2; result = 1")
    equations("six-channel-before-again", "a = 1; input = 2; a = 3; result = 1")
    equations("six-again-before-channel", "a = 1; a = 3; input = 2; result = 1")
    for word in ("input", "INPUT", "input1", "input7", "Input7"):
        equations("six-" + word, "result = 1; %s = 2" % word)
    equations("six-unread", "a = 1; result = 2; a = nope")
    equations("six-before-seven", "a = 1; a = 2")
    equations("six-before-eight", "a = nope; a = 2; result = 1")
    equations("six-before-nine", "a = a; a = 2; result = 1")
    equations("seven", "a = 1")
    equations("seven-before-eight", "a = nope")
    equations("seven-before-nine", "a = a")
    equations("seven-use-only", "a = result")
    case("seven-place", "compute output where\n  a = 1;\n  b = 2\nEND \n")
    equations("seven-capitals", "RESULT = 1")
    equations("seven-results", "results = 1; resul = 2")
    equations("eight", "result = nope")
    equations("eight-unread", "a = nope; result = 1")
    equations("eight-unread-later", "result = 1; a = nope")
    equations("eight-earliest", "result = b + 1; a = c; b = d")
    equations("eight-in-fby", "result = 1 fby x fby y")
    equations("eight-in-if", "result = if p then q else r")
    equations("eight-in-operands", "result = 1 + - next first (2 * zed)")
    equations("eight-bracketed", "result = ((who))")
    equations("eight-before-nine", "a = a; result = nope")
    equations("eight-order", "b = 1; result = b - zed * yod")


RINGS = [
    # body, and whether the ring test takes it can be seen in the list
    ("self", "result = result"), ("self-bracket", "result = (result)"), ("two-names", "a = b; b = a; result = 1"),
    ("three-names", "a = b; b = c; c = a; result = 1"), ("first", "result = first result"), ("next", "result = next result"),
    ("fby", "result = 0 fby result"), ("fby-left", "result = result fby 0"), ("fby-both", "result = result fby result"),
    ("fby-next", "result = 0 fby next result"), ("fby-first", "result = 0 fby first result"),
    ("fby-fby-next", "result = 0 fby 1 fby next result"), ("fby-fby-next-next", "result = 0 fby 1 fby next next result"),
    ("fby-next-next", "result = 0 fby next next result"), ("next-fby", "result = next (0 fby result)"),
    ("next-fby-fby", "result = next (0 fby 1 fby result + 1)"), ("first-fby-next", "result = first (0 fby next result)"),
    ("if-branch", "result = if true then 1 else result"), ("if-condition", "result = if result then 1 else 2"),
    ("and", "result = false and result"), ("or", "result = true or result"), ("plus", "result = result + 0"),
    ("asa-left", "result = result asa true"), ("asa-right", "result = 1 asa result"), ("asa-fby", "result = 0 fby (result asa true)"),
    ("asa-fby-right", "result = 0 fby (1 asa result eq 0)"), ("asa-many-fby", "result = 0 fby 0 fby 0 fby (result asa true)"),
    ("asa-two", "a = b asa true; b = 0 fby a; result = 1"), ("unread", "a = a + 1; result = 1"),
    ("unread-two", "result = 1; a = b; b = next c; c = 0 fby a"), ("unread-good", "result = 1; a = b; b = c; c = 0 fby a + 1"),
    ("two-fby", "a = 0 fby b; b = 0 fby a; result = a"), ("two-fby-next", "a = 0 fby b; b = 0 fby next a; result = a"),
    ("two-fby-next-next", "a = 0 fby b; b = 0 fby next next a; result = a"), ("swap", "a = 1 fby b; b = 2 fby a; result = a - b"),
    ("figure-eight", "a = 0 fby (a + b); b = 1 fby (a + b); result = a"), ("one-good-one-bad", "a = 0 fby a + b; b = next a; result = a"),
    ("fby-right-left", "result = (0 fby result) fby 1"), ("fby-left-next", "result = (0 fby result) fby next 1"),
    ("factorial", "n = 1 fby n + 1; result = 1 fby result * n"), ("fib", "result = 1 fby 1 fby result + next result"),
    ("fib-good", "a = 1 fby b; b = 1 fby a + b; result = a"), ("asa-chain", "a = input asa input gt 0; result = a asa a gt 0"),
    ("case", "Result = 0 fby RESULT + 1"), ("parallel", "a = 0 fby b + b; b = a + next a; result = a"),
    ("parallel-good", "a = 0 fby (0 fby b); b = a + next a; result = a"), ("parallel-bad", "a = 0 fby (0 fby b); b = a + next next a; result = a"),
]


def rings():
    data = whole([1, 2, 3, 4])
    for name, body in RINGS:
        equations("ring-" + name, body, data)
    equations("ring-64", "result = " + "first " * 64 + "result")
    equations("ring-65-rows", "result = " + "first " * 65 + "result")
    equations("ring-63-fby", "result = 0 fby " + "-" * 62 + "result")
    equations("ring-62-fby-next", "result = 0 fby " + "-" * 59 + "next (0 fby result)")
    equations("ring-62-bad", "result = 0 fby " + "-" * 60 + "next result")
    equations("ring-32-names", "; ".join("a%d = a%d" % (n, n + 1) for n in range(31)) + "; a31 = a0; result = 1")
    chain = "; ".join("a%d = a%d" % (n, n + 1) for n in range(30))
    equations("ring-31-names", chain + "; a30 = a0; result = 1")
    equations("ring-31-names-fby", chain + "; a30 = 0 fby a0 + 1; result = a15", data)
    equations("ring-30-fby-29-next", "result = " + "0 fby " * 20 + "next " * 19 + "result", data)
    equations("ring-20-fby-20-next", "result = " + "0 fby " * 20 + "next " * 20 + "result", data)
    equations("bare-chain", "a = b; b = (c); c = input / 0; result = a", data)


# ------------------------------------------------- leads, depths, stages

PLANS = [
    ("look-ahead-2", "a = input; result = a + next next a"),
    ("next-next-next", "result = next next next input"),
    ("next-named", "a = next input; b = next a; result = b + input"),
    ("fby-over-next", "result = 0 fby next input"),
    ("next-over-fby", "result = next (0 fby input)"),
    ("next-over-fby-fby", "result = next (10 fby 20 fby input)"),
    ("fby-next-next", "result = 0 fby next next input"),
    ("fby-fby-next", "result = 8 fby 9 fby next input"),
    ("first-of-next", "result = first next next input"),
    ("first-of-fby", "result = first (input fby input1)"),
    ("next-of-first", "result = next first input"),
    ("first-later", "a = next next input; result = first a + a"),
    ("old-and-new", "a = input; b = 0 fby 0 fby a; result = b - next a"),
    ("delays-5", "result = 1 fby 2 fby 3 fby 4 fby 5 fby input"),
    ("x-fby-x", "x = input; result = x fby x"),
    ("x-fby-x-next", "x = input; result = next (x fby x)"),
    ("lead-of-result", "result = input + 0; a = next next next result"),
    ("lead-of-unread", "result = 1; a = next next input"),
    ("lead-negative", "result = 0 fby 0 fby input; b = next result"),
    ("lead-shared", "a = input; b = next a; c = next b; d = next c; result = a + b + c + d"),
    ("lead-through-ring", "n = 0 fby n + next next input; result = n"),
    ("lead-ring-two", "a = 0 fby 0 fby next (a + 1); result = next a"),
    ("asa-next", "result = next (input asa input gt 2)"),
    ("asa-of-next", "result = next input asa input gt 2"),
    ("asa-right-next", "result = input asa next input gt 3"),
    ("asa-right-next-next", "result = input asa next next input gt 5"),
    ("asa-sides-lead", "x = input; a = next next x; result = x asa a gt 4"),
    ("asa-both-same", "x = input gt 1; result = x asa x"),
    ("asa-unread-stage", "a = input asa true; result = 1"),
    ("asa-stage-2", "a = input asa input gt 1; result = input asa input gt a"),
    ("asa-stage-3", "a = input asa input gt 1; b = input asa input gt a; result = input asa input gt b"),
    ("asa-stage-3-unreached", "a = input asa input gt 1; b = input asa input gt a; result = input asa input gt b + 100"),
    ("asa-nested-left", "result = ((input asa input gt 1) + 1) asa input gt 2"),
    ("asa-nested-right", "result = input asa ((input gt 1) asa input gt 0)"),
    ("asa-nested-both", "result = (input asa input gt 1) asa (true asa input gt 0)"),
    ("asa-nested-4", "result = ((((input asa true) asa true) asa true) asa true)"),
    ("asa-same-stage", "a = input asa input gt 1; b = input asa input gt 3; result = a * 10 + b"),
    ("asa-in-fby", "result = (input asa input gt 2) fby (input asa input gt 3)"),
    ("asa-in-loop", "n = 0 fby n + a; a = input asa input gt 2; result = n"),
    ("asa-over-loop", "n = 0 fby n + input; result = n asa n gt 5"),
    ("asa-over-asa-loop", "n = 0 fby n + a; a = input asa input gt 2; result = n asa n gt 8"),
    ("asa-first", "result = first (input asa input gt 2) + first input"),
    ("asa-if", "result = if input gt 2 then input asa input gt 4 else 0"),
    ("asa-lead-stage", "a = next (input asa next input gt 3); result = next input asa next a gt 1"),
    ("asa-never", "result = input asa false"),
    ("asa-at-once", "result = input asa true"),
    ("asa-last-tick", "result = input asa input gt 5"),
    ("asa-past-horizon", "n = 0 fby n + 1; result = n asa n gt 5"),
    ("asa-last-by-count", "n = 0 fby n + 1; result = n asa n gt 4"),
    ("asa-left-past-horizon", "result = next next input asa input gt 5"),
    ("sum", "n = 0 fby n + input; r = n asa n gt 5; result = if n lt r then n else r"),
]


def plans():
    data = whole([(1, 6), (2, 5), (3, 4), (4, 3), (5, 2), (6, 1)])
    for name, body in PLANS:
        equations("plan-" + name, body, data)
    body = PLANS[-1][1]
    equations("a-5", body, whole([2, 3, 4, 1, 0]))
    equations("a-4", body, whole([2, 3, 4, 1]))
    equations("a-3", body, whole([2, 3, 4]))
    equations("next-7-8-9", "result = next input", whole([7, 8, 9]))
    equations("look-ahead-h2", "a = input; result = a + next next a", whole([1, 2]))
    equations("look-ahead-h4", "a = input; result = a + next next a", whole([1, 2, 3, 4]))
    ticks = whole(list(range(70)))
    result("lead-62", "next " * 62 + "input", ticks)
    result("lead-63", "next " * 63 + "input", ticks)
    result("lead-31-fby-31", "next " * 21 + "(" + "0 fby " * 20 + "input)", whole([5, 6, 7]))
    result("delay-31", "0 fby " * 31 + "input", whole(list(range(100, 140))))
    equations("ahead-and-behind", "x = input; a = %s x; result = %s x + a" % ("next " * 20, "0 fby " * 15), whole(list(range(30))))
    result("stages-12", "(" * 12 + "input" + " asa true)" * 12, whole([4]))
    equations("stages-20", "; ".join(["a0 = input asa true"] + ["a%d = a%d asa a%d gt 0" % (n, n - 1, n - 1) for n in range(1, 20)])
              + "; result = a19", whole([4, 5]))


# ---------------------------------------------------------------- readings

READINGS = [
    # booleans and faults
    ("false-and-fault", "false and 1 / 0 eq 1"), ("fault-and-false", "1 / 0 eq 1 and false"), ("number-and-false", "3 and false"),
    ("false-and-number", "false and 3"), ("number-and-true", "3 and true"), ("true-and-number", "true and 3"), ("number-and-number", "3 and 4"),
    ("number-and-fault", "3 and 1 / 0 eq 1"), ("fault-and-number", "1 / 0 eq 1 and 3"), ("true-and-fault", "true and 1 / 0 eq 1"),
    ("fault-and-true", "1 / 0 eq 1 and true"), ("true-and-true", "true and true"), ("and-two-faults", "1 + true and 1 / 0 eq 1"),
    ("and-two-faults-2", "1 / 0 eq 1 and 1 + true eq 1"), ("true-or-fault", "true or 1 / 0 eq 1"), ("fault-or-true", "1 / 0 eq 1 or true"),
    ("number-or-true", "3 or true"), ("true-or-number", "true or 3"), ("number-or-false", "3 or false"), ("false-or-number", "false or 3"),
    ("number-or-fault", "3 or 1 / 0 eq 1"), ("fault-or-false", "1 / 0 eq 1 or false"), ("false-or-fault", "false or 1 / 0 eq 1"),
    ("false-or-false", "false or false"), ("or-two-faults", "1 + true or 1 / 0 eq 1"), ("or-two-faults-2", "1 / 0 eq 1 or 1 + true eq 1"),
    ("or-number-number", "3 or 4"), ("not-number", "not 3"), ("not-fault", "not (1 / 0 eq 1)"), ("not-false", "not false"),
    ("if-number", "if 1 then 2 else 3"), ("if-fault", "if 1 / 0 eq 1 then 2 else 3"), ("if-other-fault", "if true then 2 else 1 / 0"),
    ("if-chosen-fault", "if false then 2 else 1 / 0"), ("if-mixed", "if input gt 1 then true else 5"),
    # faults of the kind, left before right
    ("left-then-right", "1 / 0 + (1 + true)"), ("right-only", "1 + 1 / 0"), ("true-plus-fault", "true + 1 / 0"), ("fault-plus-true", "1 / 0 + true"),
    ("true-slash-zero", "true / 0"), ("zero-slash-true", "0 / true"), ("true-slash-false", "true / false"), ("one-slash-zero", "1 / 0"),
    ("zero-slash-zero", "0 / 0"), ("minus-true", "- true"), ("minus-fault", "- (1 / 0)"), ("true-times-true", "true * true"),
    ("true-eq-true", "true eq true"), ("true-eq-false", "true eq false"), ("true-ne-false", "true ne false"), ("true-ne-true", "true ne true"),
    ("false-eq-false", "false eq false"), ("true-eq-one", "true eq 1"), ("zero-ne-false", "0 ne false"), ("true-lt-false", "true lt false"),
    ("true-le-true", "true le true"), ("one-gt-false", "1 gt false"), ("true-ge-one", "true ge 1"), ("fault-eq-fault", "1 / 0 eq 1 / 0"),
    ("fault-eq-itself", "(1 / 0) eq (1 / 0)"),
    # births through next, first, fby, asa, if and names
    ("birth-next", "next (10 / (input - 3))"), ("birth-next-next", "next next (10 / (input - 3))"), ("birth-first", "first (10 / (input - 1))"),
    ("birth-first-next", "first next (10 / (input - 2))"), ("birth-fby-left", "(10 / 0) fby 1"), ("birth-fby-right", "1 fby 10 / (input - 2)"),
    ("birth-fby-kept", "1 fby 10 / (input - 4)"), ("birth-asa-left", "10 / (input - 3) asa input eq 3"), ("birth-asa-right", "input asa 10 / (input - 2) gt 100"),
    ("birth-asa-number", "input asa (if input lt 3 then false else 7)"), ("birth-asa-number-0", "input asa 7"), ("birth-asa-unreached", "1 + (input asa input gt 9)"),
    ("birth-asa-in-asa", "1 asa ((input asa false) eq 1)"), ("birth-if", "if input lt 3 then input else 10 / 0"), ("birth-if-number", "if input then 1 else 2"),
    ("birth-next-channel", "next next input"), ("birth-ended-channel", "input3"), ("birth-ended-next", "next input3"), ("birth-ended-first", "first input3"),
    ("birth-ended-fby", "0 fby input3"), ("birth-ended-asa", "input3 asa input gt 2"), ("birth-ended-cond", "input asa input3 gt 2"),
    ("birth-past-end-asa", "next next input asa input gt 3"), ("birth-past-end-cond", "input asa next input gt 100"),
    # whole numbers
    ("div-7-m2", "7 / (0 - 2)"), ("div-m7-2", "(0 - 7) / 2"), ("div-m7-m2", "- 7 / - 2"), ("div-7-2", "7 / 2"), ("div-m1-max", "- 1 / 2147483647"),
    ("div-1-max", "1 / 2147483647"), ("div-max-1", "2147483647 / 1"), ("div-min-m1", "- 2147483647 / - 1"), ("div-0-5", "0 / - 5"),
    ("plus-over", "2147483647 + 1"), ("plus-max", "2147483646 + 1"), ("minus-over", "- 2147483647 - 1"), ("minus-min", "- 2147483646 - 1"),
    ("times-over", "65536 * 32768"), ("times-max", "2147483647 * 1"), ("times-min", "2147483647 * - 1"), ("times-2-32", "65536 * 65536"),
    ("times-2-62", "2147483647 * 2147483647"), ("times-neg-over", "- 65536 * 32768"), ("times-2-64", "2147483647 * 2147483647 * 4"), ("minus-minus-max", "- - 2147483647"),
    ("over-then-back", "2147483647 + 1 - 1"), ("over-and-false", "2147483647 + 1 gt 0 and false"), ("neg-zero", "- 0"), ("lt", "1 lt 2"), ("lt-equal", "2 lt 2"),
    ("le-equal", "2 le 2"), ("le-greater", "3 le 2"), ("gt-equal", "2 gt 2"), ("gt", "3 gt - 3"), ("ge-equal", "2 ge 2"), ("ge-less", "- 3 ge - 2"), ("eq-neg", "- 3 eq 0 - 3"),
    ("ne", "1 ne 2"), ("ne-equal", "2 ne 2"),
]


def readings():
    data = whole([1, 2, 3, 4])
    for name, expression in READINGS:
        result("read-" + name, expression, data)
        if not name.startswith(("birth", "if-")):
            continue
        result("rate-" + name, expression, rate([1.0, 2.0, 3.0, 4.0]))
    equations("read-copy-birth", "a = b; b = 1 / 0; result = next a", data)
    equations("read-two-readers", "a = 10 / (input - 2); b = next a; result = if input eq 1 then b else a", data)
    equations("read-fault-loop", "n = 0 fby n + 10 / (input - 2); result = n", data)
    equations("read-overflow-loop", "n = 1 fby n * 2; result = n", whole([0] * 36))
    equations("read-overflow-negative", "n = - 1 fby n * 2; result = n", whole([0] * 36))
    equations("read-fact", "n = 1 fby n + 1; result = 1 fby result * next n", whole([0] * 16))
    equations("read-fib", "a = 0 fby b; b = 1 fby a + b; result = a", whole([0] * 50))
    equations("read-toggle", "result = true fby not result", whole([0] * 5))
    equations("read-kinds-mixed", "result = 1 fby true fby 2 fby result eq result", whole([0] * 6))
    for kind, make in (("whole", whole), ("rate", rate)):
        one = make([0])
        for name, expression in (("5", "1 / 0"), ("4", "1 + true"), ("1", "1 asa false"), ("2", "next input"), ("6", "input")):
            source = one if name != "6" else (whole([2**40]) if kind == "whole" else rate([0x7FF0000000000000]))
            result("fault-%s-%s" % (name, kind), expression, source)
        result("fault-3-%s" % kind, "input", make([None, 1]))


# ------------------------------------------------------------------- kinds


def words():
    edge = [0, 1, -1, 2**31 - 1, 2**31, -(2**31) + 1, -(2**31), 2**32, 2**32 + 5, -(2**32), 2**63 - 1, -(2**63), 255, 256, -256,
            2**33 - 1, -(2**33) + 7, 2**40, 0x00000000FFFFFFFF, -2**62]
    result("words-whole", "input", whole(edge))
    result("words-whole-neg", "- input", whole(edge))
    result("words-whole-next", "next input", whole(edge))
    result("words-whole-first", "first next next next next input", whole(edge))
    bits = [0, 1 << 63, 1, 0x8000000000000001, 0x000FFFFFFFFFFFFF, 0x0010000000000000, 0x3FF0000000000000, 0xBFF0000000000000,
            0x7FEFFFFFFFFFFFFF, 0xFFEFFFFFFFFFFFFF, 0x7FF0000000000000, 0xFFF0000000000000, 0x7FF0000000000001, 0x7FF8000000000000,
            0xFFF8000000000000, 0x7FFFFFFFFFFFFFFF, 0xFFFFFFFFFFFFFFFF, 0xFFF0000000000001, 0x7FF4DEADBEEF0000, 0x4340000000000000, 0x0123456789ABCDEF]
    for name, expression in (("", "input"), ("-neg", "- input"), ("-neg-neg", "- - input"), ("-plus-zero", "input + 0"), ("-minus-zero", "input - 0"),
                             ("-zero-minus", "0 - input"), ("-times-one", "input * 1"), ("-halved", "input / 2"), ("-doubled", "input * 2"),
                             ("-divisor", "1 / input"), ("-eq-zero", "input eq 0"), ("-lt-neg-zero", "input lt - 0"), ("-self", "input eq input"),
                             ("-zero-over", "0 / input"), ("-max-times", "2147483647 * input")):
        result("words-rate" + name, expression, rate(bits))


def slug(expression):
    """A case's name from an expression."""
    signs = {"/": "slash", "*": "times", "+": "plus", "-": "minus"}
    return "-".join(signs.get(word, word) for word in expression.split())


EDGE_RATES = [
    0.0, -0.0, 5e-324, -5e-324, 2.2250738585072009e-308, 2.2250738585072014e-308, 1.0, -1.0, 1.0000000000000002, 0.9999999999999999,
    1.1102230246251565e-16, 2.220446049250313e-16, 0.1, 3.0, 9007199254740992.0, 9007199254740993.0, 1.7976931348623157e308,
    -1.7976931348623157e308, 8.98846567431158e307, 9.9792015476736e291, 1e-160, -1e160, 2147483647.0, 1.5,
]

TIES = [
    # pairs whose sum, product or quotient lies at or near the middle of two rates
    (1.0, 1.1102230246251565e-16), (1.0000000000000002, 1.1102230246251565e-16), (1.0, 1.1102230246251568e-16), (1.0, -5.551115123125783e-17),
    (9007199254740992.0, 1.0), (9007199254740994.0, 1.0), (9007199254740992.0, -0.5), (9007199254740993.0, 3.0),
    (1.7976931348623157e308, 9.9792015476735990e291), (1.7976931348623157e308, 9.979201547673598e291), (8.98846567431158e307, 2.0),
    (8.988465674311579e307, 2.0), (5e-324, 0.5), (5e-324, 0.5000000000000001), (1.5e-323, 0.5), (2.2250738585072014e-308, 0.5),
    (2.225073858507201e-308, 0.5), (2.2250738585072014e-308, 0.9999999999999999), (4.450147717014403e-308, 0.49999999999999994),
    (1e-200, 1e-200), (1e200, 1e200), (-1e200, 1e200), (1.0, 3.0), (2.0, 3.0), (1.0, 49.0), (5.0, 1e-310), (1e-310, 1e300), (1.0, 5e-324), (5e-324, 2.0),
    (1.0000000000000002, 1.0000000000000002), (1.0000001490116119, 1.0000001490116119), (134217729.0, 134217729.0), (0.1, 0.2), (0.1, 0.1), (0.3, -0.1),
    (1e16, 2.9999), (3.0, 1e-16), (6.626e-34, 6.022e23), (4.9406564584124654e-324, 1.7976931348623157e308),
]


def rates():
    pairs = [(a, b) for n, a in enumerate(EDGE_RATES) for b in EDGE_RATES[n % 3 :: 3]]
    dice = random.Random(754)
    mixed = list(TIES) + [(b, a) for a, b in TIES]
    for _ in range(60):
        exponent = dice.randrange(1, 2046)
        near = min(2046, max(0, exponent + dice.randrange(-56, 57)))
        bits = [dice.getrandbits(1) << 63 | e << 52 | dice.getrandbits(52) for e in (exponent, near)]
        mixed.append(tuple(bits))
    for _ in range(30):
        bits = [dice.getrandbits(1) << 63 | dice.randrange(0, 1100) << 52 | dice.getrandbits(52) for _ in range(2)]
        mixed.append(tuple(bits))
    for name, op in (("plus", "+"), ("minus", "-"), ("times", "*"), ("slash", "/")):
        result("rates-edge-" + name, "input %s input1" % op, rate(pairs))
        result("rates-ties-" + name, "input %s input1" % op, rate(mixed))
    few = [(a, b) for a in EDGE_RATES[:4] + [1.0, -1.0, 1.7976931348623157e308] for b in EDGE_RATES[:4] + [1.0, -1.0]]
    for op in reference.RELATIONS:
        result("rates-" + op, "input %s input1" % op, rate(few))
    a, b = 1.0 + 2.0**-27, 1.0 - 2.0**-27
    fused = [(a, b, -1.0), (a, a, -1.0), (a, a, -(a * a)), (0.1, 10.0, -1.0), (1e200, 1e200, -1e308), (134217729.0, 134217729.0, -18014398777917440.0),
             (1e-200, 1e-200, 5e-324), (3.0, 1 / 3, -1.0), (1.7976931348623157e308, 2.0, -1.7976931348623157e308)]
    result("nomul_add_fuse", "input * input1 + input2", rate(fused))
    result("nomul_sub_fuse", "input2 + input * input1", rate(fused))
    result("nomul_neg_fuse", "input2 - - input * input1", rate(fused))
    result("nomul_div", "input * input1 / input1 - input", rate(fused))
    result("rates-sum-order", "input + input1 + input2", rate([(1e16, 1.0, 1.0), (1.0, 1.0, 1e16), (1e308, 1e308, -1e308), (0.1, 0.2, 0.3), (-0.0, -0.0, 0.0), (-0.0, -0.0, -0.0)]))
    result("rates-sum-right", "input + (input1 + input2)", rate([(1e16, 1.0, 1.0), (1.0, 1.0, 1e16), (1e308, 1e308, -1e308), (0.1, 0.2, 0.3), (-0.0, -0.0, 0.0)]))
    equations("rates-harmonic", "n = 1 fby n + 1; result = 0 fby result + 1 / n", rate([0.0] * 40))
    equations("rates-newton", "result = 1 fby (result + 2 / result) / 2", rate([0.0] * 8))
    equations("rates-halving", "result = 1 fby result / 2147483647", rate([0.0] * 40))
    equations("rates-doubling", "result = 1 fby result * 2147483647", rate([0.0] * 40))
    equations("rates-literals", "n = 0 fby n + 1; result = if n eq 0 then 2147483647 else if n eq 1 then 1 / 3 else - 16777217", rate([0.0] * 3))
    for expression in ("true / 0", "1 / - 0", "0 / 0", "- 0", "0 - 0", "0 * - 1", "- 0 + 0", "- 0 - 0", "- 0 eq 0", "- true", "true eq 1", "true eq true",
                       "1 lt true", "not 0", "7 / 2", "- 7 / 2", "1 / 3 * 3 eq 1"):
        result("rates-of-" + slug(expression), expression, rate([0.0]))


# ----------------------------------------------------------------- sources


def recordings():
    good = wrap("result = input")
    one = whole([5])
    for n in range(6):
        case("trc-cut-%d" % n, good, one[:n])
    case("short-bad-kind", good, b"\7\1")
    case("short-bad-kind-5", good, b"\7\x09\xff\xff\xff")
    for kind in (2, 3, 127, 128, 255):
        case("trc-kind-%d" % kind, good, bytes([kind]) + one[1:])
    for channels in (0, 9, 10, 128, 255):
        case("trc-channels-%d" % channels, good, header(0, channels, 1) + b"\1" + bytes(8 * channels))
    for channels in range(1, 9):
        case("trc-channels-%d" % channels, wrap("result = input + input%d" % max(channels - 1, 1)),
             whole([tuple(range(10, 10 + channels)), tuple(range(20, 20 + channels))]))
        case("trc-past-channels-%d" % channels, wrap("result = input%d" % min(channels, 7)), whole([tuple(range(channels))]))
    case("trc-kind-before-channels", good, header(2, 9, 200000) + b"\2")
    case("trc-channels-before-ticks", good, header(0, 9, 200000) + b"\2")
    case("trc-ticks-before-length", good, header(1, 8, 100001) + b"\2")
    case("ticks0", good, header(0, 1, 0))
    case("ticks0-rate", good, header(1, 8, 0))
    case("ticks0-long", good, header(0, 1, 0) + b"\1")
    case("ticks0-text-bad", wrap("result = nope"), header(0, 1, 0))
    for ticks in (99999, 100000, 100001, 65536, 2**24, 2**31, 2**32 - 1):
        case("trc-ticks-%d" % ticks, good, header(0, 1, ticks) + one[6:])
    case("trc-ticks-100000-channels-8", good, header(1, 8, 100000))
    case("trc-length-short", good, one[:-1])
    case("trc-length-long", good, one + b"\0")
    case("trc-length-header", good, one[:6])
    case("trc-length-mark-only", good, one[:7])
    case("trc-length-two-ticks", good, header(0, 1, 2) + one[6:])
    case("trc-length-channels", good, header(0, 2, 1) + one[6:])
    case("trc-length-before-mark", good, header(0, 1, 2) + b"\7" + bytes(8))
    case("trc-length-16-bits", good, header(0, 1, 65537) + one[6:])
    for mark in (0, 1, 2, 3, 127, 128, 254, 255):
        case("trc-mark-%d" % mark, good, header(0, 1, 2) + b"\1" + struct.pack(">q", 5) + bytes([mark]) + struct.pack(">q", 6))
    case("trc-mark-first", good, header(0, 1, 2) + (b"\2" + bytes(8)) * 2)
    case("trc-mark-second", good, header(0, 3, 3) + b"\0" + bytes(24) + b"\x10" + bytes(24) + b"\x11" + bytes(24))
    case("trc-mark-last-8", good, header(1, 8, 4) + (b"\1" + bytes(64)) * 3 + b"\2" + bytes(64))
    case("trc-mark-words-free", good, header(0, 1, 3) + (b"\0" + b"\2" * 8) + (b"\1" + bytes(7) + b"\4") + (b"\0" + b"\xff" * 8))
    case("trc-marks-look-alike", good, header(0, 1, 2) + (b"\1" + b"\2" * 8) * 2)
    long_tick = b"\1" + struct.pack(">q", 1)
    case("over-length", good, header(0, 1, 7282) + long_tick * 7282)
    case("over-65536", good, header(0, 1, 7281) + long_tick * 7281 + b"\0")
    case("over-65537", good, header(0, 1, 7281) + long_tick * 7281 + b"\0\0")
    case("over-65534", good, (header(0, 1, 7281) + long_tick * 7281)[:-1])
    case("over-bad-kind", good, b"\2" + bytes(65536))
    case("over-bad-chan", good, b"\0\x09" + bytes(65535))
    case("over-bad-ticks", good, header(0, 1, 100001) + bytes(65531))
    case("over-bad-mark", good, header(0, 1, 7282) + b"\5" * 65538)
    case("over-ticks0", good, header(0, 1, 0) + bytes(65531))
    case("over-right-length-100000", good, header(0, 1, 100000) + (b"\1" + bytes(8)) * 100000)
    case("over-text-bad", wrap("result = "), b"\2" + bytes(65536))
    case("length-65536-bad-kind", good, b"\2" + bytes(65535))
    case("length-65536", good, header(0, 1, 7281) + bytes(65530))
    case("length-65535", wrap("result = 0 fby result + input"), header(0, 1, 7281) + long_tick * 7281)
    tick8 = b"\1" + b"".join(struct.pack(">d", n + 0.5) for n in range(8))
    case("length-65526-8", wrap("n = 0 fby n + 1; result = input7 gt 7 and n gt 1000 asa n gt 1005"), header(1, 8, 1008) + tick8 * 1008)
    case("trc-both-kinds-text", wrap("result = input / 2"), rate([5.0]))
    case("trc-both-kinds-whole", wrap("result = input / 2"), whole([5]))
    case("trc-text-first", wrap("result = 1 1"), b"")
    case("trc-nine-before-ten", wrap("result = result"), b"")


def hold():
    gap = None
    good = "input"
    for name, ticks in (
        ("start", [gap, gap, 5, 6]), ("middle", [1, gap, gap, 4]), ("end", [1, 2, gap, gap]), ("all", [gap, gap, gap]),
        ("start-middle", [gap, 3, gap, 5, gap]), ("hold-over-6", [1, 2**40, gap, gap, 3]), ("oddgap", [gap, 2**40, gap, 7, gap, 2**31, gap]),
        ("alternate", [1, gap, 2, gap, 3, gap]), ("one", [gap]),
    ):
        label = name if name in ("hold-over-6", "oddgap") else "hold-" + name
        result(label, good, whole(ticks))
        result(label + "-next", "next input", whole(ticks))
        result(label + "-first", "first input", whole(ticks))
        result(label + "-fby", "0 fby input", whole(ticks))
    result("hold-channels", "input1 * 100 + input2", whole([gap, (1, 2, 3), gap, (4, 5, 6), gap, gap], 3))
    result("hold-past-channels", "input3", whole([gap, (1, 2), gap], 2))
    result("hold-past-channels-first", "first input3", whole([gap, (1, 2), gap], 2))
    result("hold-per-channel-6", "input1", whole([(1, 2), (3, 2**50), gap, (5, 6), gap], 2))
    result("hold-asa", "input asa input gt 2", whole([1, gap, 3, gap]))
    result("hold-asa-gap", "input asa input gt 2", whole([gap, 1, 3, gap]))
    result("hold-asa-left-gap", "input asa true", whole([gap, 1]))
    result("hold-if", "if input1 gt 0 then input else 0 - 1", whole([(1, 0), gap, (2, 1), gap]))
    result("hold-if-gap", "if input gt 0 then 1 else 2", whole([gap, 1, gap]))
    result("hold-and-gap", "input gt 0 and false", whole([gap, 1, gap]))
    result("hold-sum", "0 fby result + input", whole([1, gap, gap, 10, gap]))
    equations("hold-result-sum", "n = 0 fby n + input; result = n", whole([1, gap, gap, 10, gap]))
    equations("hold-gap-sum", "n = 0 fby n + input; result = n", whole([gap, 1, 2]))
    result("hold-next-past-end", "next input", whole([1, gap]))
    result("hold-next-next", "next next input + input", whole([1, gap, 3, gap, 5, gap]))
    result("hold-rate", "input", rate([gap, -0.0, gap, 0x7FF8000000000000, gap, 1.5, gap]))
    result("hold-rate-8", "input7 - input", rate([gap, tuple(float(n) for n in range(8)), gap, gap], 8))
    result("hold-marked-words", "input", header(0, 1, 3) + b"\0" + b"\0" * 7 + b"\x09" + b"\1" + b"\0" * 7 + b"\x08" + b"\0" + b"\0" * 7 + b"\x07")
    result("hold-long", "input", whole([7] + [gap] * 200 + [8] + [gap] * 60))
    result("hold-long-start", "input", whole([gap] * 200 + [8]))


def channels():
    ticks = whole([tuple(10 * t + c for c in range(8)) for t in range(3)])
    for word in ("input", "input1", "input2", "input3", "input4", "input5", "input6", "input7", "INPUT4", "Input"):
        result("channel-" + word, word, ticks)
    result("channel-all", " + ".join(["input"] + ["input%d" % n for n in range(1, 8)]), ticks)
    result("channel-twice", "input + input", ticks)
    equations("channel-equations", "a = input2; b = (input3); result = a * b", ticks)
    equations("channel-order", "a = input7; b = input; result = next a - b", ticks)


# ------------------------------------------------------------ random cases


class Maker:
    """Random expressions, by sort of value, with as few brackets as the levels ask for."""

    def __init__(self, dice, sorts, channels):
        """sorts: for each name whether its equation is to read truth values."""
        self.dice = dice
        self.sorts = sorts
        self.channels = channels

    def expression(self, level, depth, truth):
        """An expression that may stand where this level is asked for."""
        its_level, words = self.shape(depth, truth)
        if its_level < level or self.dice.random() < 0.05:
            return "(" + words + ")"
        return words

    def shape(self, depth, truth):
        dice = self.dice
        if dice.random() < 0.03:
            truth = not truth
        if depth <= 0 or dice.random() < 0.12:
            return 11, self.atom(truth)
        sub = lambda level, sort=truth: self.expression(level, depth - 1, sort)
        choice = dice.random()
        if choice < 0.16:
            return 1, sub(2) + " fby " + sub(1)
        if choice < 0.23:
            return 2, sub(3) + " asa " + sub(3, True)
        if choice < 0.31:
            return 3, "if " + sub(3, True) + " then " + sub(3) + " else " + sub(3)
        if choice < 0.42:
            return 10, dice.choice(["next ", "next ", "first "]) + sub(10)
        if truth:
            return dice.choice([
                lambda: (4, sub(4) + " or " + sub(5)), lambda: (5, sub(5) + " and " + sub(6)), lambda: (6, "not " + sub(6)),
                lambda: (7, sub(8, False) + " " + dice.choice(reference.RELATIONS) + " " + sub(8, False)),
                lambda: (7, sub(8, False) + " " + dice.choice(reference.RELATIONS) + " " + sub(8, False)),
            ])()
        return dice.choice([
            lambda: (8, sub(8) + dice.choice([" + ", " - "]) + sub(9)), lambda: (8, sub(8) + dice.choice([" + ", " - "]) + sub(9)),
            lambda: (9, sub(9) + dice.choice([" * ", " / "]) + sub(10)), lambda: (10, "- " + sub(10)),
        ])()

    def atom(self, truth):
        dice = self.dice
        names = [name for name, its in self.sorts.items() if its == truth]
        if names and dice.random() < 0.5:
            return dice.choice(names)
        if truth:
            return dice.choice(["true", "false", "(input gt 1)", "(input lt 3)", "(input1 ne 2)"])
        if dice.random() < 0.4:
            return str(dice.randrange(6))
        channel = dice.randrange(self.channels + (dice.random() < 0.1))
        return "input%d" % channel if channel else "input"


def dress(dice, text):
    """Other separators and capitals, the same words."""
    out = []
    for byte in text:
        if byte == " ":
            out.append(dice.choice([" ", " ", " ", "\n", "\t", "  ", "\r\n"]))
        else:
            out.append(byte.upper() if dice.random() < 0.1 else byte)
    return "".join(out)


def random_text(dice, channels=2):
    names = ["result"] + dice.sample(["a", "b", "c", "sum", "n1", "k2k", "speed", "load"], dice.randrange(0, 5))
    sorts = {name: dice.random() < 0.3 for name in names}
    maker = Maker(dice, sorts, channels)
    body = []
    for name in dice.sample(names, len(names)):
        words = maker.expression(1, dice.randrange(1, 5), sorts[name])
        if dice.random() < 0.35:
            words = maker.expression(2, 0, sorts[name]) + " fby " + words
        body.append(name + " = " + words)
    return dress(dice, wrap("; ".join(body)))


def random_recording(dice):
    ticks = dice.choice([1, 2, 3, 4, 5, 6, 7, 8, 10, 12])
    count = dice.choice([1, 2, 2, 3])
    make, values = dice.choice([
        (whole, lambda: dice.choice([dice.randrange(-2, 6), dice.randrange(-2, 6), dice.randrange(-2, 6), dice.randrange(-2**31, 2**31)])),
        (whole, lambda: dice.randrange(-1, 5)),
        (rate, lambda: dice.choice([float(dice.randrange(-2, 6)), dice.uniform(-9, 9), -0.0, 0.25, 1e308, 5e-324])),
    ])
    return make([None if dice.random() < 0.15 else tuple(values() for _ in range(count)) for _ in range(ticks)], count)


def random_cases(accepted, ringed):
    """So many accepted texts with some variety in their lists, and so many refused by 9."""
    dice = random.Random(19760804)
    have, refused = 0, 0
    while have < accepted or refused < ringed:
        data = random_recording(dice)
        text = random_text(dice, data[1]).encode()
        lines = reference.listing(text, data)
        if lines == ["refused 9 at 0"] and refused < ringed:
            refused += 1
            case("random-ring-%d" % refused, text, data)
        elif not lines[0].startswith("refused") and have < accepted and interesting(dice, lines):
            have += 1
            case("random-%d" % have, text, data)


def interesting(dice, lines):
    """Keep lists with differing readings and stages more often than others."""
    stages = int(lines[0].split()[3])
    varied = len({line.partition(" ")[2] for line in lines[1:]})
    return dice.random() < 0.04 + 0.2 * min(varied - 1, 3) + 0.2 * (stages > 0)


def random_words(count):
    """Random lists of words: almost all are refused by 2, 3 or 4."""
    dice = random.Random(31)
    pool = KEY_WORDS[3:] + ["a", "b", "1", "2", "input", "=", ";", "(", ")", "+", "-", "*", "/", "(", ")", "a", "1"]
    for n in range(count):
        good = random_text(dice).split()
        for _ in range(dice.randrange(1, 3)):
            at = dice.randrange(len(good) + 1)
            change = dice.random()
            if change < 0.35 and at < len(good):
                good[at] = dice.choice(pool)
            elif change < 0.7:
                good.insert(at, dice.choice(pool))
            elif at < len(good):
                del good[at]
        case("random-words-%d" % n, " ".join(good))


def make():
    for part in (text_length, bytes_and_words, grammar_frame, grammar_levels, brackets, deep, row_limits, definitions, rings, plans,
                 readings, words, rates, recordings, hold, channels):
        part()
    random_words(30)
    random_cases(105, 12)
    return "".join("case %s\ntext %s\ntrc %s\n" % (name, squeeze(text), squeeze(data)) for name, text, data in CASES)


def main(arguments):
    if len(arguments) != 1:
        sys.exit("usage: make_cases.py FILE")
    with open(arguments[0], "w", encoding="ascii") as file:
        file.write(make())


if __name__ == "__main__":
    reference.deep(main, sys.argv[1:])
