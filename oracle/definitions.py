"""The definitions that `lists` asks preparing, checking and running about, and the lists of numbers to run them over."""

import itertools
import os
import random
import sys

sys.path.insert(0, os.path.join(os.path.dirname(os.path.abspath(__file__)), "..", "model"))
import draw  # noqa: E402
import model  # noqa: E402

OPERATORS = ["push", "pop", "stack", "axisswap", "adapt"]
MARKS = ["inv", "omit_fwd", "omit_inv"]
FLAGS = ["v_1", "v_2", "v_3", "v_4"]
PLACED = ["push", "pop", "flip"]
ROLLED = ["roll", "unroll"]
BARE = ["swap", "drop"]
DIRECTIONS = ["fwd", "inv"]

# ----- preparing: every operator's refusals, on both sides -----------------------------------------------------------

# one step that each operator accepts
PLAIN = [
    "push", "push v_3", "pop", "pop v_1 v_4", "stack push=1", "stack pop=1,2", "stack flip=2", "stack roll=2,1",
    "stack unroll=3,-1", "stack swap", "stack drop", "axisswap", "axisswap order=2,1", "adapt", "adapt from=neuf_deg",
]

KEYS = {
    "push": FLAGS, "pop": FLAGS, "stack": PLACED + ROLLED + BARE, "axisswap": ["order"], "adapt": ["from", "to"],
}
GOOD_VALUES = {
    **dict.fromkeys(MARKS + FLAGS + BARE, ""), **dict.fromkeys(PLACED, "=1"), **dict.fromkeys(ROLLED, "=2,1"),
    "order": "=2,1", "from": "=neuf", "to": "=neuf",
}
NOT_TRUE = ["=", "=TRUE", "=True", "=false", "=1", "=tru", "=truee", "=true,", "=true=x", "==true", "=no=true", "=true"]
ELEMENTS = [
    # decimal form, and what is nearly so
    "0", "1", "2", "4", "5", "9", "-1", "-0", "0.0", "-0.0", "1.0", "01", "1.000000", "1.0000000", "000000001", "0000000001",
    "123456789", "1234567890", "999999999", "-999999999", "999999999.999999", "1.5", "0.5", "1.000001", "4.000001", "1.",
    ".5", "-.5", "-", "--1", "+1", "1-", "1e0", "1E1", "nan", "inf", "0x1", "1_0", "1..0", "1.0.0", "a", "true", "1;2", "$x",
    "(1)", "*", "₁", "1₁", "",
]
ROLLS = [
    "1,0", "3,3", "0,0", "3,-2", "2.0,1", "999999999,0", "999999999,999999998", "999999998,999999999", "3,2", "3,-3",
    "3,0", "3,-0", "1,-0", "1,1", "1,-1", "2,1.0", "2,-1.000000", "0,-0", "0,1", "-3,1", "-1,0", "3,4", "2.5,1",
    "3,0.5", "3.000001,1", "3", "3,1,1", "3,1,", ",3,1", "3,,1", "1,2,3,4,5,6,7,8", "9,1,1,1,1,1,1,1,1", "64,63",
    "65,64", "000000002,000000001", "1000000000,0", "2,0000000001",
]
ORDERS = [
    "1", "1.0,2", "2", "1,1", "1.5", "-0", "0", "1,2,3,4,5", "1,2,3,4,1", "1,2,3,4", "4,3,2,1", "-1", "-1,-2,-3,-4",
    "2,-1", "2,1,3", "3,1,2", "1,3", "2,3", "1,-1", "-2,2", "1,2,2,4", "4,3,2,0", "1,2,3,5", "5", "-5", "1,2,3,4,5,6",
    "1,2,3,4,5,6,7", "1,2,3,4,5,6,7,8", "1,2,3,4,5,6,7,8,9", "1,1,1,1,1,1,1,1,1", "01,02", "2.000000,1.0", "2.000001,1",
    "1,2,", ",1,2", "1,,2", "-2.0,-01", "1,2.5", "999999999", "4,4,4,4", "1,2,3,-3",
]


def series_of(many, element="1"):
    return ",".join([element] * many)


# keys that no operator has
NO_KEYS = ["x", "V_1", "v_0", "v_5", "v_11", "orders", "froM", "=", "$x"]


def values():
    """Every key of every operator with every value that it could take amiss."""
    for name in OPERATORS:
        for key in MARKS + KEYS[name]:
            yield f"{name} {key}"
            for value in NOT_TRUE:
                yield f"{name} {key}{value}"
        for key in [key for other in OPERATORS for key in KEYS[other]] + NO_KEYS:
            yield f"{name} {key}{GOOD_VALUES.get(key, '=1')}"
            yield f"{name} {GOOD_VALUES.get(key, '=1')}{key}"
    for key in PLACED + ROLLED:
        for element in ELEMENTS:
            yield f"stack {key}={element}"
            yield f"stack {key}=2,{element}"
            yield f"stack {key}={element},1"
        for many in range(1, 11):
            yield f"stack {key}={series_of(many)}"
            yield f"stack {key}={series_of(many, '4')}"
            yield f"stack {key}={series_of(many, '5')}"
            yield f"stack {key}={series_of(many - 1)},x" if many > 1 else f"stack {key}=x"
    for element in ELEMENTS:
        yield f"axisswap order={element}"
        yield f"axisswap order=1,{element}"
        yield f"axisswap order=1,{element},3,4"
    for many in range(1, 11):
        yield f"axisswap order={','.join(map(str, range(1, many + 1)))}"
        yield f"axisswap order={series_of(many)}"
    for roll in ROLLS:
        for key in ROLLED:
            yield f"stack {key}={roll}"
    for order in ORDERS:
        yield f"axisswap order={order}"
        yield f"axisswap order={order} inv"


def actions():
    """No action of `stack`, one, and any two."""
    texts = [key + GOOD_VALUES[key] for key in PLACED + ROLLED + BARE]
    yield "stack"
    yield "stack inv"
    for one, other in itertools.product(texts, repeat=2):
        yield f"stack {one} {other}"
    yield "stack " + " ".join(texts)


NAMES = [
    "push", "pop", "stack", "axisswap", "adapt", "", "Push", "PUSH", "pu", "pushs", "push:", ":push", "a:b",
    "stack:push", "pipeline", "noop", "utm", "geo:in", "$push", "true", "inv", ":inv", "_name", "name", "adapt:x",
    "pushpop", "x=1", "=", "₁",
]


NAMED = ["push v_1 inv", "axisswap order=2,1", "stack push=1 omit_fwd", "inv adapt from=neuf", "x pop v_2", "order=2,1 inv"]
NEW_NAMES = [
    "_name=push", "_name=axisswap", "_name=stack", "_name=adapt", "_name", "_name=", "_name=pipeline", "_name=inv", "_name=:inv",
    "_name=push=x", "_name=push _name=pop",
]


def names():
    """Names, and `_name=` in every place."""
    for name in NAMES:
        yield name
        yield name + " v_1"
        yield "inv " + name
        yield f"push|{name}|pop"
    for step in NAMED:
        words = step.split()
        for place in range(len(words) + 1):
            for more in NEW_NAMES:
                row = " ".join(words[:place] + [more] + words[place:])
                yield row
                yield row + "|"


def repeated():
    """Keys that come again: the last value counts."""
    for name in OPERATORS:
        for key in MARKS + KEYS[name]:
            good, bad = key + GOOD_VALUES[key], key + "=x"
            for row in itertools.product([good, bad, key + "="], repeat=2):
                yield f"{name} " + " ".join(row)
            yield f"{name} {good} {bad} {good}"
    yield "stack push=1 push=1,2,3,4,1,2,3,4,1 push=2"
    yield "axisswap order=9 order=2,1 order=1,2"
    yield "axisswap order=2,1 order=1.5"
    yield "adapt from=neuf from=pass from=wsdp_gon"
    yield "adapt from=neuf_deg from=neuf_dag"


def keys():
    """32 and 33 keys, of which an operator lacks most."""
    for name in OPERATORS:
        for many in 29, 30, 31, 32, 33, 40:  # with the name
            row = [f"k{number}" for number in range(many - 1)]
            yield " ".join([name] + row)
            yield " ".join([name] + row + row)
            yield " ".join(["inv", name] + row)
            yield " ".join(row + ["_name=" + name])
            yield " ".join([name] + row) + "|push"
    own = ["stack", "inv", "omit_fwd", "omit_inv", "push=1", "pop=1", "flip=1", "roll=2,1", "unroll=2,1", "swap", "drop"]
    for many in 20, 21, 22:
        yield " ".join(own + [f"k{number}" for number in range(many)])
    yield " ".join(own)
    yield " ".join(own * 30)


def exactly(name, size):
    """A step's text of so many bytes: the name, and `inv` in two spellings."""
    rest = size - len(name)
    long = rest % 4
    return name + " inv=true" * long + " inv" * ((rest - 9 * long) // 4)


def lengths():
    """A step's text of 4,096 bytes and a byte more, made by the mark that `>` or `<` writes out."""
    for name in PLAIN:
        for size in 4094, 4095, 4096, 4097, 4098:
            step = exactly(name, size - len(" omit_inv"))
            yield ">" + step
            if size < 4098:
                yield "<" + step
            if size in (4096, 4097) and name in ("push", "adapt"):
                yield "|>" + step
                yield "push>" + step
                yield "foo>" + step
                yield step[: len(" inv") * 4] + ">" + step[len(" inv") * 4 + 1:]
    for size in 4095, 4096, 4097:  # and a text of that size, where no step is
        yield exactly("push", size)
        yield exactly("foo", size)
        yield "push" + " " * (size - 4)
        yield " " * (size - 4) + "push"
        yield "push " + "#" * (size - 5)
        yield "#" * (size - 5) + "\npush"
        yield "adapt from=" + "n" * (size - 11)
        yield "stack push=" + "1" * (size - 11)
        yield "stack push=" + "1," * ((size - 11) // 2)
        yield "push " + "é" + "x" * (size - 7)


def step_counts():
    """64 and 65 steps."""
    for many in 63, 64, 65, 66:
        for step in PLAIN:
            yield "|".join([step] * many)
        yield "|".join(["push"] * many) + "|"
        yield "| |".join(["push"] * many)
        yield ">".join(["push"] * many)
        yield "<" + "<".join(["pop"] * many)
        for wrong in "foo", ":inv", "inv", "push v_9", "axisswap order=2":
            yield "|".join(["push"] * (many - 1) + [wrong])
            yield "|".join([wrong] + ["push"] * (many - 1))


SIXES = [
    "push | :inv", "foo | inv", "foo | :inv", "inv", ":inv", "inv|", "|inv", "push|inv", "inv|push", ":inv|push",
    "push|:inv|foo", "push >", "push <", ">", "<", "push > inv", "push > :inv", "push|inv omit_fwd omit_inv",
    "push|:inv omit_fwd", "foo|push >", "push v_9|:inv", "push v_1=x|:inv", "axisswap order=2|:inv",
    ":inv|axisswap order=2", "push|::omit_inv", "push|:inv:", "push|inv:", "push|inv :", "push| : inv", ":omit_fwd",
    "inv # push", "inv=true", "inv=true|", ":inv=true", "push|inv=true", "push|inv=", "|".join(["push"] * 64 + ["inv"]),
    "|".join(["push"] * 65 + ["inv"]), "|".join(["push"] * 64 + [":inv"]),
]

# two faults in one step: the lowest number is the answer; and two faulty steps: the first is
FAULTS = {
    9: " ".join(f"k{number}" for number in range(40)), 10: "_name=foo", 11: "v_9", 12: "inv=no", 13: "order=" + series_of(9),
    14: "order=2",
}
WORSE = [
    "stack push=1,x,1,1,1,1,1,1,1", "stack push=5,1,1,1,1,1,1,1,1", "stack push=5 pop=1", "stack push=x roll=1,1",
    "axisswap order=1,2,3,4,5,6,7,8,x", "axisswap order=x v_1", "adapt from=x inv=no", "adapt from=x zone", "push v_1=x v_9",
    "stack push=" + series_of(9) + " roll=3,3", "stack push=" + series_of(9) + " pop=x",
]


def priorities():
    for one, other in itertools.permutations(FAULTS, 2):
        if {one, other} != {13, 14}:
            yield f"axisswap {FAULTS[one]} {FAULTS[other]}"
        yield f"axisswap {FAULTS[one]}|axisswap {FAULTS[other]}"
        yield f"push|axisswap {FAULTS[one]}|axisswap {FAULTS[other]}|:inv"
        yield f"axisswap {FAULTS[one]}|:inv"
        yield f":inv|axisswap {FAULTS[one]}"
        yield f"axisswap {FAULTS[one]}|inv"
    for wrong in WORSE:
        yield wrong
        yield wrong + "|foo"


LETTERS = ["ew", "ns", "ud", "fp"]
ENDINGS = ["", "_deg", "_gon", "_rad", "_any"]
NOT_WORDS = [
    "", "enu", "enuff", "enue", "enuw", "eeee", "ENUF", "Enuf", "enut", "enur", "enuf_", "enuf_d", "enuf_de",
    "enuf_dag", "enuf_degs", "enufdeg_", "enuf-deg", "enuf:deg", "enuf_DEG", "enuf_rad_", "enuf_grad", "enufnuef",
    "_deg", "_rad_rad", "enu_deg", "enufe_deg", "pass", "pass_deg", "passed", "Pass", "pas", "n₀", "₀n", "n₀_deg",
    "enu₀", "x", "true", "$x", "enuf,", "1,2,3,4",
]


WORD_PAIRS = [("enuf", "enuf"), ("neuf", "enuf"), ("wsdp", "fund"), ("fpud", "enuf"), ("nwuf", "nwuf"), ("sedp", "nwuf")]


def letter_orders():
    for order in itertools.permutations(LETTERS):
        for word in itertools.product(*order):
            yield "".join(word)


def adapts():
    """Every order of the letters with every sign and every ending, from and to; and the wrong ones."""
    for word in letter_orders():
        for ending in ENDINGS:
            yield f"adapt from={word}{ending}"
            yield f"adapt to={word}{ending}"
    for one, other in itertools.product(ENDINGS, repeat=2):
        for come, go in WORD_PAIRS:
            yield f"adapt from={come}{one} to={go}{other}"
            yield f"adapt to={come}{one} from={go}{other} inv"
    yield from wrong_adapts()


def wrong_adapts():
    for word in NOT_WORDS:
        for key in "from", "to":
            yield f"adapt {key}={word}"
            yield f"adapt {key}={word} inv"
        yield f"adapt from={word} to=neuf_deg"
        yield f"adapt from=neuf_gon to={word}"
        yield f"adapt from={word} to={word}"
    for word in itertools.product("enfw", repeat=4):
        yield f"adapt from={''.join(word)}"


def orders():
    """Every order of axisswap: each length, each permutation, each sign."""
    for many in range(1, 5):
        for order in itertools.permutations(range(1, many + 1)):
            for signs in itertools.product((1, -1), repeat=many):
                yield "axisswap order=" + ",".join(str(axis * sign) for axis, sign in zip(order, signs))


def marked():
    """Every operator with every set of marks, before the name and behind."""
    for step in PLAIN:
        for many in range(4):
            for row in itertools.permutations(MARKS, many):
                yield " ".join([step, *row])
                yield " ".join([*row, step])
    for step in PLAIN:
        for front in ">", "<", "push>", "push<", "push|> ", "push > < ", f"{step}>{step}<":
            yield front + step


# how often a run normalises: texts on which the crate and document 01 part, and their neighbours
APART = [
    ">:push", ">: push", "> :push", ">\n:push", "<:axisswap order=2,1", ": :|push", "|push: :", ">push: :", "<push: :",
    ": : push|", "push|: :", "push>:a _name=axisswap order=2,1", "push<:a _name=axisswap order=2,1",
    "|:inv axisswap order=2,-1=", "|:inv axisswap order=2,-1,", "|:inv axisswap order=2,-1 $", ">=push", ">,push",
    ">|push", "><push", ">>push", "<>push", "> > axisswap order=2,1", "< | axisswap order=2,1",
    "> , axisswap order=2,1", ">axisswap order=2,1", "axisswap order=2,1: :", ": : axisswap order=2,1",
    ":axisswap order=2,1:|", "|::axisswap order=2,1::", "axisswap order=2,1|:", ":|axisswap order=2,1",
    "::|axisswap order=2,1", ": :>axisswap order=2,1", "|: :axisswap order=2,1", "|:inv:axisswap",
    "|:omit_fwd axisswap order=2,1", "|:omit_inv axisswap order=2,1=",
]


# those of the longer ones that every list should have, however it is thinned
KEPT = [
    "|".join(["push"] * 64), "|".join(["push"] * 65), ">" + exactly("push", 4087), ">" + exactly("push", 4088),
    "<" + exactly("adapt", 4087), "<" + exactly("adapt", 4088), exactly("push", 4096), exactly("push", 4097),
]
KEPT += [" ".join([name] + [f"k{number}" for number in range(many)]) for name in OPERATORS for many in (31, 32)]


def prepare_boundary():
    yield from KEPT
    yield from PLAIN
    yield from SIXES
    yield from APART
    for group in values, actions, names, repeated, keys, step_counts, priorities, lengths, marked:
        yield from group()


# ----- checking: where each kind of step has too few columns, and where too many -------------------------------------


def pushes(direction, depth):
    """Steps that make so many columns in this direction, in the order of the table."""
    action = "push" if direction == "fwd" else "pop"
    row = [8] * (depth // 8) + [depth % 8] * (depth % 8 > 0)
    return [f"stack {action}={series_of(many, str(1 + many % 4))}" for many in row]


def deep(direction, depth, *steps):
    """The steps, run with so many columns already there."""
    row = pushes(direction, depth)
    return "|".join(row + list(steps) if direction == "fwd" else list(steps)[::-1] + row)


# each kind of step, with the number of columns that it needs, or makes, forward (and the other inverse)
TAKING = [
    ("push", 0), ("push v_1", 1), ("push v_2 v_3", 2), ("push v_1 v_2 v_3", 3), ("push v_1 v_2 v_3 v_4", 4),
    ("stack push=1", 1), ("stack push=3,3", 2), ("stack push=1,2,3,4,4,3,2,1", 8),
]
GIVING = [
    ("pop", 0), ("pop v_4", 1), ("pop v_1 v_2", 2), ("pop v_2 v_3 v_4", 3), ("pop v_1 v_2 v_3 v_4", 4),
    ("stack pop=2", 1), ("stack pop=1,1", 2), ("stack pop=4,3,2,1,1,2,3,4", 8),
]
NEEDING = [
    ("stack flip=1", 1), ("stack flip=1,1", 2), ("stack flip=1,2,3,4,1,2,3,4", 8), ("stack roll=1,0", 1),
    ("stack roll=3,2", 3), ("stack roll=3,-2", 3), ("stack roll=64,63", 64), ("stack roll=64,-63", 64),
    ("stack roll=65,1", 65), ("stack unroll=1,0", 1), ("stack unroll=3,2", 3), ("stack unroll=3,-2", 3),
    ("stack unroll=64,1", 64), ("stack unroll=999999999,0", 65), ("stack swap", 0), ("stack drop", 0),
    ("axisswap order=2,-1", 0), ("axisswap order=3,1,-2 inv", 0), ("adapt", 0), ("adapt from=nwuf", 0),
    ("adapt to=sedp_gon inv", 0),
]


def edges(direction):
    """Each kind of step with one column too few, just enough, as many as fit, and one too many; then a step behind it."""
    makes, takes = (TAKING, GIVING) if direction == "fwd" else (GIVING, TAKING)
    for step, many in makes:
        for depth in 0, 1, 64 - many, 65 - many:
            if 0 <= depth <= 64:
                yield deep(direction, depth, step)
                yield deep(direction, depth, step, "axisswap order=2,1")
    for step, many in takes + NEEDING:
        for depth in sorted({0, 1, 2, many - 1, many, many + 1, 63, 64}):
            if 0 <= depth <= 64:
                yield deep(direction, depth, step)
                yield deep(direction, depth, step, "stack swap", "stack drop")
                yield deep(direction, depth, step + " omit_fwd")
                yield deep(direction, depth, step + " omit_inv", step)


CHECKED = [
    "", "|", " ", "# nothing", "||", "| # nothing\n|", "pop inv v_3 | push inv v_3", "push inv v_3 | pop inv v_3",
    "pop v_3 | push v_3", "push v_3 | axisswap order=2,1 | pop v_3", "push v_3 | pop v_3 | pop v_3",
    "push v_3 omit_fwd | pop v_3", "push v_3 omit_inv | pop v_3", "push v_3 | pop v_3 omit_fwd",
    "push v_3 | pop v_3 omit_inv", "push v_3 omit_fwd omit_inv | pop v_3 omit_fwd omit_inv",
    "push v_1 v_2 | pop v_1 v_2", "push v_1 v_2 | stack swap | pop v_1 v_2", "stack push=1,2 | stack pop=1,2",
    "stack push=1,2 | stack pop=2,1", "stack push=1,2,3 | stack roll=3,2 | stack pop=3,2,1",
    "stack push=1,2,3 | stack roll=3,-2 | stack pop=3,2,1", "stack push=1,2,3 | stack unroll=3,2 | stack pop=3,2,1",
    "stack push=1,2,3 | stack roll=3,2 | stack unroll=3,2 | stack pop=3,2,1",
    "stack push=1,2 | stack flip=3,4 | stack pop=2,1", "stack push=1 | stack flip=1 | stack flip=1 | stack pop=1",
    "stack push=1,2 | stack flip=1,1 | stack flip=1,1 | stack pop=2,1",
    "stack push=2,3 | stack flip=1,1 | axisswap order=-1 | stack pop=4,4", "axisswap order=2,-1,4,-3",
    "axisswap order=2,-1,4,-3 inv", "axisswap order=2,-1,4,-3 | axisswap order=3,-4,1,2",
    "axisswap order=-1 | axisswap order=-1", "axisswap order=3,1,2 | axisswap order=3,1,2 | axisswap order=3,1,2",
    "push v_1 | axisswap order=-1 | stack flip=1 | pop v_2", "adapt from=enuf", "adapt from=neuf omit_fwd",
    "adapt from=neuf omit_inv", "adapt from=neuf omit_fwd omit_inv", "adapt | pop v_1", "pop v_1 | adapt", "stack swap",
    "stack drop", "stack push=1 | push v_1", "stack roll=999999999,999999998", "stack unroll=999999999,-999999998",
    "stack unroll=2,1 | stack pop=1,2", "stack pop=1,2 | stack unroll=2,1", "stack unroll=2,1 omit_inv | stack pop=1,2",
    "|".join(["push v_1"] * 64), "|".join(["push v_1"] * 63 + ["push v_1 v_2"]), "|".join(["pop v_1"] * 64),
    "|".join(["pop v_1 v_2"] + ["pop v_1"] * 63), "|".join(["push v_1 v_2 v_3 v_4"] * 16),
    "|".join(["push v_1 v_2 v_3 v_4"] * 16 + ["push v_1"]), "|".join(["push v_1 v_2 v_3 v_4"] * 17),
    "|".join(["push v_1 v_2 v_3 v_4"] * 16 + ["push v_1 omit_fwd", "pop v_1", "push v_1", "push v_1"]),
    "|".join(["stack push=1,2,3,4,1,2,3,4"] * 8), "|".join(["stack push=1,2,3,4,1,2,3,4"] * 9),
    "|".join(["stack push=1,2,3,4,1,2,3,4"] * 8 + ["push v_1"]),
    "|".join(["stack push=1,2,3,4,1,2,3,4"] * 8 + ["push"]),
    "|".join(["stack push=1,2,3,4,1,2,3,4"] * 8 + ["stack pop=1"]), "|".join(["push v_1", "pop v_1"] * 32),
    "|".join(["axisswap order=2,1,4,-3"] * 64), "|".join(["pop v_1"] + ["push v_1"] * 63), "|".join(["push v_1"] * 65),
    "foo", "push|foo|:inv", "stack push=5", "axisswap order=2", "x" * 4097, "é",
]


def check_boundary():
    for text in CHECKED:
        for direction in DIRECTIONS:
            yield direction, text
    for built in DIRECTIONS:
        for text in edges(built):
            for direction in DIRECTIONS:
                yield direction, text


# ----- running: lists of numbers and stores --------------------------------------------------------------------------

HOSTILE = draw.HOSTILE_BITS
PLAIN_NUMBERS = [draw.bits_of(float(number)) for number in range(1, 13)]
# sixteen hostile numbers in threes of tuples: each number comes to each place
LISTS = [[HOSTILE[(4 * shift + 5 * place) % 16] for place in range(size)] for size, shift in
         ((4, 0), (4, 1), (8, 2), (12, 3), (12, 0), (8, 1), (4, 2), (4, 3))]
NOT_TUPLES = [HOSTILE[:size] for size in (1, 2, 3, 5, 6, 7, 9, 11, 13)]

RUN_STEPS = [
    "push|", "push v_1|", "push v_2 v_4|", "push v_1 v_2 v_3 v_4|", "pop|", "pop v_1|", "pop v_1 v_3|",
    "pop v_1 v_2 v_3 v_4|", "push v_1 v_2|pop v_3 v_4", "push v_1|pop v_3 v_4", "pop v_3 v_4|push v_1",
    "push v_1 v_2 v_3 v_4|pop v_1|pop v_2|pop v_3|pop v_4", "stack push=1|", "stack push=4,3,2,1|",
    "stack push=1,1,2,2,3,3,4,4|", "stack pop=1|", "stack pop=1,2|", "stack push=1,2|stack pop=3,4",
    "stack push=1,2|stack pop=3,3", "stack push=1|stack pop=3,4", "stack push=1,2,3|stack pop=4|push v_4",
    "stack flip=1|", "stack push=1|stack flip=2", "stack push=1,2|stack flip=3,4", "stack push=1,2|stack flip=1,1",
    "stack pop=1,2|stack flip=1,1", "stack push=1|stack flip=1,2", "stack pop=1,2,3|stack flip=4,3,4",
    "stack push=1,2,3|stack flip=4,3,4|stack pop=1,2,3", "stack roll=2,1|", "stack push=1,2,3|stack roll=3,2",
    "stack push=1,2,3|stack roll=3,-2", "stack push=1,2,3|stack roll=3,1", "stack push=1,2,3|stack roll=2,1",
    "stack push=1,2,3|stack roll=1,0", "stack push=1,2,3|stack roll=3,0", "stack push=1,2,3|stack roll=4,1",
    "stack roll=3,2|stack pop=1,2,3", "stack roll=3,-2|stack pop=1,2,3", "stack roll=2,1|stack pop=1,2,3",
    "stack roll=4,1|stack pop=1,2,3", "stack push=1,2,3|stack unroll=3,2", "stack push=1,2,3|stack unroll=3,-2",
    "stack push=1,2,3|stack unroll=3,0", "stack push=1,2,3|stack unroll=4,1", "stack unroll=3,2|stack pop=1,2,3",
    "stack unroll=3,-2|stack pop=1,2,3", "stack unroll=3,0|stack pop=1,2,3", "stack unroll=2,1|",
    "stack unroll=3,2 omit_inv|stack pop=1,2,3", "stack roll=999999999,999999998|",
    "stack unroll=999999999,-999999998|", "stack swap|", "stack push=1|stack swap", "stack push=1,2|stack swap",
    "stack push=1,2,3|stack swap|stack pop=1,2", "stack swap|stack pop=1,2", "stack drop|", "stack push=1|stack drop",
    "stack drop|stack pop=1", "stack push=1|stack drop|stack pop=2", "axisswap|", "axisswap", "axisswap order=1",
    "axisswap order=-1", "axisswap order=2,1", "axisswap order=2,-1|", "axisswap order=-2,-1 inv",
    "axisswap order=3,-1,2", "axisswap order=3,-1,2 inv|", "axisswap order=4,-3,2,-1",
    "axisswap order=-4,-1,-2,-3 inv|", "axisswap order=-1,-2,-3,-4", "axisswap order=2,1 omit_fwd|",
    "axisswap order=2,1 omit_inv|", "axisswap order=2,1 omit_fwd omit_inv|", "adapt|", "adapt",
    "adapt from=enuf to=enuf", "adapt from=pass", "adapt from=neuf", "adapt from=nwuf", "adapt from=neuf_deg",
    "adapt to=neuf_deg|", "adapt from=neuf_deg inv", "adapt from=wsdp_gon", "adapt to=punw", "adapt from=fude_deg",
    "adapt to=fude_gon inv|", "adapt from=enuf_deg to=enuf_gon", "adapt from=enuf_gon to=enuf_deg",
    "adapt from=sedp_deg to=pufn_gon|", "adapt from=sedp_any to=pufn_rad inv", "adapt from=enuf_deg omit_inv|",
    "adapt from=wnuf_deg to=wnuf_deg", "adapt from=enuf_deg|adapt to=enuf_deg",
    "adapt from=enuf_gon inv|adapt from=enuf_gon", "|", "", "|#", "push v_1 omit_fwd|",
    "push v_1 omit_fwd omit_inv|pop v_1 omit_fwd omit_inv", "pop v_1 omit_fwd|push v_1 omit_inv",
    "push inv v_3|pop inv v_3", "pop inv v_3|push inv v_3", "push v_3 | axisswap order=2,1 | pop v_3",
    "push v_3>axisswap order=2,1<pop v_3",
    "push v_1 v_2|adapt from=neuf_deg|axisswap order=-1,2|stack flip=3,4|stack roll=2,1|pop v_1 v_2",
    "pop v_1|push v_1 v_2|stack pop=1,2,3|stack push=4|stack swap", "stack pop=1|stack push=1,2|stack pop=1,2",
    "stack push=1|stack pop=1,2|push v_1 v_2", "push v_1", "pop v_1", "stack push=1", "stack swap", "adapt omit_fwd",
    "axisswap omit_inv order=2,1",
]
# depths of 64 and 65, each way
DEEP = [
    (64, []), (64, ["push", "pop"]), (64, ["stack roll=64,1"]), (64, ["stack swap", "stack drop"]), (63, ["push v_1", "pop v_1"]),
    (63, ["pop v_1", "push v_1"]), (64, ["push v_1"]), (64, ["pop v_1"]), (60, ["stack push=1,2,3,4,1"]), (60, ["stack pop=1,2,3,4,1"]),
    (64, ["stack pop=1", "push v_2"]), (64, ["stack push=1", "pop v_2"]), (8, ["stack roll=65,1"]),
]
RUN_DEEP = [deep(direction, depth, *steps) for direction in DIRECTIONS for depth, steps in DEEP]
LARGE = [
    "zeros:0", "zeros:4", "zeros:63", "zeros:64", "zeros:65", "zeros:68", "zeros:262140", "zeros:262143",
    "zeros:262144", "zeros:262145", "zeros:262148",
]


LARGE_TEXTS = [
    "axisswap order=2,-1|", "push v_1|", "adapt from=neuf_deg|", "push v_1|pop v_2", "foo|",
    "|".join(["stack push=1,2,3,4,1,2,3,4"] * 9),
]
REFUSED = [
    "foo|", "push v_9|", "axisswap order=2|", "stack push=" + series_of(9) + "|", ":inv", "x" * 4097, "é", "push|:inv",
]


def need(direction, text, many):
    """How long a store the run of this text over so many numbers needs, by the model; 0 where it is refused."""
    steps = model.prepare(text.encode())
    depths = [] if model.refuses(steps) else model.run_depths(direction, steps)
    return 0 if model.refuses(depths) else max(depths, default=0) * (many // 4)


def run_line(direction, text, bits, more):
    """A request with a store that is exactly long enough, or shorter or longer by `more`."""
    store = max(0, need(direction, text, len(bits)) + more)
    return f"run {direction} {store} {text.encode().hex() or '-'} {','.join(bits) or '-'}"


def run_boundary():
    for number, text in enumerate(RUN_STEPS + RUN_DEEP):
        for direction in DIRECTIONS:
            yield run_line(direction, text, PLAIN_NUMBERS[:4], 0)
            yield run_line(direction, text, PLAIN_NUMBERS[:8], 1)
            yield run_line(direction, text, [], 3)
            for place in range(3):
                yield run_line(direction, text, LISTS[(number + 3 * place) % 8], (0, 0, 2)[place])
            yield run_line(direction, text, LISTS[(number + 1) % 8], -1)
            yield run_line(direction, text, NOT_TUPLES[number % 9], 9)
    for numbers in LARGE:
        many = int(numbers.partition(":")[2])
        for text in LARGE_TEXTS:
            for more in (0, -1) if text == "push v_1|" else (0,):
                store = max(0, need("fwd", text, many) + more)
                yield f"run fwd {store} {text.encode().hex()} {numbers}"
    for text in REFUSED:
        for bits in [], PLAIN_NUMBERS[:4], PLAIN_NUMBERS[:3]:
            yield run_line("inv", text, bits, 0)
    for text in APART:
        for direction in DIRECTIONS:
            yield run_line(direction, text, PLAIN_NUMBERS[:4], 0)


# ----- definitions that are drawn ------------------------------------------------------------------------------------


def separated(rng, text):
    """Mostly with a separator, as only then the Rust runs it as a pipeline."""
    if not any(sign in text for sign in b"|<>") and rng.random() < 0.9:
        return rng.choice([text + b"|", b"|" + text])
    return text


# the syntax's own pieces between steps that are accepted: texts on which it matters how often they are normalised
PIECES = [
    b"|", b">", b"<", b":", b" ", b"=", b",", b"$", b"#", b"\n", b"\r", b"\n:", b"inv", b" inv", b"omit_fwd ",
    b"omit_inv ", b"_name=", b"axisswap order=2,1", b"axisswap order=2,-1,3", b"push v_1", b"pop v_2",
    b"stack push=1,2", b"a ",
]
SIGNS = PIECES[:12]


def soup(rng):
    some = rng.sample(PIECES, rng.randint(2, 6)) + rng.sample(SIGNS, 2) + [b"|", b"axisswap order=2,1 "]
    return b"".join(rng.choice(some) for _ in range(rng.randint(1, 9)))


def drawn_definition(rng, kind, direction, damage):
    if kind == "pieces":
        return soup(rng)
    if kind == "good":
        text = draw.table_text(rng, draw.good_table(rng, direction))
    elif kind == "wrong":
        text = draw.wrong_definition(rng)
    else:
        text = damage(draw.table_text(rng, draw.good_table(rng, direction)))
    return separated(rng, text)


def drawn_bits(rng):
    kind = rng.random()
    if kind < 0.01:
        return ["zeros:%d" % rng.choice((0, 4, 7, 64, 68, 100, 1000))]
    return draw.list_bits(rng)


def drawn_lines(call, kind, seed, count, damage):
    """Requests for a call that has steps, drawn from a seed. `damage` breaks a text."""
    rng = random.Random(f"{seed} {call} {kind}")
    for _ in range(count):
        direction = rng.choice(DIRECTIONS)
        text = drawn_definition(rng, kind, direction, damage)
        shown = text.hex() or "-"
        if call == "prepare":
            yield f"prepare 64 {shown}"
        elif call == "check":
            yield f"check {direction} {shown}"
        else:
            bits = drawn_bits(rng)
            many = int(bits[0][6:]) if bits and bits[0].startswith("zeros:") else len(bits)
            steps = model.prepare(text)
            store = 9 if model.refuses(steps) else draw.store_length(rng, direction, steps, many // 4)
            yield f"run {direction} {store} {shown} {','.join(bits) or '-'}"


# ----- what `lists` asks for -----------------------------------------------------------------------------------------


def hexed(text):
    return text.encode().hex() or "-"


def both_ways(texts):
    return ((direction, text) for text in texts for direction in DIRECTIONS)


def listed_lines(call, kind, more):
    """Every request of a kind that lists; `more` are texts made for the calls on texts."""
    texts = {"adapts": adapts, "orders": orders, "texts": more}.get(kind)
    if call == "prepare":
        return (f"prepare 64 {hexed(text)}" for text in (texts or prepare_boundary)())
    if call == "check":
        pairs = both_ways(texts()) if texts else check_boundary()
        return (f"check {direction} {hexed(text)}" for direction, text in pairs)
    if not texts:
        return run_boundary()
    return (run_line(direction, text, LISTS[number % 8], 0) for number, (direction, text) in enumerate(both_ways(texts())))
