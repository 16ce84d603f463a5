"""Requests for the recorded list on refusal 12 and its offset, in both readings and both modes.

`requests()` gives them, always the same: every key of every operator with every kind of fault, alone, before others and behind them, and as the last of its key or
not the last; steps written with modifiers in front, colons, white space, comments, subscripts and separators; names that are given; faults in one of many steps and
beside every other refusal; the last byte that an offset can be; and what the program `steps` prints.
"""
import itertools

from asking import WAYS
from definitions import BARE, ELEMENTS, FLAGS, KEYS, MARKS, NOT_TRUE, OPERATORS, PLACED, ROLLED
from readings import DIRECTIONS, ONE, hexed

SERIES = PLACED + ROLLED + ["order"]
# what a flag and a series take amiss, with what may follow a second `=`: of a series the first element, one in the middle, the last, an empty one, two
FLAG_FAULTS = ["=no", "=TRUE", "==true", "=no=true", "=true,true"]
SERIES_FAULTS = [
    "", "=true", "=x", "=x,1", "=1,x,2", "=1,2,x", "=,1", "=1,,2", "=1,+2,x", "=1,x=2,y", "==1", "=1,2x=3", "=-1,--1", "=01.50,1.", "=1,1,1,1,1,1,1,1,1,x",
]
# those that stand at a step's end: a space behind `=` or `,` is taken away, and the next word belongs to them
LAST_FAULTS = ["=", "=1,", "=,", "=1,2,,"]
GOOD = {**dict.fromkeys(MARKS + FLAGS + BARE, ["", "=true", "=true=no"]), **dict.fromkeys(SERIES, ["=1", "=2,-1.0"])}


def takes(name):
    """The keys of an operator that a fault can be at."""
    return [key for key in MARKS + KEYS[name] if key not in ("from", "to")]


def faulty(key):
    return [key + fault for fault in (SERIES_FAULTS if key in SERIES else FLAG_FAULTS)]


def asked(text, number):
    """One request of the text: which one, goes by the number."""
    way = list(WAYS)[number % 4]
    direction = DIRECTIONS[number // 4 % 2]
    return [f"prepare{way} 64 {hexed(text)}", f"check{way} {direction} {hexed(text)}", f"run{way} {direction} 4 {hexed(text)} {ONE}",
            f"write{way} {hexed(text)}", f"steps {hexed(text)}"][number % 5]


def on_all(text):
    """Every request of the text, in every reading and mode."""
    for way in WAYS:
        yield f"prepare{way} 64 {hexed(text)}"
        yield f"prepare{way} 0 {hexed(text)}"
        yield f"write{way} {hexed(text)}"
        for direction in DIRECTIONS:
            yield f"check{way} {direction} {hexed(text)}"
            yield f"run{way} {direction} 0 {hexed(text)} zeros:3"
    yield f"steps {hexed(text)}"


# ----- every key and every kind of fault -----------------------------------------------------------------------------


def alone():
    """Each fault at the end of its step, and with a word behind it."""
    for name in OPERATORS:
        for key in takes(name):
            for word in faulty(key) + [key + fault for fault in LAST_FAULTS]:
                yield f"{name} {word}"
            yield from (f"{name} {word} {'inv' if key != 'inv' else 'omit_fwd'}" for word in faulty(key)[::2])


def together():
    """Two faults in both orders, and the first once more; a fault behind a good word and before it; a key twice, of which the last counts."""
    for name in OPERATORS:
        for number, (one, other) in enumerate(itertools.permutations(takes(name), 2)):
            first, second = (faulty(key)[(number + shift) % len(faulty(key))] for shift, key in enumerate((one, other)))
            good = GOOD[other][number % len(GOOD[other])]
            yield from (f"{name} {first} {second}", f"{name} {first} {other}{good}", f"{name} {other}{good} {first}")
            if number % 3 == 0:
                yield f"{name} {first} {second} {first}"
        for number, key in enumerate(takes(name)):
            some, good = faulty(key), key + GOOD[key][number % len(GOOD[key])]
            bad, worse = some[number % len(some)], some[(number + 2) % len(some)]
            for words in (bad, good), (good, bad), (bad, worse), (bad, good, worse, "omit_inv"), (bad, worse, good):
                yield " ".join((name, *words))
    for word in "=neuf", "=x", "":
        yield from (f"adapt from{word} inv=no", f"adapt inv=no to{word}", f"adapt to{word} from{word} omit_fwd=1 omit_inv=2")


def elements():
    """Every element at each of three places of a series."""
    for number, element in enumerate(ELEMENTS):
        key = SERIES[number % 6]
        name = "axisswap" if key == "order" else "stack"
        yield from (f"{name} {key}={','.join(pieces)}" for pieces in ([element, "1", "2"], ["1", element, "2"], ["1", "2", element]))
    for many in range(1, 12):
        yield f"stack push={','.join(['1'] * (many - 1) + ['x'] + ['1'] * (11 - many))}"
        yield f"axisswap omit_inv order={','.join(['-123456789.654321'] * (many - 1))},"
    for value in NOT_TRUE:
        yield f"pop v_4{value}"


# ----- the same step, written otherwise ------------------------------------------------------------------------------

STEPS = ["axisswap order=1,x", "stack push=2,1,", "push v_1 v_2=no", "stack pop", "stack swap drop=", "adapt from=neuf omit_inv=no", "pop v_4= v_1"]
FRONTS = [
    "inv ", "omit_fwd inv ", "omit_inv omit_fwd inv inv ", ":", ": ", "::", ":inv ", ": inv ", ":omit_fwd :", ":inv :omit_inv ", "inv : ", "inv=true ", "\n:inv ",
]
BEHIND = [":", " :", " ::", " inv", " # order=y", "\n", " omit_fwd=true inv", "\t \n: inv"]
LAID = [
    " {0} ", "\t{0}\r\n", "# v_1=no\n{0}", "|{0}|", "||{0}", "push v_1|{0}", "push v_1 > {0}", "push v_1 < {0} > pop v_1", ">{0}", "<:{0}", "push v_1 | {0} | foo", "foo | {0}",
]
SPACED = [
    ("=", " = "), (",", " , "), (" ", "  "), (" ", "\n"), (" ", "\r\n"), (" ", " # no\n "), ("=", "=:"), ("_", "₁"), ("v_1", "v₁=true"),
    ("v_2=", "v₂="),
]
# a name that is given, last or first; characters of three bytes
NAMED = [
    "order=x _name=axisswap", "inv order=1,x _name=axisswap", "push _name=stack push", "order order=1,x _name=axisswap", "v_1=x _name=push", "pop=x _name=stack",
    "inv=x _name=adapt", "_name=pop v_1=", "x _name=push v_1=no", "x _name=pop _name=push v_1=no", "_name=push v_1=no _name=foo", "push v_1=no _name", "v_1 _name=push v_1=no",
    "adapt from=n₁ inv=no", "adapt from=₀₁₂₃₄₅₆₇₈₉ to=₉ omit_fwd=x", "stack push=1,₁", "stack push=₁,1", "push v₁=no", "push v₄=true v₄=₄", "inv=₁ _name=push",
]


def written():
    for step in STEPS:
        yield from (front + step for front in FRONTS)
        yield from ("push v_3|" + front + step for front in FRONTS)
        yield from (step + behind for behind in BEHIND)
        yield from (laid.format(step) for laid in LAID)
        yield from (step.replace(*pair) for pair in SPACED)
    yield from NAMED
    yield from ("pop|inv " + text for text in NAMED)


# ----- steps, sizes and other refusals -------------------------------------------------------------------------------


def many():
    """The fault at a step of many; another fault behind it; 65 steps."""
    for place in 1, 2, 9, 10, 63, 64:
        steps = ["push"] * 64
        steps[place - 1] = "inv push v_1 v_3=x"
        yield "|".join(steps)
        yield "|".join(steps[:place] + ["stack push"] + steps[place + 1:])
    yield "|".join(["push v_1=no"] * 64)
    yield "|".join(["push v_1=no"] * 65)
    yield "|".join(["push v_1=no"] * 64 + ["inv"])


# beside each number that preparing refuses with, in the same step
BESIDE = [
    "push v_1=no v_9", "stack push=x v_1", "foo v_1=no", "push v_1=no _name=foo", "axisswap order=0,x", "axisswap order=1,x,3,4,5,6,7,8,9", "stack push=x pop=1", "stack swap=no drop",
    "stack roll=1,x", "adapt from=x inv=no", "push v_1=no " + " ".join(f"k{n}" for n in range(30)), "push v_1=no " + " ".join(f"k{n}" for n in range(31)),
    "push v_1=no | inv", "push v_1=no | :inv", "push | :inv | push v_1=no", "stack push=1,1,1,1,1,1,1,1,1 | push v_1=no", "push v_1=no é", "push v_1=no\0",
]


def long():
    """Offsets on both sides of 100, 1,000 and 4,096, the length of a step's longest text; texts a byte too long; long series."""
    for byte, value in itertools.product((99, 100, 101, 999, 1000, 1001, 4094, 4095, 4096), ("", "x")):
        yield "adapt to=" + "0" * (byte - 14) + " inv=" + value
    longest = "stack" + " inv" * 1021 + " unroll"
    yield from (longest, longest + "=", "x" + longest, ">" + longest.replace(" inv", "", 3), ">" + longest.replace(" inv", "", 2))
    yield from (">push v_1=" + "x" * 4078, ">push v_1=" + "x" * 4079)
    yield from ("axisswap order=" + "1," * 2040 + "x", "axisswap order=" + "," * 4081, "axisswap inv order=" + "9" * 4077)


# ----- the program `steps` -------------------------------------------------------------------------------------------

PROJ_TEXTS = [
    "+proj=axisswap +order=2,x", "+proj=axisswap +order=2,1,", "proj=push v_3=no", "+proj=pipeline +step +proj=push +v_3 +step +proj=axisswap +order=2,x +step +proj=pop +v_3",
    "+proj=pipeline +inv +step +proj=push +v_3= +step +inv +proj=axisswap +order=x,1", "+proj=pipeline +order=2,x +step +proj=axisswap", "+proj=pipeline +step +order=x +proj=axisswap +omit_fwd",
    "+proj=pipeline +step +proj=axisswap +order +step +proj=pop +v_3", "inv axisswap order=x", "push v_1 | inv axisswap order=x", "push v_1 | :inv axisswap order=1,x",
]
ON_ALL = ["inv axisswap order=x", "push v_1 | :inv axisswap order=1,x", "stack push", "push | pop v_1= | foo", "adapt from=x inv=no | adapt to=wnuf", "stack roll=3,1,x omit_inv=no"]
LINES = ["prepare 64 " + hexed("push v_1=no") + " -", "prepare/q 64 " + hexed("push v_1=no"), "check up " + hexed("push v_1=no"), "run fwd 0 " + hexed("push v_1=no"),
         "run fwd 0 " + hexed("push v_1=no") + " x", "steps/p " + hexed("push v_1=no"), "write " + hexed("push v_1=no") + "0", "refused 12 1 9"]


def requests():
    """All of them, each once."""
    texts = dict.fromkeys(itertools.chain(alone(), together(), elements(), written(), many(), BESIDE, long(), PROJ_TEXTS))
    lines = [asked(text, number) for number, text in enumerate(texts)]
    lines += [f"steps {hexed(text)}" for text in PROJ_TEXTS] + [f"prepare 64 {hexed(text)}" for text in NAMED + BESIDE]
    return list(dict.fromkeys(itertools.chain(lines, *map(on_all, ON_ALL), LINES)))
