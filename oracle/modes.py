"""Requests for the recorded list in the crate's mode and in the documented mode, in both readings.

`requests()` gives them, always the same: adapt with letters of every order and sign, with every ending and every set of marks; what preparing refuses in the
documented mode; every order and every row of codes of a documented record, and each field of one on both sides of what it holds and of what preparing
makes; tables of both modes and of mixed readings; numbers that a factor makes too large or too small; and lines that are no requests.
"""
import itertools

from asking import WAYS
from definitions import ENDINGS, HOSTILE, NOT_WORDS, draw, letter_orders
from readings import (AROUND, BYTES, DIRECTIONS, FULL, NUMBERS, ONE, PASTED, REFUSED, WHOLES, hexed, on_marks, on_rows, on_text, replaced,
                      row, rows_of)

PAGE = ("/d", "/pd")  # the documented mode
ADAPT, DOCUMENTED = 10, 11
MOST = 64  # steps of a table
ANGLED = ("", "_deg", "_gon")


def in_lots(steps, many=MOST):
    """The steps, so many of them to a lot."""
    return [steps[start:start + many] for start in range(0, len(steps), many)]


# ----- texts ---------------------------------------------------------------------------------------------------------

WORDS = list(letter_orders())  # 24 orders of the letters, each in 16 signs
# each order once, its signs and its ending always others
SOME = [WORDS[16 * order + 7 * order % 16] + ANGLED[order % 3] for order in range(24)]
TWO = list(itertools.combinations(range(4), 2))


def word_at(two, number):
    """A word with its horizontal letters at two places; another number, other letters and signs."""
    level, high = ["ew", "ns"][::1 - number % 2 * 2], ["ud", "fp"][::1 - number // 2 % 2 * 2]
    axes = [level.pop() if place in two else high.pop() for place in range(4)]
    return "".join(axis[(number >> (2 + place)) & 1] for place, axis in enumerate(axes))


# pairs of words whose horizontal letters stand at any two places of each, with every pair of angles
PAIRS = [(word_at(come, 7 * number + 3) + ANGLED[number % 3], word_at(go, 11 * number + 6) + ANGLED[number // 3 % 3])
         for number, (come, go) in enumerate([*itertools.product(TWO, TWO), *itertools.product(TWO[1::2], TWO[::2])])]
# the request's word, the page's, an angle behind the first two places, all letters turned, nothing to do
ADAPTS = [
    "adapt from=nwuf", "adapt to=nwuf", "adapt from=neuf_deg", "adapt to=unef_deg", "adapt from=ufen_gon to=wdsp_deg", "adapt from=pdsw", "adapt",
]
# what hides the places and what does not, and a step between columns
FORETOLD = [
    "adapt", "adapt omit_fwd", "adapt omit_inv", "adapt omit_fwd omit_inv", "push v_3 | adapt from=nwuf | pop v_3",
    "push v_3 | adapt from=nwuf omit_fwd | pop v_3", "push v_3 | adapt from=nwuf omit_inv inv | pop v_3", "adapt from=nwuf | pop v_1",
    "pop v_1 | adapt from=nwuf", "axisswap order=2,1 | adapt from=fnue_gon omit_inv | axisswap order=-1", "adapt from=unef_deg | adapt inv from=unef_deg",
    "adapt from=unef_deg | adapt to=unef_deg", "stack push=1,2 | adapt from=nwuf | stack flip=1,2 inv | stack pop=2,1",
]
LONG = "adapt from=wsdp_deg to=pdsw_gon inv omit_fwd omit_inv"
# what preparing refuses in a step of adapt, and where two numbers compete
WRONG = [
    "adapt from", "adapt to", "adapt from=", "adapt to=", "adapt from=neuf from=neu", "adapt from=neu from=neuf", "adapt from=nwuf to", "adapt from=wsdp=x",
    "adapt v_1", "adapt order=2,1", "adapt from=nwuf mode=documented", "adapt documented", "documented from=nwuf", "adapt:documented", "adapt From=nwuf",
    "adapt from=nwuf inv=no", "adapt from=x inv=no", "adapt from=x zone", "adapt from=nwuf omit_fwd=", "push | adapt from=enue | foo",
    "adapt from=neuf_deg | adapt to=neuf_dag", "adapt from=nwuf | inv", "adapt from=nwuf | :inv", "inv", LONG + " " + " ".join("k%d" % n for n in range(26)),
    LONG + " " + " ".join("k%d" % n for n in range(27)), ">" + "adapt from=nwuf" + " inv" * 1018, ">" + "adapt from=nwuf" + " inv" * 1018 + "=true",
]


def of_words():
    """Every word, `from` and `to`; then runs of some and of pairs."""
    steps = [f"adapt {key}={word}{ENDINGS[number % 5]}" for key in ("from", "to") for number, word in enumerate(WORDS)]
    steps += [f"adapt from={come} to={go}" for come, go in PAIRS]
    for lot in in_lots(steps):
        text = hexed(" | ".join(lot))
        yield f"prepare/d 64 {text}"
        yield f"write/d {text}"
    for number, word in enumerate(SOME):
        for key, direction in itertools.product(("from", "to"), DIRECTIONS):
            inv = " inv" * (number % 2)
            yield f"run{PAGE[number // 2 % 2]} {direction} 0 {hexed(f'adapt {key}={word}{inv}')} {NUMBERS}"
    for (come, go), direction in itertools.product(PAIRS, DIRECTIONS):
        yield f"run/d {direction} 1 {hexed(f'adapt from={come} to={go}')} {NUMBERS}"
    for come, go in PAIRS[::5]:
        yield f"run fwd 0 {hexed(f'adapt from={come} to={go}')} {NUMBERS}"


def of_steps():
    """Steps with every set of marks, in both readings and both modes."""
    for step in ADAPTS:
        for way in WAYS:
            yield from on_marks(step, way)
        for way, inverted, direction in itertools.product(WAYS, (step, step + " inv"), DIRECTIONS):
            yield f"run{way} {direction} 20 {hexed(AROUND % inverted)} {NUMBERS}"
    for step in FORETOLD:
        yield from on_text(step, ONE, 9, PAGE)
        yield from (f"write{way} {hexed(step)}" for way in WAYS)
    for text in PASTED:  # most without adapt: these have the same records in both modes
        yield f"prepare/pd 64 {hexed(text)}"
        yield f"check/pd fwd {hexed(text)}"
    for lot in [LONG] * 64, [LONG] * 65, ["adapt from=unef_deg"] * 64, ["adapt inv from=wnuf"] * 63 + ["push v_1"]:
        text = hexed("|".join(lot))
        yield f"prepare/d 64 {text}"
        yield f"write/d {text}"
        yield f"check/d fwd {text}"
        yield f"run/d inv 2 {text} {ONE}"


def of_refusals():
    for text in WRONG:
        for way in PAGE:
            yield f"prepare{way} 64 {hexed(text)}"
        yield f"write/d {hexed(text)}"
    for word in NOT_WORDS:
        yield f"prepare/d 64 {hexed(f'adapt from={word}')}"
        yield f"prepare/d 64 {hexed(f'adapt from=neuf_deg | adapt from=neuf_gon to={word}')}"
    for text in REFUSED:
        yield f"prepare/d 64 {hexed(text)}"
        yield f"check/d inv {hexed(text)}"
        yield f"run/pd fwd 0 {hexed(text)} zeros:3"
    for room in range(4):
        yield f"prepare/d {room} {hexed('adapt from=nwuf | adapt to=nwuf')}"
    for numbers in "zeros:0", "zeros:3", "zeros:64", "zeros:68", "zeros:262144", "zeros:262148":
        yield f"run/d fwd 70 {hexed('push v_1 | adapt from=nwuf_deg')} {numbers}"
    deep = FULL.replace("pop", "push").replace(" inv", "") + " | adapt from=nwuf"
    for text, store in (deep, 64), (deep, 63), (deep + " | push v_1", 65):
        yield f"check/d fwd {hexed(text)}"
        yield f"run/d fwd {store} {hexed(text)} {ONE}"


# ----- numbers -------------------------------------------------------------------------------------------------------

# for each factor the largest number that it leaves finite and the next, or the least that it does not make zero, the least that it leaves
# normal, and the one before each
EDGES = [
    "7f91df46a2529d38", "7f91df46a2529d39", "7f9015bf92172719", "7f9015bf9217271a", "7feccccccccccccb", "7feccccccccccccc", "7feccccccccccccd",
    "7fecccccccccccce", "000000000000001c", "000000000000001d", "000000000000001f", "0000000000000020", "0000000000000001", "006ca5dc1a63c1f6",
    "006ca5dc1a63c1f7", "006fd4bbab8b494a", "006fd4bbab8b494b", "0011c71c71c71c70", "0011c71c71c71c71", "0011c71c71c71c72", "7fefffffffffffff",
    "ff91df46a2529d39", "800000000000001c", "800000000000001d",
]
FACTORED = [
    "adapt from=enuf_deg", "adapt to=enuf_deg", "adapt from=enuf_gon", "adapt to=enuf_gon", "adapt from=enuf_deg to=enuf_gon",
    "adapt from=enuf_gon to=enuf_deg", "adapt from=ufwn_deg", "adapt to=unfw_gon", "adapt from=wfsu_deg to=dnpe_gon",
]


def of_numbers():
    """Every hostile number at every place, and the edges of overflow and underflow."""
    hostile = [HOSTILE[(number + number // 16) % 16] for number in range(64)]
    for text in FACTORED + ["adapt from=nwuf", "adapt to=psed"]:
        for direction in DIRECTIONS:
            yield f"run/d {direction} 0 {hexed(text)} {','.join(hostile)}"
    edges = [EDGES[(number + 6 * place) % 24] for number in range(24) for place in range(4)]
    for text in FACTORED:
        for direction, half in itertools.product(DIRECTIONS, (edges[:48], edges[48:])):
            yield f"run/d {direction} 0 {hexed(text)} {','.join(half)}"
    # there and back: restored where every factor is 1 or -1, and not always where it is none
    for word in SOME:
        for first, second in (("", " inv"), (" inv", "")):
            yield f"run/d fwd 0 {hexed(f'adapt from={word}{first} | adapt from={word}{second}')} {','.join(hostile[:16])}"


# ----- rows ----------------------------------------------------------------------------------------------------------

ORDERS = [[axis * sign for axis, sign in zip(order, signs)] for order in itertools.permutations((1, 2, 3, 4))
          for signs in itertools.product((1, -1), repeat=4)]
CODES = (1, 2, 3, 5, 6, 7)  # and 0


def codes_at(places, code):
    return [code if place in places else 0 for place in range(4)]


GOOD_CODES = [[0] * 4] + [codes_at(two, code) for two in TWO for code in CODES]
BAD_CODES = (
    [codes_at([place], code) for place in range(4) for code in (1, 7)]  # alone
    + [codes_at(three, code) for three in itertools.combinations(range(4), 3) for code in (3, 5)] + [[2] * 4, [6] * 4]
    + [[one if place == two[0] else other if place == two[1] else 0 for place in range(4)] for two in TWO for one, other in ((1, 3), (7, 5))]
    + [[1, 1, 2, 2], [5, 7, 7, 5], [3, 6, 3, 6], [1, 1, 1, 2], [0, 1, 1, 3]]
    + [codes_at(two, code) for two in TWO for code in (4, 8, -1)] + [codes_at([0, 3], code) for code in (9, 10, 12, -3, 999999999, 1000000000)]
)
BAD_ORDERS = [order[:place] + [number] + order[place + 1:] for order in ([1, 2, 3, 4], [-3, 1, 4, -2]) for place in range(4)
              for number in (0, 5, -5, order[place - 1], -order[place - 1], 999999999, -1000000000)]
BASE = row(DOCUMENTED, [-2, 3, 1, -4, 5, 5, 0, 0], (1, 0, 0), 1)
FIRST = row(1, [2], (1, 0, 0), 1)


def of_good_rows():
    """Every row of codes, and every order; each with other marks and readings."""
    for number, codes in enumerate(GOOD_CODES):
        inv, reading = number % 2, number // 2 % 2
        one = row(DOCUMENTED, ORDERS[(53 * number + 100) % 384] + codes, (inv, 0, 0), reading)
        yield from on_rows([one], numbers=NUMBERS, directions=DIRECTIONS[number // 4 % 2:][:1])
        yield "rows-write " + rows_of([row(DOCUMENTED, ORDERS[(5 * other + number) % 384] + codes) for other in range(64)])
    for number, lot in enumerate(in_lots(ORDERS)):
        table = [row(DOCUMENTED, order + GOOD_CODES[(number + 7 * place) % 37]) for place, order in enumerate(lot)]
        yield from on_rows(table, numbers=NUMBERS, directions=DIRECTIONS)


def of_bad_rows():
    for number, codes in enumerate(BAD_CODES):
        bad = row(DOCUMENTED, ORDERS[(71 * number + 9) % 384] + codes)
        yield f"rows-check {DIRECTIONS[number % 2]} " + rows_of([row(0, [1]), bad])
        yield "rows-write " + bad if number % 3 else f"rows-run fwd 9 {rows_of([bad, row(0, [1])])} {ONE}"
    for number, order in enumerate(BAD_ORDERS):
        bad = row(DOCUMENTED, order + GOOD_CODES[11 * number % 37])
        yield f"rows-check fwd {rows_of([row(0, [1]), bad])}"
        if number % 4 == 0:
            yield from (f"rows-run inv 9 {bad} {ONE}", f"rows-write {bad}")
    for n in 0, 1, 4, 5, 7, 9, 10, 255, 999999999:
        yield from on_rows([row(DOCUMENTED, [1, 2, 3, 4, 0, 0, 0, 0], n=n)])
        yield f"rows-check fwd {row(DOCUMENTED, [1, 2, 3, 4, 5, 0, 5, 0], n=n)}"
    for operator, args in itertools.product((9, 10, 11, 12, 13, 255), ([2, 1, 3, 4, 5, 5, 0, 0], [2, 1, 3, 4, 0, 5, 5, 0], [2, 1, 3, 4, 0, 0, 0, 0])):
        yield from on_rows([row(operator, args)])
    for place in range(14):
        for number in WHOLES if 5 <= place < 13 else BYTES:
            yield "rows-check fwd " + rows_of([FIRST, replaced(BASE, place, number)])
        yield "rows-write " + replaced(BASE, place, "-2147483649")


def of_sizes():
    """Tables of 1 to 71 records of documented adapt, and a bad one at either end."""
    one, bad = row(DOCUMENTED, [-2, 1, 3, 4, 0, 0, 0, 0]), row(DOCUMENTED, [1, 2, 3, 4, 0, 4, 4, 0])
    for many in 1, 2, 63, 64, 65, 66, 70, 71:
        yield from on_rows([one] * many, numbers=NUMBERS)
    for table in [one] * 63 + [bad], [bad] + [one] * 63, [one] * 64 + [bad], [one] * 63 + [row(DOCUMENTED, [1, 2, 3, 4, 0, 0, 0, 0], reading=1)]:
        yield from on_rows(table)


def of_mixed():
    """Tables of both modes, each step in its own; and of mixed readings."""
    args = {ADAPT: [2, -1, 3, 4, 3, 3, 0, 0], DOCUMENTED: [2, -1, 3, 4, 0, 3, 0, 3]}
    for operators in itertools.product(args, repeat=3):
        for reading in 0, 1:
            table = [row(operator, args[operator], (place % 2, 0, 0), reading) for place, operator in enumerate(operators)]
            yield from on_rows(table, numbers=NUMBERS, directions=DIRECTIONS)
    for operators in itertools.product(args, repeat=2):
        around = [row(operator, args[operator], (0, mark, 1 - mark)) for mark, operator in enumerate(operators)]
        yield from on_rows([row(2, [1, 2]), *around, row(3, [4, 3])], directions=DIRECTIONS)
    for readings in itertools.product((0, 1, 2), repeat=2):
        for operators in (DOCUMENTED, DOCUMENTED), (ADAPT, DOCUMENTED), (DOCUMENTED, ADAPT):
            yield from on_rows([row(operator, args[operator], reading=reading) for operator, reading in zip(operators, readings)])
    for pushed in row(0, [1], reading=0), row(0, [1], reading=1):
        yield from on_rows([pushed, row(DOCUMENTED, args[DOCUMENTED], reading=1)])
    # the factors are taken for what each mode means by them: one record's numbers under both operators
    for order, direction in itertools.product(ORDERS[5::32], DIRECTIONS):
        for operator in args:
            yield f"rows-run {direction} 0 {row(operator, order + [5, 5, 0, 0])} {NUMBERS}"


# ----- lines that are no requests, and their neighbours --------------------------------------------------------------

LINES = [
    "normalise/d 9 61", "split/d 9 61", "parameters/d 9 61", "translate/d 9 61", "steps/d 61", "steps/pd -", "rows-check/d fwd -", "rows-run/d fwd 0 - -",
    "rows-write/d -", "prepare/D 64 -", "prepare/dd 64 -", "prepare/dp 64 -", "prepare/p/d 64 -", "prepare/d/p 64 -", "prepare/pdp 64 -", "prepare/pD 64 -",
    "prepare/d/ 64 -", "prepare//d 64 -", "prepare /d 64 -", "prepare/d  64 -", "prepare/pd", "prepare/d", "prepare/d 64", "prepare/d 65 -", "prepare/d x -",
    "prepare/d 64 6", "prepare/d 64 - -", "prepare/d 0 -", "prepare/pd 64 -", "check/dp fwd -", "check/D fwd -", "check/d", "check/d fwd", "check/d forward -",
    "check/d fwd - -", "check/d fwd -", "check/pd inv -", "run/dp fwd 0 - -", "run/d", "run/d fwd 0 -", "run/d fwd 0 - - -", "run/d fwd 0 - nan",
    "run/d fwd 0 - -", "run/pd inv 3 - " + ONE, "write/dp -", "write/d", "write/d 6", "write/d - -", "write/d -", "write/pd -", "/d", "d", "/pd fwd -",
    "documented 64 -", "prepare/documented 64 -",
]


def requests():
    """All of them, each once."""
    parts = (of_words(), of_steps(), of_refusals(), of_numbers(), of_good_rows(), of_bad_rows(), of_sizes(), of_mixed(), LINES)
    return list(map(draw.placed, dict.fromkeys(itertools.chain(*parts))))
