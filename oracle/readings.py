"""Requests for the recorded list in the crate's reading and in PROJ's, and on rows of records as a caller lends them.

`requests()` gives them, always the same: every operator with `inv` and without it, both ways, in both readings; what preparing refuses in PROJ's
reading; depths of 64 and 65; tables of every size up to 71, with every field on both sides of what it holds and of what preparing makes, and of
mixed readings; and lines that are no requests. Rows are spelt here without spans: each gets one, in turn.
"""
import itertools

from definitions import draw

DIRECTIONS = ("fwd", "inv")
READINGS = ("", "/p")
# two tuples: plain numbers, and a zero of either sign, an infinity and a NaN
NUMBERS = ",".join([
    "3ff0000000000000", "4000000000000000", "4008000000000000", "4010000000000000",
    "8000000000000000", "fff0000000000000", "7ff8000000000000", "0000000000000000",
])
ONE = NUMBERS[:4 * 17 - 1]

# every operator: push, pop, each action of stack, axisswap and adapt
STEPS = [
    "push", "push v_1 v_3", "pop v_2", "pop v_1 v_2 v_4", "stack push=1,2", "stack push=4,2,4", "stack pop=3,1", "stack pop=2,2",
    "stack flip=1,2", "stack flip=1,1", "stack roll=3,1", "stack roll=4,-1", "stack roll=2,0", "stack unroll=3,1", "stack unroll=4,-3",
    "stack swap", "stack drop", "axisswap order=2,-1", "axisswap order=-3,1,2", "adapt from=nwuf", "adapt from=enuf_deg to=seuf_gon", "adapt",
]
MARKS = [" ".join(some) for many in range(4) for some in itertools.combinations(("inv", "omit_fwd", "omit_inv"), many)]
# steps that leave four columns for a step between them, whichever way it runs
AROUND = "stack push=1,2,3,4 | %s | stack pop=4,2,1,3"

# what venues paste, and what is like it
PASTED = [
    "pop inv v_3 | push inv v_3", "push inv v_3 | pop inv v_3", "pop inv v_3 | axisswap order=2,1 | push inv v_3",
    "pop v_1 v_2 inv | push v_1 v_2 inv", "pop v_1 inv | pop v_2 inv | push v_2 inv | push v_1 inv", "push v_3 | push v_3 inv",
    "pop v_3 inv | pop v_3", "stack pop=1,2 inv | stack push=1,2 inv", "stack push=1,2 | stack push=1,2 inv", "stack roll=2,1 inv | stack swap",
    "push v_1 v_2 | stack roll=2,1 inv | stack unroll=2,1 inv | pop v_1 v_2", "inv pop v_4 > push inv v_4", "pop inv v_1 | pop v_1=true inv=true",
    "pop inv omit_inv v_1 | axisswap order=2,1 inv | push inv omit_fwd v_1", "adapt inv from=neuf_deg | pop inv v_1", "",
]
FULL = " | ".join(["stack pop=1,2,3,4,1,2,3,4 inv"] * 8)
DEEP = [FULL, FULL + " | pop v_1 inv", FULL + " | push v_1 inv | pop v_1 inv", FULL + " | stack roll=64,1 inv", FULL + " | stack pop=1 inv",
        FULL.replace("pop", "push"), "push v_1 inv | " + FULL.replace("pop", "push")]
# what preparing refuses, 1 to 14
REFUSED = [
    "x" * 4097, "é", "push v_1 inv | inv", "push | :inv", "|".join(["push inv"] * 64), "|".join(["push inv"] * 65),
    "push inv " + " ".join("k%d" % number for number in range(31)), "foo inv", "pop inv | Push", "pop v_5 inv", "push inv | stack inv v_1",
    "pop v_1 inv=no", "stack inv push=1,x", "stack inv push=1,1,1,1,1,1,1,1,1", "stack inv", "stack inv push=5", "stack inv roll=3,3",
    "axisswap inv order=2", "adapt inv from=enue",
]


def hexed(text):
    return text.encode().hex() or "-"


def on_text(text, numbers, store, ways=READINGS):
    """Checks and runs of a text, both ways and in both readings, or in what is marked so."""
    for mark, direction in itertools.product(ways, DIRECTIONS):
        yield f"check{mark} {direction} {hexed(text)}"
        yield f"run{mark} {direction} {store} {hexed(text)} {numbers}"


def on_marks(step, way):
    """A step with every set of marks, prepared, and written."""
    marked = hexed(" | ".join((step + " " + marks).strip() for marks in MARKS))
    yield f"prepare{way} 64 {marked}"
    yield f"write{way} {marked}"


def of_operators():
    for step in STEPS:
        for reading in READINGS:
            yield from on_marks(step, reading)
            for inverted, direction in itertools.product((step, step + " inv"), DIRECTIONS):
                yield f"check{reading} {direction} {hexed(inverted)}"
                yield f"run{reading} {direction} 20 {hexed(AROUND % inverted)} {NUMBERS}"


def of_texts():
    for text in PASTED:
        yield from on_text(text, NUMBERS, 9)
        yield f"prepare/p 64 {hexed(text)}"
        yield f"write/p {hexed(text)}"
    for text in DEEP:
        yield from on_text(text, ONE, 64)
        yield f"run/p fwd 63 {hexed(text)} {ONE}"
    for text in REFUSED:
        yield f"prepare/p 64 {hexed(text)}"
        yield f"write/p {hexed(text)}"
    for text in REFUSED[2:12:3]:
        yield f"check/p inv {hexed(text)}"
        yield f"run/p fwd 0 {hexed(text)} zeros:3"
    for room in range(4):
        yield f"prepare/p {room} {hexed('pop inv v_1 | push inv v_1')}"
    for numbers in "zeros:0", "zeros:3", "zeros:64", "zeros:68", "zeros:262148":
        yield f"run/p fwd 70 {hexed('pop inv v_3 | push inv v_3')} {numbers}"


# ----- rows ----------------------------------------------------------------------------------------------------------


def row(operator, args, marks=(0, 0, 0), reading=0, n=None):
    filled = list(args) + [0] * (8 - len(args))
    return ",".join(map(str, [operator, len(args) if n is None else n, *marks, *filled, reading]))


def rows_of(table):
    return ";".join(table) or "-"


def on_rows(table, store=9, numbers=ONE, directions=("fwd",)):
    rows = rows_of(table)
    for direction in directions:
        yield f"rows-check {direction} {rows}"
        yield f"rows-run {direction} {store} {rows} {numbers}"
    yield f"rows-write {rows}"


# an operator's number and arguments that preparing makes
GOOD = [
    (0, []), (0, [1, 2, 3, 4]), (1, []), (1, [2, 4]), (2, [4, 4]), (2, [1, 2, 3, 4, 1, 2, 3, 4]), (3, [2]), (4, [3, 3]), (5, [2, -1]),
    (5, [999999999, -999999998]), (6, [1, 0]), (7, []), (8, []), (9, [1]), (9, [-2, 1]), (9, [4, -3, 2, -1]), (10, [1, 2, 3, 4, 0, 0, 0, 0]),
    (10, [-2, 1, -4, 3, 7, 7, 0, 0]),
]
# and that it does not
BAD = [
    (0, [2, 1]), (0, [1, 1]), (0, [5]), (0, [0]), (1, [3, 2]), (1, [-1]), (2, []), (2, [5]), (3, [0]), (4, []), (4, [-1]), (5, [3]),
    (5, [3, 3]), (5, [3, -3]), (5, [0, 0]), (5, [3, 1, 1]), (6, [-3, 1]), (7, [1]), (8, [1]), (9, []), (9, [2]), (9, [1, 1]), (9, [1, 2, 3, 4, 5]),
    (10, [1, 2, 3, 4]), (10, [1, 2, 3, 3, 0, 0, 0, 0]), (10, [1, 2, 3, 4, 4, 4, 0, 0]), (10, [1, 2, 3, 4, 8, 8, 0, 0]),
    (10, [1, 2, 3, 4, 1, 2, 0, 0]), (10, [1, 2, 3, 4, 1, 1, 1, 1]),
]
# numbers on both sides of what a byte holds and of what an i32 holds
BYTES = ["0", "1", "2", "3", "9", "10", "255", "256", "1000000000", "-1"]
WHOLES = ["0", "-1", "4", "5", "999999999", "1000000000", "2147483647", "2147483648", "-2147483648", "-2147483649"]
# in the place of a byte, of an argument in use, of one that is not, and of the reading
PLACES = [0, 2, 5, 12, 13]
SPELT = ["", "-", "--1", "+1", "1-", "01", "001", "-01", "00", "1.0", "1e0", "x", "0x1", "1:"]


def replaced(line, place, number):
    numbers = line.split(",")
    numbers[place] = number
    return ",".join(numbers)


def of_rows():
    for operator, args in GOOD:
        for inv, reading in itertools.product((0, 1), repeat=2):
            yield from on_rows([row(operator, args, (inv, 0, 0), reading)], directions=DIRECTIONS[inv:inv + 1])
    for number, (operator, args) in enumerate(BAD):
        reading = number % 2
        yield from on_rows([row(0, [1], reading=reading), row(operator, args, reading=reading)])
    base = row(2, [1, 2], (1, 0, 0), 1)
    for place in range(14):
        bounds = WHOLES if 5 <= place < 13 else BYTES
        for number in bounds:
            yield "rows-check fwd " + rows_of([row(3, [2, 1], (1, 0, 0), 1), replaced(base, place, number)])
        yield "rows-run fwd 9 %s %s" % (replaced(base, place, bounds[-2]), ONE)
        yield "rows-write " + replaced(base, place, bounds[-2])
    for place, number in itertools.product(PLACES, SPELT):
        yield "rows-write " + replaced(base, place, number)


def of_sizes():
    """Tables of no record up to 71: bare pushes, with a step at the end that tells whether it was reached."""
    for many, reading in itertools.product((0, 1, 2, 63, 64, 65, 66, 69, 70, 71), (0, 1)):
        table = ([row(0, [], reading=reading)] * many + [row(9, [2, -1], (1, 0, 0), reading)])[-many:] if many else []
        yield from on_rows(table)
    full = [row(0, [], reading=1)] * 63
    for last in row(0, []), row(0, [], reading=2), row(11, [], reading=1), row(9, [2, 1], reading=1):
        yield from on_rows(full + [last])
        yield from on_rows([last] + full)
        yield from on_rows(full + [last] * 2)
    yield from on_rows([row(11, [])] * 65)
    yield from on_rows([row(3, [1, 2, 3, 4, 1, 2, 3, 4], (1, 0, 0), 1)] * 8, store=64)
    yield from on_rows([row(3, [1, 2, 3, 4, 1, 2, 3, 4], (1, 0, 0), 1)] * 8, store=63)
    yield from on_rows([row(3, [1, 2, 3, 4, 1, 2, 3, 4], (1, 0, 0), 1)] * 9, store=64)


def of_mixed():
    """Tables of three records in every mixture of the two readings and of a number that is none."""
    for readings in itertools.product((0, 1, 2), repeat=3):
        good = [row(1, [3], (1, 0, 0), readings[0]), row(9, [1], (1, 0, 0), readings[1]), row(0, [3], (1, 0, 0), readings[2])]
        yield from on_rows(good, directions=DIRECTIONS)
    # the first bad record, whichever way it is bad
    one, other, bad = row(0, [1], reading=1), row(0, [1], reading=0), row(0, [5], reading=1)
    for table in itertools.permutations([one, other, bad]):
        yield from on_rows(table)


# ----- lines that are no requests, and their neighbours --------------------------------------------------------------

LINES = [
    "normalise/p 9 61", "split/p 9 61", "parameters/p 9 61", "translate/p 9 61", "steps/p 61", "steps/p -", "rows-check/p fwd -",
    "rows-run/p fwd 0 - -", "rows-write/p -", "prepare/ 64 -", "prepare/P 64 -", "prepare/pp 64 -", "prepare/p/p 64 -", "prepare/q 64 -",
    "prepare/p/ 64 -", "prepare//p 64 -", "prepare /p 64 -", "prepare/p  64 -", "check/ fwd -", "check/P fwd -", "run/ fwd 0 - -", "write/ -", "write/P -",
    "/p", "p", "/p fwd -", "prepare/p", "prepare/p 64", "prepare/p 65 -", "prepare/p x -", "prepare/p 64 6", "prepare/p 64 - -", "prepare/p 0 -",
    "prepare/p 64 -", "check/p", "check/p fwd", "check/p forward -", "check/p fwd - -", "check/p fwd -", "check/p inv -", "run/p", "run/p fwd",
    "run/p fwd 0 -", "run/p fwd 0 - - -", "run/p fwd x - -", "run/p fwd 0 - nan", "run/p fwd 0 - -", "run/p inv 3 - " + ONE, "write/p", "write/p 6",
    "write/p - -", "write/p -", "rows", "rows-", "rows-foo -", "rows-prepare 64 -", "rows-steps -", "rows-split 9 -", "rows-normalise 9 -",
    "Rows-check fwd -", "rows-check", "rows-check fwd", "rows-check - fwd", "rows-check forward -", "rows-check fwd - -", "rows-check fwd -",
    "rows-check inv -", "rows-run", "rows-run fwd", "rows-run fwd 0 -", "rows-run fwd - - -", "rows-run fwd 0 - - -", "rows-run fwd 0 - nan",
    "rows-run fwd 0 - -", "rows-run inv 2 - " + ONE, "rows-run fwd 0 - zeros:3", "rows-run fwd 262149 - -", "rows-run fwd 0 - zeros:262148",
    "rows-write", "rows-write - -", "rows-write -", "rows-write  -", "rows-write ", "rows-check fwd 7075736820765f31",
]


def of_lines():
    yield from LINES
    good = row(0, [1], reading=1)
    for rows in (";", "-;", ";-", "-;-", "--", good + ";", ";" + good, good + ";;" + good, good + ";-", "-;" + good, good + "," + good, good + " ",
                 good + ",0", good + ",", "," + good, good[:-2], good[2:], good.replace(",", ";"), good.replace(",", ", "), good.replace(",", ",,", 1),
                 good + ";" + good[:-2], good + ";" + good + ",1", good + ";" + good):
        yield "rows-check fwd " + rows
        yield "rows-write " + rows
        yield "rows-run inv 9 %s %s" % (rows, ONE)


def requests():
    """All of them, each once."""
    parts = of_operators(), of_texts(), of_rows(), of_sizes(), of_mixed(), of_lines()
    return list(map(draw.placed, dict.fromkeys(itertools.chain(*parts))))
