"""Requests for the recorded list on spans: of records, of the check's failures, and of rows that a caller lends.

`requests()` gives them, always the same: the call `definition` on texts with comments, colons and newlines, lent just enough and one byte less;
definitions with modifiers in front, separators of all three kinds, empty steps, comments, colons, white space and subscripts, prepared in
every reading and mode, and checked; steps that find too few columns or too many, at every place of a definition; spans far behind; rows with
every span on both sides of what 18 refuses, alone, behind another, and beside every other reason for 18; tables that differ only in spans;
and rows that have another count of numbers.
"""
import itertools

from asking import WAYS
from definitions import model
from readings import AROUND, BAD, DIRECTIONS, GOOD, NUMBERS, ONE, SPELT, STEPS, hexed, replaced, row

# ----- texts ---------------------------------------------------------------------------------------------------------

# one step, written in many ways
FRONTS = [
    "", "inv ", "omit_fwd inv ", "omit_inv omit_fwd inv ", ":", ": ", "::", ":inv ", "inv : ", "inv=true ", " ", "\t\n", "\r\n:", "# a\n", "# a | b\r", "a _name=stack ",
]
BEHIND = ["", " ", ":", " :", " : :", " inv", " # push", "\n", " omit_inv=true", "\x0b\x0c", " #", "\n: inv", " _name=stack"]
# two steps, one behind the other
BETWEEN = [
    "|", " | ", "||", " | | ", "|||||", "\n|\n", "|\t", " # a\n| ", " # a | b\n|", "\r|\r", " > ", "<", ">", " >: ", "|>", "| <", "<|", ">\n", "|:", "| : ", ":|", " :\n| ", ":\n:|", "| # c\n|",
    ">|", "><", "> >", "<inv ", "|inv ", "|omit_fwd inv ", " inv|", "=|", ",|", "$|", "$ |", "|$",
]
ENDS = [("|", ""), ("", "|"), ("||", "||"), (">", ""), ("<", ""), ("", ">"), (" | ", " | "), ("# a\n|", "| # a"), (":|", "|:"), (": |", "| :"), (">:", ""), (" \n", "\n ")]
SPACED = [("=", " = "), (",", " , "), (" ", "  "), (" ", "\n"), (" ", " # no\n "), ("v_1", "v₁=true"), ("v_1", "v₁ = true"), ("v_2", "v_2=true="), ("1", "1.0")]
WRITTEN = ["push v_1", "stack push=2,1", "axisswap order=2,-1", "pop v_2 v_1", "adapt from=enuf_deg"]


def texts():
    """Definitions written in every way, most of them good."""
    for step, other in zip(WRITTEN, WRITTEN[1:] + WRITTEN[:1]):
        yield from (front + step + behind for front, behind in itertools.product(FRONTS, BEHIND[::5]))
        yield from (step + behind for behind in BEHIND)
        yield from (step + between + other for between in BETWEEN)
        yield from (f"{front}{step}|{front}{other}" for front in FRONTS)
        yield from (f"{first}{step} | inv {other}{last}" for first, last in ENDS)
        yield from (f"{step} | {other}".replace(*pair) for pair in SPACED)
    yield from ("", "|", "||||", "# a", "push|pop|inv", "inv", "|omit_fwd|", ":", "|:", "| : |push", "push | foo | pop", "é | push", "push | pop v_1=no", "x" * 4097)


def far():
    """Spans on both sides of 10, 100 and 1,000, and as far behind as a definition of 4,096 bytes has them."""
    for at in 9, 10, 99, 100, 999, 1000, 4087, 4088, 4089:
        yield "|" * at + "push v_1"
        yield "|" * (at - 8) + "inv pop|pop v_1"
    for many in 1, 2, 9, 10, 63, 64, 65:
        yield "|" * (4096 - 5 * many) + ">push" * many
        yield "<pop v_1" * many
        yield " | ".join(["push v_1 # one\n"] * many)
    longest = "stack push=1,1,1,1,1,1,1,1" + " inv" * 1017
    yield from (longest, "|" + longest, ">" + longest, longest + "|", "|push v_1|" + longest[:-40], "omit_fwd " * 400 + "push v_1|pop")


# ----- the call `definition` -----------------------------------------------------------------------------------------

COMMENTED = [
    "b: :\n:", "\n: :a", "# x\n: :b", "b\n::c", "b\n:\n:c", "a\r:b", "a\r\n:b", "a\n\r:b", "a # b # c\n# d\n e", "#", "##", "#\n#",
    "a#\n|#\nb", ":#a\n:b", "a>#b\nc", "a=#b\nc", "a # >|<", "a\x0b# b\x0cc\nd",
    "₁=#₂\n₃ =", "x" * 4096, "x" * 4097, ">" * 4096, "a" + ">" * 4095, "#" + ">" * 4095, "a\n" * 2048, "é", "# é", "a\0b#\0",
]


def commented():
    """Every text of up to three of these pieces, and some more."""
    for many in range(4):
        yield from map("".join, itertools.product(["a", ":", "\n", "\r", "#", " ", "|"], repeat=many))
    yield from COMMENTED


def on_definition(text, number):
    """Lent just enough, or one byte less."""
    answer = model.definition(text.encode())
    need = 1 if model.refuses(answer) else len(answer)
    return f"definition {max(0, need - number % 2)} {hexed(text)}"


# ----- the check's failures ------------------------------------------------------------------------------------------


def failing():
    """Steps that find too few columns at each place of a definition, and too many."""
    for step, inv in itertools.product(STEPS, ("", "inv ")):
        yield from (f"{inv}{step} | axisswap", f" | axisswap > {inv}{step} # end", f"push v_1 | : {inv}{step} || pop v_1")
    for place in 1, 2, 10, 63, 64:
        steps = ["axisswap order=1"] * 64
        steps[place - 1] = "inv pop v_3"
        yield from (" | ".join(steps), ">".join(steps), "||".join(["push v_1"] * (place - 1) + ["pop v_1"] * (65 - place)))
        yield "|".join(["stack push=1,2,3,4,1,2,3,4"] * 8 + ["stack swap"] * (place - 1) + ["inv push v_1"])
        yield "|".join(["pop v_2 inv"] + ["stack drop"] * (place - 1) + ["stack pop=1,2,3,4,1,2,3,4"] * 8)
    yield from (AROUND % step for step in STEPS)


# ----- rows ----------------------------------------------------------------------------------------------------------

PUSH, POP = row(0, [1]), row(1, [1])
MOST, SIZE, WIDEST = 40960, 999999999, 4294967295


def placed(line, span):
    return "%s,%s,%s" % (line, *span)


def table(*spans, lines=(PUSH,)):
    """Records with these spans, the lines in turn."""
    return ";".join(placed(lines[at % len(lines)], span) for at, span in enumerate(spans)) or "-"


def on_table(rows, number=0):
    """One request of the table: which one, goes by the number."""
    direction = DIRECTIONS[number // 3 % 2]
    return [f"rows-check {direction} {rows}", f"rows-run {direction} 64 {rows} {ONE}", f"rows-write {rows}"][number % 3]


def on_tables(*tables):
    for rows in tables:
        yield from (on_table(rows, number) for number in range(6))


# first bytes and lengths on both sides of what is refused, alone and behind a span of 3+4
EDGES = [0, 1, 2, 3, 4, 6, 7, 8, MOST - 2, MOST - 1, MOST, MOST + 1, SIZE, 2**31 - 1, 2**31, WIDEST - 1, WIDEST]


def of_spans():
    number = 0
    for start, length in itertools.product(EDGES, repeat=2):
        yield on_table(table((start, length)), number)
        yield on_table(table((3, 4), (start, length), lines=(PUSH, POP)), number + 1)
        yield on_table(table((start, length), (8, 1), lines=(PUSH, POP)), number + 2)
        number += 1
    for start in 0, 1, 3, 8, MOST // 2, MOST - 8:  # the last length that fits, and one more; a sum that is round in 32 bits
        for length in MOST - start - 1, MOST - start, MOST - start + 1, 2**32 - start, 2**32 - start + 1:
            yield from on_tables(table((start, min(length, WIDEST))), table((0, 1), (start, min(length, WIDEST))))


def of_tables():
    """Three records in every order of three spans; 64 and more, of which one is bad; the last two that meet."""
    for spans in itertools.permutations([(0, 8), (8, 8), (17, 3)]):
        yield from on_tables(table(*spans), table(*spans, lines=(PUSH, POP)))
    for spans in itertools.product([(0, 1), (1, 1), (0, 2), (1, 0)], repeat=3):
        yield on_table(table(*spans), sum(map(sum, spans)))
    for many in 1, 2, 63, 64, 65, 70, 71:
        in_turn = [(640 * at, 640) for at in range(many)]
        yield from on_tables(table(*in_turn, lines=(row(9, [2, 1]),)))
        for place in sorted({0, many // 2, many - 1}):
            for span in (640 * place, 0), (640 * place - 1, 9), (MOST - 5, 6), (0, 640):
                yield on_table(table(*in_turn[:place], (max(span[0], 0), span[1]), *in_turn[place + 1:]), many + place)
    yield from on_tables(table(*[(at, 1) for at in range(64)]), table(*[(MOST - 64 + at, 1) for at in range(64)]), table(*[(0, 640)] * 64))


def of_reasons():
    """18 for a span beside every other reason: in the same record, before it and behind it; of mixed readings; of over 64."""
    for number, (operator, args) in enumerate(BAD):
        bad = row(operator, args)
        yield on_table(table((0, 8), (9, 7), lines=(bad, PUSH)), number)
        yield on_table(table((0, 8), (9, 0), (9, 7), lines=(PUSH, bad, PUSH)), number)
        yield on_table(table((0, 8), (7, 7), (20, 7), lines=(PUSH, PUSH, bad)), number)
        yield on_table(table((0, 8), (8, 7), (14, 7), lines=(PUSH, bad, PUSH)), number)
    other = row(0, [1], reading=1)
    for lines in (PUSH, other), (other, PUSH), (other, other), (row(0, [1], reading=2), PUSH), (PUSH, row(0, [1], n=256)):
        for spans in [(0, 8), (8, 8)], [(0, 8), (7, 8)], [(0, 0), (8, 8)], [(0, 8), (8, 0), (8, 1)]:
            yield from on_tables(table(*spans, lines=lines))
    yield f"rows-run fwd 0 {table((0, 0))} zeros:3"
    yield f"rows-run fwd 0 {table((0, 8), (7, 8))} {ONE}"


def of_pairs():
    """Tables of every operator that differ only in spans, checked and run both ways, and written: one answer each but for the span."""
    for operator, args in GOOD:
        lines = [row(2, [1, 2, 3, 4, 4, 3]), row(operator, args), row(3, [1, 2, 3, 4, 4, 3])]
        for spans in [(0, 10), (10, 10), (20, 10)], [(7, 1), (4000, 36000), (40000, 960)]:
            rows = table(*spans, lines=lines)
            for direction in DIRECTIONS:
                yield from (f"rows-check {direction} {rows}", f"rows-run {direction} 32 {rows} {NUMBERS}")
            yield f"rows-write {rows}"
            yield f"rows-check inv {table(spans[1], lines=lines[1:2])}"


def of_numbers():
    """Rows with another count of numbers; each field of a span spelt in every way, and at its edges."""
    good = placed(PUSH, (3, 4))
    for count in range(12, 20):
        line = ",".join((good.split(",") + ["0"] * 3)[:count])
        yield from on_tables(line, f"{good};{line}" if count != 16 else good, f"{line};{placed(POP, (7, 1))}")
    for place, number in itertools.product((14, 15), SPELT + ["4294967295", "4294967296", "-1", "-0", "00000000008", "9999999999", "99999999999", "2147483648"]):
        yield on_table(replaced(good, place, number), place + len(number))
        yield on_table(f"{good};{replaced(placed(POP, (7, 9)), place, number)}", len(number))


# ----- all of them ---------------------------------------------------------------------------------------------------


def on_text(text, number):
    """Requests of the text: in which reading and mode, and which way, goes by the number."""
    way, direction = list(WAYS)[number % 4], DIRECTIONS[number // 4 % 2]
    yield f"prepare{way} 64 {hexed(text)}"
    yield f"check{way} {direction} {hexed(text)}"
    if number % 5 == 0:
        yield f"write{way} {hexed(text)}"


def on_failing(text):
    for way, direction in itertools.product(("", "/p"), DIRECTIONS):
        yield f"check{way} {direction} {hexed(text)}"


STEPS_SHOWN = ["inv pop v_1 | pop v_2", " | :push v_1 | | pop v_1 # c", "> push v_1 < pop v_1", "axisswap | inv push v_1"]
LINES = ["definition", "definition 1", "definition 1 61 61", "definition x 61", "definition 131073 61", "definition 131072 61", "definition 1 6", "definition/p 1 61",
         "Definition 1 61", "definitions 1 61", "rows-definition -", "fails 1 few 0+8", "push:-:1@0+8", "prepare@ 64 -",
         "rows-prepare 64 " + placed(PUSH, (0, 8)), "rows-check fwd " + PUSH + "@0+8", "rows-write " + PUSH + ",0+8"]


def requests():
    """All of them, each once."""
    written = dict.fromkeys(itertools.chain(texts(), far()))
    lines = [on_text(text, number) for number, text in enumerate(written)] + list(map(on_failing, dict.fromkeys(failing())))
    lines += [[on_definition(text, number) for number, text in enumerate(dict.fromkeys(itertools.chain(commented(), written)))]]
    lines += [of_spans(), of_tables(), of_reasons(), of_pairs(), of_numbers(), [f"steps {hexed(text)}" for text in STEPS_SHOWN], LINES]
    return list(dict.fromkeys(itertools.chain(*lines)))
