"""Inputs for the calls of document 01, in both readings and both modes, drawn from a seed.

Every function takes rng, a random.Random(seed), and nothing else that changes:
one seed gives one row of inputs. `python3 draw.py SEED COUNT` writes requests.
"""

import random
import struct
import sys

from model import (
    ADAPT, AXES_STEPS, AXISSWAP, CODES, CRATE, CRATE_MODE, DOCUMENTED, DOCUMENTED_MODE, FIELDS, FWD,
    INV, MOST_BYTE, MOST_BYTES, MOST_DEPTH, MOST_SIZE, POP, PROJ, PUSH, STACK_DROP, STACK_FLIP, STACK_POP,
    STACK_PUSH, STACK_ROLL, STACK_SWAP, STACK_UNROLL, TEXT_CALLS, WAYS, Span, act, columns_wanted,
    depth_after, new_step, prepare, records_refusal, refuses, run_depths, running, sign, span_end,
    used)

# ----- Texts of the syntax's own pieces --------------------------------------

SUBSCRIPTS = [b"\xe2\x82" + bytes([byte]) for byte in range(0x80, 0x8A)]
NOT_WHOLE = [b"\xe2", b"\xe2\x82", b"\x82\x80", b"\x80", b"\xe2\x82\x8a", b"\xe2\x81\x80",
             b"\xe2\x82\x7f", b"\xc3\xa9", b"\xff", b"\xe2\xe2\x82\x80"]
SPACES = [b" ", b" ", b" ", b"  ", b"\t", b"\n", b"\r", b"\r\n", b"\x0b", b"\x0c", b"\n:", b"\r:"]
GLYPHS = [b":", b"=", b",", b"|", b"<", b">", b"$", b"#", b"+", b"\x1c", b"\x1f", b"\x00", b"\x7f"]
MODIFIERS = [b"inv", b"omit_fwd", b"omit_inv"]
WORDS = [b"a", b"b=1", b"c=2,3", b"d=e=f", b"k=", b"=k", b"push", b"v_1", b"_name", b"_name=x",
         b"true", b"step", b"proj", b"proj=x", b"pipeline", b"B", b"a=0", b"inv=true", b"inva"]


def piece(rng):
    kind = rng.random()
    if kind < 0.30:
        return rng.choice(WORDS)
    if kind < 0.45:
        return rng.choice(MODIFIERS)
    if kind < 0.70:
        return rng.choice(SPACES)
    if kind < 0.93:
        return rng.choice(GLYPHS)
    return rng.choice(SUBSCRIPTS) + rng.choice([b"", b"=", b" ="])


def pieces_text(rng):
    return b"".join(piece(rng) for _ in range(rng.randint(0, 24)))


def worded_text(rng):
    """Words one space apart with a separator here and there: fewer surprises."""
    words = [rng.choice(WORDS + MODIFIERS + [b"|", b"|", b">", b"<"])
             for _ in range(rng.randint(0, 12))]
    return b" ".join(words)


def inserted(rng, text, bit):
    at = rng.randint(0, len(text))
    return text[:at] + bit + text[at:]


def not_ascii(rng, text):
    """Refusal 2."""
    return inserted(rng, text, rng.choice(NOT_WHOLE))


def stretched(rng, text):
    """Refusal 1 and its border: 4,094 to 4,099 bytes."""
    fill = rng.choice([b"x", b" ", b">", b"|", b"a ", b": ", b"= ", b"a|", b"inv ", b"\n:",
                       b"<:", b"k=1 ", b"$ ", SUBSCRIPTS[3] + b"=", b"proj=x step "])
    size = MOST_BYTES + rng.randint(-2, 3)
    text = inserted(rng, text, fill * ((size - len(text)) // len(fill)))
    return text + b"x" * (size - len(text))


def all_modifiers(rng, text):
    """Refusal 6: a step of nothing but modifiers."""
    step = b" ".join(rng.choice(MODIFIERS) for _ in range(rng.randint(1, 4)))
    step = rng.choice([b"", b"", b":", b": ", b": :"]) + step + rng.choice([b"", b"", b" :", b" #"])
    return rng.choice([step, text + b"|" + step, step + b"|" + text, text + b"\n|" + step + b"\n|a",
                       text + b">"])


def many_steps(rng, text):
    """Refusal 8 and its border: 63 to 67 steps, and modifiers at the end."""
    steps = b"a|" * rng.randint(62, 66)
    return rng.choice([steps + b"b", steps + text, text + b"|" + steps, steps + b"inv"])


def many_keys(rng, text):
    """Refusal 9 and its border: 30 to 35 keys."""
    keys = [b"k%d" % i for i in range(rng.randint(30, 35))]
    rng.shuffle(keys)
    words = [key + rng.choice([b"", b"=1", b"=1=2"]) for key in keys]
    words += [rng.choice(words) for _ in range(rng.randint(0, 3))]
    return rng.choice([b"", b"inv ", b"push "]) + b" ".join(words) + rng.choice([b"", b" " + text])


FAULTS = [not_ascii, stretched, all_modifiers, many_steps, many_keys]
FAULT_WEIGHTS = [4, 1, 6, 2, 2]


def faulty(rng, text):
    return rng.choices(FAULTS, FAULT_WEIGHTS)[0](rng, text)


def text(rng):
    """A text for any of the text calls."""
    drawn = rng.choice([pieces_text, pieces_text, worded_text, proj_text, definition])(rng)
    return faulty(rng, drawn) if rng.random() < 0.15 else drawn


# ----- PROJ-shaped texts -----------------------------------------------------

PROJ_WORDS = [b"a=7", b"a=", b"rf=9", b"rf=1=2", b"ellps=GRS80", b"k=3", b"k_0=2", b"x=1",
              b"v_3", b"order=2,1", b"omit_fwd", b"omit_inv", b"inv", b"inv", b"lat_0", b"kk=1"]
PROJ_NAMES = [b"proj=x", b"proj=utm", b"proj=push", b"proj=axisswap", b"proj=", b"proj=a=1",
              b"proj=rf=2", b"proj=k=5", b"proj=inv", b"proj=omit_fwd", b"proj=pipeline"]
PROJ_SPACES = [b" ", b" ", b" ", b" +", b" +", b" +", b"\n+", b"\n", b"\r\n+", b"\r", b"\t+",
               b" ++", b" # a step\n", b"  "]


def proj_words(rng):
    words = [rng.choice(PROJ_WORDS) for _ in range(rng.randint(0, 5))]
    if rng.random() < 0.85:
        words.insert(rng.randint(0, len(words)), rng.choice(PROJ_NAMES[:-1]))
    if rng.random() < 0.06:  # refusal 3, or its border
        words.insert(rng.randint(0, len(words)), b"init=epsg:4326")
    if rng.random() < 0.03:  # refusal 4
        words.insert(rng.randint(0, len(words)), b"proj=pipeline")
    if rng.random() < 0.06:  # refusal 5, or its border
        words = [b"inv"] * rng.randint(1, 2) + rng.choice([[], [], [b"proj="], [b"proj=inv"]])
        rng.shuffle(words)
    return words


def globals_words(rng):
    words = [b"proj=pipeline"] + [rng.choice(PROJ_WORDS) for _ in range(rng.randint(0, 3))]
    rng.shuffle(words)
    return rng.choice([words, words, [b"proj=pipeline"], [b"proj=pipeline", b"inv"]])


def proj_text(rng):
    words = globals_words(rng) if rng.random() < 0.6 else proj_words(rng)
    for _ in range(rng.choice([0, 1, 1, 2, 3, 6])):
        words += [b"step"] * rng.choice([1, 1, 1, 1, 2, 3]) + proj_words(rng)
    if rng.random() < 0.05:
        glyph = rng.choice([b">", b"<", b"|", b":", b"$", b"step"])
        words.insert(rng.randint(0, len(words)), glyph)
    drawn = b"".join(rng.choice(PROJ_SPACES) + word for word in words)
    return drawn[rng.choice([0, 1, 1]):] + rng.choice([b"", b"", b"\n", b" step", b" "])


# ----- Step records ----------------------------------------------------------

STACKS = (STACK_PUSH, STACK_POP, STACK_FLIP, STACK_ROLL, STACK_UNROLL, STACK_SWAP, STACK_DROP)


def places(rng, least, most):
    return [rng.randint(1, 4) for _ in range(rng.randint(least, most))]


def signed_order(rng, size):
    order = [axis * rng.choice((1, 1, -1)) for axis in range(1, size + 1)]
    rng.shuffle(order)
    return order


def roll_arguments(rng):
    m = rng.choice([1, 2, 2, 3, 3, 4, 5, rng.randint(1, 64), rng.randint(1, MOST_SIZE), MOST_SIZE])
    n = rng.choice([0, 1, -1, m - 1, 1 - m, rng.randint(1 - m, m - 1)])
    return [m, n if abs(n) < m else 0]


def adapt_arguments(rng):
    order = rng.choice([[1, 2, 3, 4], signed_order(rng, 4), signed_order(rng, 4)])
    code = rng.choice(CODES)
    return order + [code, code, 0, 0]


def documented_arguments(rng):
    """Any order, and an angle at any two outputs."""
    order = rng.choice([[1, 2, 3, 4], signed_order(rng, 4), signed_order(rng, 4)])
    code, bent = rng.choice(CODES), rng.sample(range(4), 2)
    return order + [code if output in bent else 0 for output in range(4)]


def arguments(rng, operator):
    if operator in (PUSH, POP):
        return sorted(rng.sample((1, 2, 3, 4), rng.choice((0, 1, 1, 1, 2, 2, 3, 4))))
    if operator in (STACK_PUSH, STACK_POP, STACK_FLIP):
        return places(rng, 1, rng.choice((1, 2, 2, 3, 8)))
    if operator in (STACK_ROLL, STACK_UNROLL):
        return roll_arguments(rng)
    if operator == AXISSWAP:
        size = rng.choice((1, 2, 3, 4, 4))
        return rng.choice([[1, 2, 3, 4], signed_order(rng, size), signed_order(rng, size)])
    if operator == DOCUMENTED:
        return documented_arguments(rng)
    return adapt_arguments(rng) if operator == ADAPT else []


def marks(rng, chance=0.1):
    return [int(rng.random() < share) for share in (0.2, chance, chance)]


def record(rng, operator=None, chance=0.1):
    """A record that some preparation makes."""
    if operator is None:
        operator = rng.choice((PUSH, POP, AXISSWAP, ADAPT, rng.choice(STACKS), rng.choice(STACKS)))
    return new_step(operator, arguments(rng, operator), *marks(rng, chance))


HOSTILE_ARGUMENTS = [0, 1, -1, 2, 3, 4, -4, 5, 8, 9, MOST_SIZE, -MOST_SIZE, MOST_SIZE + 1,
                     -MOST_SIZE - 1, 2**31 - 1, -2**31]


def other_codes(rng):
    """Codes of documented adapt, good or not: two alike or unlike anywhere, three, one, or any."""
    code, other = rng.randint(-1, 9), rng.choice(CODES)
    codes = rng.choice([[code, code, 0, 0], [code, other, 0, 0], [other] * 3 + [0], [code, 0, 0, 0],
                        [rng.choice((0, code, other)) for _ in range(4)]])
    rng.shuffle(codes)
    return codes


def damaged(rng, step):
    """One field made another, good or not."""
    field = rng.choice(("operator", "args", "args", "args", "n", "n", "inv", "omit_fwd",
                        "omit_inv", "reading"))
    if field == "args":
        args = list(step.args)
        if step.operator == DOCUMENTED and rng.random() < 0.5:
            return step._replace(args=tuple(args[:4] + other_codes(rng)))
        args[rng.randint(0, 7)] = rng.choice(HOSTILE_ARGUMENTS)
        if step.operator == ADAPT and rng.random() < 0.3:
            args[4] = args[5] = rng.randint(-1, 9)
        return step._replace(args=tuple(args))
    if field == "operator":
        return step._replace(operator=rng.choice(list(range(13)) + [12, 13, 255]))
    if field == "n":
        return step._replace(n=rng.choice([0, 1, 2, 3, 4, 5, 7, 8, 9, 255]))
    return step._replace(**{field: rng.choice([0, 1, 2, 255])})


# ----- Tables of records -----------------------------------------------------

def plain_table(rng):
    return [record(rng) for _ in range(rng.randint(0, 8))]


def fed_table(rng, direction):
    """A table that mostly finds the columns it asks for, run in this direction."""
    steps, depth = [], 0
    while len(steps) < 12 and rng.random() < 0.88:
        step = record(rng, chance=0.05)
        name, args = act(direction, step)
        if columns_wanted(name, args) > depth and rng.random() < 0.97:
            continue
        steps.append(step)
        if running(direction, [step]):
            depth = depth_after(name, args, depth)
    return steps if direction == FWD else steps[::-1]


def starving_table(rng, direction):
    """Some columns, and then a step that asks for more."""
    steps = fed_table(rng, direction)[:4]
    wanting = [record(rng, rng.choice((PUSH, POP, STACK_POP, STACK_PUSH, STACK_FLIP, STACK_ROLL,
                                       STACK_UNROLL)), 0.0) for _ in range(rng.randint(1, 3))]
    after = plain_table(rng)[:2]
    if direction == FWD:
        return steps + wanting + after
    return after + wanting + steps


def pushing(rng, direction, wanted):
    """A record that pushes at most `wanted` columns in this direction."""
    if rng.random() < 0.6:
        operator = STACK_PUSH if direction == FWD else STACK_POP
        return new_step(operator, places(rng, 1, min(8, wanted)))
    operator = PUSH if direction == FWD else POP
    axes = rng.sample((1, 2, 3, 4), rng.randint(1, min(4, wanted)))
    return new_step(operator, sorted(axes))


def deep_table(rng, direction, goal):
    """A table that reaches the goal, 64 columns or more, at its last pushing step."""
    steps, depth = [], 0
    while depth < goal:
        step = pushing(rng, direction, goal - depth)
        steps.append(step)
        depth += step.n
        if rng.random() < 0.2:
            operator = rng.choice((STACK_SWAP, STACK_DROP, AXISSWAP, STACK_ROLL))
            steps.append(record(rng, operator, 0.0))
    steps = (steps + [record(rng, chance=0.0) for _ in range(rng.randint(0, 3))])[:64]
    return steps if direction == FWD else steps[::-1]


def omitted_table(rng):
    return [record(rng, chance=0.5) for _ in range(rng.randint(1, 8))]


def long_table(rng):
    """63 to 66 records."""
    steps = [record(rng) for _ in range(rng.randint(1, 5))]
    return [rng.choice(steps) for _ in range(rng.randint(63, 66))]


def good_table(rng, direction):
    """A table that some preparation makes: at most 64 records, none damaged."""
    kind = rng.random()
    if kind < 0.15:
        return plain_table(rng)
    if kind < 0.60:
        return fed_table(rng, direction)
    if kind < 0.78:
        return starving_table(rng, direction)
    if kind < 0.84:
        return deep_table(rng, direction, rng.choice((64, 65, 66)))
    return omitted_table(rng) if kind < 0.97 else long_table(rng)[:64]


# ----- Spans -----------------------------------------------------------------

def in_turn(rng, steps, gap=20):
    """The records with spans that rise: some begin where the last one ends."""
    spanned, at = [], 0
    for step in steps:
        span = Span(at + rng.choice((0, 1, 1, rng.randint(0, gap))), rng.randint(1, 30))
        spanned.append(step._replace(span=span))
        at = span_end(span)
    return spanned


def other_span(rng, span, last):
    """A span in the place of this one, behind another: good, or bad for one reason or for more."""
    start = rng.choice((0, span_end(last) - 1, span_end(last), span.start, MOST_BYTE - span.length,
                        MOST_BYTE - 1, MOST_BYTE, MOST_SIZE, 2**32 - 1))
    length = rng.choice((0, 0, 1, span.length, MOST_BYTE - span.start, MOST_BYTE - span.start + 1,
                         MOST_SIZE, 2**32 - 1, 2**32 - span.start))
    return rng.choice((Span(max(start, 0), span.length), span._replace(length=min(length, 2**32 - 1)),
                       Span(max(start, 0), min(length, 2**32 - 1)), last))


def misplaced(rng, steps):
    """One span made another, good or not."""
    at = rng.randrange(len(steps))
    last = steps[at - 1].span if at else Span(0, 0)
    span = other_span(rng, steps[at].span, last)
    return steps[:at] + [steps[at]._replace(span=span)] + steps[at + 1:]


def spanned(rng, steps):
    """A table with spans, most of them good."""
    steps = in_turn(rng, steps, rng.choice((20, 20, 600)))
    return misplaced(rng, steps) if steps and rng.random() < 0.2 else steps


# ----- The two readings ------------------------------------------------------

UNDOING = {PUSH: POP, POP: PUSH, STACK_PUSH: STACK_POP, STACK_POP: STACK_PUSH,
           STACK_ROLL: STACK_UNROLL, STACK_UNROLL: STACK_ROLL}


def twin(step, inv):
    """The record in PROJ's reading that does what this one does in the crate's, inverted or not;
    axisswap and adapt stay as they are."""
    if step.operator in AXES_STEPS:
        return step._replace(reading=PROJ)
    if not inv:
        return step._replace(inv=0, reading=PROJ)
    args = used(step)[::-1] if step.operator in (STACK_PUSH, STACK_POP) else used(step)
    operator = UNDOING.get(step.operator, step.operator)
    return new_step(operator, args, 1, step.omit_fwd, step.omit_inv, PROJ)


def in_reading(rng, reading, steps):
    """A table of the crate's reading in this one. In PROJ's most records do the same, half of the
    pushes, pops and stack actions by being inverted."""
    if reading == CRATE:
        return steps
    return [twin(step, rng.random() < 0.5) if rng.random() < 0.95 else step._replace(reading=PROJ)
            for step in steps]


# ----- The two modes ---------------------------------------------------------

def documented(rng, step):
    """A documented record with the marks and the reading of this one."""
    return step._replace(operator=DOCUMENTED, args=tuple(documented_arguments(rng)))


def in_mode(rng, mode, steps, share=1.0):
    """A table of the crate's mode in this one: each adapt step, by this chance, documented."""
    if mode == CRATE_MODE:
        return steps
    return [documented(rng, step) if step.operator == ADAPT and rng.random() < share else step
            for step in steps]


def adapting(rng, reading, steps):
    """The table of this reading with adapt steps put in, which take and leave no columns: at most
    64 steps, or as many as there were."""
    steps, most = list(steps), max(64, len(steps))
    for _ in range(rng.choice((0, 0, 1, 2))):
        step = record(rng, ADAPT)._replace(reading=reading)
        steps.insert(rng.randint(0, len(steps)), step)
    return steps[:most]


def read_table(rng, direction):
    """A table that some preparation makes, and its reading and mode."""
    reading, mode = way = rng.choice(list(WAYS.values()))
    steps = in_reading(rng, reading, good_table(rng, direction))
    return way, in_mode(rng, mode, adapting(rng, reading, steps))


def mixed(rng, steps):
    """Some records named for the other reading."""
    share = rng.choice((0.1, 0.5))
    return [step._replace(reading=1 - step.reading) if rng.random() < share else step
            for step in steps]


def lent_table(rng, direction):
    """No record, or 63 to 71."""
    if rng.random() < 0.3:
        return []
    return spanned(rng, [rng.choice(long_table(rng))] * rng.randint(63, 71))


def table(rng, direction):
    """Any table of either reading, in either mode or of both: also over 64 records, also damaged, of
    mixed readings or with bad spans."""
    steps = long_table(rng) if rng.random() < 0.03 else good_table(rng, direction)
    reading = rng.choice((CRATE, PROJ))
    steps = adapting(rng, reading, in_reading(rng, reading, steps))
    steps = in_mode(rng, DOCUMENTED_MODE, steps, rng.choice((0.0, 0.5, 1.0)))
    if steps and rng.random() < 0.25:
        at = rng.randrange(len(steps))
        steps[at] = damaged(rng, steps[at])
    elif rng.random() < 0.1:
        steps = mixed(rng, steps)
    return spanned(rng, steps)


# ----- The text of a record --------------------------------------------------

ACTIONS = {STACK_PUSH: b"push", STACK_POP: b"pop", STACK_FLIP: b"flip", STACK_ROLL: b"roll",
           STACK_UNROLL: b"unroll", STACK_SWAP: b"swap", STACK_DROP: b"drop"}
OPERATORS = {PUSH: b"push", POP: b"pop", AXISSWAP: b"axisswap", ADAPT: b"adapt",
             DOCUMENTED: b"adapt", **dict.fromkeys(ACTIONS, b"stack")}
LETTERS = {1: b"e", 2: b"n", 3: b"u", 4: b"f", -1: b"w", -2: b"s", -3: b"d", -4: b"p"}
ANGLES = [[b"", b"_rad", b"_any"], [b"_deg"], [b"_gon"]]
MARK_NAMES = (b"inv", b"omit_fwd", b"omit_inv")


def decimal(rng, number, plain):
    if plain or rng.random() < 0.6:
        return b"%d" % number
    digits = b"%d" % abs(number)
    digits = digits.rjust(rng.randint(len(digits), 9), b"0")
    minus = b"-" if number < 0 or (number == 0 and rng.random() < 0.5) else b""
    return minus + digits + rng.choice([b"", b".0", b".00", b".000000"])


def series(rng, numbers, plain):
    return b",".join(decimal(rng, number, plain) for number in numbers)


def adapt_words(rng, args, plain):
    """`from` and `to` that combine to these arguments: `to` any word when not
    plain, `from` the word that then gives the same places and signs."""
    to = [1, 2, 3, 4] if plain or rng.random() < 0.5 else signed_order(rng, 4)
    come = [0] * 4
    for i in range(4):
        come[abs(args[i]) - 1] = abs(to[i])
    for i in range(4):
        come[i] *= 1 if (args[i] < 0) == (to[i] < 0) else -1
    return word_pair(rng, come, to, args[4], plain)


def word_pair(rng, come, to, code, plain):
    """`from` and `to` with these axes and angles of this code; what is the default is left out when
    plain."""
    come_angle, to_angle = divmod(code, 3)
    if code == 0 and not plain:
        come_angle = to_angle = rng.choice((0, 0, 1, 2))
    words = [(b"from", come, come_angle), (b"to", to, to_angle)]
    return [adapt_word(rng, *word) for word in words if word[1:] != ([1, 2, 3, 4], 0) or not plain]


def documented_words(rng, args, plain):
    """`from` and `to` that make these arguments in the documented mode: `to` any word with its
    horizontal letters where the angle stands, `from` the word that then gives the same places and
    signs."""
    bent = [output for output in range(4) if args[4 + output]]
    if not bent:
        bent = [0, 1] if plain else rng.sample(range(4), 2)
    outputs = bent + [output for output in range(4) if output not in bent]
    axes = [1, 2, 3, 4] if plain else rng.choice(([1, 2], [2, 1])) + rng.choice(([3, 4], [4, 3]))
    to, come = [0] * 4, [0] * 4
    for output, axis in zip(outputs, axes):
        to[output] = axis if plain else axis * rng.choice((1, 1, -1))
        come[abs(args[output]) - 1] = to[output] * sign(args[output])
    return word_pair(rng, come, to, max(args[4:]), plain)


def adapt_word(rng, key, axes, angle):
    word = b"".join(LETTERS[axis] for axis in axes) + rng.choice(ANGLES[angle])
    if (axes, angle) == ([1, 2, 3, 4], 0):
        word = rng.choice([word, b"pass"])
    return key + b"=" + word


def argument_words(rng, step, plain):
    if step.operator in (PUSH, POP):
        return [b"v_%d" % axis for axis in used(step)]
    if step.operator == AXISSWAP:
        if used(step) == (1, 2, 3, 4) and (plain or rng.random() < 0.3):
            return []
        return [b"order=" + series(rng, used(step), plain)]
    if step.operator == ADAPT:
        return adapt_words(rng, step.args, plain)
    if step.operator == DOCUMENTED:
        return documented_words(rng, step.args, plain)
    if step.n:
        return [ACTIONS[step.operator] + b"=" + series(rng, used(step), plain)]
    return [ACTIONS[step.operator]]


def disguised(rng, word):
    """Another spelling of a word after the first, with the same key and value."""
    kind = rng.random()
    if b"=" not in word and kind < 0.3:
        word = word + rng.choice([b"=true", b" = true", b"=true=x", b"= true=no"])
        if word.startswith(b"v_") and rng.random() < 0.3:
            word = b"v" + SUBSCRIPTS[word[2] - ord("0")] + word[3:]
    elif kind < 0.4:
        word = word.partition(b"=")[0] + rng.choice([b"=no ", b"=x ", b" "]) + word
    elif b"=" in word and kind < 0.5:
        word = word.replace(b"=", rng.choice([b" =", b"= ", b"=\n", b"\t=  "]))
        word = word.replace(b",", rng.choice([b",", b", ", b" ,", b" , "]))
    return word


def step_text(rng, step, plain=False):
    """A text that prepares to this record, and stays so after `|`."""
    set_marks = [name for name, mark in zip(MARK_NAMES, (step.inv, step.omit_fwd, step.omit_inv)) if mark]
    words = argument_words(rng, step, plain)
    name = OPERATORS[step.operator]
    if plain:
        return b" ".join([name] + words + set_marks)
    front = [mark for mark in set_marks if rng.random() < 0.3]
    words += [mark for mark in set_marks if mark not in front]
    rng.shuffle(words)
    words = [disguised(rng, word) for word in words]
    first = [name] if rng.random() < 0.9 else [rng.choice([b"_name=", b"x _name="]) + name]
    return rng.choice([b"", b"", b"", b"", b":"]) + b" ".join(front + first + words)


SEPARATORS = [b"|", b" | ", b"\n| ", b" |\n", b" # a | note\n|", b"\r|", b" | | ", b" |\x0b "]


def joined(rng, texts):
    return b"".join(rng.choice(SEPARATORS) * (i > 0) + text for i, text in enumerate(texts))


def arrowed(rng, steps):
    """Omit marks written as `>` and `<` before the step."""
    out = b""
    for i, step in enumerate(steps):
        if step.omit_inv and rng.random() < 0.5:
            out += b" > " + step_text(rng, step._replace(omit_inv=0)).lstrip(b":")
        elif step.omit_fwd and rng.random() < 0.5:
            out += b"<" + step_text(rng, step._replace(omit_fwd=0)).lstrip(b":")
        else:
            out += b"|" * (i > 0) + step_text(rng, step).lstrip(b":")
    return out


def table_text(rng, steps):
    """A text that prepares to this table, of one reading and one mode, in that reading and mode."""
    if rng.random() < 0.2:
        out = arrowed(rng, steps)
    else:
        out = joined(rng, [step_text(rng, step) for step in steps])
    if len(out) > MOST_BYTES:
        out = b"|".join(step_text(rng, step, True) for step in steps)
    return out


# ----- Definitions, right and slightly wrong ---------------------------------

NAMES = (b"push", b"pop", b"stack", b"axisswap", b"adapt")
OF_NAME = {b"push": (PUSH,), b"pop": (POP,), b"stack": STACKS, b"axisswap": (AXISSWAP,),
           b"adapt": (ADAPT,)}
SERIES_KEYS = {b"stack": (b"push", b"pop", b"flip", b"roll", b"unroll"), b"axisswap": (b"order",)}
FLAG_KEYS = {b"push": (b"v_1", b"v_2", b"v_3", b"v_4"), b"pop": (b"v_1", b"v_2", b"v_3", b"v_4"),
             b"stack": (b"swap", b"drop")}
# Which refusals a step of each name can earn
WRONGS = {b"push": (6, 9, 10, 11, 12), b"pop": (6, 9, 10, 11, 12),
          b"stack": (6, 9, 10, 11, 12, 13, 14), b"axisswap": (6, 9, 10, 11, 12, 13, 14),
          b"adapt": (6, 9, 10, 11, 12, 14)}

NOT_NAMES = [b"", b"Push", b"pusH", b"pu", b"pushs", b"stack:push", b"a:b", b"pipeline", b"noop",
             b"adapt:x", b"$push", b"true", b"_name"]
NOT_KEYS = [b"v_0", b"v_5", b"v_11", b"V_1", b"v", b"v_1:x", b"orders", b"inverse", b"omit",
            b"froM", b"zone=32", b"ellps=GRS80", b"x==1", b"x=", b"$x", b"order:a=1",
            b"v\xe2\x82\x81", b"name=push"]
NOT_DECIMALS = [b"", b"+1", b".5", b"1.", b"1.0000000", b"0123456789", b"--1", b"-", b"1e0", b"nan",
                b"0x1", b"1_0", b"1-", b"1..0", b"1.0.0", b"a", b"true", b"-.5", b"1;2",
                b"\xe2\x82\x81"]
NOT_TRUE = [b"=", b"=TRUE", b"=false", b"=1", b"=true,", b"=tru", b"==true", b"=no=true", b"=:true"]


def long_definition(rng, name):
    """Refusal 1 for one step's text, and its border: `>` adds nine bytes to it."""
    step = step_text(rng, record(rng, rng.choice(OF_NAME[name])), True)
    end = b" inv=true"
    fill = b" inv=" + b"x" * (rng.randint(4083, 4095) - len(step) - len(end) - len(b" inv="))
    return b">" + step + fill + end


def wrong_9(rng, name):
    keys = [b"k%d" % i for i in range(32)]
    rng.shuffle(keys)
    return name + b" " + b" ".join(keys + [rng.choice(keys)])


def wrong_10(rng, name):
    step = step_text(rng, record(rng, rng.choice(OF_NAME[name])), True)
    return rng.choice([
        rng.choice(NOT_NAMES) + b"x" + step,
        step + b" _name=" + rng.choice(NOT_NAMES),
        step + b" _name",
        b"inv=true " + step,
        rng.choice([b":", b"::", b"x=1", b"=", b"_name="]),
    ])


def own_keys(name):
    return SERIES_KEYS.get(name, ()) + FLAG_KEYS.get(name, ())


def wrong_11(rng, name):
    step = step_text(rng, record(rng, rng.choice(OF_NAME[name])), True)
    others = [key for other in NAMES for key in own_keys(other) if key not in own_keys(name)]
    return step + b" " + rng.choice(NOT_KEYS + others)


def wrong_series(rng, name, pieces):
    return name + b" " + rng.choice(SERIES_KEYS[name]) + b"=" + b",".join(pieces)


def wrong_12(rng, name):
    """A flag that is not true, or a series with a piece not in decimal form."""
    if name in SERIES_KEYS and rng.random() < 0.6:
        pieces = [decimal(rng, rng.randint(1, 4), False) for _ in range(rng.randint(0, 9))]
        pieces.insert(rng.randint(0, len(pieces)), rng.choice(NOT_DECIMALS))
        return wrong_series(rng, name, pieces)
    step = step_text(rng, record(rng, rng.choice(OF_NAME[name])), True)
    flags = tuple(MODIFIERS) + FLAG_KEYS.get(name, ())
    return step + b" " + rng.choice(flags) + rng.choice(NOT_TRUE)


def wrong_13(rng, name):
    return wrong_series(rng, name, [decimal(rng, rng.randint(-1, 4), False)
                                    for _ in range(rng.choice((9, 9, 10, 20)))])


NOT_PLACES = [b"0", b"5", b"-1", b"1.5", b"-0", b"4.000001", b"999999999", b"1.0,2.5", b"1,2,3,5",
              b"0.5", b"1,1,1,1,1,1,1,0"]
NOT_ROLLS = [b"0,0", b"3,3", b"3,-3", b"1", b"3,1,1", b"2.5,1", b"3,0.5", b"-3,1", b"3,4", b"0,-0",
             b"1,1", b"999999998,999999999", b"2,-2.0"]
NOT_ORDERS = [b"2", b"1,1", b"1.5", b"-0", b"0", b"1,3", b"1,-1", b"1,2,3,4,1", b"2,3", b"5",
              b"1,2,3,5",
              b"1,2,3,4,5,6,7,8", b"-2,2", b"0.5,1", b"4,3,2,0", b"1,2,2,4"]
NOT_WORDS = [b"", b"=", b"=enu", b"=enuff", b"=enue", b"=enuw", b"=ENUF", b"=enut", b"=enuf_",
             b"=enuf_dag",
             b"=enuf_degs", b"=enufdeg_", b"=pass_deg", b"=passed", b"=_deg", b"=n\xe2\x82\x80",
             b"=n\xe2\x82\x80_deg", b"=eeee_rad", b"=pas", b"=neuf-deg", b"=x"]


def wrong_14(rng, name):
    if name == b"axisswap":
        return b"axisswap order=" + rng.choice(NOT_ORDERS)
    if name == b"adapt":
        key, other = rng.sample((b"from", b"to"), 2)
        good = rng.choice([b"", b" " + other + b"=neuf_deg"])
        return b"adapt " + key + rng.choice(NOT_WORDS) + good
    return b"stack" + rng.choice([
        b"", b" inv", b" swap drop", b" push=1 pop=1", b" swap flip=1", b" roll=2,1 unroll=2,1",
        b" " + rng.choice((b"push", b"pop", b"flip")) + b"=" + rng.choice(NOT_PLACES),
        b" " + rng.choice((b"roll", b"unroll")) + b"=" + rng.choice(NOT_ROLLS)])


def wrong_6(rng, name):
    return rng.choice([b"inv", b"omit_fwd inv", b":inv", b":omit_inv inv", b"inv inv inv",
                       b"::omit_fwd"])


WRONG = {6: wrong_6, 9: wrong_9, 10: wrong_10, 11: wrong_11, 12: wrong_12, 13: wrong_13,
         14: wrong_14}


def wrong_step(rng, name, number):
    """The text of a step that is refused with this number, after `|` at least."""
    return WRONG[number](rng, name)


def worse_step(rng):
    """Two or three faults in one step: the lowest number is the answer."""
    name = rng.choice(NAMES)
    faults = [rng.choice(NOT_KEYS), rng.choice(MODIFIERS) + rng.choice(NOT_TRUE)]
    if name in SERIES_KEYS:
        faults += [wrong_13(rng, name)[len(name) + 1:], wrong_12(rng, name)[len(name) + 1:]]
    faults += [wrong_14(rng, b"axisswap")[len(b"axisswap "):]]
    return b" ".join([name] + rng.sample(faults, rng.randint(2, 3)))


def faulty_word(rng, key, is_series):
    """A word with this key, and where in it its value is faulty; None for a good one."""
    if not is_series:
        value = rng.choice([b"", b"=true", b"=true=no", *NO_FLAGS, *NO_FLAGS])
        return key + value, len(key + b"=") if value in NO_FLAGS else None
    if rng.random() < 0.1:
        return key, len(key)
    pieces = [decimal(rng, rng.randint(0, 9), False) for _ in range(rng.randint(1, 4))]
    if rng.random() < 0.4:
        return key + b"=" + b",".join(pieces), None
    at = rng.randrange(len(pieces))
    good, bad = pieces[:at], [rng.choice(NO_DECIMALS)] + pieces[at:]
    return key + b"=" + b",".join(good + bad), len(b",".join([key] + good)) + 1


# Those that take no space behind them
NO_FLAGS = [b"=TRUE", b"=false", b"=1", b"=true,1", b"=tru", b"==true", b"=no=true", b"=:true"]
NO_DECIMALS = [piece for piece in NOT_DECIMALS if piece != b"true"]


def faulty_step(rng):
    """A step with faults of refusal 12 only, repeated keys among them; and the byte of the first
    fault in its text as it is cut into parameters."""
    name = rng.choice(NAMES)
    series = SERIES_KEYS.get(name, ())
    keys = rng.choices([*series, *FLAG_KEYS.get(name, ()), *MODIFIERS], k=rng.randint(1, 6))
    words, faults = [(name, None)], {}
    words += [faulty_word(rng, key, key in series) for key in keys]
    at = 0
    for key, (word, fault) in zip([b"_name"] + keys, words):
        faults[key] = None if fault is None else at + fault
        at += len(word + b" ")
    found = [fault for fault in faults.values() if fault is not None]
    if not found:
        return faulty_step(rng)
    front = rng.choices(MODIFIERS, k=rng.choice((0, 0, 1, 2)))
    if any(mark in keys for mark in front):  # turned to the end it would be the last of its key
        front = []
    space = rng.choice((b" ", b" ", b"  ", b"\t", b" \n"))
    text = space.join(front + [word for word, _ in words])
    return rng.choice((b"", b"", b":", b": ", b" ")) + text, min(found)


def faulty_definition(rng):
    """Such a step among good ones."""
    texts = [step_text(rng, record(rng)) for _ in range(rng.randint(0, 3))]
    texts.insert(rng.randint(0, len(texts)), faulty_step(rng)[0])
    return b"|".join(texts)


def definition(rng):
    """A definition that is accepted."""
    return table_text(rng, good_table(rng, rng.choice((FWD, INV))))


def any_word(rng):
    """A word of any order, signs and ending."""
    return adapt_word(rng, b"", signed_order(rng, 4), rng.choice((0, 0, 1, 2)))[1:]


def worded(rng):
    """A step of adapt with any words, or one of them, or none; now and then a wrong one."""
    words = [b"adapt"]
    for key in rng.choice(((b"from",), (b"to",), (b"from", b"to"), (b"from", b"to"), ())):
        words.append(key + (rng.choice(NOT_WORDS) if rng.random() < 0.02 else b"=" + any_word(rng)))
    words += [name for name, mark in zip(MARK_NAMES, marks(rng)) if mark]
    return b" ".join(words)


def adapt_definition(rng):
    """Steps of adapt with words of all orders, signs and endings, and others between them."""
    texts = [worded(rng) if rng.random() < 0.8 else step_text(rng, record(rng))
             for _ in range(rng.randint(1, 4))]
    return joined(rng, texts)


def wrong_definition(rng):
    """A definition with a faulty step among good ones."""
    kind = rng.random()
    if kind < 0.04:
        return long_definition(rng, rng.choice(NAMES))
    if kind < 0.08:
        return faulty(rng, definition(rng))
    name = rng.choice(NAMES)
    wrong = worse_step(rng) if kind < 0.2 else wrong_step(rng, name, rng.choice(WRONGS[name]))
    texts = [step_text(rng, record(rng)) for _ in range(rng.randint(0, 3))]
    texts.insert(rng.randint(0, len(texts)), wrong)
    if rng.random() < 0.2:
        other = rng.choice(NAMES)
        texts.append(wrong_step(rng, other, rng.choice(WRONGS[other])))
    return b"|".join(texts)


# ----- Numbers and stores ----------------------------------------------------

HOSTILE_BITS = [
    "0000000000000000", "8000000000000000", "7ff0000000000000", "fff0000000000000",
    "7ff8000000000000", "fff8000000000001", "7ff0000000000001", "0000000000000001",
    "8000000000000001", "000fffffffffffff", "0010000000000000", "7fefffffffffffff",
    "ffefffffffffffff", "3ff0000000000000", "bff0000000000000", "3ff0000000000001"]


def number_of(bits):
    return struct.unpack(">d", bytes.fromhex(bits))[0]


def bits_of(number):
    return struct.pack(">d", number).hex()


def number_bits(rng):
    kind = rng.random()
    if kind < 0.4:
        return rng.choice(HOSTILE_BITS)
    if kind < 0.5:
        return "%016x" % rng.getrandbits(64)
    if kind < 0.7:
        return bits_of(rng.uniform(-180.0, 180.0))
    return bits_of(float(rng.randint(-9, 9)))


def list_bits(rng):
    """0 to 3 tuples, now and then a length that is no multiple of 4."""
    size = 4 * rng.choice((0, 1, 1, 2, 3))
    if rng.random() < 0.05:
        size = rng.choice((1, 2, 3, 5, 6, 7, 9, 10, 11, 13))
    return [number_bits(rng) for _ in range(size)]


def numbers(rng):
    return [number_of(bits) for bits in list_bits(rng)]


def store_length(rng, direction, steps, tuples):
    """Too short, exact or longer."""
    depths = run_depths(direction, steps)
    need = tuples * (MOST_DEPTH if refuses(depths) else max(depths, default=0))
    return max(0, need + rng.choice((0, 0, 0, 1, 3, -1, -need)))


# ----- Requests --------------------------------------------------------------

def hexed(text):
    return text.hex() or "-"


def room_for(rng, answer, most):
    """Exact, one short, more, none."""
    need = 0 if refuses(answer) else len(answer)
    return min(most, max(0, need + rng.choice((0, 0, 0, 0, 0, 1, 7, 1000, 1000, -1, -need))))


def text_request(rng):
    name = rng.choice(list(TEXT_CALLS))
    drawn = proj_text(rng) if name == "translate" and rng.random() < 0.7 else text(rng)
    if name == "parameters" and rng.random() < 0.5:
        drawn = rng.choice([worded_text, lambda r: step_text(r, record(r))])(rng)
    room = room_for(rng, TEXT_CALLS[name](drawn), 131072)
    return "%s %d %s" % (name, room, hexed(drawn))


def any_definition(rng):
    return rng.choice([definition, definition, wrong_definition, wrong_definition, text,
                       adapt_definition, faulty_definition])(rng)


MARK_OF = {way: mark for mark, way in WAYS.items()}


def slashed(call, way):
    """The call in this reading and mode."""
    return call + MARK_OF[way]


def any_way(rng):
    return rng.choice(list(MARK_OF))


def prepare_request(rng):
    drawn, call = any_definition(rng), slashed("prepare", any_way(rng))
    return "%s %d %s" % (call, room_for(rng, prepare(drawn), 64), hexed(drawn))


def check_request(rng):
    direction = rng.choice((FWD, INV))
    way, steps = read_table(rng, direction)
    return "%s %s %s" % (slashed("check", way), direction, hexed(table_text(rng, steps)))


def write_request(rng):
    drawn = any_definition(rng)
    return "%s %s" % (slashed("write", any_way(rng)), hexed(drawn))


def shown_list(rng, bits):
    if rng.random() < 0.02:
        return "zeros:%d" % rng.choice((0, 4, 7, 64, 68, 100))
    return ",".join(bits) or "-"


def run_request(rng):
    direction = rng.choice((FWD, INV))
    (way, steps), bits = read_table(rng, direction), list_bits(rng)
    store = store_length(rng, direction, steps, len(bits) // 4)
    drawn = table_text(rng, steps) if rng.random() < 0.97 else any_definition(rng)
    call = slashed("run", way)
    return "%s %s %d %s %s" % (call, direction, store, hexed(drawn), shown_list(rng, bits))


# Numbers at the edge of what a field holds
EDGES = [-2**31 - 1, -2**31, -1, 255, 256, 2**31 - 1, 2**31, 2**32 - 1, 2**32]


def row_numbers(step):
    return [*step[:5], *step.args, step.reading, *step.span]


# Requests of before request 4 lend rows of fourteen numbers, which tell no span
ROWS_FIELD = {"rows-write": 1, "rows-check": 2, "rows-run": 3}


def placed_rows(rows):
    """Each row of fourteen numbers with a span, in turn; what else there is stays."""
    return ";".join(row + ",%d,%d" % (20 * at, 11 + at % 10) if row.count(",") == 13 else row
                    for at, row in enumerate(rows.split(";")))


def placed(line):
    """The request, its rows with spans."""
    fields = line.split(" ")
    at = ROWS_FIELD.get(fields[0], len(fields))
    fields[at:at + 1] = map(placed_rows, fields[at:at + 1])
    return " ".join(fields)


def edged(rng, rows):
    """One number of one record at an edge of what a field holds. Of n only what is taken."""
    numbers, place = rng.choice(rows), rng.randrange(len(FIELDS))
    edge = rng.choice(EDGES[2:6] if place == 1 else EDGES)
    numbers[place] = edge
    return rows


def misspelt(rng, rows):
    """ROWS that are none: a number or a record too few or too many, or no number."""
    line = ";".join(",".join(map(str, row)) for row in rows)
    at = rng.randint(0, len(line))
    return rng.choice([line + ";", ";" + line, line + ",0", line.rpartition(",")[0], line + ";-",
                       line[:at] + rng.choice(["+", "--", ",", ";", "x", "."]) + line[at:]])


def rows_field(rng, steps):
    """ROWS of a table; now and then with a number at an edge, or no ROWS."""
    rows = [row_numbers(step) for step in steps]
    if rows and rng.random() < 0.06:
        rows = edged(rng, rows)
    if rows and rng.random() < 0.04:
        return misspelt(rng, rows)
    zeros = rng.choice(("%d", "%d", "%d", "%03d"))
    return ";".join(",".join(zeros % number for number in row) for row in rows) or "-"


def rows_request(rng):
    direction = rng.choice((FWD, INV))
    steps, bits = rng.choice((table, table, table, lent_table))(rng, direction), list_bits(rng)
    rows, call = rows_field(rng, steps), rng.choice(("check", "run", "run", "write"))
    if call == "check":
        return "rows-check %s %s" % (direction, rows)
    if call == "write":
        return "rows-write " + rows
    store = rng.randrange(20)
    if not records_refusal(steps):
        store = store_length(rng, direction, steps, len(bits) // 4)
    return "rows-run %s %d %s %s" % (direction, store, rows, shown_list(rng, bits))


def steps_request(rng):
    return "steps " + hexed(rng.choice([proj_text, any_definition, definition])(rng))


def malformed_request(rng):
    """A line that is no request."""
    line = rng.choice([text_request, prepare_request, check_request, run_request, write_request,
                       rows_request])(rng)
    return rng.choice([line + " ", " " + line, line + "A", line.replace(" ", "  ", 1), line + " -",
                       line.rpartition(" ")[0], line.replace("e", "E", 1), "", "write",
                       line.replace(" ", "/ ", 1), line.replace(" ", "/pp ", 1), "split/p 9 -",
                       line.replace(" ", "/dp ", 1), line.replace(" ", "/dd ", 1), "split/d 9 -",
                       "steps/p -", "steps/d -",
                       "prepare 65 -",
                       "normalise 131073 -", "split -1 -", "check forward -", "run fwd 0 - nan",
                       "run fwd 0 - 3ff", "run inv 0 - zeros:", "steps", "translate 9 abc"])


def request(rng):
    """One line of the protocol, without its newline."""
    kind = rng.choices((text_request, prepare_request, check_request, run_request, write_request,
                        rows_request, steps_request, malformed_request),
                       (28, 14, 13, 20, 3, 14, 6, 2))[0]
    return kind(rng)


def main(seed, count):
    rng = random.Random(seed)
    for _ in range(count):
        print(request(rng))


if __name__ == "__main__":
    main(int(sys.argv[1]), int(sys.argv[2]))
