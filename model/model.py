"""A model of the rules of document 01, and of requests 1 to 4 of document 02, in plain Python.

The words of the papers stand in quotes above the function that carries them.
Texts are bytes. A call answers, or returns Refused(number, place, offset). Run as a
program, it reads requests from standard input and writes one line for each.
"""

import math
import re
import struct
import sys
from typing import NamedTuple, Optional

MOST_BYTES = 4096
MOST_STEPS = 64
MOST_KEYS = 32
MOST_ARGUMENTS = 8
MOST_DEPTH = 64
MOST_TUPLES = 65536
MOST_SIZE = 999_999_999  # "1 to 9 digits"
MOST_BYTE = 40_960  # what no span passes


# "A refusal returns its number and a place"; "Refusals: 12 gains the offset."
# "No other refusal has an offset; in an answer's record it is 0 then."
class Refused(NamedTuple):
    number: int
    place: int
    offset: int = 0


def refuses(answer):
    return isinstance(answer, Refused)


# "a line such as `refused 6 2`: number, place"; "`refused 12 2 15`: number, place, offset"
def refusal_line(refusal):
    numbers = refusal if refusal.number == 12 else refusal[:2]
    return " ".join(["refused", *map(str, numbers)])


# ----- What every text call tests --------------------------------------------

# "texts of ASCII plus the ten subscript digits (bytes E2 82 80 to E2 82 89)"
SUBSCRIPT = re.compile(rb"\xe2\x82[\x80-\x89]")


# "Text calls test 1, 2, then their own."
def text_refusal(t):
    """None where neither applies."""
    if len(t) > MOST_BYTES:
        return Refused(1, 0)
    if not SUBSCRIPT.sub(b"", t).isascii():
        return Refused(2, 0)
    return None


# "the whole answer is longer than the lent buffer"; "7 comes last in every text call"
# "a step table too short is 7"
def within(answer, room):
    if not refuses(answer) and len(answer) > room:
        return Refused(7, 0)
    return answer


# ----- Normalising -----------------------------------------------------------

# "the source's list of replacements in its order, each over the whole text"
GLYPHS = (b"=", b":", b",", b"|", b">", b"<")
GLUES = [(glyph + b" ", glyph) for glyph in GLYPHS] + [(b" " + glyph, glyph) for glyph in GLYPHS]
SUGARS = [(b">", b"|omit_inv "), (b"<", b"|omit_fwd ")]
# "The subscripts become `_0=` to `_9=` only before `=`."
SUBSCRIPTS = [(b"\xe2\x82" + bytes([0x80 + d]) + b"=", b"_%d=" % d) for d in range(10)]
REPLACEMENTS = GLUES + SUGARS + SUBSCRIPTS + [(b"$ ", b"$")]


# "White space is bytes 9 to 13 and 32": so it is for bytes.split and bytes.strip
def squeeze(t):
    """Words one space apart."""
    return b" ".join(t.split())


# "after trimming white space, then colons at both ends, then removing a colon that
# follows a newline"
def normal(t):
    t = squeeze(t.strip().strip(b":").replace(b"\n:", b"\n"))
    for old, new in REPLACEMENTS:
        t = t.replace(old, new)
    return squeeze(t)


def normalise(t):
    return text_refusal(t) or normal(t)


# ----- Splitting -------------------------------------------------------------

MODIFIERS = (b"inv", b"omit_fwd", b"omit_inv")


# The source's remove_comments; CR is a newline here
def without_comments(t):
    t = t.strip().replace(b"\r\n", b"\n").replace(b"\r", b"\n").replace(b"\n:", b"\n")
    lines = [line.strip() for line in t.split(b"\n")]
    return b"".join(b" " + line.partition(b"#")[0].strip() for line in lines if line)


# "turns leading modifiers to the end"; "The rotating `while` stops after a full turn."
# "a step's words, at least one, are all `inv`, `omit_fwd` or `omit_inv`"
def turned(words):
    """None for refusal 6."""
    for i, word in enumerate(words):
        if word not in MODIFIERS:
            return words[i:] + words[:i]
    return None if words else []


# "Splitting strips comments, normalises, cuts at `|`"
def normalised_definition(t):
    return normal(without_comments(t))


def step_pieces(t):
    return normalised_definition(t).split(b"|")


# docs/DECISIONS.md, 80: the call that gives the text in which spans are counted
def definition(t):
    return text_refusal(t) or normalised_definition(t)


# "drops empty steps and turns leading modifiers to the end."; "Splitting tries 6, then 8"
def step_texts(t):
    refusal = text_refusal(t)
    if refusal:
        return refusal
    pieces = (piece.split() for piece in step_pieces(t))
    steps = []
    for words in filter(None, pieces):
        words = turned(words)
        if words is None:
            return Refused(6, len(steps) + 1)
        steps.append(b" ".join(words))
    return Refused(8, 0) if len(steps) > MOST_STEPS else steps


class Span(NamedTuple):
    start: int
    length: int


NO_SPAN = Span(0, 0)


# "the first byte and length of its text in the normalised definition, taken before leading modifiers
# are turned to the end": of "the piece between two separators .., outer white space aside"
def step_spans(t):
    """One for each step that splitting finds."""
    spans, at = [], 0
    for piece in step_pieces(t):
        inner = piece.strip()
        if inner:
            spans.append(Span(at + piece.index(inner), len(inner)))
        at += len(piece + b"|")
    return spans


# "Steps, and parameters as `key=value`, are written each with a newline after it."
def written(lines):
    return b"".join(line + b"\n" for line in lines)


def split(t):
    steps = step_texts(t)
    return steps if refuses(steps) else written(steps)


# ----- Parameters ------------------------------------------------------------

# "`a=b=c` gives `a` the value `b`"; a word without `=` has the value true
def pair(word):
    parts = word.split(b"=", 2)
    return (parts[0], parts[1]) if len(parts) > 1 else (word, b"true")


# "The first element, if it has no `=`, is the name"
# "a repeated key takes the last value, `_name` included"
def keys_and_values(words):
    table = {}
    for word in words:
        if not table and b"=" not in word:
            table[b"_name"] = word
        else:
            key, value = pair(word)
            table[key] = value
    return table


# "A text with a separator gives only `_name`, its whole normalised form."
# "parameters 6, then 9"
def parameter_table(t):
    form = normal(t)
    if b"|" in form:
        return {b"_name": form}
    words = turned(form.split())
    if words is None:
        return Refused(6, 0)
    table = keys_and_values(words)
    return Refused(9, 0) if len(table) > MOST_KEYS else table


# "within the step's text as cut into parameters": "after the second normalising, leading modifiers
# turned to the end". "a missing value the byte after its key or `=`"; of a repeated key the last
def value_starts(t):
    """The byte of that text at which each key's value begins, or would."""
    starts, at = {}, 0
    for word in turned(normal(t).split()):
        key, equals, _ = word.partition(b"=")
        starts[key] = at + len(key + equals)
        at += len(word + b" ")
    return starts


# "Keys come out in byte order."
def parameters(t):
    table = text_refusal(t) or parameter_table(t)
    if refuses(table):
        return table
    return written([key + b"=" + table[key] for key in sorted(table)])


# ----- Translation -----------------------------------------------------------

def trim_start(t, word):
    at = 0
    while t.startswith(word, at):
        at += len(word)
    return t[at:]


# The source: "line ending sanity and remove the PROJ '+' prefix"
def without_plus(t):
    t = t.replace(b"\r\n", b"\n").replace(b"\r", b"\n")
    t = t.replace(b" +", b" ").replace(b"\n+", b" ").strip()
    return trim_start(t, b"+")


# The source: comments off, normalised, cut at ` step `, "remove empty steps", "remove
# spurious 'step step' noise"
def proj_steps(t):
    lines = without_plus(t).split(b"\n")
    joined_lines = b"".join(b" " + line.partition(b"#")[0].strip() for line in lines)
    pieces = (b" " + normal(joined_lines) + b" ").split(b" step ")
    return list(filter(None, (trim_start(piece.strip(), b"step ") for piece in pieces)))


# "`init=` stands before `proj=` (or without one) in a step"
def find_proj(words):
    """The place of the first `proj=`, -1 for none; None for refusal 3."""
    for i, word in enumerate(words):
        if word.startswith(b"init="):
            return None
        if word.startswith(b"proj="):
            return i
    return -1


# "`proj=` changes places with the first element"; and it is cut off
def exchanged(words, i):
    if i >= 0:
        words[i], words[0] = words[0], words[i]
        words[0] = words[0][len(b"proj="):]
    return words


def last_with(words, start):
    """The place of the last word that starts so, -1 for none."""
    found = [i for i, word in enumerate(words) if word.startswith(start)]
    return found[-1] if found else -1


# "With no `ellps=`, the last `a=` and last `rf=` become a final `ellps=a,rf`"
def with_ellipsoid(words):
    a, rf = last_with(words, b"a="), last_with(words, b"rf=")
    if a < 0 or rf < 0 or last_with(words, b"ellps=") >= 0:
        return words
    rest = [word for i, word in enumerate(words) if i not in (a, rf)]
    return rest + [b"ellps=" + words[a][len(b"a="):] + b"," + words[rf][len(b"rf="):]]


# "the first `k=` becomes `k_0=`"
def with_scale(words):
    for i, word in enumerate(words):
        if word.startswith(b"k="):
            return words[:i] + [b"k_0=" + word[len(b"k="):]] + words[i + 1:]
    return words


# "Omit marks are exchanged."
EXCHANGE = {b"omit_fwd": b"omit_inv", b"omit_inv": b"omit_fwd"}


# "Globals go in as one element at position 1"
# "An inverted pipeline reverses the steps and turns each `inv`."
# "a step's words are all `inv`, no globals, pipeline not inverted"
def geodesy_step(words, global_words, inverted):
    """One step's text; None for refusal 5."""
    if global_words:
        words = words[:1] + [global_words] + words[1:]
    kept = [EXCHANGE.get(word, word) for word in words if word != b"inv"]
    if (b"inv" in words) != inverted:
        if not kept:
            return None
        kept.insert(1, b"inv")
    return b" ".join(kept).strip()


# "Translation takes the first faulty step, trying 3, 4, 5."
def geodesy_text(steps):
    done, global_words, inverted = [], b"", False
    for place, step in enumerate(steps, 1):
        words = step.split()
        i = find_proj(words)
        if i is None:
            return Refused(3, place)
        words = exchanged(words, i)
        if i >= 0 and words[0] == b"pipeline":
            if place != 1:
                return Refused(4, place)
            inverted = b"inv" in words
            global_words = b" ".join(word for word in words[1:] if word != b"inv")
            continue
        words = with_scale(with_ellipsoid(words))
        if words == [b""]:  # the source: "Skip empty steps"
            continue
        step = geodesy_step(words, global_words, inverted)
        if step is None:
            return Refused(5, place)
        done.append(step)
    return b" | ".join(done[::-1] if inverted else done).strip()


# "Translation returns the text unchanged if it holds `|` or lacks `proj`."
def translate(t):
    refusal = text_refusal(t)
    if refusal:
        return refusal
    if b"|" in t or b"proj" not in t:
        return t
    return geodesy_text(proj_steps(t))


# ----- Step records ----------------------------------------------------------

(PUSH, POP, STACK_PUSH, STACK_POP, STACK_FLIP, STACK_ROLL, STACK_UNROLL,
 STACK_SWAP, STACK_DROP, AXISSWAP, ADAPT, DOCUMENTED) = range(12)

NAMES = ["push", "pop", "stack.push", "stack.pop", "stack.flip", "stack.roll",
         "stack.unroll", "stack.swap", "stack.drop", "axisswap", "adapt", "documented"]


# "a second reading, named PROJ, beside the crate's"; "Each record has a field `reading`: 0 the
# crate's, 1 PROJ's."
CRATE, PROJ = range(2)


# "Add a documented mode, chosen for a whole preparation"; "Only an adapt step knows a mode, so the
# mode stands in the operator's number (an operator of its own for documented adapt) and in no other
# record."
CRATE_MODE, DOCUMENTED_MODE = range(2)


# "A step record carries up to eight arguments in place"; "Records name their reading."; "Each step
# record gains the first byte and length of its text"
class Step(NamedTuple):
    operator: int
    n: int       # how many arguments are used
    inv: int
    omit_fwd: int
    omit_inv: int
    reading: int
    args: tuple  # eight whole numbers, unused ones 0
    span: Span = NO_SPAN


def new_step(operator, args, inv=0, omit_fwd=0, omit_inv=0, reading=CRATE, span=NO_SPAN):
    filled = tuple(args) + (0,) * (MOST_ARGUMENTS - len(args))
    return Step(operator, len(args), inv, omit_fwd, omit_inv, reading, filled, span)


def used(step):
    return step.args[:step.n]


# ----- Decimal form ----------------------------------------------------------

# "optional minus, 1 to 9 digits, optionally a point and 1 to 6 digits"
DECIMAL = re.compile(rb"(-?)([0-9]{1,9})(?:\.([0-9]{1,6}))?")
MILLION = 1_000_000


def decimal(piece):
    """A number in millionths, or None where the piece is not in decimal form."""
    form = DECIMAL.fullmatch(piece)
    if not form:
        return None
    minus, digits, fraction = form.groups()
    size = int(digits) * MILLION + int((fraction or b"").ljust(6, b"0"))
    return -size if minus else size


# "A series is cut at each comma; an empty piece or value is not in decimal form."
def series(value):
    return [decimal(piece) for piece in value.split(b",")]


# "the byte offset .. of the first element that breaks decimal form"; of an empty piece "where the
# piece would begin"
def first_broken(value):
    """In the value; None where all are in decimal form."""
    at = 0
    for piece in value.split(b","):
        if decimal(piece) is None:
            return at
        at += len(piece + b",")
    return None


# "whole-number tests on the parsed decimal"
def whole(value):
    """The whole numbers of a series in decimal form; None if one is not whole."""
    millionths = series(value)
    if any(number % MILLION for number in millionths):
        return None
    return [number // MILLION for number in millionths]


# ----- Preparing: the operators' keys ----------------------------------------

FLAG, SERIES, WORD = "flag", "series", "word"
AXES = (b"v_1", b"v_2", b"v_3", b"v_4")
SERIES_ACTIONS = {b"push": STACK_PUSH, b"pop": STACK_POP, b"flip": STACK_FLIP,
                  b"roll": STACK_ROLL, b"unroll": STACK_UNROLL}
FLAG_ACTIONS = {b"swap": STACK_SWAP, b"drop": STACK_DROP}
# "Every operator also takes `inv`, `omit_fwd`, `omit_inv`."
MARKS = dict.fromkeys(MODIFIERS, FLAG)
FLAGS = {**MARKS, **dict.fromkeys(AXES, FLAG)}
KEYS = {
    b"push": FLAGS,
    b"pop": FLAGS,
    b"stack": {**MARKS, **dict.fromkeys(SERIES_ACTIONS, SERIES),
               **dict.fromkeys(FLAG_ACTIONS, FLAG)},
    b"axisswap": {**MARKS, b"order": SERIES},
    b"adapt": {**MARKS, b"from": WORD, b"to": WORD},
}


# "a series element not in decimal form, or a flag other than bare or `=true`"
# "A bad flag reports the first byte of its value"
def fault_12(kind, value):
    """Where in its value it is; None for none."""
    if kind == SERIES:
        return first_broken(value)
    return 0 if kind == FLAG and value != b"true" else None


# "a series of more than 8 elements"
def breaks_13(kind, value):
    return kind == SERIES and len(value.split(b",")) > MOST_ARGUMENTS


# ----- Preparing: the operators' own rules (refusal 14) ----------------------
# Each answers the record's operator and arguments, or None where it is broken.

# "flags in order 1 to 4, possibly none"
def push_step(table):
    return PUSH, [i for i, axis in enumerate(AXES, 1) if axis in table]


def pop_step(table):
    return POP, push_step(table)[1]


# "push, pop and flip take places 1 to 4, repeats allowed"
def places_rule(numbers):
    return all(1 <= number <= 4 for number in numbers)


# "roll m,n: whole numbers, m > |n|."
def roll_rule(numbers):
    return len(numbers) == 2 and numbers[0] > abs(numbers[1])


# "`stack`: exactly one action."
def stack_step(table):
    actions = [key for key in table if key in SERIES_ACTIONS or key in FLAG_ACTIONS]
    if len(actions) != 1:
        return None
    action = actions[0]
    if action in FLAG_ACTIONS:
        return FLAG_ACTIONS[action], []
    numbers = whole(table[action])
    rule = roll_rule if action in (b"roll", b"unroll") else places_rule
    if numbers is None or not rule(numbers):
        return None
    return SERIES_ACTIONS[action], numbers


# "at most four; whole, nonzero, no size above the length or repeated"
def order_rule(numbers):
    sizes = [abs(number) for number in numbers]
    return (len(sizes) <= 4 and all(1 <= size <= len(sizes) for size in sizes)
            and len(set(sizes)) == len(sizes))


# "Default 1,2,3,4."
def axisswap_step(table):
    numbers = whole(table.get(b"order", b"1,2,3,4"))
    if numbers is None or not order_rule(numbers):
        return None
    return AXISSWAP, numbers


# "The letters are the code's, not the comment's."
LETTERS = dict(zip(b"enufwsdp", (1, 2, 3, 4, -1, -2, -3, -4)))
RADIANS, DEGREES, GONS = range(3)
ENDINGS = {b"": RADIANS, b"_rad": RADIANS, b"_any": RADIANS, b"_deg": DEGREES, b"_gon": GONS}


# "words and arithmetic as the source has them, `pass` included"
def order_word(word):
    """Four signed axes and an angle, or None."""
    if word == b"pass":
        return [1, 2, 3, 4], RADIANS
    axes = [LETTERS.get(letter, 0) for letter in word[:4]]
    if word[4:] not in ENDINGS or sorted(map(abs, axes)) != [1, 2, 3, 4]:
        return None
    return axes, ENDINGS[word[4:]]


def sign(number):
    return -1 if number < 0 else 1


# The source's combine_descriptors: output i comes from where `come` has the axis that
# `go` has at i; the signs are divided place by place
def combined(come, go):
    sizes = [abs(axis) for axis in come]
    return [(sizes.index(abs(go[i])) + 1) * sign(come[i]) * sign(go[i]) for i in range(4)]


# "Refusals: none new": both modes take the same words
def two_words(table):
    """What `from` and `to` say, or None."""
    words = order_word(table.get(b"from", b"enuf")), order_word(table.get(b"to", b"enuf"))
    return None if None in words else words


# The same angle twice is a factor of 1.
def angle_code(come_angle, go_angle):
    return 0 if come_angle == go_angle else 3 * come_angle + go_angle


def adapt_step(table):
    words = two_words(table)
    if words is None:
        return None
    (come, come_angle), (go, go_angle) = words
    # Both first places carry the angle, the others none.
    code = angle_code(come_angle, go_angle)
    return ADAPT, combined(come, go) + [code, code, 0, 0]


# "only east, west, north and south carry an angle wherever they stand"
HORIZONTAL = (1, 2)


# "each output place takes the input place of the same axis, times the input's sign and angle factor
# over the output's"
def documented_args(come, go, code):
    sizes = [abs(axis) for axis in come]
    places = [sizes.index(abs(axis)) for axis in go]
    taken = [(place + 1) * sign(come[place]) * sign(axis) for place, axis in zip(places, go)]
    return taken + [code if abs(axis) in HORIZONTAL else 0 for axis in go]


def documented_step(table):
    words = two_words(table)
    if words is None:
        return None
    (come, come_angle), (go, go_angle) = words
    return DOCUMENTED, documented_args(come, go, angle_code(come_angle, go_angle))


RULES = {b"push": push_step, b"pop": pop_step, b"stack": stack_step,
         b"axisswap": axisswap_step, b"adapt": adapt_step}
MODE_RULES = {CRATE_MODE: RULES, DOCUMENTED_MODE: {**RULES, b"adapt": documented_step}}


# ----- Preparing -------------------------------------------------------------

# "with both, the earlier byte is reported"
def offset_12(kinds, table, starts):
    """The least offset of a fault; None for none."""
    faults = {key: fault_12(kinds[key], value) for key, value in table.items()}
    return min((starts[key] + at for key, at in faults.items() if at is not None), default=None)


def judged(name, table, starts, mode, place):
    """Refusals 11 to 14 of a known operator; else its record."""
    kinds = KEYS[name]
    if any(key not in kinds for key in table):
        return Refused(11, place)
    offset = offset_12(kinds, table, starts)
    if offset is not None:
        return Refused(12, place, offset)
    if any(breaks_13(kinds[key], value) for key, value in table.items()):
        return Refused(13, place)
    step = MODE_RULES[mode][name](table)
    if step is None:
        return Refused(14, place)
    return new_step(*step, *(int(mark in table) for mark in MODIFIERS))


# "its lowest number of 1, 6, 9 to 14, judging 14 only if no other applies"
# "Each step is normalised again when cut into parameters."
def prepare_step(text, mode=CRATE_MODE, place=1):
    """A record, or what refuses it."""
    if len(text) > MOST_BYTES:
        return Refused(1, place)
    table = parameter_table(text)
    if refuses(table):
        return Refused(table.number, place)
    name = table.pop(b"_name", None)
    if name not in KEYS:
        return Refused(10, place)
    return judged(name, table, value_starts(text), mode, place)


# "Preparing splits first, then takes the first faulty step"
# "Give preparation a second reading": the records name it, and are the same otherwise
# "The crate's mode stays the default"
def prepare(t, reading=CRATE, mode=CRATE_MODE):
    texts = step_texts(t)
    if refuses(texts):
        return texts
    steps = []
    for place, (text, span) in enumerate(zip(texts, step_spans(t), strict=True), 1):
        step = prepare_step(text, mode, place)
        if refuses(step):
            return step
        steps.append(step._replace(reading=reading, span=span))
    return steps


# ----- "a step record no preparation makes" (refusal 18) ---------------------

def made_flags(args):
    return all(1 <= arg <= 4 for arg in args) and list(args) == sorted(set(args))


def made_places(args):
    return len(args) >= 1 and places_rule(args)


def made_bare(args):
    return len(args) == 0


def made_order(args):
    return len(args) >= 1 and order_rule(args)


CODES = (0, 1, 2, 3, 5, 6, 7)


def made_adapt(args):
    return (len(args) == 8 and order_rule(args[:4]) and args[4] in CODES
            and args[4] == args[5] and args[6] == args[7] == 0)


# "The codes of the two horizontal outputs are alike, wherever they stand, the other two are 0."
def made_documented(args):
    return (len(args) == 8 and order_rule(args[:4])
            and any(sorted(args[4:]) == [0, 0, code, code] for code in CODES))


MADE = [made_flags, made_flags, made_places, made_places, made_places, roll_rule, roll_rule,
        made_bare, made_bare, made_order, made_adapt, made_documented]


def made(step):
    """Whether some preparation makes this record: it has one spelling."""
    return (0 <= step.operator <= DOCUMENTED and 0 <= step.n <= MOST_ARGUMENTS
            and all(mark in (0, 1) for mark in (step.inv, step.omit_fwd, step.omit_inv))
            and step.reading in (CRATE, PROJ)
            and all(abs(arg) <= MOST_SIZE for arg in step.args)
            and not any(step.args[step.n:])
            and MADE[step.operator](used(step)))


def span_end(span):
    return span.start + span.length


# "18 also names the first record whose span is empty, passes byte 40,960 or starts before the last
# one ends; nothing else of spans is judged"
def bad_span(span, last):
    return span.length == 0 or span_end(span) > MOST_BYTE or span.start < span_end(last)


# "18 is 0 for over 64 records, else the first bad record.": "the first record that is bad for any
# reason"
# "18 at a record whose reading is not the first's"; of modes: "Tables that mix both are accepted,
# each step in its own mode"
def records_refusal(steps):
    """None for none."""
    if len(steps) > MOST_STEPS:
        return Refused(18, 0)
    last = NO_SPAN
    for place, step in enumerate(steps, 1):
        if not made(step) or step.reading != steps[0].reading or bad_span(step.span, last):
            return Refused(18, place)
        last = step.span
    return None


# ----- What a step does in a direction ---------------------------------------

FWD, INV = "fwd", "inv"


def running(direction, steps):
    """The steps run, in running order, each with its place in the table."""
    numbered = list(enumerate(steps, 1))
    if direction == FWD:
        return [(place, step) for place, step in numbered if not step.omit_fwd]
    return [(place, step) for place, step in numbered[::-1] if not step.omit_inv]


# "`push`: flags in order 1 to 4"; "`pop`: 4 to 1"; `take` is the pop of these two
def act_flags(step, forward):
    if (step.operator == PUSH) == forward:
        return "push", used(step)
    return "take", used(step)[::-1]


# "Inverse push is pop with arguments reversed, and the other way round."
def act_stack(step, forward):
    name = "push" if (step.operator == STACK_PUSH) == forward else "pop"
    return name, used(step) if forward else used(step)[::-1]


# "Negative n means m + n."; "Inverse uses m - n, as does unroll."
# "Inverse unroll is roll m,n"
def act_roll(step, forward):
    m, n = used(step)
    if (step.operator == STACK_ROLL) != forward:
        n = m - n
    return "roll", (m, m + n if n < 0 else n)


def act_axes(step, forward):
    return NAMES[step.operator] + (" fwd" if forward else " inv"), used(step)


# "flip is not reversed."
def act_alike(step, forward):
    return {STACK_FLIP: "flip", STACK_SWAP: "swap", STACK_DROP: "drop"}[step.operator], used(step)


ACTS = [act_flags, act_flags, act_stack, act_stack, act_alike, act_roll, act_roll,
        act_alike, act_alike, act_axes, act_axes, act_axes]


# "`inv` turns `axisswap` and `adapt` only"; in the PROJ reading it "also turns `push`, `pop` and
# `stack`"
AXES_STEPS = (AXISSWAP, ADAPT, DOCUMENTED)


def turned_by_inv(step):
    return bool(step.inv) and (step.reading == PROJ or step.operator in AXES_STEPS)


def act(direction, step):
    """What a step does in a direction: a word and its arguments."""
    return ACTS[step.operator](step, (direction == FWD) != turned_by_inv(step))


# "too few columns, or fewer than m for a roll"; of swap and drop: "Neither takes columns."
def columns_wanted(name, args):
    if name in ("take", "pop", "flip"):
        return len(args)
    return args[0] if name == "roll" else 0


# "columns untouched" by a starved stack action; a starved `pop` takes what there is
def depth_after(name, args, depth):
    if name == "push":
        return depth + len(args)
    if name == "take":
        return max(depth - len(args), 0)
    if name == "pop" and depth >= len(args):
        return depth - len(args)
    return depth


# ----- Rearranging axes and columns ------------------------------------------
# Four axes and a list of columns, the top last. In a run an axis is the list of all
# tuples' numbers there; in the check it is one signed place.

def push(axes, columns, args):
    columns.extend([axes[arg - 1] for arg in args])


def pop(axes, columns, args):
    for arg in args:
        axes[arg - 1] = columns.pop()


# The source: argument j changes places with column j from the top, one after another
def flip(axes, columns, args):
    for j, arg in enumerate(args, 1):
        axes[arg - 1], columns[-j] = columns[-j], axes[arg - 1]


# "The top column goes under the top m, n times."
def roll(axes, columns, args):
    m, times = args
    under = len(columns) - m
    for _ in range(times):
        columns.insert(under, columns.pop())


# "swap does nothing below two columns"
def swap(axes, columns, args):
    if len(columns) > 1:
        columns[-1], columns[-2] = columns[-2], columns[-1]


# "drop does nothing"
def drop(axes, columns, args):
    pass


REARRANGE = {"push": push, "take": pop, "pop": pop, "flip": flip, "roll": roll,
             "swap": swap, "drop": drop}


# The source: axes beyond the order stay
def axisswap(axes, args, forward, times):
    before = list(axes)
    for i, arg in enumerate(args):
        come, go = (abs(arg) - 1, i) if forward else (i, abs(arg) - 1)
        axes[go] = times(before[come], sign(arg))


# ----- The check -------------------------------------------------------------

# "passes (the depth after each step run, deepest, left, and four places, each with its
# sign, unless an `adapt` step runs)"
class Passes(NamedTuple):
    depths: list
    deepest: int
    left: int
    places: Optional[list]


# "or step and too few or too many"; "the check returns the span with its step"
class Fails(NamedTuple):
    step: int
    few: bool
    span: Span


def check(direction, steps):
    refusal = records_refusal(steps)
    if refusal:
        return refusal
    axes, columns, depths, adapted = [1, 2, 3, 4], [], [], False
    for place, step in running(direction, steps):
        name, args = act(direction, step)
        if columns_wanted(name, args) > len(columns):
            return Fails(place, True, step.span)
        if depth_after(name, args, len(columns)) > MOST_DEPTH:
            return Fails(place, False, step.span)
        if name in REARRANGE:
            REARRANGE[name](axes, columns, args)
        elif step.operator == AXISSWAP:
            axisswap(axes, args, name == "axisswap fwd", lambda axis, mark: axis * mark)
        else:
            adapted = True
        depths.append(len(columns))
    return Passes(depths, max(depths, default=0), len(columns), None if adapted else axes)


# ----- The run ---------------------------------------------------------------

class Ran(NamedTuple):
    count: int
    left: int
    numbers: list
    store: list


# "factors are made and applied with one rounding per operation"
ANGLES = (1.0, math.pi / 180.0, math.pi / 200.0)


def multipliers(args):
    """The source's mult, from a record's signs and codes."""
    return [sign(arg) * (ANGLES[code // 3] / ANGLES[code % 3])
            for arg, code in zip(args[:4], args[4:])]


def no_op(args):
    """The source: every multiplier 1 and every place its own."""
    return list(args[:4]) == [1, 2, 3, 4] and multipliers(args) == [1.0] * 4


def scaled(column, factor):
    return [number * factor for number in column]


def multiplied(axes, args, forward, factor_back):
    """Output i is the input that it names times mult[i]; back, number i goes to that input's place, times 1 over a factor."""
    before, mult = list(axes), multipliers(args)
    for i in range(4):
        post = abs(args[i]) - 1
        if forward:
            axes[i] = scaled(before[post], mult[i])
        else:
            axes[post] = scaled(before[i], 1.0 / mult[factor_back(i, post)])


# "Output i is input post[i] times mult[i]; inverse sets place post[j] to number j times
# 1/mult[post[j]]. A no-op touches nothing."
def adapt(axes, args, forward):
    if not no_op(args):
        multiplied(axes, args, forward, lambda i, post: post)


# "The inverse sends each number back to the place it came from, times one over the same factor."
def documented(axes, args, forward):
    multiplied(axes, args, forward, lambda i, post: i)


def make_nan(axes, places, tuples):
    for place in places:
        axes[place - 1] = [math.nan] * tuples


# pop: "on an empty stack that axis is NaN for all tuples, the step stops"
# stack: "make every number NaN and count 0, columns untouched"
def starve(name, args, axes, columns, tuples):
    if name == "take":
        enough = len(columns)
        pop(axes, columns, args[:enough])
        make_nan(axes, args[enough:enough + 1], tuples)
    else:
        make_nan(axes, (1, 2, 3, 4), tuples)


# swap "counts 0 only on an empty stack"; drop "counts 0"
def count_of(name, columns, tuples):
    return 0 if name == "drop" or (name == "swap" and not columns) else tuples


def run_step(direction, step, axes, columns, tuples):
    """Runs one step and returns its count."""
    name, args = act(direction, step)
    if columns_wanted(name, args) > len(columns):
        starve(name, args, axes, columns, tuples)
        return 0
    if step.operator == AXISSWAP:
        axisswap(axes, args, name == "axisswap fwd", scaled)
    elif step.operator == ADAPT:
        adapt(axes, args, name == "adapt fwd")
    elif step.operator == DOCUMENTED:
        documented(axes, args, name == "documented fwd")
    else:
        REARRANGE[name](axes, columns, args)
    return count_of(name, columns, tuples)


# "run: depth would pass 64"
def run_depths(direction, steps):
    """The depth after each step run, or refusal 16 at its step."""
    depth, depths = 0, []
    for place, step in running(direction, steps):
        depth = depth_after(*act(direction, step), depth)
        if depth > MOST_DEPTH:
            return Refused(16, place)
        depths.append(depth)
    return depths


# "Run tries 18, 15, 16, 17."
def run_refusal(direction, steps, numbers, store):
    """None for none."""
    refusal = records_refusal(steps)
    if refusal:
        return refusal
    if len(numbers) % 4 or len(numbers) > 4 * MOST_TUPLES:
        return Refused(15, 0)
    depths = run_depths(direction, steps)
    if refuses(depths):
        return depths
    if len(store) < max(depths, default=0) * (len(numbers) // 4):
        return Refused(17, 0)
    return None


# "the columns left stand whole, bottom first, in the store, each tuple by tuple; the rest
# of deepest times tuples is zero; beyond is untouched"
def store_after(columns, size, store):
    left = [number for column in columns for number in column]
    return left + [0.0] * (size - len(left)) + list(store[size:])


# "The count is the least over steps run, or the tuple count if none ran."
def run(direction, steps, numbers, store):
    refusal = run_refusal(direction, steps, numbers, store)
    if refusal:
        return refusal
    tuples = len(numbers) // 4
    axes, columns, counts = [numbers[i::4] for i in range(4)], [], [tuples]
    for _, step in running(direction, steps):
        counts.append(run_step(direction, step, axes, columns, tuples))
    after = [number for coordinate in zip(*axes) for number in coordinate]
    deepest = max(run_depths(direction, steps), default=0)
    return Ran(min(counts), len(columns), after, store_after(columns, deepest * tuples, store))


# ----- The program `steps` ---------------------------------------------------

STEPS_ROOM = 65536


def joined(numbers):
    return ",".join(map(str, numbers))


# "the step and too few or too many, as `forward: step 1 too few`"
# "Where an `adapt` step runs, the line ends after the columns left."
def verdict(answer):
    if isinstance(answer, Fails):
        return "step %d too %s" % (answer.step, "few" if answer.few else "many")
    line = "deepest %d left %d" % (answer.deepest, answer.left)
    return line if answer.places is None else line + " places " + joined(answer.places)


def refused_line(refusal):
    return refusal_line(refusal).encode() + b"\n"


# "translates, splits, prepares, then checks forward and inverse, printing as each answers.
# A refusal ends its output"; the option `--proj` prepares in PROJ's reading, `--documented` in the
# documented mode
def steps_output(t, reading=CRATE, mode=CRATE_MODE):
    text = within(translate(t), STEPS_ROOM)
    if refuses(text):
        return refused_line(text)
    out = b"translated: " + text + b"\n"
    texts = step_texts(text)
    if refuses(texts):
        return out + refused_line(texts)
    out += b"".join(b"step %d: %s\n" % numbered for numbered in enumerate(texts, 1))
    steps = prepare(text, reading, mode)
    if refuses(steps):
        return out + refused_line(steps)
    for name, direction in (("forward", FWD), ("inverse", INV)):
        out += ("%s: %s\n" % (name, verdict(check(direction, steps)))).encode()
    return out


# ----- Requests and their answers --------------------------------------------

MOST_ROOM = 131072
MOST_NUMBERS = 4 * (MOST_TUPLES + 1)  # of a list and of STORE: the most tuples and one more
MOST_SHOWN = 64
STORE_BEFORE = -7.0
NATURAL = re.compile(r"[0-9]{1,9}")
HEX_TEXT = re.compile(r"(?:[0-9a-f]{2})+")
HEX_NUMBERS = re.compile(r"[0-9a-f]{16}(?:,[0-9a-f]{16})*")


class What(Exception):
    """A line that is no request."""


def read_natural(field, most):
    if not NATURAL.fullmatch(field) or int(field) > most:
        raise What
    return int(field)


# TEXT: "bytes in lowercase hex, `-` for none"
def read_text(field):
    if field == "-":
        return b""
    if not HEX_TEXT.fullmatch(field):
        raise What
    return bytes.fromhex(field)


# DIR: "`fwd` or `inv`"
def read_direction(field):
    if field not in (FWD, INV):
        raise What
    return field


# NUMBERS: "`-` for none; `zeros:K` for K times +0"
def read_numbers(field):
    if field == "-":
        return []
    if field.startswith("zeros:"):
        return [0.0] * read_natural(field[len("zeros:"):], MOST_NUMBERS)
    if not HEX_NUMBERS.fullmatch(field):
        raise What
    bits = bytes.fromhex(field.replace(",", ""))
    return list(struct.unpack(">%dd" % (len(bits) // 8), bits))


# ROWS: "joined by `;`, `-` for none, up to 70"; "numbers joined by commas: operator, n, inv,
# omit_fwd, omit_inv, the eight arguments, the reading .., the span's first byte and length"; "A
# number that its field cannot hold is `what`."
MOST_ROWS = 70
# What a field holds: a byte, an i32, a u32. Of n any number up to the greatest i32 is taken: the
# request's vectors have 999,999,999 there, and want 18.
BYTE, COUNT, WHOLE, PLACED = (0, 255), (0, 2**31 - 1), (-2**31, 2**31 - 1), (0, 2**32 - 1)
FIELDS = [BYTE, COUNT, BYTE, BYTE, BYTE] + [WHOLE] * MOST_ARGUMENTS + [BYTE, PLACED, PLACED]
ROW_NUMBER = re.compile(r"-?[0-9]{1,10}")


def read_row_number(field, least, most):
    if not ROW_NUMBER.fullmatch(field) or not least <= int(field) <= most:
        raise What
    return int(field)


def read_row(field):
    pieces = field.split(",")
    if len(pieces) != len(FIELDS):
        raise What
    numbers = [read_row_number(piece, *bounds) for piece, bounds in zip(pieces, FIELDS)]
    args, (reading, *span) = tuple(numbers[5:-3]), numbers[-3:]
    return Step(*numbers[:5], reading, args, Span(*span))


def read_rows(field):
    rows = [] if field == "-" else field.split(";")
    if len(rows) > MOST_ROWS:
        raise What
    return list(map(read_row, rows))


def show_text(t):
    return t.hex() or "-"


# "A NaN is read from its bits and written `nan`."
def show_number(number):
    return "nan" if number != number else struct.pack(">d", number).hex()


def show_numbers(numbers):
    return ",".join(map(show_number, numbers)) or "-"


# "for adapt `noop`, or `post` as four places from 1 and then `mult` as four f64 bit patterns"
# "NAME is `documented` for documented adapt, its ARGS as adapt's"
def show_args(step):
    if step.operator not in (ADAPT, DOCUMENTED):
        return joined(used(step)) or "-"
    if no_op(step.args):
        return "noop"
    return joined(map(abs, step.args[:4])) + "," + show_numbers(multipliers(step.args))


def show_span(span):
    return "%d+%d" % span


# RECORD: "`NAME:MARKS:ARGS`, no spaces"; "`@FROM+LENGTH` stands behind ARGS"
# "MARKS has a `p` behind `i`, `f`, `o` where the record's reading is PROJ's"
def show_record(step):
    marks = "i" * step.inv + "f" * step.omit_fwd + "o" * step.omit_inv + "p" * step.reading
    parts = NAMES[step.operator], marks or "-", show_args(step)
    return ":".join(parts) + "@" + show_span(step.span)


def answer_text(call, room, text):
    room = read_natural(room, MOST_ROOM)
    answer = within(call(read_text(text)), room)
    return refusal_line(answer) if refuses(answer) else "ok " + show_text(answer)


def answer_prepare(way, room, text):
    room = read_natural(room, MOST_STEPS)
    steps = within(prepare(read_text(text), *way), room)
    if refuses(steps):
        return refusal_line(steps)
    return " ".join(["ok", str(len(steps))] + list(map(show_record, steps)))


# "`fails STEP few FROM+LENGTH`, and `many` alike"
def show_check(answer):
    if isinstance(answer, Fails):
        few = "few" if answer.few else "many"
        return "fails %d %s %s" % (answer.step, few, show_span(answer.span))
    places = "-" if answer.places is None else joined(answer.places)
    depths = joined(answer.depths) or "-"
    return "passes %d %d %s %s" % (answer.deepest, answer.left, places, depths)


# "`check` and `run` prepare TEXT into 64 records first. Any call that refuses is answered
# `refused N PLACE`, and nothing after it is called."; "`refused 12 PLACE OFFSET` (R3), wherever
# preparing refuses"
def said_of(steps, call, show):
    answer = steps if refuses(steps) else call(steps)
    return refusal_line(answer) if refuses(answer) else show(answer)


def answer_check(read_steps, direction, steps):
    direction, steps = read_direction(direction), read_steps(steps)
    return said_of(steps, lambda steps: check(direction, steps), show_check)


# "A `run` whose list is over 64 numbers long is answered without NUMBERS and COLUMNS"
def show_run(answer):
    shown = ["-", "-"]
    if len(answer.numbers) <= MOST_SHOWN:
        shown = [show_numbers(answer.numbers), show_numbers(answer.store)]
    return "ok %d %d %s %s" % (answer.count, answer.left, *shown)


def answer_run(read_steps, direction, store, steps, numbers):
    direction, store = read_direction(direction), read_natural(store, MOST_NUMBERS)
    steps, numbers = read_steps(steps), read_numbers(numbers)
    lent = [STORE_BEFORE] * store
    return said_of(steps, lambda steps: run(direction, steps, numbers, lent), show_run)


# ----- The text of a record (docs/DECISIONS.md, 42) ---------------------------

ENDING = ["", "_deg", "_gon"]


def signed_letter(place):
    return ("enuf" if place > 0 else "wsdp")[abs(place) - 1]


def written_adapt(args):
    letters = "".join(map(signed_letter, args[:4]))
    return ["from=enuf" + ENDING[args[4] // 3], "to=" + letters + ENDING[args[4] % 3]]


# In `from` the input places that carry the angle are `e` and `n` in turn, the others `u` and `f`;
# in `to` each output has the letter of the place that it takes.
def written_documented(args):
    codes = {abs(arg): code for arg, code in zip(args[:4], args[4:])}
    bent = [place for place in (1, 2, 3, 4) if codes[place]] or [1, 2]
    rest = [place for place in (1, 2, 3, 4) if place not in bent]
    axes = dict(zip(bent + rest, (1, 2, 3, 4)))
    come = "".join(signed_letter(axes[place]) for place in (1, 2, 3, 4))
    go = "".join(signed_letter(axes[abs(arg)] * sign(arg)) for arg in args[:4])
    code = max(args[4:])
    return ["from=" + come + ENDING[code // 3], "to=" + go + ENDING[code % 3]]


def written_args(step):
    name, args = NAMES[step.operator].replace("stack.", ""), used(step)
    if step.operator in (PUSH, POP):
        return ["v_%d" % place for place in args]
    if step.operator == ADAPT:
        return written_adapt(args)
    if step.operator == DOCUMENTED:
        return written_documented(args)
    if not args:
        return [name]
    return ["%s=%s" % ("order" if name == "axisswap" else name, joined(args))]


def written_step(step):
    marks = [("inv", step.inv), ("omit_fwd", step.omit_fwd), ("omit_inv", step.omit_inv)]
    name = "adapt" if step.operator == DOCUMENTED else NAMES[step.operator].split(".")[0]
    return " ".join([name] + written_args(step) + [mark for mark, is_set in marks if is_set])


# docs/DECISIONS.md, 43: "`write` refuses 18 as the check does"
def write(steps):
    return records_refusal(steps) or " | ".join(map(written_step, steps)).encode()


def answer_write(read_steps, steps):
    return said_of(read_steps(steps), write, lambda text: "ok " + show_text(text))


def answer_steps(text):
    return "ok " + show_text(steps_output(read_text(text)))


TEXT_CALLS = {"normalise": normalise, "split": split, "parameters": parameters,
              "translate": translate, "definition": definition}
# The requests on a step table: of a TEXT that is prepared, or of ROWS
TABLE_CALLS = {"check": (answer_check, 2), "run": (answer_run, 4), "write": (answer_write, 1)}


# "`prepare`, `check`, `run`, `write` .. may be followed by `/p` (the PROJ reading, R1), `/d` (the
# documented mode, R2) or `/pd`"
WAYS = {"": (CRATE, CRATE_MODE), "/p": (PROJ, CRATE_MODE), "/d": (CRATE, DOCUMENTED_MODE),
        "/pd": (PROJ, DOCUMENTED_MODE)}


def read_way(mark):
    if mark not in WAYS:
        raise What
    return WAYS[mark]


def asked_of_table(name, read_steps, fields):
    call, count = TABLE_CALLS[name]
    if len(fields) != count:
        raise What
    return call(read_steps, *fields)


def asked(request, fields):
    if request in TEXT_CALLS and len(fields) == 2:
        return answer_text(TEXT_CALLS[request], *fields)
    if request == "steps" and len(fields) == 1:
        return answer_steps(*fields)
    if request.startswith("rows-") and request[len("rows-"):] in TABLE_CALLS:
        return asked_of_table(request[len("rows-"):], read_rows, fields)
    name, slash, mark = request.partition("/")
    if name == "prepare" and len(fields) == 2:
        return answer_prepare(read_way(slash + mark), *fields)
    if name in TABLE_CALLS:
        way = read_way(slash + mark)
        return asked_of_table(name, lambda text: prepare(read_text(text), *way), fields)
    raise What


# "Fields stand one space apart."; "anything else ... `what`"
def answer(line):
    """The answer to one request, both without their newline."""
    request, *fields = line.split(" ")
    try:
        return asked(request, fields)
    except What:
        return "what"


def main():
    for line in sys.stdin.buffer:
        line = line[:-1] if line.endswith(b"\n") else line
        print(answer(line.decode("latin-1")))


if __name__ == "__main__":
    main()
