"""The examples of document 01 (P1 to P13, "Also", `steps`), of requests 1 to 4 of document 02, and
of their open points, under their numbers, held against the model; then laws that drawn inputs must
keep."""

import itertools
import math
import random
import sys

import draw
import model
from model import (
    ADAPT, AXES_STEPS, AXISSWAP, CODES, CRATE, CRATE_MODE, DOCUMENTED, DOCUMENTED_MODE, FWD, INV,
    NO_SPAN, POP, PROJ, PUSH, STACK_DROP, STACK_FLIP, STACK_POP, STACK_PUSH, STACK_ROLL, STACK_SWAP,
    STACK_UNROLL, WAYS, Fails, Passes, Ran, Refused, Span, act, angle_code, answer, columns_wanted,
    definition, documented_args, made, made_documented, multipliers, new_step, normal, normalise, parameters,
    prepare_step, read_rows, refuses, run_depths, running, show_number, span_end, split, step_pieces,
    step_spans, steps_output, translate, used, within)

COUNTS = {"passed": 0, "failed": 0}


def same(label, got, want):
    good = got == want
    COUNTS["passed" if good else "failed"] += 1
    if not good:
        print("%s: got %.300r, want %.300r" % (label, got, want))


def holds(label, condition):
    same(label, bool(condition), True)


# ----- Spans aside: what requests 1 to 3 and document 01 say ------------------

def laid(steps):
    """Records, each with a span in its turn."""
    return [step._replace(span=Span(10 * at, 10)) for at, step in enumerate(steps)]


def spanless(answer):
    if isinstance(answer, list):
        return [step._replace(span=NO_SPAN) for step in answer]
    return answer._replace(span=NO_SPAN) if isinstance(answer, Fails) else answer


def prepare(definition, reading=CRATE, mode=CRATE_MODE):
    return spanless(model.prepare(definition, reading, mode))


def check(direction, steps):
    return spanless(model.check(direction, laid(steps)))


def run(direction, steps, numbers, store):
    return model.run(direction, laid(steps), numbers, store)


def write(steps):
    return model.write(laid(steps))


def ran(direction, definition, numbers, store=100):
    return run(direction, prepare(definition), list(map(float, numbers)), [-7.0] * store)


def bits(numbers):
    return list(map(show_number, numbers))


def checked(direction, definition):
    return check(direction, prepare(definition))


def number_of(definition):
    """0 where the definition is accepted."""
    answer = prepare(definition)
    return answer.number if refuses(answer) else 0


ONE = [1, 2, 3, 4]


# ----- Document 01 -----------------------------------------------------------

def examples():
    same("P1", normalise(b"a : b $ c"), b"a:b $c")
    same("P2", normalise(b"a > b < c"), b"a|omit_inv b|omit_fwd c")
    same("P3", normalise(b": : a"), b":a")
    same("P3 twice", normalise(normalise(b": : a")), b"a")
    same("P4", split(b"inv a x=1 | | b"), b"a x=1 inv\nb\n")
    same("P5", split(b"a >"), Refused(6, 2))
    same("P6", parameters(b"a k=1 k=2 f b=c=d"), b"_name=a\nb=c\nf=true\nk=2\n")
    same("P7", translate(b"proj=x step step"), b"x | step")
    same("P8", translate(b"b=1 c=2 proj=x a=7 rf=9 k=3"), b"x c=2 b=1 k_0=3 ellps=7,9")
    same("P9", translate(b"proj=x step inv"), Refused(5, 2))
    same("P10", translate(b"proj=pipeline inv step proj=x step inv"), b"| x inv")
    same("P11", ran(FWD, b"axisswap order=2,-1", ONE).numbers, [2, -1, 3, 4])
    same("P11 inverse", ran(INV, b"axisswap order=2,-1", [2, -1, 3, 4]).numbers, ONE)
    same("P12", ran(FWD, b"push v_1 v_2 v_3 | stack roll=3,2", ONE, 3).store, [2, 3, 1])
    same("P12 negative", ran(FWD, b"push v_1 v_2 v_3 | stack roll=3,-2", ONE, 3).store, [3, 1, 2])
    same("P13", checked(FWD, b"pop inv v_3 | push inv v_3"), Fails(1, True, NO_SPAN))


def also():
    same("4,096 bytes", normalise(b"x" * 4096), b"x" * 4096)
    calls = (normalise, split, parameters, translate, prepare)
    same("4,097 bytes", [call(b"x" * 4097) for call in calls], [Refused(1, 0)] * 5)
    for arguments, number in ((b"1,0", 0), (b"3,3", 14), (b"0,0", 14)):
        same("roll " + arguments.decode(), number_of(b"stack roll=" + arguments), number)
    for order, number in ((b"1", 0), (b"1.0,2", 0), (b"2", 14), (b"1,1", 14), (b"1.5", 14),
                          (b"-0", 14)):
        same("order " + order.decode(), number_of(b"axisswap order=" + order), number)
    same("eight arguments", number_of(b"stack push=1,1,1,1,1,1,1,1"), 0)
    same("nine arguments", number_of(b"stack push=1,1,1,1,1,1,1,1,1"), 13)
    deep = b"|".join([b"stack push=1,2,3,4,1,2,3,4"] * 8)
    same("depth 64", checked(FWD, deep).deepest, 64)
    same("depth 64 runs", ran(FWD, deep, ONE).left, 64)
    same("depth 65", checked(FWD, deep + b"|push v_1"), Fails(9, False, NO_SPAN))
    same("depth 65 runs", ran(FWD, deep + b"|push v_1", ONE), Refused(16, 9))
    same("nwuf", ran(FWD, b"adapt from=nwuf", ONE).numbers, [2, -1, 3, 4])


STEPS_INPUT = (b"+proj=pipeline +step +proj=push +v_3 +step +proj=axisswap +order=2,1 "
               b"+step +proj=pop +v_3")
STEPS_OUTPUT = b"""translated: push v_3 | axisswap order=2,1 | pop v_3
step 1: push v_3
step 2: axisswap order=2,1
step 3: pop v_3
forward: deepest 1 left 0 places 2,1,3,4
inverse: deepest 1 left 0 places 2,1,3,4
"""


def program():
    same("steps", steps_output(STEPS_INPUT), STEPS_OUTPUT)
    same("20", steps_output(b"push\n"), b"translated: push\n\nstep 1: push\n"
         b"forward: deepest 0 left 0 places 1,2,3,4\ninverse: deepest 0 left 0 places 1,2,3,4\n")
    middling = b"proj=x " + b"a>" * 900
    same("21 over 4,096", steps_output(middling),
         b"translated: " + translate(middling) + b"\nrefused 1 0\n")
    same("21 over 65,536", steps_output(long_translation()), b"refused 7 0\n")
    same("21 over 4,096 in", steps_output(b"x" * 4097), b"refused 1 0\n")
    same("22", steps_output(b"pop v_3"), b"translated: pop v_3\nstep 1: pop v_3\n"
         b"forward: step 1 too few\ninverse: deepest 1 left 1 places 1,2,3,4\n")
    same("22 prepare", steps_output(b"push | foo"),
         b"translated: push | foo\nstep 1: push\nstep 2: foo\nrefused 10 2\n")
    same("22 split", steps_output(b"push | inv"), b"translated: push | inv\nrefused 6 2\n")
    same("23", steps_output(b""), b"translated: \nforward: deepest 0 left 0 places 1,2,3,4\n"
         b"inverse: deepest 0 left 0 places 1,2,3,4\n")
    same("adapt", steps_output(b"adapt omit_inv").splitlines()[2:],
         [b"forward: deepest 0 left 0", b"inverse: deepest 0 left 0 places 1,2,3,4"])


def slips():
    same("exchange", translate(b"a=1 b=2 c=3 proj=x"), b"x b=2 c=3 a=1")
    same("flip forward twice", ran(INV, b"stack flip=1,1 | stack pop=2,3", ONE).numbers,
         ran(FWD, b"stack push=3,2 | stack flip=1,1", ONE).numbers)
    same("flip=1,1", ran(FWD, b"stack push=3,2 | stack flip=1,1", ONE, 2)[2:],
         ([3, 2, 3, 4], [2, 1]))
    same("push | :inv", prepare(b"push | :inv"), Refused(6, 2))


# ----- The points decided since ----------------------------------------------

def long_translation():
    return b"proj=pipeline y" + b">" * 2040 + b" step x" * 291


def points_of_text():
    same("1 a", prepare(b">:push"), [new_step(PUSH, [], omit_inv=1)])
    same("1 b", prepare(b": :|push"), Refused(10, 1))
    same("1 c", prepare(b">push: :"), Refused(10, 1))
    same("1 d", ran(INV, b"push>:a _name=axisswap order=2,1", ONE).numbers, ONE)
    same("1 e", prepare(b"|:inv axisswap order=2,-1="), [new_step(AXISSWAP, [2, -1], inv=1)])
    same("2", prepare(b">" + b"x" * 4087), Refused(10, 1))
    same("2 over", prepare(b">" + b"x" * 4088), Refused(1, 1))
    same("3", len(normal(b">" * 4096)), 40959)
    holds("3 translation", len(translate(long_translation())) > 5_900_000)
    same("3 room", within(translate(long_translation()), 131072), Refused(7, 0))
    same("4", split(b"| | inv"), Refused(6, 1))
    same("4 translate", translate(b"proj=x step step inv"), Refused(5, 2))
    same("4 6 before 8", split(b"a|" * 65 + b"inv"), Refused(6, 66))
    same("4 8", split(b"a|" * 65), Refused(8, 0))
    same("5 split", split(b"push | :inv"), b"push\n:inv\n")
    same("5 parameters", parameters(b":inv"), Refused(6, 0))
    same("5 foo", [prepare(b"foo | inv"), prepare(b"foo | :inv")], [Refused(6, 2), Refused(10, 1)])
    same("5 separator", parameters(b"inv | inv"), b"_name=inv|inv\n")
    same("6 comment", parameters(b"a # b"), b"#=true\n_name=a\nb=true\n")
    same("6 split", split(b"a # b\rc"), b"a c\n")
    same("6 CR", [normal(b"a\r:b"), normal(b"a\n:b"), normal(b"a\n::b")], [b"a:b", b"a b", b"a:b"])
    same("6 1C", normal(b"\x1ca \x1f"), b"\x1ca \x1f")


def points_of_values():
    for text, number in ((b"push v_1=true=x", 0), (b"push v_1=", 12), (b"push v_1=TRUE", 12),
                         (b"push v_1=no v_1", 0), (b"_name=push v_1", 0), (b"push _name", 10),
                         (b"x=1 push", 10), (b"stack push", 12), (b"stack push=", 12),
                         (b"axisswap order", 12), (b"adapt from", 14), (b"adapt from=", 14),
                         (b"axisswap order=1,2,3,4,5", 14), (b"axisswap order=1,2,3,4,5,6,7,8", 14),
                         (b"axisswap order=1,2,3,4,5,6,7,8,9", 13), (b"stack roll=1,-0", 0),
                         (b"axisswap order=-0", 14), (b"stack roll=2.5,1", 14),
                         (b"stack push=-1", 14),
                         (b"pipeline", 10), (b"push _name=inv", 10)):
        same("7 to 9, 19: " + text.decode(), number_of(text), number)
    for one in (b"1.0", b"01", b"1.000000"):
        same("9 " + one.decode(), prepare(b"axisswap order=" + one), [new_step(AXISSWAP, [1])])
    keys = b"".join(b" k%d" % i for i in range(31))
    same("7 keys", [prepare_step(b"push" + keys), prepare_step(b"push" + keys + b" x")],
         [Refused(11, 1), Refused(9, 1)])
    same("7 distinct", prepare_step(b"push" + keys * 2), Refused(11, 1))
    two = prepare(b"push|pop")
    same("10", [within(two, room) for room in (1, 2)], [Refused(7, 0), two])
    same("10 last", within(prepare(b"push|foo"), 0), Refused(10, 2))
    same("11", [translate(t) for t in (b"inv proj=", b"proj=inv", b"proj=", b"proj=x init=y")],
         [b"inv", Refused(5, 1), b"", b"x init=y"])
    same("11 ellps", translate(b"proj=pipeline ellps=e step a=1 rf=2 proj=x k=3"),
         b"x ellps=e k_0=3 ellps=1,2")
    same("3 and 4", [translate(t) for t in (b"proj=x step init=a proj=y", b"init=proj",
                                           b"proj=x step y proj=pipeline")],
         [Refused(3, 2), Refused(3, 1), Refused(4, 2)])
    same("lone global", translate(b"proj=pipeline omit_fwd step proj=a"), b"a omit_inv")
    same("two globals", translate(b"proj=pipeline omit_fwd x=1 step proj=a"), b"a omit_fwd x=1")


def points_of_steps():
    deep = [new_step(STACK_PUSH, [1] * 8)] * 8
    same("12", run(FWD, deep + [new_step(PUSH, [1])], [], []), Refused(16, 9))
    back = [new_step(STACK_POP, [1] * 8)] * 9
    same("12 inverse", run(INV, back, [], []), Refused(16, 1))
    same("12 places", [ran(FWD, b"push v_1", [1]), ran(FWD, b"push v_1", ONE, 0)],
         [Refused(15, 0), Refused(17, 0)])
    same("13 stack", bits(ran(FWD, b"push v_1 | stack pop=1,2", ONE, 1).store), bits([1.0]))
    taken = ran(FWD, b"push v_4 | pop v_3 v_4 v_2", ONE, 1)
    same("13 pop", (taken.count, taken.left, bits(taken.numbers)),
         (0, 0, bits([1.0, 2.0, math.nan, 4.0])))
    starving = b"|".join([b"stack push=1,1,1,1,1,1,1,1"] * 8) + b"|stack roll=65,1|push v_1"
    same("13 check", checked(FWD, starving), Fails(9, True, NO_SPAN))
    same("13 run", ran(FWD, starving, ONE), Refused(16, 10))
    same("14", checked(FWD, b"adapt"), Passes([0], 0, 0, None))
    same("14 omitted", checked(FWD, b"adapt omit_fwd"), Passes([], 0, 0, ONE))
    same("15", checked(INV, b"push v_1 | axisswap"), Fails(1, True, NO_SPAN))
    counting = (b"push v_1|stack swap", b"stack swap", b"stack drop")
    same("17", [ran(FWD, text, ONE * 2).count for text in counting], [2, 0, 0])
    same("17 none", ran(FWD, b"push v_1", []), Ran(0, 1, [], [-7.0] * 100))
    same("18", bits(ran(FWD, b"push v_1 v_2 | pop v_3 | stack roll=9,1", ONE, 4).store),
         bits([1.0, 0.0, -7.0, -7.0]))
    same("19", [act(INV, new_step(STACK_UNROLL, [3, -1])), act(FWD, new_step(STACK_ROLL, [3, -1]))],
         [("roll", (3, 2))] * 2)


def record_tests():
    good = new_step(PUSH, [1, 3])
    bad = [good._replace(operator=12), good._replace(operator=-1), good._replace(n=9),
           good._replace(inv=2), good._replace(omit_fwd=2), good._replace(omit_inv=-1),
           good._replace(n=1), new_step(PUSH, [3, 1]), new_step(PUSH, [1, 1]), new_step(PUSH, [5]),
           new_step(STACK_PUSH, []), new_step(STACK_POP, [0]), new_step(STACK_ROLL, [3]),
           new_step(STACK_ROLL, [1_000_000_000, 1]), new_step(STACK_ROLL, [3, 3]),
           new_step(STACK_SWAP, [1]), new_step(AXISSWAP, []), new_step(AXISSWAP, [2]),
           new_step(ADAPT, [1, 2, 3, 4]), new_step(ADAPT, [1, 2, 3, 4, 9, 9, 0, 0]),
           new_step(ADAPT, [1, 2, 3, 4, 1, 0, 0, 0]), new_step(ADAPT, [1, 2, 3, 4, 1, 1, 0, 1]),
           new_step(ADAPT, [1, 2, 3, 3, 0, 0, 0, 0])]
    for step in bad:
        same("16 %r" % (step,), made(step), False)
    same("18 place", check(FWD, [good, bad[0], bad[1]]), Refused(18, 2))
    same("18 over 64", run(FWD, [good] * 64 + [bad[0]], [1.0], []), Refused(18, 0))
    same("18 before 15", run(FWD, [bad[0]], [1.0], []), Refused(18, 1))
    same("64 records", check(FWD, [new_step(PUSH, [])] * 64).depths, [0] * 64)


# ----- Request 1 of document 02 ----------------------------------------------

PAIR = b"pop inv v_3 | push inv v_3"


def proj(operator, args, inv=0):
    return new_step(operator, args, inv, reading=PROJ)


# "That pair then passes forward with deepest 1, none left, places 1,2,3,4."
def the_pair():
    steps = prepare(PAIR, PROJ)
    same("R1 records", steps, [proj(POP, [3], 1), proj(PUSH, [3], 1)])
    same("R1 pair", check(FWD, steps), Passes([1, 0], 1, 0, ONE))
    same("R1 pair inverse", check(INV, steps), Passes([1, 0], 1, 0, ONE))
    same("R1 pair runs", run(FWD, steps, [1.0, 2.0, 3.0, 4.0], [-7.0] * 2),
         Ran(1, 0, ONE, [0.0, -7.0]))
    same("R1 crate", check(FWD, prepare(PAIR)), Fails(1, True, NO_SPAN))
    same("R1 crate inverse", check(INV, prepare(PAIR)), Fails(2, True, NO_SPAN))
    same("R1 steps", steps_output(PAIR, PROJ).splitlines()[-2:],
         [b"forward: deepest 1 left 0 places 1,2,3,4", b"inverse: deepest 1 left 0 places 1,2,3,4"])
    same("R1 steps, crate", steps_output(PAIR).splitlines()[-2:],
         [b"forward: step 1 too few", b"inverse: step 2 too few"])


def point_1():
    for label, step, want in (
            ("push", proj(PUSH, [1, 3], 1), ("take", (3, 1))),
            ("pop", proj(POP, [1, 3], 1), ("push", (1, 3))),
            ("stack push", proj(STACK_PUSH, [1, 2], 1), ("pop", (2, 1))),
            ("stack pop", proj(STACK_POP, [1, 2], 1), ("push", (2, 1))),
            ("roll", proj(STACK_ROLL, [3, 1], 1), ("roll", (3, 2))),
            ("roll back", proj(STACK_ROLL, [3, -1], 1), ("roll", (3, 4))),
            ("unroll", proj(STACK_UNROLL, [3, 1], 1), ("roll", (3, 1))),
            ("axisswap", proj(AXISSWAP, [2, -1], 1), ("axisswap inv", (2, -1))),
            ("adapt", proj(ADAPT, [1, 2, 3, 4, 0, 0, 0, 0], 1),
             ("adapt inv", (1, 2, 3, 4, 0, 0, 0, 0)))):
        same("R1 1 " + label, act(FWD, step), want)
    same("R1 1 unroll", act(FWD, proj(STACK_ROLL, [3, 1], 1)), act(FWD, proj(STACK_UNROLL, [3, 1])))
    for step in (proj(STACK_FLIP, [1, 2, 1]), proj(STACK_SWAP, []), proj(STACK_DROP, [])):
        inverted = step._replace(inv=1)
        same("R1 1 alike", [act(FWD, inverted), act(INV, inverted), act(INV, step)],
             [act(FWD, step)] * 3)
    store = run(FWD, prepare(b"stack push=1,2,3 | stack push=1,2 inv", PROJ), [5.0, 6.0, 7.0, 8.0],
                [-7.0] * 3)
    same("R1 1 pops 2, then 1", store[1:], (1, [6, 7, 7, 8], [5, 0, 0]))


def point_2():
    crate, other = new_step(PUSH, [1]), proj(PUSH, [1])
    bad, worse = proj(PUSH, [2, 1]), other._replace(reading=2)
    for label, steps, want in (
            ("none", [], None), ("crate's", [crate, crate], None), ("PROJ's", [other, other], None),
            ("second", [crate, other], 2), ("second back", [other, crate], 2),
            ("third", [other, other, crate, other], 3),
            ("own fields first", [other, bad, crate], 2),
            ("the first's first", [other, crate, bad], 2), ("bad first", [bad, crate], 1),
            ("reading 2", [worse], 1), ("reading 2 throughout", [worse, worse], 1),
            ("reading 255", [other._replace(reading=255), other], 1),
            ("reading -1", [other._replace(reading=-1)], 1), ("over 64", [crate, other] * 33, 0),
            ("the 64th", [other] * 63 + [crate], 64)):
        refusals = [check(FWD, steps), run(INV, steps, [], [0.0] * 64), write(steps)]
        good = [want is None or answer == Refused(18, want) for answer in refusals]
        same("R1 2 " + label, good + [want is not None or not any(map(refuses, refusals[::2]))],
             [True] * 4)
    same("R1 2 before 15", run(FWD, [crate, other], [1.0], []), Refused(18, 2))


def rows_tests():
    row = "1,1,1,0,0,3,0,0,0,0,0,0,0,1"
    pair = read_rows(draw.placed_rows(row + ";" + row))
    same("rows", spanless(pair), [proj(POP, [3], 1)] * 2)
    same("R4 rows", [step.span for step in pair], [(0, 11), (20, 12)])
    same("rows none", read_rows("-"), [])
    places = [",".join("12" if i == at else "0" for i in range(16)) for at in range(16)]
    fields = [draw.row_numbers(read_rows(line)[0]) for line in places]
    same("rows in order", fields, [[12 * (i == at) for i in range(16)] for at in range(16)])


# ----- Request 2 of document 02 ----------------------------------------------

DEGREE, GON = math.pi / 180, math.pi / 200


def paged(text, reading=CRATE):
    """Prepared in the documented mode."""
    return prepare(text, reading, DOCUMENTED_MODE)


def page_ran(direction, definition, numbers, reading=CRATE):
    return run(direction, paged(definition, reading), list(map(float, numbers)), []).numbers


def page_args(definition):
    step, = paged(definition)
    return step.operator, list(step.args)


# "`from=nwuf` should send 1,2,3,4 to -2,1,3,4, because the second number is westish."
def westish():
    text, other = b"adapt from=nwuf", b"adapt inv from=nwuf"
    same("R2 record", paged(text), [new_step(DOCUMENTED, [-2, 1, 3, 4, 0, 0, 0, 0])])
    same("R2 crate's record", prepare(text), [new_step(ADAPT, [2, -1, 3, 4, 0, 0, 0, 0])])
    same("R2 crate's", [ran(way, text, ONE).numbers for way in (FWD, INV)],
         [[2, -1, 3, 4], [2, -1, 3, 4]])
    for reading in (CRATE, PROJ):
        same("R2 nwuf", page_ran(FWD, text, ONE, reading), [-2, 1, 3, 4])
        same("R2 inverse", page_ran(INV, text, [-2, 1, 3, 4], reading), ONE)
        same("R2 inverse of one", page_ran(INV, text, ONE, reading), [2, -1, 3, 4])
        same("R2 inv", page_ran(FWD, other, ONE, reading), [2, -1, 3, 4])
        same("R2 inv inverse", page_ran(INV, other, ONE, reading), [-2, 1, 3, 4])
    same("R2 restored", page_ran(INV, text, page_ran(FWD, text, ONE)), ONE)
    same("R2 crate's not", ran(INV, text, ran(FWD, text, ONE).numbers).numbers, [-1, -2, 3, 4])
    same("R2 steps", steps_output(b"push v_3 | adapt to=wnuf | pop v_3", CRATE, DOCUMENTED_MODE)
         .splitlines()[1:], [b"step 1: push v_3", b"step 2: adapt to=wnuf", b"step 3: pop v_3",
                             b"forward: deepest 1 left 0", b"inverse: deepest 1 left 0"])
    same("R2 steps alike", [steps_output(PAIR + b"|adapt to=wnuf", *way) for way in WAYS.values()],
         [steps_output(PAIR + b"|adapt to=wnuf", reading) for reading, _ in WAYS.values()])


def point_3():
    text = b"push v_1 | adapt from=wnuf | stack swap inv | axisswap order=2,1 | pop v_1 omit_inv"
    for reading in (CRATE, PROJ):
        crate, page = prepare(text, reading), paged(text, reading)
        same("R2 3 the others", page[:1] + page[2:], crate[:1] + crate[2:])
        same("R2 3 the operator", [crate[1].operator, page[1].operator], [ADAPT, DOCUMENTED])
    one, other = prepare(b"adapt from=nwuf")[0], paged(b"adapt from=nwuf")[0]
    for label, steps, want in (("crate's, documented", [one, other], [1, 2, 3, 4]),
                               ("documented, crate's", [other, one], [1, 2, 3, 4]),
                               ("twice documented", [other, other], [-1, -2, 3, 4]),
                               ("twice the crate's", [one, one], [-1, -2, 3, 4])):
        same("R2 3 " + label, run(FWD, steps, [1.0, 2.0, 3.0, 4.0], []).numbers, want)
        same("R2 3 check", check(INV, steps), Passes([0, 0], 0, 0, None))
    same("R2 3 three steps", run(FWD, [other, one, one], [1.0, 2.0, 3.0, 4.0], []).numbers,
         [2, -1, 3, 4])
    same("R2 3 written", write([one, other]),
         b"adapt from=enuf to=nwuf | adapt from=enuf to=seuf")
    mixed = [one, other._replace(reading=PROJ)]
    same("R2 3 readings", [check(FWD, mixed), write(mixed)], [Refused(18, 2)] * 2)
    same("R2 3 omitted", check(FWD, paged(b"adapt omit_fwd")), Passes([], 0, 0, ONE))
    same("R2 3 hidden", check(INV, paged(b"adapt omit_fwd")), Passes([0], 0, 0, None))


def point_4():
    for text, args in (
            (b"adapt", [1, 2, 3, 4, 0, 0, 0, 0]), (b"adapt from=pass", [1, 2, 3, 4, 0, 0, 0, 0]),
            (b"adapt from=neuf_deg", [2, 1, 3, 4, 3, 3, 0, 0]),
            (b"adapt from=pass to=neuf_deg", [2, 1, 3, 4, 1, 1, 0, 0]),
            (b"adapt from=unef_deg", [3, 2, 1, 4, 3, 3, 0, 0]),
            (b"adapt to=unef_deg", [3, 2, 1, 4, 0, 1, 1, 0]),
            (b"adapt from=unef_deg to=unef_gon", [1, 2, 3, 4, 0, 5, 5, 0]),
            (b"adapt from=unef_deg to=unef_deg", [1, 2, 3, 4, 0, 0, 0, 0]),
            (b"adapt from=ufne_gon to=spwd_deg", [-3, -2, -4, -1, 7, 0, 7, 0]),
            (b"adapt to=pswd_gon inv", [-4, -2, -1, -3, 0, 2, 2, 0]),
            (b"adapt from=wsdp_any to=wsdp_rad", [1, 2, 3, 4, 0, 0, 0, 0])):
        same("R2 4 " + text.decode(), page_args(text), (DOCUMENTED, args))
    same("R2 4 factors", bits(multipliers(paged(b"adapt from=uwnf_deg to=unep_gon")[0].args)),
         bits([1.0, DEGREE / GON, -(DEGREE / GON), -1.0]))
    same("R2 4 places 2 and 3", bits(page_ran(FWD, b"adapt from=unef_deg to=unef", ONE)),
         bits([1.0, 2 * DEGREE, 3 * DEGREE, 4.0]))
    same("R2 4 back", bits(page_ran(INV, b"adapt from=unef_deg to=unef", ONE)),
         bits([1.0, 2 * (1 / DEGREE), 3 * (1 / DEGREE), 4.0]))
    same("R2 4 elsewhere", bits(page_ran(FWD, b"adapt from=unef_deg", ONE)),
         bits([3 * DEGREE, 2 * DEGREE, 1.0, 4.0]))
    same("R2 4 inverse elsewhere", bits(page_ran(INV, b"adapt from=unef_deg", ONE)),
         bits([3.0, 2 * (1 / DEGREE), 1 / DEGREE, 4.0]))
    same("R2 4 crate's", bits(ran(FWD, b"adapt from=unef_deg", ONE).numbers),
         bits([3 * DEGREE, 2 * DEGREE, 1.0, 4.0]))
    same("R2 4 crate's, to", bits(ran(FWD, b"adapt to=unef_deg", ONE).numbers),
         bits([3 * (1 / DEGREE), 2 * (1 / DEGREE), 1.0, 4.0]))
    same("R2 4 to", bits(page_ran(FWD, b"adapt to=unef_deg", ONE)),
         bits([3.0, 2 * (1 / DEGREE), 1 / DEGREE, 4.0]))
    same("R2 4 no-op", bits(page_ran(FWD, b"adapt from=wsdp_deg to=wsdp_deg", [-0.0] * 4)),
         bits([-0.0] * 4))
    same("R2 4 zeros", bits(page_ran(INV, b"adapt from=wndf", [0.0, -0.0, -0.0, 0.0])),
         bits([-0.0, -0.0, 0.0, 0.0]))


# ----- Request 3 of document 02 ----------------------------------------------

def refused_at(number, texts):
    """Each text of one step is refused 12 at its offset, in both readings and both modes."""
    for text, offset in texts:
        for way in WAYS.values():
            same("R3 %d %s" % (number, text.decode()), prepare(text, *way), Refused(12, 1, offset))


# "after the second normalising, leading modifiers turned to the end"
def point_5():
    refused_at(5, (
        (b"inv axisswap order=x", 15), (b"axisswap inv order=x", 19), (b"axisswap order=x inv", 15),
        (b"omit_fwd inv stack omit_inv push=1,x", 22), (b" axisswap\t order =\n1 , x ", 17),
        (b": axisswap order=x :", 15), (b"::inv axisswap order=x", 15),
        (b"push v\xe2\x82\x81=no", 9), (b"# order=x\npush # up\nv_1=no", 9),
        (b">axisswap order=x", 15), (b"<inv pop v_2=1", 8)))
    # bytes, not characters
    refused_at(5, [(b"adapt from=n\xe2\x82\x81 inv=no", 20)])
    # a name that is given, last or first
    refused_at(5, ((b"order=x _name=axisswap", 6), (b"inv order=1,x _name=axisswap", 8),
                   (b"push _name=stack push", 21), (b"order order=1,x _name=axisswap", 14)))
    # the second normalising takes a colon away, so that a modifier leads
    same("R3 5 colon", prepare(b"push v_1 | :inv axisswap order=1,x"), Refused(12, 2, 17))
    same("R3 5 colons", prepare(b"push v_1 | ::omit_fwd inv push v_3=:"), Refused(12, 2, 9))
    # a value that ends the step takes in the modifier that is turned behind it
    refused_at(5, ((b"inv axisswap order=", 15), (b"inv axisswap order=1,", 17)))
    same("R3 5 no glue", prepare(b"|:inv axisswap order=1,"), Refused(12, 1, 17))


# "A bare series key (`stack push`): the byte after the key, which may be the text's length.
# `order=`, `v_1=` and an empty piece (`1,,2`): where the piece would begin. A bad flag value: its
# first byte. Of a repeated key only the last is judged. Several faults: the least offset."
def point_6():
    refused_at(6, (
        (b"stack push", 10), (b"stack push inv", 10), (b"stack push=", 11), (b"axisswap order=", 15),
        (b"stack push=true", 11), (b"push v_1=", 9), (b"push v_1=no", 9), (b"push v_1==true", 9),
        (b"stack push=1,,2", 13), (b"stack push=,1", 11), (b"stack push=1,", 13),
        (b"stack push=,", 11), (b"stack push=1,2,x,y", 15), (b"stack roll=2,1.", 13),
        (b"stack roll=1234567890,1", 11), (b"stack roll=123456789,0.1234567", 21),
        (b"stack swap=no", 11), (b"stack drop=", 11), (b"adapt from=neuf omit_inv=1", 25),
        (b"axisswap order=1,x=2", 17), (b"stack push=1,x:2", 13)))
    # several
    refused_at(6, (
        (b"push v_1=no v_2=x", 9), (b"push v_2=x v_1=no", 9), (b"push v_1 v_4= inv=no", 13),
        (b"axisswap order=1,2,x inv=no", 19), (b"axisswap inv=no order=1,2,x", 13),
        (b"stack push pop=x", 10), (b"stack pop=1,x push", 12), (b"stack pop=1,2 push", 18)))
    # repeated
    same("R3 6 well again", number_of(b"push v_1=no v_1"), 0)
    same("R3 6 well at last", number_of(b"axisswap order=x order order=2,1"), 0)
    refused_at(6, ((b"push v_1 v_1=no", 13), (b"push v_1=no v_1=1", 16),
                   (b"axisswap order=x order=1,x", 25), (b"axisswap order=x inv=no order=1", 21),
                   (b"stack push=x pop=1,x push=1", 19)))
    # other numbers in the same step, and in others
    for text, want in (
            (b"push v_9 v_1=no", Refused(11, 1)), (b"stac push=x", Refused(10, 1)),
            (b"stack push=" + b"1," * 9 + b"x", Refused(12, 1, 29)),
            (b"stack push=" + b"1," * 9 + b"1", Refused(13, 1)),
            (b"axisswap order=0,x", Refused(12, 1, 17)), (b"axisswap order=0", Refused(14, 1)),
            (b"push | stack push=x | push v_1=no", Refused(12, 2, 11)),
            (b"push | foo | push v_1=no", Refused(10, 2)), (b"push v_1=no | inv", Refused(6, 2)),
            (b"adapt from=x inv=no", Refused(12, 1, 17)), (b"adapt from=x", Refused(14, 1))):
        same("R3 6 " + text.decode(), prepare(text), want)
    # the byte after the longest text
    longest = b"stack" + b" inv" * 1021 + b" unroll"
    same("R3 6 at 4,096", [len(longest), prepare(longest)], [4096, Refused(12, 1, 4096)])
    same("R3 6 over", prepare(b">" + longest.replace(b" inv", b"", 1)), Refused(1, 1))


# "`steps` prints `refused 12 2 15`: number, place, offset."
def point_7():
    text = b"push v_1 | inv axisswap order=x"
    same("R3 7 steps", steps_output(text).splitlines()[-1], b"refused 12 2 15")
    same("R3 7 alike", {steps_output(text, *way) for way in WAYS.values()}, {steps_output(text)})
    same("R3 7 no other", steps_output(b"push v_9").splitlines()[-1], b"refused 11 1")
    same("R3 7 zero", [prepare(one).offset for one in (b"push v_9", b"foo", b"inv", b"stack")],
         [0] * 4)
    shown = text.hex()
    for line in ("prepare 64 " + shown, "prepare/pd 0 " + shown, "check fwd " + shown,
                 "check/d inv " + shown, "run/p fwd 0 %s zeros:3" % shown, "write " + shown):
        same("R3 7 " + line.split(" ")[0], answer(line), "refused 12 2 15")


# ----- Request 4 of document 02 ----------------------------------------------

def spans_of(text):
    return [tuple(step.span) for step in model.prepare(text)]


def point_8():
    for text, form, spans in (
            (b"inv push v_1 | pop v_1", b"inv push v_1|pop v_1", [(0, 12), (13, 7)]),
            (b"> push v_1 < pop v_1", b"|omit_inv push v_1|omit_fwd pop v_1", [(1, 17), (19, 16)]),
            (b" | :push v_1 | | pop v_1 # c", b"|:push v_1||pop v_1", [(1, 9), (12, 7)]),
            (b"", b"", []), (b"|||", b"|||", []), (b"# push", b"", []),
            (b"push", b"push", [(0, 4)]), (b": : push", b":push", [(0, 5)]),
            (b"# one\npush # two\n| pop\n", b"push|pop", [(0, 4), (5, 3)]),
            (b"a _name=push  v\xe2\x82\x81 = true", b"a _name=push v_1=true", [(0, 21)]),
            (b"push>|<pop", b"push|omit_inv ||omit_fwd pop", None)):
        same("R4 8 form", definition(text), form)
        same("R4 8 " + repr(text), spans and spans_of(text), spans)
    same("R4 8 refused", prepare(b"push>|<pop"), Refused(6, 2))
    same("R4 8 definition", [definition(b"x" * 4097), definition(b"\xc3\xa9"), definition(b"# \xff"),
                             within(definition(b"a # b"), 0), definition(b"# b"), definition(b"a\r:b")],
         [Refused(1, 0), Refused(2, 0), Refused(2, 0), Refused(7, 0), b"", b"a b"])
    same("R4 8 in every way", [[step.span for step in model.prepare(b"|inv push v_1", *way)]
                               for way in WAYS.values()], [[(1, 12)]] * 4)
    same("R4 8 sixty-four", spans_of(b"push" + b">push" * 63)[-1], (4 + 63 * 14 - 13, 13))
    glyphs = b">" * 4090 + b"push"
    same("R4 8 the last", [len(definition(glyphs)), step_spans(glyphs)[-1]],
         [4090 * 10 + 4, (4090 * 10 - 9, 13)])
    same("R4 8 empty steps", spans_of(b"|" * 4092 + b"push"), [(4092, 4)])


def spanned(*spans):
    return [new_step(PUSH, [1], span=Span(*span)) for span in spans]


def point_9():
    for label, steps, want in (
            ("good", spanned((0, 8), (9, 7)), None), ("empty", spanned((0, 0), (9, 7)), 1),
            ("empty later", spanned((0, 8), (9, 0)), 2), ("empty anywhere", spanned((5, 0)), 1),
            ("one byte", spanned((0, 1)), None), ("the last byte", spanned((40959, 1)), None),
            ("ends at 40,960", spanned((0, 8), (40953, 7)), None),
            ("ends at 40,961", spanned((0, 8), (40954, 7)), 2),
            ("all of them", spanned((0, 40960)), None), ("one more", spanned((0, 40961)), 1),
            ("empty at 40,960", spanned((40960, 0)), 1), ("over", spanned((999999999, 1)), 1),
            ("long", spanned((1, 999999999)), 1), ("round", spanned((2**32 - 1, 2)), 1),
            ("round twice", spanned((2**31, 2**31)), 1), ("widest", spanned((2**32 - 1, 2**32 - 1)), 1),
            ("where the last ends", spanned((0, 8), (8, 7)), None),
            ("before the last ends", spanned((0, 8), (7, 7)), 2),
            ("the same twice", spanned((3, 8), (3, 8)), 2), ("falling", spanned((9, 7), (0, 8)), 2),
            ("inside", spanned((0, 20), (5, 3)), 2), ("a gap", spanned((5, 1), (40000, 960)), None),
            ("of the last only", spanned((9, 1), (0, 1), (1, 1)), 2),
            ("the third", spanned((0, 1), (1, 1), (1, 1)), 3),
            ("nothing else", spanned((0, 1), (1, 40959)), None),
            ("its own fields too", spanned((0, 1)) + [new_step(PUSH, [5], span=Span(1, 1))], 2),
            ("a reading before", [new_step(PUSH, [1], span=Span(0, 1)),
                                  new_step(PUSH, [1], reading=PROJ, span=Span(1, 1)),
                                  new_step(PUSH, [1])], 2),
            ("a span before", [new_step(PUSH, [1]), new_step(PUSH, [5], span=Span(0, 1))], 1),
            ("over 64", spanned(*[(0, 0)] * 65), 0), ("64", spanned(*[(k, 1) for k in range(64)]), None),
            ("the 64th", spanned(*[(k, 1) for k in range(63)], (62, 1)), 64)):
        refusals = [model.check(FWD, steps), model.run(FWD, steps, [], [0.0] * 64), model.write(steps)]
        same("R4 9 " + label, [answer if refuses(answer) else None for answer in refusals],
             [want if want is None else Refused(18, want)] * 3)
    same("R4 9 before 15", model.run(FWD, spanned((0, 0)), [1.0], []), Refused(18, 1))
    same("R4 9 made", [made(step) for step in spanned((0, 0), (2**32 - 1, 9))], [True] * 2)


def point_10():
    for text, direction, want in (
            (b"axisswap | inv push v_1", INV, Fails(2, True, Span(9, 12))),
            (b"inv pop v_1 | pop v_2", FWD, Fails(1, True, Span(0, 11))),
            (b"push v_1 | push v_2", INV, Fails(2, True, Span(9, 8))),
            (b"|".join([b"stack push=1,1,1,1,1,1,1,1"] * 8 + [b"push v_1"]), FWD,
             Fails(9, False, Span(8 * 27, 8)))):
        same("R4 10 span", model.check(direction, model.prepare(text)), want)
    same("R4 10 steps", steps_output(b"inv pop v_1 | pop v_2"),
         b"translated: inv pop v_1 | pop v_2\nstep 1: pop v_1 inv\nstep 2: pop v_2\n"
         b"forward: step 1 too few\ninverse: deepest 2 left 2 places 1,2,3,4\n")


ORDERS = [[axis * mark for axis, mark in zip(order, signs)]
          for order in itertools.permutations((1, 2, 3, 4))
          for signs in itertools.product((1, -1), repeat=4)]


def page(args, **fields):
    return new_step(DOCUMENTED, args)._replace(**fields)


# 18: "a step record no preparation makes"
def documented_records():
    good = [1, 2, 3, 4, 5, 0, 5, 0]
    for label, step, want in (
            ("good", page(good), True), ("no angle", page(good[:4] + [0] * 4), True),
            ("alone", page(good[:4] + [5, 0, 0, 0]), False),
            ("three", page(good[:4] + [5, 5, 5, 0]), False),
            ("four", page(good[:4] + [5] * 4), False),
            ("two pairs", page(good[:4] + [5, 7, 7, 5]), False),
            ("unlike", page(good[:4] + [5, 0, 7, 0]), False),
            ("3 and 1", page(good[:4] + [0, 3, 0, 1]), False),
            ("code 4", page(good[:4] + [4, 0, 4, 0]), False),
            ("code 8", page(good[:4] + [8, 0, 8, 0]), False),
            ("code 9", page(good[:4] + [9, 0, 9, 0]), False),
            ("code -1", page(good[:4] + [-1, 0, -1, 0]), False),
            ("place twice", page([1, 2, 3, 3] + good[4:]), False),
            ("place 0", page([0, 2, 3, 4] + good[4:]), False),
            ("place 5", page([5, 2, 3, 4] + good[4:]), False),
            ("place -4", page([1, 2, 3, -4] + good[4:]), True),
            ("n 7", page(good, n=7), False), ("n 4", page(good[:4] + [0] * 4, n=4), False),
            ("n 9", page(good, n=9), False), ("n 0", page([0] * 8, n=0), False),
            ("inv 2", page(good, inv=2), False), ("reading 1", page(good, reading=PROJ), True),
            ("reading 2", page(good, reading=2), False), ("marks", page(good, omit_fwd=1), True),
            ("as adapt", page(good, operator=ADAPT), False),
            ("as adapt too", page(good[:4] + [5, 5, 0, 0], operator=ADAPT), True)):
        same("R2 18 " + label, made(step), want)
    pairs = [[code if output in two else 0 for output in range(4)]
             for two in itertools.combinations(range(4), 2) for code in CODES]
    rows = set(map(tuple, pairs))
    tried = set(itertools.product(range(-1, 10), repeat=4))
    same("R2 18 codes", {codes for codes in tried if made(page([3, -1, 4, 2] + list(codes)))}, rows)
    same("R2 18 all", len(rows), 37)


# A record is good exactly when some pair of words makes it; and its text gives it back.
def documented_words():
    same("R2 codes", {angle_code(come, go) for come in range(3) for go in range(3)}, set(CODES))
    orders, rows = list(map(tuple, ORDERS)), list(itertools.product(CODES, repeat=4))
    good = {order + codes for order in orders for codes in rows if made_documented(order + codes)}
    same("R2 good records", len(good), 384 * 37)
    # every word in `from`, in `to` those without a turned letter; then every pair of words
    holds("R2 words make them all", good == {
        tuple(documented_args(come, go, code)) for come in orders
        for go in itertools.permutations((1, 2, 3, 4)) for code in CODES})
    holds("R2 words make no other", all(tuple(documented_args(come, go, 5)) in good
                                        for come in orders for go in orders))
    steps = [page(args) for args in sorted(good)]
    holds("R2 written", all(paged(write([step])) == [step] for step in steps))
    same("R2 longest text", max(len(write([step])) for step in steps), 31)
    # an angle of the input places 1 and 2, or none: the text of the crate's record
    crates = [step for step in steps if not any(
        code for arg, code in zip(step.args, step.args[4:]) if abs(arg) > 2)]
    same("R2 the crate's form", [len(crates)] + [step for step in crates if write([step]) != write(
        [new_step(ADAPT, list(step.args[:4]) + [max(step.args[4:])] * 2 + [0, 0])])], [384 * 7])


def documented_texts():
    for args, text in (
            ([1, 2, 3, 4, 0, 0, 0, 0], b"from=enuf to=enuf"),
            ([-2, 1, 3, 4, 0, 0, 0, 0], b"from=enuf to=seuf"),
            ([2, 1, 3, 4, 3, 3, 0, 0], b"from=enuf_deg to=neuf"),
            ([1, 2, 3, 4, 5, 0, 5, 0], b"from=eunf_deg to=eunf_gon"),
            ([1, 2, 3, 4, 2, 0, 0, 2], b"from=eufn to=eufn_gon"),
            ([1, 2, 3, 4, 0, 6, 6, 0], b"from=uenf_gon to=uenf"),
            ([1, 2, 3, 4, 0, 7, 0, 7], b"from=uefn_gon to=uefn_deg"),
            ([1, 2, 3, 4, 0, 0, 1, 1], b"from=ufen to=ufen_deg"),
            ([-4, 3, -2, 1, 3, 0, 3, 0], b"from=uefn_deg to=sfwu"),
            ([3, 2, 1, 4, 0, 1, 1, 0], b"from=enuf to=unef_deg")):
        same("R2 write", write([page(args)]), b"adapt " + text)
        same("R2 write again", paged(b"adapt " + text), [page(args)])


# ----- Adapt, the requests ---------------------------------------------------

def adapt_tests():
    same("degrees", bits(multipliers(prepare(b"adapt from=neuf_deg")[0].args)),
         bits([math.pi / 180, math.pi / 180, 1.0, 1.0]))
    same("gons to degrees", prepare(b"adapt from=enuf_gon to=seuf_deg inv"),
         [new_step(ADAPT, [-2, 1, 3, 4, 7, 7, 0, 0], inv=1)])
    same("inverse", bits(ran(INV, b"adapt from=wsuf to=neuf_deg", ONE).numbers),
         bits([2 * (1 / (-1 / (math.pi / 180))), (1 / (-1 / (math.pi / 180))), 3.0, 4.0]))
    same("no-op", bits(ran(FWD, b"adapt from=pass to=enuf_any", [-0.0] * 4).numbers),
         bits([-0.0] * 4))
    same("zeros", bits(ran(FWD, b"axisswap order=-1,2,-3", [0.0, -0.0, -0.0, 1.0]).numbers),
         bits([-0.0, -0.0, 0.0, 1.0]))


ROW = "1,1,1,0,0,3,0,0,0,0,0,0,0,1"
PAGE_ROW = "11,8,0,0,0,3,-1,2,4,3,3,0,0,0"
ONE_BITS = ",".join(bits(map(float, ONE)))


def requests():
    for line, want in (
            ("normalise 1 61", "ok 61"), ("normalise 0 61", "refused 7 0"),
            ("normalise 0 -", "ok -"), ("definition 1 612361", "ok 61"), ("definition 0 23", "ok -"),
            ("definition 0 61", "refused 7 0"), ("definition/p 1 61", "what"),
            ("normalise 9 ff", "refused 2 0"), ("normalise 131072 -", "ok -"),
            ("normalise 131073 -", "what"), ("normalise 1 6", "what"), ("normalise 1 6A", "what"),
            ("normalise 1 ", "what"), ("normalise 1 61 ", "what"), ("", "what"),
            ("write -", "ok -"),
            ("prepare 1 " + b"inv stack roll=3,-2".hex(), "ok 1 stack.roll:i:3,-2@0+19"),
            ("prepare 64 -", "ok 0"), ("prepare 65 -", "what"),
            ("prepare 9 " + b"push|>axisswap|adapt omit_fwd|adapt to=seuf".hex(),
             "ok 4 push:-:-@0+4 axisswap:o:1,2,3,4@6+17 adapt:f:noop@24+14 adapt:-:2,1,3,4,"
             "bff0000000000000,3ff0000000000000,3ff0000000000000,3ff0000000000000@39+13"),
            ("check fwd " + b"push v_1|axisswap order=-1".hex(), "passes 1 1 -1,2,3,4 1,1"),
            ("check inv " + b"push v_1|axisswap order=-1".hex(), "fails 1 few 0+8"),
            ("check fwd -", "passes 0 0 1,2,3,4 -"), ("check fwd 0a7c", "passes 0 0 1,2,3,4 -"),
            ("check both -", "what"), ("check fwd " + b"foo".hex(), "refused 10 1"),
            ("check fwd " + b"adapt".hex(), "passes 0 0 - 0"),
            ("run fwd 2 " + b"push v_1".hex() + " zeros:4",
             "ok 1 1 %s 0000000000000000,c01c000000000000" % ",".join(["0" * 16] * 4)),
            ("run fwd 0 " + b"pop v_2".hex() + " zeros:4",
             "ok 0 0 %s,nan,%s,%s -" % (("0" * 16,) * 3)),
            ("run fwd 0 - -", "ok 0 0 - -"),
            ("run fwd 0 - zeros:64", "ok 16 0 %s -" % ",".join(["0" * 16] * 64)),
            ("run fwd 0 - zeros:68", "ok 17 0 - -"), ("run fwd 0 - zeros:262144", "ok 65536 0 - -"),
            ("run fwd 0 - zeros:262148", "refused 15 0"), ("run fwd 0 - zeros:3", "refused 15 0"),
            ("run fwd 0 - nan", "what"), ("run fwd 0 - 3ff0", "what"),
            ("check/p fwd " + PAIR.hex(), "passes 1 0 1,2,3,4 1,0"),
            ("check fwd " + PAIR.hex(), "fails 1 few 0+11"),
            ("prepare/p 2 " + PAIR.hex(), "ok 2 pop:ip:3@0+11 push:ip:3@12+12"),
            ("prepare/p 1 " + b"omit_fwd omit_inv stack swap".hex(), "ok 1 stack.swap:fop:-@0+28"),
            ("prepare/p 1 " + b"push".hex(), "ok 1 push:p:-@0+4"),
            ("prepare/p 1 " + PAIR.hex(), "refused 7 0"),
            ("write/p " + PAIR.hex(), "ok " + b"pop v_3 inv | push v_3 inv".hex()),
            ("run/p fwd 1 " + PAIR.hex() + " zeros:4",
             "ok 1 0 %s %s" % (",".join(["0" * 16] * 4), "0" * 16)),
            ("run/p fwd 0 " + PAIR.hex() + " zeros:4", "refused 17 0"),
            ("prepare/d 1 -", "ok 0"), ("prepare/pd 1 -", "ok 0"), ("prepare/dp 1 -", "what"),
            ("prepare/ 1 -", "what"), ("prepare/dd 1 -", "what"), ("prepare/p/d 1 -", "what"),
            ("split/p 9 -", "what"), ("steps/p -", "what"), ("rows-check/p fwd -", "what"),
            ("split/d 9 -", "what"), ("steps/d -", "what"), ("rows-check/d fwd -", "what"),
            ("prepare/d 9 " + b"adapt|adapt to=seuf inv|push".hex(),
             "ok 3 documented:-:noop@0+5 documented:i:2,1,3,4,"
             "bff0000000000000,3ff0000000000000,3ff0000000000000,3ff0000000000000@6+17 "
             "push:-:-@24+4"),
            ("prepare/pd 1 " + b"adapt from=nwuf omit_fwd".hex(),
             "ok 1 documented:fp:2,1,3,4,"
             "bff0000000000000,3ff0000000000000,3ff0000000000000,3ff0000000000000@0+24"),
            ("run/d fwd 0 %s %s" % (b"adapt from=nwuf".hex(), ONE_BITS),
             "ok 1 0 c000000000000000,3ff0000000000000,4008000000000000,4010000000000000 -"),
            ("check/d fwd " + b"adapt from=nwuf".hex(), "passes 0 0 - 0"),
            ("check/d inv " + b"adapt omit_inv".hex(), "passes 0 0 1,2,3,4 -"),
            ("check/pd fwd " + PAIR.hex(), "passes 1 0 1,2,3,4 1,0"),
            ("check/d fwd " + PAIR.hex(), "fails 1 few 0+11"),
            ("write/d " + b"adapt from=nwuf".hex(), "ok " + b"adapt from=enuf to=seuf".hex()),
            ("write/d " + b"adapt to=unef_deg".hex(), "ok " + b"adapt from=enuf to=unef_deg".hex()),
            ("write/d " + b"adapt from=x".hex(), "refused 14 1"),
            ("rows-write " + PAGE_ROW, "ok " + b"adapt from=eunf_deg to=nwuf".hex()),
            ("rows-check fwd " + PAGE_ROW, "passes 0 0 - 0"),
            ("rows-check fwd %s;%s" % (PAGE_ROW, PAGE_ROW.replace("11", "10", 1)),
             "passes 0 0 - 0,0"),
            ("rows-check fwd %s;%s" % (PAGE_ROW, PAGE_ROW[:-1] + "1"), "refused 18 2"),
            ("rows-check fwd " + PAGE_ROW.replace("3,3", "4,4"), "refused 18 1"),
            ("rows-run inv 0 %s %s" % (PAGE_ROW, ONE_BITS),
             "ok 1 0 %s -" % ",".join(bits([2 * (1 / -DEGREE), 3.0, 1 / DEGREE, 4.0]))),
            ("rows-check fwd " + ROW, "passes 1 1 1,2,3,4 1"),
            ("rows-check inv " + ROW, "fails 1 few 0+11"),
            ("rows-write " + ROW, "ok " + b"pop v_3 inv".hex()), ("rows-write -", "ok -"),
            ("rows-run fwd 1 %s zeros:4" % ROW,
             "ok 1 1 %s %s" % (",".join(["0" * 16] * 4), "0" * 16)),
            ("rows-check fwd %s;%s" % (ROW, ROW[:-1] + "0"), "refused 18 2"),
            ("rows-write %s;%s" % (ROW[:-1] + "0", ROW), "refused 18 2"),
            ("rows-check fwd " + ROW[:-1] + "255", "refused 18 1"),
            ("rows-check fwd " + ROW[:-1] + "256", "what"),
            ("rows-check fwd 256" + ROW[1:], "what"),
            ("rows-check fwd 255" + ROW[1:], "refused 18 1"),
            ("rows-check fwd " + ROW.replace("3", "2147483647"), "refused 18 1"),
            ("rows-check fwd " + ROW.replace("3", "2147483648"), "what"),
            ("rows-check fwd " + ROW.replace("3", "-2147483648"), "refused 18 1"),
            ("rows-check fwd " + ROW.replace("3", "-2147483649"), "what"),
            ("rows-check fwd " + ROW[:-2], "what"), ("rows-check fwd " + ROW + ",0", "what"),
            ("rows-check fwd " + ROW + ";", "what"), ("rows-check fwd ", "what"),
            ("rows-check fwd " + ";".join([ROW] * 64),
             "passes 64 64 1,2,3,4 " + ",".join(map(str, range(1, 65)))),
            ("rows-check fwd " + ";".join([ROW] * 65), "refused 18 0"),
            ("rows-check fwd " + ";".join([ROW] * 70), "refused 18 0"),
            ("rows-check fwd " + ";".join([ROW] * 71), "what"),
            ("rows-check fwd " + ROW + ",7,9", "passes 1 1 1,2,3,4 1"),
            ("rows-check inv " + ROW + ",7,9", "fails 1 few 7+9"),
            ("rows-check fwd " + ROW + ",0,0", "refused 18 1"),
            ("rows-check fwd " + ROW + ",4294967295,4294967295", "refused 18 1"),
            ("rows-check fwd " + ROW + ",4294967296,1", "what"),
            ("rows-check fwd " + ROW + ",0,4294967296", "what"),
            ("rows-check fwd " + ROW + ",-1,1", "what"),
            ("rows-check fwd " + ROW + ",0,1,0", "what"),
            ("rows-check fwd " + ROW + ",0", "what"),
            ("steps " + STEPS_INPUT.hex(), "ok " + STEPS_OUTPUT.hex())):
        same(line[:40], answer(draw.placed(line)), want)


# ----- Laws that drawn inputs keep -------------------------------------------

def every_adapt_is_made():
    """Each record that passes the test for 18 is prepared from some text."""
    rng = random.Random(1)
    steps = [new_step(ADAPT, order + [code, code, 0, 0]) for order in ORDERS for code in CODES]
    holds("every adapt made", all(map(made, steps)))
    holds("every adapt written",
          all(prepare(draw.step_text(rng, step)) == [step] for step in steps))


def drawn_tables(rng):
    direction = rng.choice((FWD, INV))
    way, steps = draw.read_table(rng, direction)
    text = draw.table_text(rng, steps)
    prepared, verdict = prepare(text, *way), check(direction, steps)
    result = run(direction, steps, [1.0, 2.0, 3.0, 4.0], [-7.0] * 64)
    foretold = not isinstance(verdict, Passes) or (
        verdict.depths == run_depths(direction, steps) and verdict.left == result.left
        and verdict.places in (None, result.numbers))
    return prepared == steps and all(map(made, steps)) and foretold


def drawn_wrongs(rng):
    name = rng.choice(draw.NAMES)
    number = rng.choice(draw.WRONGS[name])
    text = b"push|" + draw.wrong_step(rng, name, number) + b"|pop"
    answers = [prepare(text, *way) for way in WAYS.values()]
    return (all(answer[:2] == (number, 2) for answer in answers) and len(set(answers)) == 1
            and (number == 12 or answers[0].offset == 0))


def drawn_offsets(rng):
    """Faults at bytes that are known: the earliest is reported."""
    text, offset = draw.faulty_step(rng)
    return all(prepare(b"push|" + text + b"|pop", *way) == Refused(12, 2, offset)
               for way in WAYS.values())


def drawn_round_trips(rng):
    """Pushes, rolls and orders that pass forward are undone by their opposites."""
    steps = [step._replace(omit_fwd=0) for step in draw.fed_table(rng, FWD)]
    steps = [step for step in steps if step.operator in UNDOING]
    if not isinstance(check(FWD, steps), Passes):
        return True
    answer = check(FWD, steps + [undoing(step) for step in steps[::-1]])
    return (answer.left, answer.places) == (0, ONE)


UNDOING = {PUSH: POP, STACK_PUSH: STACK_POP, STACK_ROLL: STACK_UNROLL, STACK_UNROLL: STACK_ROLL,
           AXISSWAP: AXISSWAP}


def undoing(step):
    args = used(step)[::-1] if step.operator == STACK_PUSH else used(step)
    inv = 1 - step.inv if step.operator == AXISSWAP else step.inv
    return new_step(UNDOING[step.operator], args, inv)


def drawn_starvation(rng):
    """A step that asks for more columns than there are counts 0."""
    direction = rng.choice((FWD, INV))
    step = draw.record(rng, chance=0.0)
    wanted = columns_wanted(*act(direction, step))
    result = run(direction, [step], [1.0] * 8, [0.0] * 16)
    return wanted == 0 or (result.count == 0 and any(number != number for number in result.numbers))


def turned(step):
    return step._replace(inv=1 - step.inv)


def drawn_turns(rng):
    """In PROJ's reading a step inverse is the step with its `inv` turned; and each step of the
    crate's has a twin there, inverted or not, that does the same."""
    step, way, other = draw.record(rng), *rng.choice(((FWD, INV), (INV, FWD)))
    named = step._replace(reading=PROJ)
    twins = [draw.twin(step, inv) for inv in (0, 1)]
    return (act(way, named) == act(other, turned(named))
            and all(made(one) and act(way, one) == act(way, step) for one in twins))


def drawn_readings(rng):
    """Both readings refuse alike; where no push, pop or stack action has `inv` they do the same."""
    direction, text = rng.choice((FWD, INV)), draw.any_definition(rng)
    steps, others = prepare(text), prepare(text, PROJ)
    if refuses(steps):
        return others == steps
    named = [step._replace(reading=PROJ) for step in steps]
    plain = not any(step.inv and step.operator not in AXES_STEPS for step in steps)
    return others == named and (not plain or check(direction, steps) == check(direction, named))


def drawn_pipelines_turned(rng):
    """A pipeline inverse is, in PROJ's reading, its steps from the last to the first, each turned
    and with its omit marks exchanged, forward."""
    steps = draw.in_reading(rng, PROJ, draw.good_table(rng, INV))
    other = [turned(step)._replace(omit_fwd=step.omit_inv, omit_inv=step.omit_fwd)
             for step in steps[::-1]]
    acts = [[act(way, step) for _, step in running(way, table)]
            for way, table in ((INV, steps), (FWD, other))]
    answers = [run(way, table, [1.0, 2.0, 3.0, 4.0], [-7.0] * 64)
               for way, table in ((INV, steps), (FWD, other))]
    if any(map(refuses, answers)):
        return acts[0] == acts[1] and [one.number for one in answers] == [16, 16]
    return acts[0] == acts[1] and ([bits(one.numbers + one.store) for one in answers][0]
                                   == [bits(one.numbers + one.store) for one in answers][1])


def drawn_undone(rng):
    """Pushes, rolls and orders that pass forward are undone by themselves with `inv` turned."""
    steps = [draw.twin(step._replace(omit_fwd=0), rng.random() < 0.5)
             for step in draw.fed_table(rng, FWD) if step.operator in UNDOING]
    if not isinstance(check(FWD, steps), Passes):
        return True
    answer = check(FWD, steps + [turned(step) for step in steps[::-1]])
    return isinstance(answer, Passes) and (answer.left, answer.places) == (0, ONE)


def drawn_written(rng):
    """The text of a table, prepared in its reading and mode, gives the table; so do its ROWS."""
    way, steps = draw.read_table(rng, FWD)
    line = ";".join(",".join(map(str, draw.row_numbers(step))) for step in steps) or "-"
    return prepare(write(steps), *way) == steps and read_rows(line) == steps


def drawn_spans(rng):
    """The bytes at a record's span hold no separator, begin and end in no white space, and are the
    step's words, modifiers turned; the spans rise, within the normalised definition."""
    text = draw.any_definition(rng)
    steps, form = model.prepare(text), definition(text)
    if refuses(steps):
        return True
    pieces = [form[span.start:span_end(span)] for span in (step.span for step in steps)]
    turned_texts = [b" ".join(model.turned(piece.split())) for piece in pieces]
    ends = [0] + [span_end(step.span) for step in steps]
    return (b"".join(line + b"\n" for line in turned_texts) == split(text)
            and all(b"|" not in piece and piece == piece.strip() for piece in pieces)
            and all(end <= step.span.start for end, step in zip(ends, steps))
            and ends[-1] <= len(form) and model.records_refusal(steps) is None)


def drawn_pieces(rng):
    """A step's span is the whole piece: white space stands beside a separator only in steps that are
    refused 6."""
    text = rng.choice((draw.text, draw.any_definition, draw.pieces_text))(rng)
    if refuses(split(text)):
        return True
    return all(piece == piece.strip() for piece in step_pieces(text) if piece.split())


def drawn_spans_apart(rng):
    """Two accepted tables that differ only in spans: the same depths, places, verdict but for the
    span, tuples, counts, columns and texts."""
    direction = rng.choice((FWD, INV))
    way, steps = draw.read_table(rng, direction)
    one, other = draw.in_turn(rng, steps), draw.in_turn(rng, steps, 500)
    checks = [model.check(direction, table) for table in (one, other)]
    runs = [model.run(direction, table, [1.0, 2.0, 3.0, 4.0], [-7.0] * 64) for table in (one, other)]
    spans = [table[check.step - 1].span == check.span for table, check in zip((one, other), checks)
             if isinstance(check, Fails)]
    shown = [model.said_of(ran, lambda ran: ran, model.show_run) for ran in runs]
    return (spanless(checks[0]) == spanless(checks[1]) and all(spans) and shown[0] == shown[1]
            and model.write(one) == model.write(other))


def drawn_written_spans(rng):
    """The text of a table, normalised, has its steps in turn, one byte apart."""
    way, steps = draw.read_table(rng, FWD)
    texts, at = write(steps).split(b" | ") if steps else [], 0
    for step, text in zip(model.prepare(write(steps), *way), texts):
        if step.span != (at, len(text)):
            return False
        at += len(text + b"|")
    return True


def drawn_modes(rng):
    """Both modes refuse alike; of accepted texts only the records of adapt differ, in operator and
    arguments; and every check says the same."""
    direction, text = rng.choice((FWD, INV)), draw.any_definition(rng)
    reading = rng.choice((CRATE, PROJ))
    steps, others = prepare(text, reading), paged(text, reading)
    if refuses(steps):
        return others == steps
    hidden = [other._replace(operator=ADAPT, args=step.args) if step.operator == ADAPT else other
              for step, other in zip(steps, others)]
    return (hidden == steps and check(direction, steps) == check(direction, others)
            and [step.operator == ADAPT for step in steps]
            == [other.operator == DOCUMENTED for other in others])


def drawn_mixtures(rng):
    """A table that mixes modes is checked, and has depths, as one of the crate's alone; its text is
    that of each step in its own mode."""
    direction, reading = rng.choice((FWD, INV)), rng.choice((CRATE, PROJ))
    steps = draw.in_reading(rng, reading, draw.good_table(rng, direction))
    steps = draw.adapting(rng, reading, steps)
    mixed = draw.in_mode(rng, DOCUMENTED_MODE, steps, 0.5)
    texts = write(mixed).split(b" | ") if mixed else []
    again = [prepare(text, reading, CRATE_MODE if step.operator == ADAPT else DOCUMENTED_MODE)
             for text, step in zip(texts, mixed)]
    return (check(direction, mixed) == check(direction, steps)
            and run_depths(direction, mixed) == run_depths(direction, steps)
            and again == [[step] for step in mixed])


TURNED = dict(zip("enufwsdp", "wsdpenuf"))
SIZES = {"": 1.0, "_rad": 1.0, "_any": 1.0, "_deg": DEGREE, "_gon": GON}


def drawn_letters(rng):
    """What the page says, by letters and not by records: each letter of `to` is looked for in
    `from`, or the letter that it turns into; a horizontal one has the one angle over the other."""
    come, go = (draw.any_word(rng).decode().replace("pass", "enuf") for _ in range(2))
    numbers = [draw.number_of(draw.number_bits(rng)) for _ in range(4)]
    after, back = [], [0.0] * 4
    for output, letter in enumerate(go[:4]):
        turns = letter not in come[:4]
        place = come.index(TURNED[letter] if turns else letter)
        angle = SIZES[come[4:]] / SIZES[go[4:]] if letter in "ewns" else 1.0
        factor = -angle if turns else angle
        after.append(numbers[place] * factor)
        back[place] = numbers[output] * (1 / factor)
    text = ("adapt from=%s to=%s" % (come, go)).encode()
    return (bits(page_ran(FWD, text, numbers)) == bits(after)
            and bits(page_ran(INV, text, numbers)) == bits(back))


# "Where every factor is plus or minus one, inverse after forward restores all numbers that are not
# NaN, bit for bit."
def drawn_restored(rng):
    """And forward after inverse, and of several steps, in both readings."""
    numbers = [draw.number_of(draw.number_bits(rng)) for _ in range(8)]
    reading = rng.choice((CRATE, PROJ))
    steps = [page(rng.choice(ORDERS) + [0] * 4, inv=rng.choice((0, 1)), reading=reading)
             for _ in range(rng.choice((1, 1, 2, 3)))]
    there = [run(way, steps, numbers, []).numbers for way in (FWD, INV)]
    back = [run(way, steps, one, []).numbers for way, one in zip((INV, FWD), there)]
    return [bits(one) for one in back] == [bits(numbers)] * 2


def every_order_restores():
    """Every order and sign, on zeros of both signs, infinities, subnormals and extremes."""
    numbers = list(map(draw.number_of, draw.HOSTILE_BITS))
    numbers = [number for number in numbers if number == number]
    row = [number for at in range(4) for number in numbers[at:] + numbers[:at]]

    def returns(steps, there, back):
        return bits(run(back, steps, run(there, steps, row, []).numbers, []).numbers) == bits(row)

    tables = [[page(order + [0] * 4)] for order in ORDERS]
    same("R2 every order restores", [steps for steps in tables if not (
        returns(steps, FWD, INV) and returns(steps, INV, FWD))], [])


def drawn():
    every_adapt_is_made()
    every_order_restores()
    for law in (drawn_tables, drawn_wrongs, drawn_offsets, drawn_round_trips, drawn_starvation, drawn_turns,
                drawn_readings, drawn_pipelines_turned, drawn_undone, drawn_written, drawn_modes,
                drawn_mixtures, drawn_letters, drawn_restored, drawn_spans, drawn_pieces,
                drawn_spans_apart, drawn_written_spans):
        rng = random.Random(7)
        same(law.__name__, [i for i in range(1500) if not law(rng)], [])


def main():
    for part in (examples, also, program, slips, points_of_text, points_of_values, points_of_steps,
                 record_tests, the_pair, point_1, point_2, rows_tests, westish, point_3, point_4,
                 documented_records, documented_words, documented_texts, adapt_tests, point_5,
                 point_6, point_7, point_8, point_9, point_10, requests, drawn):
        part()
    print("%(passed)d passed, %(failed)d failed" % COUNTS)
    return 1 if COUNTS["failed"] else 0


if __name__ == "__main__":
    sys.exit(main())
